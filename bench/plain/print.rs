//! What the texts are printed with.

#![cfg_attr(rustfmt, rustfmt_skip)]

/// So many bytes are copied at once, which is faster than as many as there are.
pub const BLOCK: usize = 16;

#[inline]
pub fn push_all(out: &mut Vec<u8>, parts: &[&[u8]]) {
    for part in parts {
        out.extend_from_slice(part);
    }
}

/// Appends the first bytes of some, block by block. The rest of the last block has to be there as well, or all is copied
/// as it is.
#[inline(always)]
pub fn push_first(out: &mut Vec<u8>, bytes: &[u8], length: usize) {
    let blocks = length.div_ceil(BLOCK) * BLOCK;
    if blocks > bytes.len() {
        return out.extend_from_slice(&bytes[..length]);
    }
    out.reserve(blocks);
    // SAFETY: there is room for so many bytes, so many can be read, and the two do not overlap.
    unsafe {
        let (from, to) = (bytes.as_ptr(), out.as_mut_ptr().add(out.len()));
        let mut at = 0;
        while at < length {
            to.add(at).cast::<[u8; BLOCK]>().write_unaligned(from.add(at).cast::<[u8; BLOCK]>().read_unaligned());
            at += BLOCK;
        }
        out.set_len(out.len() + length);
    }
}

/// A short text that is written as one chunk or some. Its room is whole chunks.
#[derive(Clone, Copy)]
pub struct Padded<const N: usize, const CHUNK: usize> {
    bytes: [u8; N],
    length: usize,
}

impl<const N: usize, const CHUNK: usize> Padded<N, CHUNK> {
    /// Parts one after another, which fit.
    pub fn of(parts: &[&[u8]]) -> Self {
        const { assert!(N % CHUNK == 0) };
        let (mut bytes, mut length) = ([0; N], 0);
        for part in parts {
            bytes[length..length + part.len()].copy_from_slice(part);
            length += part.len();
        }
        Padded { bytes, length }
    }
}

/// Writes texts after what is printed already, into room that was asked for once.
pub struct Pen<'a> {
    out: &'a mut Vec<u8>,
    written: usize,
}

impl<'a> Pen<'a> {
    /// A pen with room for so many bytes, with those that fill up the chunks.
    pub fn new(out: &'a mut Vec<u8>, room: usize) -> Pen<'a> {
        out.reserve(room);
        Pen { written: out.len(), out }
    }

    /// Writes a text.
    ///
    /// # Safety
    /// All texts so far, with room for all of this one, fit into the room of the pen.
    #[inline(always)]
    pub unsafe fn write<const N: usize, const CHUNK: usize>(&mut self, text: &Padded<N, CHUNK>) {
        debug_assert!(self.written + N <= self.out.capacity());
        let (from, mut at) = (text.bytes.as_ptr(), 0);
        // SAFETY: as it is said; and a text has whole chunks, of which no more are copied than begin before its end.
        unsafe {
            let to = self.out.as_mut_ptr().add(self.written);
            loop {
                to.add(at).cast::<[u8; CHUNK]>().write_unaligned(from.add(at).cast::<[u8; CHUNK]>().read_unaligned());
                at += CHUNK;
                if at >= text.length {
                    break;
                }
            }
        }
        self.written += text.length;
    }
}

impl Drop for Pen<'_> {
    fn drop(&mut self) {
        // SAFETY: so many bytes were there or are written.
        unsafe { self.out.set_len(self.written) };
    }
}

/// The decimal digits of a number.
#[derive(Clone, Copy)]
pub struct Digits {
    word: u64,
    count: usize,
}

impl Digits {
    /// Those of a number below 100,000,000: all eight digits in one word, whose halves, pairs and single digits are
    /// divided at once, and without the zeros before the first.
    #[inline(always)]
    pub fn of(number: usize) -> Digits {
        let halves = ((number / 10_000) | ((number % 10_000) << 32)) as u64;
        let hundreds = ((halves * 5_243) >> 19) & 0x0000_007f_0000_007f;
        let pairs = hundreds | ((halves - hundreds * 100) << 16);
        let tens = ((pairs * 103) >> 10) & 0x000f_000f_000f_000f;
        let word = tens | ((pairs - tens * 10) << 8);
        let zeros = (word | 1 << 56).trailing_zeros() / 8 * 8;
        Digits { word: (word | 0x3030_3030_3030_3030) >> zeros, count: 8 - zeros as usize / 8 }
    }

    /// Appends them, and a byte after them.
    #[inline(always)]
    pub fn push_to(self, out: &mut Vec<u8>, after: u8) {
        out.reserve(BLOCK);
        // SAFETY: there is room for more bytes than are written.
        unsafe {
            let to = out.as_mut_ptr().add(out.len());
            to.cast::<u64>().write_unaligned(self.word);
            to.add(self.count).write(after);
            out.set_len(out.len() + self.count + 1);
        }
    }
}

/// Appends a number below 100,000,000, and a byte after it.
#[inline(always)]
pub fn push_number(out: &mut Vec<u8>, number: usize, after: u8) {
    Digits::of(number).push_to(out, after);
}
