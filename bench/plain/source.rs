//! The bytes of a document, with some after its end, so that words and blocks can be read at each of its places; and the
//! searches in them, sixteen bytes at a time.

#![cfg_attr(rustfmt, rustfmt_skip)]

use std::arch::x86_64::{
    __m128i, _mm_add_epi8, _mm_cmpeq_epi8, _mm_cmplt_epi8, _mm_loadu_si128, _mm_movemask_epi8, _mm_or_si128, _mm_set1_epi8,
};

/// How many bytes stand after a document. The first is `<`, which ends texts, names and values; the others are 0.
pub const PADDING: usize = 64;

/// Where something stands in a document. Documents are short, so 32 bits are enough.
#[derive(Clone, Copy, Default)]
pub struct Span {
    pub at: u32,
    pub len: u32,
}

impl Span {
    #[inline(always)]
    pub fn new(start: usize, end: usize) -> Span {
        Span { at: start as u32, len: (end - start) as u32 }
    }
}

/// The bits of so many bytes of a word.
static FIRST_BYTES: [u64; 9] = [0, 0xff, 0xffff, 0xff_ffff, 0xffff_ffff, 0xff_ffff_ffff, 0xffff_ffff_ffff, 0xff_ffff_ffff_ffff, !0];

#[derive(Clone, Copy)]
pub struct Source<'a> {
    padded: &'a [u8],
}

impl<'a> Source<'a> {
    /// A document; the padding is put after it.
    pub fn new(document: &'a mut Vec<u8>) -> Source<'a> {
        document.push(b'<');
        document.resize(document.len() + PADDING - 1, 0);
        Source { padded: document }
    }

    #[inline(always)]
    pub fn len(self) -> usize {
        self.padded.len() - PADDING
    }

    pub fn document(self) -> &'a [u8] {
        &self.padded[..self.len()]
    }

    /// The byte at a place, which may be some bytes past the end.
    #[inline(always)]
    pub fn byte(self, at: usize) -> u8 {
        debug_assert!(at < self.padded.len());
        // SAFETY: all searches stop at the `<` after the document, and what is read after a place of it stands in the padding.
        unsafe { *self.padded.get_unchecked(at) }
    }

    /// Eight bytes from a place on.
    #[inline(always)]
    pub fn word(self, at: usize) -> u64 {
        debug_assert!(at + 8 <= self.padded.len());
        // SAFETY: as in `byte`.
        unsafe { self.padded.as_ptr().add(at).cast::<u64>().read_unaligned() }
    }

    /// Sixteen bytes from a place on.
    #[inline(always)]
    fn block(self, at: usize) -> __m128i {
        debug_assert!(at + 16 <= self.padded.len());
        // SAFETY: as in `byte`.
        unsafe { _mm_loadu_si128(self.padded.as_ptr().add(at).cast()) }
    }

    #[inline(always)]
    pub fn slice(self, start: usize, end: usize) -> &'a [u8] {
        debug_assert!(start <= end && end <= self.padded.len());
        // SAFETY: spans come from `cut`, and lie within the document.
        unsafe { self.padded.get_unchecked(start..end) }
    }

    #[inline(always)]
    pub fn text(self, span: Span) -> &'a [u8] {
        self.slice(span.at as usize, (span.at + span.len) as usize)
    }

    /// The bytes of a span and the padding or what else stands after it: sixteen more, at least.
    #[inline(always)]
    pub fn from(self, span: Span) -> &'a [u8] {
        self.slice(span.at as usize, self.padded.len())
    }

    /// The first eight bytes of a name that is not empty, with zeros after a shorter one.
    #[inline(always)]
    pub fn first_word(self, span: Span) -> u64 {
        self.word(span.at as usize) & FIRST_BYTES[span.len.min(8) as usize]
    }

    /// Whether two spans have the same bytes.
    #[inline(always)]
    pub fn is_same(self, one: Span, other: Span) -> bool {
        one.len == other.len && {
            let mut at = 0;
            while at + 8 < one.len {
                if self.word((one.at + at) as usize) != self.word((other.at + at) as usize) {
                    return false;
                }
                at += 8;
            }
            let rest = (one.len - at) * 8;
            rest == 0 || (self.word((one.at + at) as usize) ^ self.word((other.at + at) as usize)) << (64 - rest) == 0
        }
    }

    /// The place of the first `<` or `&` from a place on; that of the end where there is none.
    #[inline(always)]
    pub fn text_end(self, mut at: usize) -> usize {
        for _ in 0..4 {
            let stops = bits(text_stops(self.block(at)));
            if stops != 0 {
                return at + stops.trailing_zeros() as usize;
            }
            at += 16;
        }
        self.long_text_end(at)
    }

    fn long_text_end(self, mut at: usize) -> usize {
        loop {
            let blocks = [0, 16, 32, 48].map(|more| text_stops(self.block(at + more)));
            if bits(or(or(blocks[0], blocks[1]), or(blocks[2], blocks[3]))) != 0 {
                let stops = blocks.iter().rev().fold(0, |stops: u64, block| stops << 16 | u64::from(bits(*block)));
                return at + stops.trailing_zeros() as usize;
            }
            at += 64;
        }
    }

    /// The place of the first quote of this kind, `<` or `&`.
    #[inline(always)]
    pub fn value_end(self, at: usize, quote: u8) -> usize {
        let block = self.block(at);
        let stops = bits(or(equals(block, quote), text_stops(block)));
        if stops != 0 { at + stops.trailing_zeros() as usize } else { self.long_value_end(at + 16, quote) }
    }

    #[inline(never)]
    fn long_value_end(self, mut at: usize, quote: u8) -> usize {
        loop {
            let block = self.block(at);
            let stops = bits(or(equals(block, quote), text_stops(block)));
            if stops != 0 {
                return at + stops.trailing_zeros() as usize;
            }
            at += 16;
        }
    }

    /// The place of the first byte that is not of a name.
    #[inline(always)]
    pub fn name_end(self, at: usize) -> usize {
        let others = self.no_names(at);
        if others != 0 { at + others.trailing_zeros() as usize } else { self.long_name_end(at + 16) }
    }

    #[inline(never)]
    fn long_name_end(self, mut at: usize) -> usize {
        loop {
            let others = self.no_names(at);
            if others != 0 {
                return at + others.trailing_zeros() as usize;
            }
            at += 16;
        }
    }

    /// Which of sixteen bytes are not of a name. Those from 128 on are, and their upper bit is the bit that is asked for.
    #[inline(always)]
    fn no_names(self, at: usize) -> u32 {
        let block = self.block(at);
        bits(or(or(block, common(block)), between(block, b'0', b':'))) ^ 0xffff
    }

    /// Whether all bytes of a value may stand in an identifier.
    #[inline(always)]
    pub fn is_identifier(self, span: Span) -> bool {
        let mut rest = span;
        while rest.len > 16 {
            if self.no_identifiers(rest.at as usize) != 0 {
                return false;
            }
            rest = Span { at: rest.at + 16, len: rest.len - 16 };
        }
        self.no_identifiers(rest.at as usize) << (32 - rest.len) == 0
    }

    /// Which of sixteen bytes do not stand in identifiers.
    #[inline(always)]
    fn no_identifiers(self, at: usize) -> u32 {
        let block = self.block(at);
        bits(or(common(block), between(block, b'0', b'9'))) ^ 0xffff
    }

    /// The place of a byte, or none where it does not stand before the end.
    pub fn find(self, mut at: usize, byte: u8) -> Option<usize> {
        while at < self.len() {
            let found = bits(equals(self.block(at), byte));
            if found != 0 {
                return Some(at + found.trailing_zeros() as usize).filter(|at| *at < self.len());
            }
            at += 16;
        }
        None
    }
}

/// The letters, `_`, `-` and `.`, which stand in names and in identifiers.
#[inline(always)]
fn common(block: __m128i) -> __m128i {
    // SAFETY: each processor of this kind has these instructions.
    let lower = unsafe { _mm_or_si128(block, _mm_set1_epi8(0x20)) };
    or(or(between(lower, b'a', b'z'), between(block, b'-', b'.')), equals(block, b'_'))
}

#[inline(always)]
fn text_stops(block: __m128i) -> __m128i {
    or(equals(block, b'<'), equals(block, b'&'))
}

#[inline(always)]
fn or(one: __m128i, other: __m128i) -> __m128i {
    // SAFETY: as in `common`.
    unsafe { _mm_or_si128(one, other) }
}

#[inline(always)]
fn equals(block: __m128i, byte: u8) -> __m128i {
    // SAFETY: as in `common`.
    unsafe { _mm_cmpeq_epi8(block, _mm_set1_epi8(byte as i8)) }
}

/// The bytes from one to another: with the first moved to the least signed number, all are below the last.
#[inline(always)]
fn between(block: __m128i, first: u8, last: u8) -> __m128i {
    let (moved, most) = (128u8.wrapping_sub(first) as i8, (128 + (last - first + 1)) as i8);
    // SAFETY: as in `common`.
    unsafe { _mm_cmplt_epi8(_mm_add_epi8(block, _mm_set1_epi8(moved)), _mm_set1_epi8(most)) }
}

/// The upper bit of each byte.
#[inline(always)]
fn bits(block: __m128i) -> u32 {
    // SAFETY: as in `common`.
    unsafe { _mm_movemask_epi8(block) as u32 }
}
