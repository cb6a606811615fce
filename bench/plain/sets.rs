//! Sets of base relations, by the sixteen orders that are known of two intervals.

#![cfg_attr(rustfmt, rustfmt_skip)]

use std::arch::x86_64::{__m128i, _mm_add_epi8, _mm_loadl_epi64, _mm_movemask_epi8, _mm_unpackhi_epi8, _mm_unpacklo_epi8};

use crate::nets::BASE;
use crate::pairs::{Set, ORDERS_OF_TWO};
use crate::profile::RELATIONS;

/// Which of two points comes first, or that they are one; and sets of these.
const LESS: u8 = 1;
const SAME: u8 = 2;
const MORE: u8 = 4;

/// How the start and then the end of the first interval stand to the start and the end of the second, in the base relations.
const SIGNS: [[u8; 4]; BASE.len()] = [
    [LESS, LESS, LESS, LESS], [MORE, MORE, MORE, MORE], [LESS, LESS, MORE, MORE], [MORE, LESS, MORE, LESS], [SAME, LESS, MORE, SAME],
    [LESS, LESS, SAME, LESS], [MORE, SAME, MORE, MORE], [SAME, LESS, MORE, LESS], [SAME, LESS, MORE, MORE], [MORE, LESS, MORE, SAME],
    [LESS, LESS, MORE, SAME], [LESS, LESS, MORE, LESS], [MORE, LESS, MORE, MORE],
];

/// Of sixteen words the first bits of all, then the second ones, and so on.
#[inline(always)]
pub fn keys(words: [u64; ORDERS_OF_TWO]) -> [u16; 64] {
    let mut keys = [0; 64];
    // SAFETY: each processor of this kind has these instructions.
    unsafe {
        let rows: [__m128i; 16] = std::array::from_fn(|row| _mm_loadl_epi64((&raw const words[row]).cast()));
        let pairs: [__m128i; 8] = std::array::from_fn(|row| _mm_unpacklo_epi8(rows[row], rows[row + 8]));
        let fours = interleaved(pairs);
        let eights: [[__m128i; 4]; 2] = fours.map(interleaved_four);
        for (half, eight) in eights.into_iter().enumerate() {
            for (quarter, two) in [[eight[0], eight[2]], [eight[1], eight[3]]].into_iter().enumerate() {
                let bytes = [_mm_unpacklo_epi8(two[0], two[1]), _mm_unpackhi_epi8(two[0], two[1])];
                for (nth, mut block) in bytes.into_iter().enumerate() {
                    let first = 8 * (4 * half + 2 * quarter + nth);
                    for bit in (0..8).rev() {
                        keys[first + bit] = _mm_movemask_epi8(block) as u16;
                        block = _mm_add_epi8(block, block);
                    }
                }
            }
        }
    }
    keys
}

/// Each of the first four blocks with that of the last four: the lower halves, and the upper ones.
#[inline(always)]
fn interleaved(blocks: [__m128i; 8]) -> [[__m128i; 4]; 2] {
    // SAFETY: as in `keys`.
    unsafe {
        [
            std::array::from_fn(|row| _mm_unpacklo_epi8(blocks[row], blocks[row + 4])),
            std::array::from_fn(|row| _mm_unpackhi_epi8(blocks[row], blocks[row + 4])),
        ]
    }
}

/// The same of four: the lower and the upper half of the first, and then those of the second.
#[inline(always)]
fn interleaved_four(blocks: [__m128i; 4]) -> [__m128i; 4] {
    // SAFETY: as in `keys`.
    unsafe {
        [
            _mm_unpacklo_epi8(blocks[0], blocks[2]), _mm_unpackhi_epi8(blocks[0], blocks[2]),
            _mm_unpacklo_epi8(blocks[1], blocks[3]), _mm_unpackhi_epi8(blocks[1], blocks[3]),
        ]
    }
}

/// The relations that are possible by what is known of two intervals, each after a space, and the end of the line.
pub fn text_of(key: u16) -> Set {
    let bit = |place: usize| key >> place & 1 == 1;
    let allowed: [u8; 4] = std::array::from_fn(|pair| {
        let less = if bit(8 + pair) { 0 } else { LESS };
        let more = if bit(pair) { 0 } else { MORE };
        let same = if bit(4 + pair) || bit(12 + pair) { 0 } else { SAME };
        less | same | more
    });
    let mut parts: Vec<&[u8]> = Vec::new();
    for (relation, signs) in BASE.iter().zip(SIGNS) {
        if signs.iter().zip(allowed).all(|(sign, allowed)| sign & allowed != 0) {
            parts.extend([b" ", RELATIONS[*relation as usize].text.as_bytes()]);
        }
    }
    parts.push(b"\n");
    Set::of(&parts)
}
