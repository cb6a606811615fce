//! Names in hash tables. The seed is drawn, so that no document can choose names that all fall into one slot.

#![cfg_attr(rustfmt, rustfmt_skip)]

use std::hash::{BuildHasher, RandomState};

use crate::source::{Source, Span};

/// What is known of a name.
#[derive(Clone, Copy, Default)]
pub struct Known {
    /// The kinds of tags that have it, as bits.
    pub tags: u16,
    /// The number of the interval that has it; one that is too great where none does.
    pub interval: u16,
}

/// A table of names that are not empty, each in a slot for it. A slot with an empty name is free.
pub struct Table {
    names: Vec<u64>,
    known: Vec<u32>,
    seed: u64,
}

#[inline(always)]
fn unpacked(slot: u64) -> Span {
    Span { at: slot as u32, len: (slot >> 32) as u32 }
}

impl Table {
    /// A table with room for so many names.
    pub fn of(count: usize) -> Table {
        let slots = (count + count / 2 + 1).next_power_of_two();
        Table { names: vec![0; slots], known: vec![0; slots], seed: RandomState::new().hash_one(0) }
    }

    /// A hash of a name: its words are folded into the seed, one after another.
    #[inline(always)]
    fn hash(&self, source: Source, name: Span) -> u64 {
        let fold = |state: u64, word: u64| {
            let product = u128::from(state ^ word) * 0x9e37_79b9_7f4a_7c15;
            product as u64 ^ (product >> 64) as u64
        };
        let (mut state, mut rest) = (self.seed ^ u64::from(name.len), name);
        while rest.len > 8 {
            state = fold(state, source.word(rest.at as usize));
            rest = Span { at: rest.at + 8, len: rest.len - 8 };
        }
        fold(state, source.first_word(rest))
    }

    /// The slot of a name of a source, or the free slot for it; the names of the table stand in another source, perhaps.
    #[inline(always)]
    fn slot(&self, source: Source, name: Span, is_name: impl Fn(Span) -> bool) -> usize {
        let mask = self.names.len() - 1;
        let mut slot = self.hash(source, name) as usize & mask;
        while self.names[slot] != 0 && !is_name(unpacked(self.names[slot])) {
            slot = (slot + 1) & mask;
        }
        slot
    }

    /// Puts a name into the table, with a kind of tag, and an interval; whether it was not there.
    #[inline(always)]
    pub fn insert(&mut self, source: Source, name: Span, tag: u16, interval: u16) -> bool {
        let slot = self.slot(source, name, |other| source.is_same(name, other));
        let is_new = self.names[slot] == 0;
        self.names[slot] = u64::from(name.len) << 32 | u64::from(name.at);
        self.known[slot] |= u32::from(tag) | u32::from(interval) << 16;
        is_new
    }

    /// What is known of a name; nothing where it is not there.
    #[inline(always)]
    pub fn find(&self, source: Source, name: Span) -> Known {
        let known = self.known[self.slot(source, name, |other| source.is_same(name, other))];
        Known { tags: known as u16, interval: (known >> 16) as u16 }
    }

    /// The interval of this source whose name is that of another one.
    pub fn interval_of(&self, source: Source, other: Source, name: Span) -> Option<u16> {
        let text = other.text(name);
        let slot = self.slot(other, name, |own| source.text(own) == text);
        Some((self.known[slot] >> 16) as u16).filter(|interval| self.names[slot] != 0 && *interval != u16::MAX)
    }
}
