//! The command `spans`: the table of the units and the attributes, with the places where they begin and end.

#![cfg_attr(rustfmt, rustfmt_skip)]

use crate::print::{push_first, Digits};
use crate::source::{Source, Span};
use crate::units::{cut, Attribute, Tag, Unit, Visitor};
use crate::Fault;

/// The table of the units. Each begins where the one before it ended, whose digits are kept.
struct Table<'a> {
    source: Source<'a>,
    start: Digits,
    out: Vec<u8>,
}

/// A word of the table in a block.
type Word = (&'static [u8; 16], usize);

impl Table<'_> {
    #[inline(always)]
    fn push_span(&mut self, end: usize, word: Word) {
        self.start.push_to(&mut self.out, b' ');
        self.start = Digits::of(end);
        self.start.push_to(&mut self.out, b' ');
        push_first(&mut self.out, word.0, word.1);
    }

    #[inline(always)]
    fn push_tag(&mut self, tag: &Tag, word: Word) {
        self.push_span(tag.end, word);
        self.push_name(tag.name);
    }

    #[inline(always)]
    fn push_name(&mut self, name: Span) {
        push_first(&mut self.out, self.source.from(name), name.len as usize);
        self.out.push(b'\n');
    }
}

impl Visitor for Table<'_> {
    #[inline(always)]
    fn unit(&mut self, unit: Unit, _: usize, end: usize) {
        let word: Word = match unit {
            Unit::Bom => (b"bom\n            ", 4),
            Unit::Declaration => (b"declaration\n    ", 12),
            Unit::Doctype => (b"doctype\n        ", 8),
            Unit::Comment => (b"comment\n        ", 8),
            Unit::Text => (b"text\n           ", 5),
        };
        self.push_span(end, word);
    }

    #[inline(always)]
    fn start_tag(&mut self, tag: Tag, attributes: &[Attribute]) {
        self.push_tag(&tag, if tag.is_empty { (b"empty           ", 6) } else { (b"start           ", 6) });
        for Attribute { name, value } in attributes {
            Digits::of(name.at as usize).push_to(&mut self.out, b' ');
            Digits::of((value.at + value.len) as usize + 1).push_to(&mut self.out, b' ');
            push_first(&mut self.out, b"attribute       ", 10);
            self.push_name(*name);
        }
    }

    #[inline(always)]
    fn end_tag(&mut self, tag: Tag) {
        self.push_tag(&tag, (b"end             ", 4));
    }
}

pub fn spans(source: Source) -> Result<Vec<u8>, Fault> {
    let mut table = Table { source, start: Digits::of(0), out: Vec::new() };
    cut(source, &mut table)?;
    Ok(table.out)
}
