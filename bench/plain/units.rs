//! The cut of a document into units: tags with their attributes, text between them, comments and what stands before the
//! root. A visitor sees each unit once, in the order of the document, so no list of them is kept.

#![cfg_attr(rustfmt, rustfmt_skip)]

use crate::profile::Text;
use crate::source::{Source, Span};
use crate::{Fault, Kind};

/// The units that are no tags.
#[derive(Clone, Copy, PartialEq)]
pub enum Unit { Bom, Declaration, Doctype, Comment, Text }

/// A start tag, an empty tag or an end tag from its `<` to past its `>`.
#[derive(Clone, Copy)]
pub struct Tag {
    pub start: usize,
    pub end: usize,
    pub name: Span,
    pub is_empty: bool,
    /// Whether the spelling has one space before each attribute, double quotes, and no other white space.
    pub is_plain: bool,
}

/// How a start tag or an empty tag ends.
#[derive(Clone, Copy)]
struct Close {
    end: u32,
    is_empty: bool,
    is_plain: bool,
}

/// The name of an attribute and its value, without the quotes.
#[derive(Clone, Copy)]
pub struct Attribute {
    pub name: Span,
    pub value: Span,
}

/// What is done with each unit, in the order of the document.
pub trait Visitor {
    fn unit(&mut self, unit: Unit, start: usize, end: usize);
    fn start_tag(&mut self, tag: Tag, attributes: &[Attribute]);
    fn end_tag(&mut self, tag: Tag);
}

const NAME_START: u8 = 1;
pub const SPACE: u8 = 2;

/// What each byte can be a part of.
static CLASSES: [u8; 256] = classes();

const fn classes() -> [u8; 256] {
    let mut table = [0; 256];
    let mut byte = 0;
    while byte < 256 {
        table[byte] = match byte as u8 {
            b'A'..=b'Z' | b'a'..=b'z' | b'_' | b':' | 128.. => NAME_START,
            b' ' | b'\t' | b'\r' | b'\n' => SPACE,
            _ => 0,
        };
        byte += 1;
    }
    table
}

#[inline(always)]
pub fn is(byte: u8, class: u8) -> bool {
    CLASSES[byte as usize] & class != 0
}

/// Where the cut stands, the attributes of the tag that it is at, and the first bad `&` that it saw.
struct Cutter<'a> {
    source: Source<'a>,
    attributes: Vec<Attribute>,
    bad_reference: Option<usize>,
}

impl Cutter<'_> {
    /// The place of the first byte that is not white space: mostly this one, or the next one.
    #[inline(always)]
    fn skip_space(&self, at: usize) -> usize {
        if self.source.byte(at) > b' ' {
            at
        } else if self.source.byte(at) == b' ' && self.source.byte(at + 1) > b' ' {
            at + 1
        } else {
            self.skip_more_space(at)
        }
    }

    #[cold]
    #[inline(never)]
    fn skip_more_space(&self, mut at: usize) -> usize {
        while is(self.source.byte(at), SPACE) {
            at += 1;
        }
        at
    }

    /// The end of the name that begins here.
    #[inline(always)]
    fn skip_name(&self, start: usize) -> Option<usize> {
        is(self.source.byte(start), NAME_START).then(|| self.source.name_end(start))
    }

    #[inline(always)]
    fn look_at_reference(&mut self, at: usize) {
        if self.bad_reference.is_none() && !is_reference(self.source, at) {
            self.bad_reference = Some(at);
        }
    }

    /// The end of the unit that begins here, if one does: here is a place before the end.
    #[inline(always)]
    fn unit(&mut self, start: usize, visitor: &mut impl Visitor) -> Option<usize> {
        if self.source.byte(start) != b'<' {
            return self.text(start, visitor);
        }
        match self.source.byte(start + 1) {
            b'/' => self.end_tag(start, visitor),
            b'!' | b'?' => self.other(start, visitor),
            _ => self.start_tag(start, visitor),
        }
    }

    #[inline(always)]
    fn text(&mut self, start: usize, visitor: &mut impl Visitor) -> Option<usize> {
        if start == 0 && self.source.document().starts_with(b"\xef\xbb\xbf") {
            visitor.unit(Unit::Bom, 0, 3);
            return Some(3);
        }
        let mut end = self.source.text_end(start);
        while self.source.byte(end) == b'&' {
            self.look_at_reference(end);
            end = self.source.text_end(end + 1);
        }
        visitor.unit(Unit::Text, start, end);
        Some(end)
    }

    /// A comment, a declaration or a doctype.
    #[inline(always)]
    fn other(&self, start: usize, visitor: &mut impl Visitor) -> Option<usize> {
        let (unit, end) = if self.source.word(start) as u32 == u32::from_le_bytes(*b"<!--") {
            (Unit::Comment, self.marked(start + 4, b"-->")?)
        } else {
            self.prolog(start)?
        };
        visitor.unit(unit, start, end);
        Some(end)
    }

    /// A declaration or a doctype.
    #[cold]
    #[inline(never)]
    fn prolog(&self, start: usize) -> Option<(Unit, usize)> {
        if self.opens(start, b"<?xml") {
            Some((Unit::Declaration, self.marked(start + 6, b"?>")?))
        } else if self.opens(start, b"<!DOCTYPE") {
            Some((Unit::Doctype, self.doctype_end(start + 10)?))
        } else {
            None
        }
    }

    /// Whether a word and a white space stand at a place.
    fn opens(&self, start: usize, word: &[u8]) -> bool {
        self.source.document()[start..].starts_with(word) && is(self.source.byte(start + word.len()), SPACE)
    }

    /// The end of the first mark in what begins here; each mark ends with `>`.
    #[inline(always)]
    fn marked(&self, body: usize, mark: &[u8]) -> Option<usize> {
        let mut at = body + mark.len() - 1;
        loop {
            at = self.source.find(at, b'>')? + 1;
            if self.source.slice(at - mark.len(), at) == mark {
                return Some(at);
            }
        }
    }

    fn doctype_end(&self, body: usize) -> Option<usize> {
        let rest = self.source.document().get(body..)?;
        let end = rest.iter().position(|byte| matches!(byte, b'[' | b'<' | b'>'))?;
        (rest[end] == b'>').then_some(body + end + 1)
    }

    #[inline(always)]
    fn end_tag(&mut self, start: usize, visitor: &mut impl Visitor) -> Option<usize> {
        let name_end = self.skip_name(start + 2)?;
        let close = self.skip_space(name_end);
        if self.source.byte(close) != b'>' {
            return None;
        }
        let (end, name) = (close + 1, Span::new(start + 2, name_end));
        visitor.end_tag(Tag { start, end, name, is_empty: false, is_plain: close == name_end });
        Some(end)
    }

    /// A start tag or an empty tag.
    #[inline(always)]
    fn start_tag(&mut self, start: usize, visitor: &mut impl Visitor) -> Option<usize> {
        let name_end = self.skip_name(start + 1)?;
        self.attributes.clear();
        let close = match self.source.byte(name_end) {
            b'>' => Close { end: name_end as u32 + 1, is_empty: false, is_plain: true },
            b'/' if self.source.byte(name_end + 1) == b'>' => Close { end: name_end as u32 + 2, is_empty: true, is_plain: true },
            _ => self.attributes(name_end)?,
        };
        let Close { end, is_empty, is_plain } = close;
        let (end, name) = (end as usize, Span::new(start + 1, name_end));
        visitor.start_tag(Tag { start, end, name, is_empty, is_plain }, &self.attributes);
        Some(end)
    }

    /// The attributes of a tag from the end of its name on.
    #[inline(never)]
    fn attributes(&mut self, mut at: usize) -> Option<Close> {
        let mut is_plain = true;
        loop {
            let next = self.skip_space(at);
            let byte = self.source.byte(next);
            let is_empty = byte == b'/' && self.source.byte(next + 1) == b'>';
            if byte == b'>' || is_empty {
                return Some(Close { end: next as u32 + 1 + u32::from(is_empty), is_empty, is_plain: is_plain && at == next });
            }
            if next == at {
                return None;
            }
            is_plain &= next == at + 1 && self.source.byte(at) == b' ';
            let (attribute, is_spelled_plainly) = self.attribute(next)?;
            is_plain &= is_spelled_plainly;
            at = (attribute.value.at + attribute.value.len) as usize + 1;
            self.attributes.push(attribute);
        }
    }

    /// The attribute that begins here, and whether it has double quotes and no white space.
    #[inline(always)]
    fn attribute(&mut self, start: usize) -> Option<(Attribute, bool)> {
        let name_end = self.skip_name(start)?;
        let opening = if self.source.byte(name_end) == b'=' { name_end + 1 } else { self.skip_equals(name_end)? };
        let opening = self.skip_space(opening);
        let quote = self.source.byte(opening);
        if quote != b'"' && quote != b'\'' {
            return None;
        }
        let mut end = self.source.value_end(opening + 1, quote);
        if self.source.byte(end) != quote {
            end = self.value_with_references(end, quote)?;
        }
        let is_plain = quote == b'"' && opening == name_end + 1;
        Some((Attribute { name: Span::new(start, name_end), value: Span::new(opening + 1, end) }, is_plain))
    }

    /// The place after white space and an equals sign.
    #[cold]
    fn skip_equals(&self, at: usize) -> Option<usize> {
        let equals = self.skip_space(at);
        (self.source.byte(equals) == b'=').then_some(equals + 1)
    }

    /// The end of a value from a `<` or an `&` in it on.
    #[cold]
    #[inline(never)]
    fn value_with_references(&mut self, mut at: usize, quote: u8) -> Option<usize> {
        while self.source.byte(at) != quote {
            if self.source.byte(at) == b'<' {
                return None;
            }
            self.look_at_reference(at);
            at = self.source.value_end(at + 1, quote);
        }
        Some(at)
    }
}

/// Whether a reference begins at an `&`: one of five words, or a number.
#[inline(always)]
fn is_reference(source: Source, at: usize) -> bool {
    let word = source.word(at);
    let begins = |text: &'static str| word & (!0 >> (64 - 8 * text.len())) == Text::new(text).word;
    begins("&lt;") || begins("&gt;") || begins("&amp;") || begins("&quot;") || begins("&apos;") || is_number(source, at)
}

fn is_number(source: Source, at: usize) -> bool {
    let Some(number) = source.document()[at..].strip_prefix(b"&#") else { return false };
    let (digits, most, is_digit): (_, _, fn(&u8) -> bool) = match number.strip_prefix(b"x") {
        Some(digits) => (digits, 6, u8::is_ascii_hexdigit),
        None => (number, 7, u8::is_ascii_digit),
    };
    let count = digits.iter().take(most).take_while(|byte| is_digit(byte)).count();
    count > 0 && digits.get(count) == Some(&b';')
}

/// Cuts a document into units and shows each one to the visitor, up to a fault of the bytes or the markup.
pub fn cut(source: Source, visitor: &mut impl Visitor) -> Result<(), Fault> {
    if let Err(error) = std::str::from_utf8(source.document()) {
        return Err(Fault { place: error.valid_up_to(), kind: Kind::NotUtf8 });
    }
    let mut cutter = Cutter { source, attributes: Vec::new(), bad_reference: None };
    let mut at = 0;
    while at < source.len() {
        match cutter.unit(at, visitor) {
            None => return Err(Fault { place: at, kind: Kind::BadMarkup }),
            Some(end) => at = end,
        }
        if let Some(place) = cutter.bad_reference {
            return Err(Fault { place, kind: Kind::BadReference });
        }
    }
    Ok(())
}
