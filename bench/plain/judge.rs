//! The judgement of a document: how tags nest, what their attributes say, and at the end whether identifiers are given once
//! and references lead to one.

#![cfg_attr(rustfmt, rustfmt_skip)]

use crate::names::Table;
use crate::profile::{Kind as TagKind, Rule, MOST_FIELDS};
use crate::source::{Source, Span};
use crate::units::{cut, is, Attribute, Tag, Unit, Visitor, SPACE};
use crate::dates::{bounds, Bounds};
use crate::values::date;
use crate::{Fault, Kind};

const MOST_OPEN: usize = 32;
const MOST_INTERVALS: usize = 1024;
const MOST_LINKS: usize = 4_096;
/// An identifier may have so many bytes.
const MOST_BYTES: u32 = 64;

/// An identifier of a tag, or a reference to a tag, with the kind of that.
struct Mention {
    place: u32,
    name: Span,
    tag: TagKind,
}

/// A TLINK: the names of its intervals, and the number of its relation in the table.
#[derive(Clone, Copy)]
pub struct Link {
    pub left: Span,
    pub relation: u8,
    pub right: Span,
}

/// An open tag, with the first eight bytes of its name.
#[derive(Clone, Copy)]
struct Open {
    name: Span,
    word: u64,
    kind: TagKind,
}

/// What the units so far say, with the first fault of each phase.
pub struct Judge<'a> {
    pub source: Source<'a>,
    open: Vec<Open>,
    doctype_seen: bool,
    tag_seen: bool,
    nesting_fault: Option<Fault>,
    typing_fault: Option<Fault>,
    limit_fault: Option<Fault>,
    pub counts: [usize; 9],
    identifiers: Vec<Mention>,
    references: Vec<Mention>,
    pub intervals: Vec<Span>,
    pub links: Vec<Link>,
    /// The times that the calendar places, by their intervals.
    pub times: Vec<(u16, Bounds)>,
    /// Whether some time has a date or a length.
    pub has_times: bool,
}

/// What the attributes of a tag say: those that the profile names and that are not empty, as bits and by their fields.
struct Values {
    given: u32,
    spans: [Span; MOST_FIELDS],
    choice: u8,
}

impl<'a> Judge<'a> {
    pub fn new(source: Source<'a>) -> Judge<'a> {
        Judge {
            source, open: Vec::with_capacity(MOST_OPEN), doctype_seen: false, tag_seen: false, nesting_fault: None, typing_fault: None,
            limit_fault: None, counts: [0; 9], identifiers: Vec::new(), references: Vec::new(), intervals: Vec::new(),
            links: Vec::new(), times: Vec::new(), has_times: false,
        }
    }

    #[inline(always)]
    pub fn is_inside(&self) -> bool {
        !self.open.is_empty()
    }

    #[inline(always)]
    pub fn nests_wrongly(&self) -> bool {
        self.nesting_fault.is_some()
    }

    /// The kind of a start tag or an empty tag, which may stand here; a start tag is opened.
    #[inline(always)]
    fn nest(&mut self, tag: &Tag) -> Result<TagKind, Kind> {
        let word = self.source.first_word(tag.name);
        let kind = TagKind::named(self.source, tag.name, word).ok_or(Kind::UnknownTag)?;
        let may_stand = match self.open.last() {
            Some(outer) => kind != TagKind::Root && !outer.kind.is_link(),
            None => kind == TagKind::Root && !self.tag_seen,
        };
        if !may_stand {
            return Err(Kind::Misplaced);
        }
        if self.open.len() == MOST_OPEN {
            return Err(Kind::TooDeep);
        }
        if !tag.is_empty {
            self.open.push(Open { name: tag.name, word, kind });
        }
        self.tag_seen = true;
        Ok(kind)
    }

    /// Looks at the attributes of a tag: an empty value counts as absent. Notes what it is and names.
    #[inline(never)]
    fn look_at_tag(&mut self, kind: TagKind, place: usize, attributes: &[Attribute]) {
        if self.typing_fault.is_none() {
            if let Err(kind) = self.typed(kind, place, attributes) {
                self.typing_fault = Some(Fault { place, kind });
            }
        }
    }

    #[inline(always)]
    fn typed(&mut self, kind: TagKind, place: usize, attributes: &[Attribute]) -> Result<(), Kind> {
        let profile = kind.profile();
        let mut values = Values { given: 0, spans: [Span::default(); MOST_FIELDS], choice: 0 };
        let (mut seen, mut carried, mut is_bad) = (0u32, 0, false);
        for attribute in attributes {
            let word = self.source.first_word(attribute.name);
            let Some(index) = profile.fields.iter().position(|field| field.name.is(self.source, attribute.name, word)) else {
                carried += 1;
                continue;
            };
            if seen >> index & 1 != 0 {
                return Err(Kind::RepeatedAttribute);
            }
            seen |= 1 << index;
            if attribute.value.len > 0 {
                values.given |= 1 << index;
                values.spans[index] = attribute.value;
                is_bad |= !self.take(kind, place, &profile.fields[index].rule, attribute.value, &mut values.choice);
            }
        }
        if carried > 1 && repeats(self.source, attributes) {
            return Err(Kind::RepeatedAttribute);
        }
        self.look_at_values(kind, place, &values, is_bad)
    }

    /// Whether a value is as its rule says. Notes identifiers and references, and the number of a relation.
    #[inline(always)]
    fn take(&mut self, kind: TagKind, place: usize, rule: &Rule, value: Span, choice: &mut u8) -> bool {
        let is_name = || value.len <= MOST_BYTES && self.source.is_identifier(value);
        let place = place as u32;
        match *rule {
            Rule::Identifier if is_name() => self.identifiers.push(Mention { place, name: value, tag: kind }),
            Rule::Reference(tag) if is_name() => self.references.push(Mention { place, name: value, tag }),
            Rule::Identifier | Rule::Reference(_) => return false,
            Rule::OneOf(texts) => {
                let word = self.source.first_word(value);
                let Some(index) = texts.iter().position(|text| text.is(self.source, value, word)) else { return false };
                if kind == TagKind::TimeLink {
                    *choice = index as u8;
                }
            }
            Rule::Any => {}
        }
        true
    }

    #[inline(always)]
    fn look_at_values(&mut self, kind: TagKind, place: usize, values: &Values, is_bad: bool) -> Result<(), Kind> {
        let profile = kind.profile();
        if values.given & profile.required != profile.required || profile.pairs.iter().any(|pair| values.given & pair == 0) {
            return Err(Kind::MissingAttribute);
        }
        if is_bad {
            return Err(Kind::BadValue);
        }
        if profile.pairs.iter().any(|pair| values.given & pair == *pair) {
            return Err(Kind::Conflict);
        }
        if kind == TagKind::Time && values.given & 0b100 != 0 {
            let value = self.source.text(values.spans[2]);
            let found = date(value);
            if found == Some(false) {
                return Err(Kind::BadDate);
            }
            let place = found.and_then(|_| bounds(self.source.text(values.spans[1]), self.source.text(values.spans[3]), value));
            self.times.extend(place.map(|bounds| (self.intervals.len() as u16, bounds)));
            self.has_times |= found.is_some() || matches!(value, [b'P', b'0'..=b'9' | b'X' | b'T', ..]);
        }
        self.count(kind, place, values);
        Ok(())
    }

    /// Counts a tag without a fault; an interval or a link past the limits is the fault of the document.
    #[inline(always)]
    fn count(&mut self, kind: TagKind, place: usize, values: &Values) {
        self.counts[kind as usize] += 1;
        let fault = match kind {
            TagKind::Instance | TagKind::Time if self.intervals.len() == MOST_INTERVALS => Kind::TooManyIntervals,
            TagKind::TimeLink if self.links.len() == MOST_LINKS => Kind::TooManyLinks,
            TagKind::Instance | TagKind::Time => return self.intervals.push(values.spans[0]),
            TagKind::TimeLink => {
                let end = |index: usize| if values.spans[index].len == 0 { values.spans[index + 1] } else { values.spans[index] };
                return self.links.push(Link { left: end(1), relation: values.choice, right: end(3) });
            }
            _ => return,
        };
        self.limit_fault.get_or_insert(Fault { place, kind: fault });
    }

    /// The table of the identifiers, and the first fault of identifiers, references and limits.
    fn named(&self) -> (Table, Option<Fault>) {
        let mut table = Table::of(self.identifiers.len());
        let (mut duplicate, mut intervals) = (None, 0);
        for Mention { place, name, tag } in &self.identifiers {
            let is_interval = matches!(tag, TagKind::Instance | TagKind::Time);
            if !table.insert(self.source, *name, tag.bit(), if is_interval { intervals } else { u16::MAX }) {
                duplicate.get_or_insert(Fault { place: *place as usize, kind: Kind::DuplicateId });
            }
            intervals = intervals.wrapping_add(u16::from(is_interval));
        }
        let is_unknown = |mention: &&Mention| table.find(self.source, mention.name).tags & mention.tag.bit() == 0;
        let unknown = self.references.iter().find(is_unknown);
        let unknown = unknown.map(|mention| Fault { place: mention.place as usize, kind: Kind::UnknownReference });
        (table, [duplicate, unknown, self.limit_fault].into_iter().flatten().min())
    }

    /// The table of the identifiers of a document that is cut whole, or its first fault.
    pub fn judged(&self) -> Result<Table, Fault> {
        let is_unclosed = !self.tag_seen || !self.open.is_empty();
        let unclosed = is_unclosed.then_some(Fault { place: self.source.len(), kind: Kind::Unclosed });
        if let Some(fault) = self.nesting_fault.or(unclosed).or(self.typing_fault) {
            return Err(fault);
        }
        match self.named() {
            (table, None) => Ok(table),
            (_, Some(fault)) => Err(fault),
        }
    }

    #[cold]
    #[inline(never)]
    fn misplaced(&mut self, place: usize, kind: Kind) {
        self.nesting_fault.get_or_insert(Fault { place, kind });
    }

    /// Whether a text between two places is not only white space.
    #[inline(always)]
    fn is_text(&self, start: usize, end: usize) -> bool {
        !self.source.slice(start, end).iter().all(|&byte| is(byte, SPACE))
    }
}

impl Visitor for Judge<'_> {
    #[inline(always)]
    fn unit(&mut self, unit: Unit, start: usize, end: usize) {
        let is_misplaced = match unit {
            Unit::Bom | Unit::Comment => false,
            Unit::Text => self.open.last().is_none_or(|outer| outer.kind.is_link()) && self.is_text(start, end),
            Unit::Declaration => start != 0 && !(start == 3 && self.source.byte(0) == 0xef),
            Unit::Doctype => self.tag_seen || std::mem::replace(&mut self.doctype_seen, true),
        };
        if is_misplaced {
            self.misplaced(start, Kind::Misplaced);
        }
    }

    #[inline(always)]
    fn start_tag(&mut self, tag: Tag, attributes: &[Attribute]) {
        if self.nests_wrongly() {
            return;
        }
        match self.nest(&tag) {
            Err(kind) => self.misplaced(tag.start, kind),
            Ok(kind) if attributes.is_empty() && kind >= TagKind::Root => {}
            Ok(kind) => self.look_at_tag(kind, tag.start, attributes),
        }
    }

    #[inline(always)]
    fn end_tag(&mut self, tag: Tag) {
        let word = self.source.first_word(tag.name);
        let is_innermost = |open: &Open| {
            open.word == word && open.name.len == tag.name.len && (tag.name.len <= 8 || self.source.is_same(open.name, tag.name))
        };
        match self.open.last() {
            Some(open) if is_innermost(open) => self.open.truncate(self.open.len() - 1),
            _ => self.misplaced(tag.start, Kind::Unbalanced),
        }
    }
}

/// Whether two attributes have one name.
#[cold]
fn repeats(source: Source, attributes: &[Attribute]) -> bool {
    if attributes.len() > 12 {
        let mut table = Table::of(attributes.len());
        return attributes.iter().any(|attribute| !table.insert(source, attribute.name, 0, 0));
    }
    let is_repeated = |(index, attribute): (usize, &Attribute)| {
        attributes[..index].iter().any(|before| source.is_same(before.name, attribute.name))
    };
    attributes.iter().enumerate().any(is_repeated)
}

/// A document without a fault, with the table of its identifiers.
pub struct Judged<'a> {
    pub judge: Judge<'a>,
    pub table: Table,
}

pub fn judged(source: Source) -> Result<Judged, Fault> {
    let mut judge = Judge::new(source);
    cut(source, &mut judge)?;
    judge.judged().map(|table| Judged { judge, table })
}
