//! The command `canon`: the canonical text is printed as the document is read, and dropped where there is a fault. What is
//! canonical already is copied in long stretches.

#![cfg_attr(rustfmt, rustfmt_skip)]

use crate::judge::Judge;
use crate::print::push_all;
use crate::source::{Source, Span};
use crate::units::{cut, Attribute, Tag, Unit, Visitor};
use crate::Fault;

/// The canonical text so far, beside the judgement that says whether there is one.
struct Canon<'a> {
    judge: Judge<'a>,
    out: Vec<u8>,
    /// From here on the document is not yet copied.
    kept: usize,
    /// The `>` of the last start tag, where nothing came after it.
    opened: Option<usize>,
    sorted: Vec<(u64, Attribute)>,
}

impl Canon<'_> {
    /// Copies what was kept up to a place, and keeps what begins at another one.
    #[inline(always)]
    fn copy(&mut self, end: usize, kept: usize) {
        self.out.extend_from_slice(&self.judge.source.document()[self.kept..end]);
        self.kept = kept;
    }

    /// The first bytes of a name in the order of the names, where they differ.
    #[inline(always)]
    fn key(&self, attribute: &Attribute) -> u64 {
        self.judge.source.first_word(attribute.name).swap_bytes()
    }

    /// The attributes in the order of their names; whether they were in it.
    #[inline(always)]
    fn sort(&mut self, attributes: &[Attribute]) -> bool {
        let source = self.judge.source;
        let mut sorted = std::mem::take(&mut self.sorted);
        sorted.clear();
        sorted.extend(attributes.iter().map(|attribute| (self.key(attribute), *attribute)));
        let less = |(key, one): &(u64, Attribute), (other_key, other): &(u64, Attribute)| {
            key < other_key || key == other_key && source.text(one.name) < source.text(other.name)
        };
        let is_sorted = sorted.windows(2).all(|two| less(&two[0], &two[1]));
        if !is_sorted {
            sort(&mut sorted, less);
        }
        self.sorted = sorted;
        is_sorted
    }

    /// Writes a start tag without its end.
    #[inline(always)]
    fn write_tag(&mut self, name: Span) {
        let source = self.judge.source;
        push_all(&mut self.out, &[b"<", source.text(name)]);
        for (_, attribute) in &self.sorted {
            let (start, end) = (attribute.name.at as usize, (attribute.value.at + attribute.value.len) as usize);
            if source.byte(end) == b'"' && start + (attribute.name.len as usize) + 2 == attribute.value.at as usize {
                push_all(&mut self.out, &[b" ", source.slice(start, end + 1)]);
                continue;
            }
            push_all(&mut self.out, &[b" ", source.text(attribute.name), b"=\""]);
            for (index, part) in source.text(attribute.value).split(|&byte| byte == b'"').enumerate() {
                push_all(&mut self.out, &[if index > 0 { b"&quot;" } else { b"" }, part]);
            }
            self.out.push(b'"');
        }
    }
}

/// Sorts a few by insertion, and many otherwise.
#[inline(always)]
fn sort(attributes: &mut [(u64, Attribute)], less: impl Fn(&(u64, Attribute), &(u64, Attribute)) -> bool) {
    if attributes.len() > 16 {
        return attributes.sort_by(|one, other| less(other, one).cmp(&less(one, other)));
    }
    for next in 1..attributes.len() {
        let mut at = next;
        while at > 0 && less(&attributes[at], &attributes[at - 1]) {
            attributes.swap(at, at - 1);
            at -= 1;
        }
    }
}

impl Visitor for Canon<'_> {
    #[inline(always)]
    fn unit(&mut self, unit: Unit, start: usize, end: usize) {
        if self.judge.nests_wrongly() {
            return;
        }
        self.judge.unit(unit, start, end);
        if self.judge.is_inside() {
            self.opened = None;
        } else {
            self.copy(start, end);
        }
    }

    #[inline(always)]
    fn start_tag(&mut self, tag: Tag, attributes: &[Attribute]) {
        if self.judge.nests_wrongly() {
            return;
        }
        let is_sorted = self.sort(attributes);
        let closing = tag.end - if tag.is_empty { 2 } else { 1 };
        if !is_sorted || !tag.is_plain {
            self.copy(tag.start, closing);
            self.write_tag(tag.name);
        }
        self.opened = (!tag.is_empty).then_some(closing);
        self.judge.start_tag(tag, attributes);
    }

    #[inline(always)]
    fn end_tag(&mut self, tag: Tag) {
        if self.judge.nests_wrongly() {
            return;
        }
        if let Some(closing) = self.opened.take() {
            self.copy(closing, tag.end);
            self.out.extend_from_slice(b"/>");
        } else if !tag.is_plain {
            self.copy((tag.name.at + tag.name.len) as usize, tag.end - 1);
        }
        self.judge.end_tag(tag);
    }
}

pub fn canon(source: Source) -> Result<Vec<u8>, Fault> {
    let out = Vec::with_capacity(source.len() + 1);
    let mut canon = Canon { judge: Judge::new(source), out, kept: 0, opened: None, sorted: Vec::new() };
    cut(source, &mut canon)?;
    canon.judge.judged()?;
    canon.copy(source.len(), source.len());
    canon.out.push(b'\n');
    Ok(canon.out)
}
