//! The command `check`: the counts of an accepted document, its intervals and its links.

#![cfg_attr(rustfmt, rustfmt_skip)]

use crate::judge::{judged, Link};
use crate::print::{push_all, push_number};
use crate::profile::RELATIONS;
use crate::source::Source;
use crate::Fault;

/// The line of a link: its number, and its relation between the names of its intervals.
pub fn push_link(out: &mut Vec<u8>, source: Source, number: usize, link: &Link) {
    out.extend_from_slice(b"tlink ");
    push_number(out, number, b' ');
    let relation = RELATIONS[link.relation as usize].text.as_bytes();
    push_all(out, &[source.text(link.left), b" ", relation, b" ", source.text(link.right), b"\n"]);
}

pub fn check(source: Source) -> Result<Vec<u8>, Fault> {
    let judge = judged(source)?.judge;
    let mut out = b"accepted\n".to_vec();
    let words: [&[u8]; 7] = [b"events", b"instances", b"timex", b"signals", b"tlinks", b"alinks", b"slinks"];
    for (word, count) in words.into_iter().zip(judge.counts) {
        push_all(&mut out, &[word, b" "]);
        push_number(&mut out, count, b'\n');
    }
    for (number, name) in judge.intervals.iter().enumerate() {
        out.extend_from_slice(b"interval ");
        push_number(&mut out, number, b' ');
        push_all(&mut out, &[source.text(*name), b"\n"]);
    }
    for (number, link) in judge.links.iter().enumerate() {
        push_link(&mut out, source, number, link);
    }
    Ok(out)
}
