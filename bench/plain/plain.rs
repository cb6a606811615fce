//! Commands of `tml` written by hand: ordinary Rust that cares for speed, without proofs, to measure what these cost. It
//! prints the same bytes and ends with the same status, but for which clash, cycle and placing it prints. The rules are those
//! of docs/DEFINITIONS.md. Seconds it says only of documents whose times have no dates and no lengths.
//! bench/by_hand.py builds it for bench/beside.py and others.

#![cfg_attr(rustfmt, rustfmt_skip)]

mod calendar;
mod canon;
mod check;
mod closure;
mod dates;
mod judge;
mod links;
mod names;
mod nets;
mod pairs;
mod print;
mod profile;
mod seconds;
mod sets;
mod solve;
mod source;
mod spans;
mod units;
mod values;

use std::ffi::{OsStr, OsString};
use std::fs::File;
use std::io::{self, Read, Write};
use std::process::ExitCode;

use judge::{judged, Judged};
use source::{Source, PADDING};

const MOST_BYTES: usize = 4_194_304;

/// The kinds of fault that this program tells apart, with their numbers.
#[derive(Clone, Copy, Debug, PartialEq, Eq, PartialOrd, Ord)]
enum Kind {
    NotUtf8 = 1, BadReference, BadMarkup,
    UnknownTag, Unbalanced, Unclosed, Misplaced, TooDeep,
    RepeatedAttribute, MissingAttribute, BadValue, Conflict, BadDate,
    DuplicateId, UnknownReference, TooManyIntervals, TooManyLinks,
}

/// A fault and its place. The lesser one of two is the one that comes first.
#[derive(Clone, Copy, PartialEq, Eq, PartialOrd, Ord)]
struct Fault {
    place: usize,
    kind: Kind,
}

/// A status and a text.
type Answer = (u8, Vec<u8>);

const CLASH: u8 = 2;
const NOT_DONE: u8 = 100;

/// At most one byte more than a document may have, with room for the padding.
fn read(name: &OsStr) -> io::Result<Vec<u8>> {
    let most = MOST_BYTES as u64 + 1;
    let mut bytes = Vec::new();
    if name == "-" {
        io::stdin().lock().take(most).read_to_end(&mut bytes)?;
    } else {
        let file = File::open(name)?;
        bytes.reserve_exact(file.metadata()?.len().min(most) as usize + PADDING);
        file.take(most).read_to_end(&mut bytes)?;
    }
    Ok(bytes)
}

const USAGE: &[u8] = b"usage:\nplain spans DOC\nplain check DOC\nplain canon DOC\nplain solve DOC\nplain relations DOC\nplain matrix DOC\n\
    plain possible DOC X Y\nplain reduce DOC\nplain score DOC KEY\nplain seconds DOC\n";

/// What is said of the net of a document.
fn of_net(source: Source, says: impl FnOnce(&Judged) -> Answer) -> Result<Answer, Fault> {
    judged(source).map(|document| says(&document))
}

/// A placing, if no time is a date or has a length.
fn seconds(document: &Judged) -> Answer {
    if document.judge.has_times { (NOT_DONE, b"not done\n".to_vec()) } else { seconds::seconds(document) }
}

/// The relations that are possible between two intervals, where both names are those of intervals.
fn possible(document: &Judged, first: &OsStr, second: &OsStr) -> Answer {
    let (source, intervals) = (document.judge.source, &document.judge.intervals);
    let number_of = |name: &OsStr| intervals.iter().position(|one| source.text(*one) == name.as_encoded_bytes());
    match (number_of(first), number_of(second)) {
        (Some(left), Some(right)) => pairs::possible(document, left as u16, right as u16),
        _ => (NOT_DONE, b"not done\n".to_vec()),
    }
}

fn score(document: &Judged, key: &OsStr) -> Answer {
    let mut bytes = read(key).unwrap_or_default();
    match judged(Source::new(&mut bytes)) {
        Ok(key) => links::score(document, &key),
        _ => (NOT_DONE, b"not done\n".to_vec()),
    }
}

/// The answer to the words over a document.
fn answer_over(words: &[&OsStr], source: Source) -> Option<Result<Answer, Fault>> {
    let (command, rest) = (words[0].to_str()?, &words[2..]);
    Some(match (command, rest) {
        ("check", []) => check::check(source).map(|text| (0, text)),
        ("spans", []) => spans::spans(source).map(|text| (0, text)),
        ("canon", []) => canon::canon(source).map(|text| (0, text)),
        ("solve", []) => of_net(source, solve::solve),
        ("relations", []) => of_net(source, pairs::relations),
        ("matrix", []) => of_net(source, pairs::matrix),
        ("reduce", []) => of_net(source, links::reduce),
        ("seconds", []) => of_net(source, seconds),
        ("score", [key]) => of_net(source, |document| score(document, key)),
        ("possible", [first, second]) => of_net(source, |document| possible(document, first, second)),
        _ => return None,
    })
}

/// The status and the text of a run.
fn answer(words: &[OsString]) -> Answer {
    let words: Vec<&OsStr> = words.iter().map(OsString::as_os_str).collect();
    let usage = (3, USAGE.to_vec());
    if words.len() < 2 {
        return usage;
    }
    let Ok(mut document) = read(words[1]) else { return (4, b"read fault\n".to_vec()) };
    if document.len() > MOST_BYTES {
        return (9, b"too long DOC\n".to_vec());
    }
    match answer_over(&words, Source::new(&mut document)) {
        None => usage,
        Some(Ok(answer)) => answer,
        Some(Err(Fault { place, kind })) => (1, format!("fault {} {kind:?} {place}\n", kind as u8).into_bytes()),
    }
}

fn main() -> ExitCode {
    let words: Vec<OsString> = std::env::args_os().skip(1).collect();
    let (status, text) = answer(&words);
    let mut out = io::stdout().lock();
    match out.write_all(&text).and_then(|()| out.flush()) {
        Err(_) if status == 0 => ExitCode::from(5),
        _ => ExitCode::from(status),
    }
}
