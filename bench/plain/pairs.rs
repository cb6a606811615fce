//! The commands `relations` and `matrix`: what is known of each two intervals, in
//! words of which each bit is the second interval.

#![cfg_attr(rustfmt, rustfmt_skip)]

use crate::closure::{Half, Rows};
use crate::judge::Judged;
use crate::nets::{Components, Graph, Net, BASE, ORDERS};
use crate::print::{push_all, Padded, Pen};
use crate::profile::RELATIONS;
use crate::sets::{keys, text_of};
use crate::solve::clash;
use crate::Answer;

/// How many orders there are of two intervals: of each end of the first and each of the second, weak ones and strict ones,
/// from the first interval and to it.
pub const ORDERS_OF_TWO: usize = 16;

/// What is known of all pairs of intervals.
struct Pairs {
    components: Components,
    after: Rows,
    before: Rows,
    half: usize,
}

impl Pairs {
    fn of(components: Components, graph: &Graph) -> Pairs {
        let (after, before) = (Rows::after(&components, graph), Rows::before(&components, graph));
        let half = (graph.points / 2).div_ceil(64);
        Pairs { components, after, before, half }
    }

    /// The sixteen rows of an interval: of its start and its end, which starts and ends are no sooner, after it, no later and
    /// before it.
    #[inline(always)]
    fn rows(&self, left: usize) -> [Half<'_>; ORDERS_OF_TWO] {
        let (start, end) = (self.components.of[2 * left], self.components.of[2 * left + 1]);
        let [a, b, c, d] = self.after.halves(start);
        let [e, f, g, h] = self.after.halves(end);
        let [i, j, k, l] = self.before.halves(start);
        let [m, n, o, p] = self.before.halves(end);
        [a, b, e, f, c, d, g, h, i, j, m, n, k, l, o, p]
    }
}

/// The places of the orders of each relation among the sixteen; the last one again where there are fewer than four.
const PLACES: [[usize; 4]; 16] = places();

const fn places() -> [[usize; 4]; 16] {
    let (mut table, mut relation) = ([[0; 4]; 16], 0);
    while relation < 16 {
        let mut nth = 0;
        while nth < 4 {
            let orders = ORDERS[relation];
            let (first, second, strict) = orders[if nth < orders.len() { nth } else { orders.len() - 1 }];
            let (first, second) = (first as usize, second as usize);
            let place = if first < 2 { 2 * first + second % 2 } else { 8 + 2 * second + first % 2 };
            table[relation][nth] = place + if strict { 4 } else { 0 };
            nth += 1;
        }
        relation += 1;
    }
    table
}



/// The bits of a word that are intervals after the first one.
#[inline(always)]
fn later(left: usize, word: usize, intervals: usize) -> u64 {
    let from = if word == left / 64 { !1 << (left % 64) } else { !0 };
    if intervals >= 64 * (word + 1) { from } else { from & !(!0 << (intervals % 64)) }
}

/// A name of at most 64 bytes, with a relation and spaces or a line feed.
type Part = Padded<96, 16>;
/// Relations, each after a space, and a line feed.
pub type Set = Padded<128, 32>;

/// Room for the lines of 64 pairs, with a few relations for each.
const ROOM: usize = 64 * 8 * 2 * size_of::<Part>();

/// The relations that follow between two intervals, as a line for each of them.
fn relations_of(document: &Judged, pairs: &Pairs) -> Vec<u8> {
    let (source, intervals) = (document.judge.source, &document.judge.intervals);
    let rights: Vec<Part> = intervals.iter().map(|name| Padded::of(&[source.text(*name), b"\n"])).collect();
    let mut out = Vec::new();
    for (left, name) in intervals.iter().enumerate() {
        let lefts: [Part; 16] = std::array::from_fn(|one| Padded::of(&[source.text(*name), b" ", RELATIONS[one].text.as_bytes(), b" "]));
        let rows = pairs.rows(left);
        for word in left / 64..pairs.half {
            let known = rows.map(|row| row[word]);
            let later = later(left, word, intervals.len());
            let follows = PLACES.map(|[a, b, c, d]| known[a] & known[b] & known[c] & known[d] & later);
            push_lines(&mut out, &lefts, follows, &rights[64 * word..]);
        }
    }
    out
}

/// A line for each relation that follows between an interval and some others, as bits of these.
#[inline(always)]
fn push_lines(out: &mut Vec<u8>, lefts: &[Part; 16], follows: [u64; 16], rights: &[Part]) {
    let [before, after, others @ ..] = follows;
    let others = others.iter().fold(0, |all, bits| all | bits);
    let mut open = before | after | others;
    let mut pen = Pen::new(out, ROOM);
    while open != 0 {
        let bit = open.trailing_zeros();
        open &= open - 1;
        let right = &rights[bit as usize];
        // Two intervals of which one is before the other are in no other relation, and none are in more than eight.
        if others >> bit & 1 == 0 {
            // SAFETY: the pen has room for two texts for each of eight relations of 64 pairs.
            unsafe {
                pen.write(&lefts[usize::from(after >> bit & 1 != 0)]);
                pen.write(right);
            }
            continue;
        }
        for (left, bits) in lefts.iter().zip(follows) {
            if bits >> bit & 1 != 0 {
                // SAFETY: as above.
                unsafe {
                    pen.write(left);
                    pen.write(right);
                }
            }
        }
    }
}

/// The sets of relations that were met, by the orders that are known.
struct Sets {
    texts: Vec<Set>,
    numbers: Vec<u16>,
}

impl Sets {
    /// The text of a set, which is made where it is met first. The first text is none.
    #[inline(always)]
    fn text(&mut self, key: u16) -> &Set {
        let number = &mut self.numbers[key as usize];
        if *number == 0 {
            *number = self.texts.len() as u16;
            self.texts.push(text_of(key));
        }
        &self.texts[*number as usize]
    }
}

/// The base relations that are possible between each two intervals, as a line for each two.
fn matrix_of(document: &Judged, pairs: &Pairs) -> Vec<u8> {
    let (source, intervals) = (document.judge.source, &document.judge.intervals);
    let rights: Vec<Part> = intervals.iter().map(|name| Padded::of(&[source.text(*name)])).collect();
    let mut sets = Sets { texts: vec![Padded::of(&[])], numbers: vec![0; 1 << ORDERS_OF_TWO] };
    let mut out = Vec::new();
    for (left, name) in intervals.iter().enumerate() {
        let first: Part = Padded::of(&[source.text(*name), b" "]);
        let rows = pairs.rows(left);
        for word in left / 64..pairs.half {
            let keys = keys(rows.map(|row| row[word]));
            let (begin, end) = ((left + 1).max(64 * word), intervals.len().min(64 * (word + 1)));
            let mut pen = Pen::new(&mut out, ROOM);
            for (right, key) in rights[begin.min(end)..end].iter().zip(&keys[begin - 64 * word..]) {
                // SAFETY: the pen has room for more than these three texts for each of 64 pairs.
                unsafe {
                    pen.write(&first);
                    pen.write(right);
                    pen.write(sets.text(*key));
                }
            }
        }
    }
    out
}

/// What is printed of all pairs; or a clash.
fn of_pairs(document: &Judged, print: fn(&Judged, &Pairs) -> Vec<u8>) -> Answer {
    let net = Net::of(document);
    let graph = Graph::of(&net);
    match Components::of(&graph) {
        Ok(components) => (0, print(document, &Pairs::of(components, &graph))),
        Err(strict) => clash(&net, &graph, strict),
    }
}

pub fn relations(document: &Judged) -> Answer {
    of_pairs(document, relations_of)
}

pub fn matrix(document: &Judged) -> Answer {
    of_pairs(document, matrix_of)
}

/// The relations that are possible between two intervals, each with its least ranks.
pub fn possible(document: &Judged, left: u16, right: u16) -> Answer {
    let net = Net::of(document);
    let graph = Graph::of(&net);
    if let Err(strict) = Components::of(&graph) {
        return clash(&net, &graph, strict);
    }
    let (mut out, mut count) = (Vec::new(), 0);
    for relation in BASE {
        let mut more = net.clone();
        more.links.push(crate::nets::NetLink { left, relation, right });
        let graph = Graph::of(&more);
        let Ok(components) = Components::of(&graph) else { continue };
        count += 1;
        push_all(&mut out, &[b"relation ", RELATIONS[relation as usize].text.as_bytes(), b"\n"]);
        crate::solve::push_timeline(&mut out, &components.least(&graph));
    }
    (0, [format!("possible {count}\n").into_bytes(), out].concat())
}
