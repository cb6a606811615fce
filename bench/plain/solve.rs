//! The command `solve`: the least timeline, or a minimal clash. One clash is
//! taken from a short walk, so that it has few links.

#![cfg_attr(rustfmt, rustfmt_skip)]

use std::collections::VecDeque;

use crate::calendar::CALENDAR;
use crate::judge::Judged;
use crate::nets::{Components, Graph, Net, Order, SPAN};
use crate::print::push_number;
use crate::{Answer, CLASH};

/// The lines of a timeline.
pub fn push_timeline(out: &mut Vec<u8>, ranks: &[u16]) {
    out.extend_from_slice(b"timeline ");
    push_number(out, ranks.len() / 2, b'\n');
    push_ranks(out, ranks);
}

/// A line for each interval.
pub fn push_ranks(out: &mut Vec<u8>, ranks: &[u16]) {
    for ends in ranks.chunks_exact(2) {
        out.extend_from_slice(b"at ");
        push_number(out, ends[0] as usize, b' ');
        push_number(out, ends[1] as usize, b'\n');
    }
}

/// A short closed walk, as a strict order of a component and the way back to it.
pub fn closed_walk(graph: &Graph, strict: Order) -> Vec<Order> {
    let points = graph.nodes();
    let mut came: Vec<Option<Order>> = vec![None; points];
    let mut queue = VecDeque::from([strict.second]);
    while came[strict.first as usize].is_none() && strict.first != strict.second {
        let Some(point) = queue.pop_front() else { break };
        for order in graph.from(point) {
            if came[order.second as usize].is_none() && order.second != strict.second {
                came[order.second as usize] = Some(*order);
                queue.push_back(order.second);
            }
        }
    }
    let mut walk = vec![strict];
    let mut point = strict.first;
    while point != strict.second {
        let Some(order) = came[point as usize] else { break };
        walk.push(order);
        point = order.first;
    }
    walk[1..].reverse();
    over_points(graph.points, walk)
}

/// The same closed walk without the nodes of the calendar, from a point on.
fn over_points(points: usize, mut walk: Vec<Order>) -> Vec<Order> {
    let is_point = |node: u16| (node as usize) < points;
    let from = walk.iter().position(|order| is_point(order.first)).unwrap_or(0);
    walk.rotate_left(from);
    let mut steps: Vec<Order> = Vec::with_capacity(walk.len());
    for order in walk {
        match steps.last_mut() {
            Some(last) if !is_point(last.second) => last.second = order.second,
            _ => steps.push(order),
        }
    }
    steps
}

/// The numbers of the links of a walk, rising.
fn cited(walk: &[Order]) -> Vec<u16> {
    let mut links: Vec<u16> = walk.iter().map(|order| order.link).filter(|&link| link < CALENDAR).collect();
    links.sort_unstable();
    links.dedup();
    links
}

/// The least ranks of some links, or a closed walk over some of these.
fn least(net: &Net, links: impl Iterator<Item = u16> + Clone) -> Result<Vec<u16>, Vec<Order>> {
    let graph = Graph::of_links(net, links);
    match Components::of(&graph) {
        Ok(components) => Ok(components.least(&graph)),
        Err(strict) => Err(closed_walk(&graph, strict)),
    }
}

/// A walk over a minimal clash, with the least ranks without each of its links: of a walk that is longer its links are left
/// out where the others clash.
fn minimal(net: &Net, mut walk: Vec<Order>) -> (Vec<Order>, Vec<u16>, Vec<Vec<u16>>) {
    loop {
        let cites = cited(&walk);
        let without = |link: &u16| {
            let link = *link;
            least(net, cites.iter().copied().filter(move |&other| other != link))
        };
        match cites.iter().map(without).collect() {
            Ok(spares) => return (walk, cites, spares),
            Err(shorter) => walk = shorter,
        }
    }
}

fn push_order(out: &mut Vec<u8>, order: &Order) {
    if order.link == SPAN {
        out.extend_from_slice(b"span ");
        push_number(out, order.first as usize / 2, b'\n');
    } else if order.link == CALENDAR {
        out.extend_from_slice(b"calendar ");
        push_number(out, order.first as usize, b' ');
        push_number(out, order.second as usize, b'\n');
    } else {
        out.extend_from_slice(b"via ");
        push_number(out, order.link as usize, b' ');
        push_number(out, order.nth as usize, b'\n');
    }
}

/// The steps of a walk.
pub fn push_steps<'a>(out: &mut Vec<u8>, steps: impl Iterator<Item = &'a Order>) {
    steps.for_each(|order| push_order(out, order));
}

/// The text of a minimal clash that is found from a strict order inside of a component.
pub fn clash(net: &Net, graph: &Graph, strict: Order) -> Answer {
    let (walk, cites, spares) = minimal(net, closed_walk(graph, strict));
    let mut out = b"tml-evidence 2\nclaims 1\nclash ".to_vec();
    push_number(&mut out, cites.len(), b'\n');
    for &link in &cites {
        out.extend_from_slice(b"cite ");
        push_number(&mut out, link as usize, b'\n');
    }
    out.extend_from_slice(b"walk ");
    push_number(&mut out, walk.len(), b'\n');
    push_steps(&mut out, walk.iter());
    for spare in spares {
        push_timeline(&mut out, &spare);
    }
    out.extend_from_slice(b"end\n");
    (CLASH, out)
}

pub fn solve(document: &Judged) -> Answer {
    let net = Net::of(document);
    let graph = Graph::of(&net);
    match Components::of(&graph) {
        Ok(components) => {
            let mut out = b"tml-evidence 2\nclaims 1\n".to_vec();
            push_timeline(&mut out, &components.least(&graph));
            out.extend_from_slice(b"end\n");
            (0, out)
        }
        Err(strict) => clash(&net, &graph, strict),
    }
}
