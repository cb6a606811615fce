//! The net of a document: its points, ordered by spans, links and the calendar, and the components of these.

#![cfg_attr(rustfmt, rustfmt_skip)]

use crate::calendar::Calendar;
use crate::judge::Judged;

/// Points of two intervals: the start and the end of the first one, and those of the second.
const A: u16 = 0;
const A_END: u16 = 1;
const B: u16 = 2;
const B_END: u16 = 3;

const LESS: bool = true;
const NO_MORE: bool = false;

/// The orders of each relation in the table: the first of two points is before the other, or no later.
pub const ORDERS: [&[(u16, u16, bool)]; 16] = [
    &[(A_END, B, LESS)],
    &[(B_END, A, LESS)],
    &[(A, B, LESS), (B_END, A_END, LESS)],
    &[(B, A, LESS), (A_END, B_END, LESS)],
    &[(B, A, NO_MORE), (A_END, B_END, NO_MORE)],
    &[(A, B, NO_MORE), (B_END, A_END, NO_MORE)],
    &[(A, B, NO_MORE), (B, A, NO_MORE), (A_END, B_END, NO_MORE), (B_END, A_END, NO_MORE)],
    &[(A, B, NO_MORE), (B, A, NO_MORE), (A_END, B_END, NO_MORE), (B_END, A_END, NO_MORE)],
    &[(A_END, B, NO_MORE), (B, A_END, NO_MORE)],
    &[(B_END, A, NO_MORE), (A, B_END, NO_MORE)],
    &[(A, B, NO_MORE), (B, A, NO_MORE), (A_END, B_END, LESS)],
    &[(A, B, NO_MORE), (B, A, NO_MORE), (B_END, A_END, LESS)],
    &[(A_END, B_END, NO_MORE), (B_END, A_END, NO_MORE), (B, A, LESS)],
    &[(A_END, B_END, NO_MORE), (B_END, A_END, NO_MORE), (A, B, LESS)],
    &[(A, B, LESS), (B, A_END, LESS), (A_END, B_END, LESS)],
    &[(B, A, LESS), (A, B_END, LESS), (B_END, A_END, LESS)],
];

/// The base relations, by their numbers in the table.
pub const BASE: [u8; 13] = [0, 1, 2, 3, 6, 8, 9, 10, 11, 12, 13, 14, 15];

/// One point is before another, or no later: by which order of which link, or by the span of an interval.
#[derive(Clone, Copy)]
pub struct Order {
    pub first: u16,
    pub second: u16,
    pub link: u16,
    pub nth: u8,
    pub strict: bool,
}

pub const SPAN: u16 = u16::MAX;

/// A relation between two intervals by their numbers.
#[derive(Clone, Copy)]
pub struct NetLink {
    pub left: u16,
    pub relation: u8,
    pub right: u16,
}

impl NetLink {
    /// Its orders; a point has twice the number of its interval, and an end one more.
    #[inline(always)]
    pub fn orders(self, link: u16) -> impl Iterator<Item = Order> {
        let point = move |one: u16| 2 * (if one < B { self.left } else { self.right }) + one % 2;
        ORDERS[self.relation as usize].iter().enumerate().map(move |(nth, &(first, second, strict))| {
            Order { first: point(first), second: point(second), link, nth: nth as u8, strict }
        })
    }
}

/// So many intervals, the links between them, and the orders of their dates.
#[derive(Clone)]
pub struct Net {
    pub intervals: usize,
    pub links: Vec<NetLink>,
    pub calendar: Calendar,
}

impl Net {
    pub fn of(document: &Judged) -> Net {
        let (source, judge) = (document.judge.source, &document.judge);
        let number = |name| document.table.find(source, name).interval;
        let link = |link: &crate::judge::Link| NetLink { left: number(link.left), relation: link.relation, right: number(link.right) };
        let intervals = judge.intervals.len();
        Net { intervals, links: judge.links.iter().map(link).collect(), calendar: Calendar::of(&judge.times, 2 * intervals) }
    }

    pub fn points(&self) -> usize {
        2 * self.intervals
    }
}

/// The orders of a net, those from each point one after another. The nodes of the calendar come after the points.
pub struct Graph {
    pub points: usize,
    pub begins: Vec<u32>,
    pub orders: Vec<Order>,
}

impl Graph {
    pub fn of(net: &Net) -> Graph {
        Graph::of_links(net, 0..net.links.len() as u16)
    }

    /// That of some links, by their numbers.
    pub fn of_links(net: &Net, links: impl Iterator<Item = u16> + Clone) -> Graph {
        let nodes = net.points() + net.calendar.nodes;
        let mut begins = vec![0u32; nodes + 2];
        for start in (0..net.points()).step_by(2) {
            begins[start + 2] = 1;
        }
        let of_links = || links.clone().flat_map(|number| net.links[number as usize].orders(number));
        let orders = || of_links().chain(net.calendar.orders.iter().copied());
        orders().for_each(|order| begins[order.first as usize + 2] += 1);
        for point in 2..begins.len() {
            begins[point] += begins[point - 1];
        }
        let none = Order { first: 0, second: 0, link: SPAN, nth: 0, strict: true };
        let mut placed = vec![none; begins[nodes + 1] as usize];
        let spans = (0..net.points() as u16).step_by(2).map(|first| Order { first, second: first + 1, ..none });
        for order in spans.chain(orders()) {
            let next = &mut begins[order.first as usize + 1];
            placed[*next as usize] = order;
            *next += 1;
        }
        begins.pop();
        Graph { points: net.points(), begins, orders: placed }
    }

    /// How many points and nodes of the calendar there are.
    pub fn nodes(&self) -> usize {
        self.begins.len() - 1
    }

    #[inline(always)]
    pub fn from(&self, point: u16) -> &[Order] {
        &self.orders[self.begins[point as usize] as usize..self.begins[point as usize + 1] as usize]
    }
}

/// Points by what they are together with: a component is points of which each is no later than each other one. The orders
/// of a component lead to components of lesser numbers, or to itself.
pub struct Components {
    pub of: Vec<u16>,
    /// The points, those of each component one after another.
    pub members: Vec<u16>,
    pub begins: Vec<u16>,
}

const NONE: u16 = u16::MAX;

impl Components {
    /// The components of a graph, or a strict order inside of one.
    pub fn of(graph: &Graph) -> Result<Components, Order> {
        let points = graph.nodes();
        let mut search = Search {
            graph, number: vec![0; points], next: 0, path: Vec::with_capacity(points),
            found: Components { of: vec![NONE; points], members: Vec::with_capacity(points), begins: vec![0] },
        };
        for point in 0..points {
            if search.number[point] == 0 {
                search.visit(point as u16);
            }
        }
        let found = search.found;
        let inside = |order: &&Order| order.strict && found.of[order.first as usize] == found.of[order.second as usize];
        match graph.orders.iter().find(inside) {
            Some(order) => Err(*order),
            None => Ok(found),
        }
    }

    pub fn count(&self) -> usize {
        self.begins.len() - 1
    }

    #[inline(always)]
    pub fn members(&self, component: usize) -> &[u16] {
        &self.members[self.begins[component] as usize..self.begins[component + 1] as usize]
    }

    /// The least ranks of all points.
    pub fn least(&self, graph: &Graph) -> Vec<u16> {
        let mut ranks = vec![0u16; self.count()];
        for &point in self.members.iter().rev() {
            let rank = ranks[self.of[point as usize] as usize];
            for order in graph.from(point) {
                let other = &mut ranks[self.of[order.second as usize] as usize];
                *other = (*other).max(rank + u16::from(order.strict));
            }
        }
        self.of[..graph.points].iter().map(|&component| ranks[component as usize]).collect()
    }
}

/// A search for components in depth (Tarjan 1972).
struct Search<'a> {
    graph: &'a Graph,
    number: Vec<u16>,
    next: u16,
    path: Vec<u16>,
    found: Components,
}

impl Search<'_> {
    /// The least number that is met from a point on.
    fn visit(&mut self, point: u16) -> u16 {
        self.next += 1;
        let own = self.next;
        self.number[point as usize] = own;
        self.path.push(point);
        let (mut low, graph) = (own, self.graph);
        for order in graph.from(point) {
            let second = order.second as usize;
            if self.number[second] == 0 {
                low = low.min(self.visit(order.second));
            } else if self.found.of[second] == NONE {
                low = low.min(self.number[second]);
            }
        }
        if low == own {
            self.take(point);
        }
        low
    }

    /// The points of the path from this one on are a component.
    #[inline(always)]
    fn take(&mut self, point: u16) {
        let component = self.found.begins.len() as u16 - 1;
        while let Some(member) = self.path.pop() {
            self.found.of[member as usize] = component;
            self.found.members.push(member);
            if member == point {
                break;
            }
        }
        self.found.begins.push(self.found.members.len() as u16);
    }
}
