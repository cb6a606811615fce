//! What follows of the order of all points: rows of bits, one for each component.

#![cfg_attr(rustfmt, rustfmt_skip)]

use crate::nets::{Components, Graph, Order};

/// Of each component the points that are never before it, and those that are always after it; or the other way round. A row
/// has the starts of all intervals, and then their ends.
pub struct Rows {
    half: usize,
    weak: Vec<u64>,
    strict: Vec<u64>,
}

/// The words of a row that have the starts or the ends.
pub type Half<'a> = &'a [u64];

impl Rows {
    /// A row for each component, with its own points.
    fn own(components: &Components, points: usize) -> Rows {
        let half = (points / 2).div_ceil(64);
        let words = 2 * half * components.count();
        let mut rows = Rows { half, weak: vec![0; words], strict: vec![0; words] };
        for (point, &component) in components.of[..points].iter().enumerate() {
            let (word, bit) = rows.place(component as usize, point as u16);
            rows.weak[word] |= 1 << bit;
        }
        rows
    }

    /// What is after each component: those that its orders lead to come first.
    pub fn after(components: &Components, graph: &Graph) -> Rows {
        let mut rows = Rows::own(components, graph.points);
        for component in 0..components.count() {
            for &point in components.members(component) {
                for order in graph.from(point) {
                    let other = components.of[order.second as usize] as usize;
                    if other != component && (order.second as usize >= graph.points || !rows.has(component, order.second, order.strict)) {
                        rows.join(component, other, order.strict);
                    }
                }
            }
        }
        rows
    }

    /// What is before each component: each is told to those that its orders lead to.
    pub fn before(components: &Components, graph: &Graph) -> Rows {
        let mut rows = Rows::own(components, graph.points);
        for component in (0..components.count()).rev() {
            for &point in components.members(component) {
                for order in graph.from(point) {
                    let other = components.of[order.second as usize] as usize;
                    if other != component && (point as usize >= graph.points || !rows.has(other, point, order.strict)) {
                        rows.join(other, component, order.strict);
                    }
                }
            }
        }
        rows
    }

    #[inline(always)]
    fn place(&self, component: usize, point: u16) -> (usize, u16) {
        let word = 2 * component + point as usize % 2;
        (word * self.half + point as usize / 128, point / 2 % 64)
    }

    /// Whether a row has a point, as strict where this is asked.
    #[inline(always)]
    pub fn has(&self, component: usize, point: u16, strict: bool) -> bool {
        let (word, bit) = self.place(component, point);
        (if strict { self.strict[word] } else { self.weak[word] }) >> bit & 1 != 0
    }

    /// Adds one row to another.
    #[inline(always)]
    fn join(&mut self, to: usize, from: usize, strict: bool) {
        let words = 2 * self.half;
        let (weak, from_weak) = two(&mut self.weak, words, to, from);
        let (to_strict, from_strict) = two(&mut self.strict, words, to, from);
        add(to_strict, if strict { from_weak } else { from_strict });
        add(weak, from_weak);
    }

    /// The starts and the ends of a row, weak and strict.
    #[inline(always)]
    pub fn halves(&self, component: u16) -> [Half<'_>; 4] {
        let begin = 2 * self.half * component as usize;
        let (weak, strict) = (&self.weak[begin..][..2 * self.half], &self.strict[begin..][..2 * self.half]);
        [&weak[..self.half], &weak[self.half..], &strict[..self.half], &strict[self.half..]]
    }
}

#[inline(always)]
fn add(to: &mut [u64], from: &[u64]) {
    to.iter_mut().zip(from).for_each(|(to, from)| *to |= from);
}

/// A row to change, and another one.
#[inline(always)]
fn two(rows: &mut [u64], words: usize, to: usize, from: usize) -> (&mut [u64], &[u64]) {
    let (less, more) = rows.split_at_mut(to.max(from) * words);
    if to < from {
        (&mut less[to * words..][..words], &more[..words])
    } else {
        (&mut more[..words], &less[from * words..][..words])
    }
}

/// What is after each point of a net.
pub struct Closure {
    pub components: Components,
    pub after: Rows,
}

impl Closure {
    pub fn of(components: Components, graph: &Graph) -> Closure {
        let after = Rows::after(&components, graph);
        Closure { components, after }
    }

    /// Whether an order always holds.
    pub fn says(&self, order: Order) -> bool {
        self.after.has(self.components.of[order.first as usize] as usize, order.second, order.strict)
    }
}
