//! The orders of the calendar. A point comes before all points whose numbers are greater, which would be as many orders as there
//! are pairs: so each number has two nodes, one after all points that are no later than it, and one after all that are before it.

#![cfg_attr(rustfmt, rustfmt_skip)]

use crate::dates::Bounds;
use crate::nets::Order;

/// The link of an order of the calendar.
pub const CALENDAR: u16 = u16::MAX - 1;

/// The orders of the calendar, and how many nodes these have besides the points.
#[derive(Clone, Default)]
pub struct Calendar {
    pub orders: Vec<Order>,
    pub nodes: usize,
}

impl Calendar {
    /// That of times by their intervals, where there are so many points.
    pub fn of(times: &[(u16, Bounds)], points: usize) -> Calendar {
        let mut uppers: Vec<(i64, u16)> = Vec::with_capacity(2 * times.len());
        let mut lowers = uppers.clone();
        for &(interval, Bounds { low, high, is_exact }) in times {
            let (start, end) = (2 * interval, 2 * interval + 1);
            lowers.push((low, start));
            uppers.push((high, end));
            if is_exact {
                lowers.push((high, end));
                uppers.push((low, start));
            }
        }
        uppers.sort_unstable();
        lowers.sort_unstable();
        let mut numbers: Vec<i64> = uppers.iter().chain(&lowers).map(|&(number, _)| number).collect();
        numbers.sort_unstable();
        numbers.dedup();
        let nodes = Nodes { points, orders: Vec::with_capacity(6 * numbers.len()) };
        Calendar { orders: nodes.orders_of(&numbers, &uppers, &lowers), nodes: 2 * numbers.len() }
    }
}

struct Nodes {
    points: usize,
    orders: Vec<Order>,
}

impl Nodes {
    fn push(&mut self, first: u16, second: u16, strict: bool) {
        self.orders.push(Order { first, second, link: CALENDAR, nth: 0, strict });
    }

    /// The orders of sorted numbers, and of the points with upper and lower ones.
    fn orders_of(mut self, numbers: &[i64], mut uppers: &[(i64, u16)], mut lowers: &[(i64, u16)]) -> Vec<Order> {
        for (place, &number) in numbers.iter().enumerate() {
            let at = (self.points + 2 * place) as u16;
            let (past, next_past, is_last) = (at + 1, at + 3, place + 1 == numbers.len());
            let ends_at = uppers.first().is_some_and(|upper| upper.0 == number);
            while let Some((&(_, point), rest)) = uppers.split_first().filter(|(upper, _)| upper.0 == number) {
                self.push(point, at, false);
                uppers = rest;
            }
            while let Some((&(_, point), rest)) = lowers.split_first().filter(|(lower, _)| lower.0 == number) {
                self.push(at, point, false);
                self.push(past, point, false);
                lowers = rest;
            }
            if !is_last {
                self.push(past, next_past, false);
            }
            if ends_at && !is_last {
                self.push(at, next_past, true);
            }
        }
        self.orders
    }
}
