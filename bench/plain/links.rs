//! The commands `reduce` and `score`: a link is left out where the others give its
//! orders.

#![cfg_attr(rustfmt, rustfmt_skip)]

use crate::calendar::CALENDAR;
use crate::check::push_link;
use crate::closure::Closure;
use crate::judge::Judged;
use crate::nets::{Components, Graph, Net, NetLink, Order, SPAN};
use crate::print::push_number;
use crate::solve::clash;
use crate::{Answer, CLASH};

/// A net and what follows from it, with the links that are left out so far. What follows without these is the same.
struct Reduction<'a> {
    net: &'a Net,
    graph: &'a Graph,
    closure: &'a Closure,
    left_out: Vec<bool>,
    /// Of each point the last search within a component that met it.
    met: Vec<u32>,
    searches: u32,
    queue: Vec<u16>,
}

impl Reduction<'_> {
    /// The numbers of the links that do not follow from the others that are kept.
    fn kept(mut self) -> Vec<u16> {
        let links = self.net.links.len() as u16;
        for link in 0..links {
            self.left_out[link as usize] = true;
            self.left_out[link as usize] = self.net.links[link as usize].orders(link).all(|order| self.follows(order));
        }
        (0..links).filter(|&link| !self.left_out[link as usize]).collect()
    }

    #[inline(always)]
    fn component(&self, point: u16) -> usize {
        self.closure.components.of[point as usize] as usize
    }

    #[inline(always)]
    fn is_kept(&self, order: &Order) -> bool {
        order.link >= CALENDAR || !self.left_out[order.link as usize]
    }

    /// Whether an order follows without the links that are left out.
    fn follows(&mut self, order: Order) -> bool {
        let component = self.component(order.first);
        if component == self.component(order.second) {
            return self.leads_within(order.first, order.second);
        }
        let (graph, closure) = (self.graph, self.closure);
        closure.components.members(component).iter().flat_map(|&point| graph.from(point)).any(|step| self.begins(component, order, step))
    }

    /// Whether a walk that gives an order, and leaves the component where this begins, can begin with a step. What follows
    /// from there on does so without the link itself, since no walk comes back to its beginning.
    #[inline(always)]
    fn begins(&self, component: usize, order: Order, step: &Order) -> bool {
        let next = self.component(step.second);
        let strict = order.strict && !step.strict;
        next != component && self.is_kept(step) && self.closure.after.has(next, order.second, strict)
    }

    /// Whether a walk within a component leads from one point of it to another.
    fn leads_within(&mut self, first: u16, second: u16) -> bool {
        self.searches += 1;
        self.queue.clear();
        self.queue.push(first);
        self.met[first as usize] = self.searches;
        let (graph, component) = (self.graph, self.component(first));
        let mut next = 0;
        while let Some(&point) = self.queue.get(next) {
            if point == second {
                return true;
            }
            next += 1;
            for step in graph.from(point) {
                if self.met[step.second as usize] != self.searches && self.component(step.second) == component && self.is_kept(step) {
                    self.met[step.second as usize] = self.searches;
                    self.queue.push(step.second);
                }
            }
        }
        false
    }
}

/// What follows from a net, and which links are kept; or a strict order inside a component.
fn reduced(net: &Net, graph: &Graph) -> Result<(Closure, Vec<u16>), Order> {
    let closure = Closure::of(Components::of(graph)?, graph);
    let reduction = Reduction {
        net, graph, closure: &closure, left_out: vec![false; net.links.len()], met: vec![0; graph.nodes()], searches: 0, queue: Vec::new(),
    };
    let kept = reduction.kept();
    Ok((closure, kept))
}

pub fn reduce(document: &Judged) -> Answer {
    let net = Net::of(document);
    let graph = Graph::of(&net);
    let kept = match reduced(&net, &graph) {
        Ok((_, kept)) => kept,
        Err(strict) => return clash(&net, &graph, strict),
    };
    let mut out = b"reduced ".to_vec();
    push_number(&mut out, kept.len(), b' ');
    out.extend_from_slice(b"of ");
    push_number(&mut out, net.links.len(), b'\n');
    for number in kept {
        push_link(&mut out, document.judge.source, number as usize, &document.judge.links[number as usize]);
    }
    (0, out)
}

/// How many of the links of one document that are kept follow in another one, and how many there are.
fn matched(document: &Judged, kept: &[u16], other: &Judged, closure: &Closure) -> String {
    let source = document.judge.source;
    let follows = |number: &&u16| {
        let link = &document.judge.links[**number as usize];
        let number_of = |name| other.table.interval_of(other.judge.source, source, name);
        let (Some(left), Some(right)) = (number_of(link.left), number_of(link.right)) else { return false };
        NetLink { left, relation: link.relation, right }.orders(SPAN).all(|order| closure.says(order))
    };
    format!("{} of {}", kept.iter().filter(follows).count(), kept.len())
}

/// The scores of a document and a key.
pub fn score(document: &Judged, key: &Judged) -> Answer {
    let nets = [Net::of(document), Net::of(key)];
    let graphs = nets.each_ref().map(Graph::of);
    let (closure, kept) = match reduced(&nets[0], &graphs[0]) {
        Ok(found) => found,
        Err(strict) => return clash(&nets[0], &graphs[0], strict),
    };
    let Ok((of_key, kept_of_key)) = reduced(&nets[1], &graphs[1]) else { return (CLASH, b"key clash\n".to_vec()) };
    let (precision, recall) = (matched(document, &kept, key, &of_key), matched(key, &kept_of_key, document, &closure));
    (0, format!("precision {precision}\nrecall {recall}\n").into_bytes())
}
