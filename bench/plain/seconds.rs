//! The command `seconds`, of documents whose times have no dates and no lengths: the least ranks of a timeline are a
//! placing, and a closed walk backwards is a negative cycle.

#![cfg_attr(rustfmt, rustfmt_skip)]

use crate::judge::Judged;
use crate::nets::{Components, Graph, Net};
use crate::print::push_number;
use crate::solve::{closed_walk, push_ranks, push_steps};
use crate::{Answer, CLASH};

pub fn seconds(document: &Judged) -> Answer {
    let net = Net::of(document);
    let graph = Graph::of(&net);
    let mut out = b"tml-seconds 1\n".to_vec();
    let status = match Components::of(&graph) {
        Ok(components) => {
            out.extend_from_slice(b"placing ");
            push_number(&mut out, net.intervals, b'\n');
            push_ranks(&mut out, &components.least(&graph));
            0
        }
        Err(strict) => {
            let walk = closed_walk(&graph, strict);
            out.extend_from_slice(b"cycle ");
            push_number(&mut out, walk.len(), b'\n');
            push_steps(&mut out, walk.iter().rev());
            CLASH
        }
    };
    out.extend_from_slice(b"end\n");
    (status, out)
}
