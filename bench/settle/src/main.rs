//! Job settle's search as a plain Rust program: it reads a network as lines of words, as `bench/peer` does, and prints the greatest and
//! the least separation of each row.
//!
//! `settle [TURNS]`: each search takes at most so many turns, 100,000,000 without it.
// The modules that are made of the proved crates have more than is used here.
#![allow(dead_code, unused_imports, unused_labels, unused_variables)]

#[macro_use]
mod shim;
mod edge_clauses;
mod event_graph;
mod falling;
mod itv_base;
mod settle;

use crate::event_graph::{Cause, Constraint, Network};
use crate::itv_base::{EventId, Range, RuleKind};
use crate::settle::{Settled, Settler};
use std::io::{self, Read};

fn event(word: &str) -> EventId {
    EventId(word.parse().unwrap())
}

fn end(word: &str) -> Option<i64> {
    (word != "*").then(|| word.parse().unwrap())
}

fn cause(words: &[&str]) -> Cause {
    Cause { event: event(words[0]), range: Range { low: end(words[1]), high: end(words[2]) } }
}

fn read(text: &str) -> (Network, Vec<(EventId, EventId)>) {
    let mut net = Network { events: 0, constraints: Vec::new() };
    let mut rows = Vec::new();
    for line in text.lines() {
        let words: Vec<&str> = line.split(' ').collect();
        match words[0] {
            "events" => net.events = words[1].parse().unwrap(),
            "lin" => net.constraints.push(Constraint {
                kind: RuleKind::Lin,
                target: event(words[2]),
                causes: Vec::from([cause(&[words[1], words[3], words[4]])]),
            }),
            "row" => rows.push((event(words[1]), event(words[2]))),
            kind => net.constraints.push(Constraint {
                kind: if kind == "late" { RuleKind::Late } else { RuleKind::Early },
                target: event(words[1]),
                causes: words[3..].chunks(3).map(cause).collect(),
            }),
        }
    }
    (net, rows)
}

fn main() {
    let turns = std::env::args().nth(1).map_or(100_000_000, |word| word.parse().unwrap());
    let mut text = String::new();
    io::stdin().read_to_string(&mut text).unwrap();
    let (net, rows) = read(&text);
    let settler = Settler::new(shim::Global, &net).unwrap();
    for (from, to) in rows {
        for (which, a, b, sign) in [("max", from, to, 1), ("min", to, from, -1)] {
            match settler.greatest(shim::Global, &net, a, b, turns).unwrap().answer {
                Settled::Closed(value) => println!("{which} {}", sign * value),
                Settled::Unbounded => println!("{which} unbounded"),
                Settled::Inconsistent => println!("finding inconsistent"),
                Settled::Spent => println!("{which} spent"),
            }
        }
    }
}
