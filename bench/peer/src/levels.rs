//! Levels of a graph of 300 events: the same network and the same random steps as those of the proved program of `bench/levels`.

use std::time::Instant;

use crate::{Cause, Constraint, Kind, Network, Search};

const EVENTS: u32 = 300;
const ROUNDS: u32 = 100;

/// A source of numbers, with its seed: the linear congruences of Knuth's MMIX.
struct Chance(u64);

impl Chance {
    fn below(&mut self, most: u32) -> u32 {
        self.0 = self.0.wrapping_mul(6_364_136_223_846_793_005).wrapping_add(1_442_695_040_888_963_407);
        ((self.0 >> 33) as u32) % most
    }

    fn cause(&mut self, event: u32) -> Cause {
        let low = i64::from(self.below(500));
        let high = low + i64::from(self.below(900));
        Cause { event: event as usize, low: Some(low), high: Some(high) }
    }

    fn cause_in(&mut self, first: u32) -> Cause {
        let event = first + self.below(10);
        self.cause(event)
    }
}

/// Layers of ten events, each the latest of three of the layer before.
fn network(chance: &mut Chance) -> Network {
    let mut constraints = Vec::new();
    let mut add = |target: u32, causes| constraints.push(Constraint { kind: Kind::Late, target: target as usize, causes });
    for event in 1..10 {
        add(event, vec![chance.cause(0)]);
    }
    for event in 10..EVENTS {
        let before = event - event % 10 - 10;
        add(event, (0..3).map(|_| chance.cause_in(before)).collect());
    }
    Network { events: EVENTS as usize, constraints, rows: Vec::new() }
}

/// Goes down by an edge of each constraint, and back, so many times, and prints a line.
pub fn time_all() {
    let mut chance = Chance(17);
    let net = network(&mut chance);
    let Some(mut search) = Search::new(&net, 0) else {
        println!("no times");
        return;
    };
    search.start(0);
    let last = EVENTS as usize - 1;
    let (mut levels, mut loops, mut sum) = (0u64, 0u64, 0i64);
    let begin = Instant::now();
    for _ in 0..ROUNDS {
        for constraint in 0..net.constraints.len() {
            if !net.constraints[constraint].can_split() {
                continue;
            }
            if search.descend(constraint, chance.below(3) as usize) {
                levels += 1;
            } else {
                loops += 1;
            }
            let label = search.label(last);
            sum = sum.wrapping_add(label.unwrap_or(0));
        }
        while search.retreat().is_some() {}
    }
    println!("levels {} {levels} {loops} {sum}", begin.elapsed().as_nanos());
}
