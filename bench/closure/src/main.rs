//! The unproved counterpart of the crate `minplus`: a row of a matrix of 1,024 entries, and closures of 1,024 events, timed by
//! itself, with a line for each. Each line ends with a number that the proved program prints too.
use std::time::Instant;

/// Stands in a row for no path.
const ABSENT: i64 = i64::MAX;

const ENTRIES: usize = 1024;
const TURNS: u32 = 4000;
const EVENTS: usize = 1024;
const RULES: usize = 4096;

/// A maximum delay: the event `to` comes at most `weight` picoseconds after the event `from`.
struct Edge {
    from: usize,
    to: usize,
    weight: i64,
}

/// Makes each entry of a row the lesser of itself and the sum of `weight` and the entry at its place in another row.
#[inline(never)]
fn improve_row(entries: &mut [i64], others: &[i64], weight: i64) {
    for (entry, &other) in entries.iter_mut().zip(others) {
        if other < ABSENT {
            *entry = (*entry).min(other + weight);
        }
    }
}

/// The least sums of the ways between all pairs of events, or nothing where a loop has a negative sum.
fn closure(edges: &[Edge]) -> Option<Vec<i64>> {
    let mut rows = vec![ABSENT; EVENTS * EVENTS];
    for event in 0..EVENTS {
        rows[event * EVENTS + event] = 0;
    }
    for edge in edges {
        let entry = &mut rows[edge.from * EVENTS + edge.to];
        *entry = (*entry).min(edge.weight);
    }
    let mut through = vec![ABSENT; EVENTS];
    for event in 0..EVENTS {
        through.copy_from_slice(&rows[event * EVENTS..(event + 1) * EVENTS]);
        for row in rows.chunks_exact_mut(EVENTS) {
            let weight = row[event];
            if weight < ABSENT {
                improve_row(row, &through, weight);
            }
        }
        if (0..EVENTS).any(|k| rows[k * EVENTS + k] < 0) {
            return None;
        }
    }
    Some(rows)
}

/// Rules round times that are drawn up beforehand: event e comes at 7919 * e modulo 1000003.
fn edges(both_ways: bool) -> Vec<Edge> {
    let at = |event: usize| (event * 7919 % 1_000_003) as i64;
    let mut edges = Vec::new();
    for rule in 0..RULES {
        let a = rule % EVENTS;
        let b = (a + 1 + rule / EVENTS * 257) % EVENTS;
        let (from, to) = (a.min(b), a.max(b));
        let apart = at(to) - at(from);
        if both_ways {
            edges.push(Edge { from: to, to: from, weight: (rule * 31 % 5000) as i64 - apart });
        }
        edges.push(Edge { from, to, weight: apart + (rule * 17 % 5000) as i64 });
    }
    edges
}

fn time_rows() {
    let row = |first: i64| (0..ENTRIES as i64).map(|place| first + place % 8).collect::<Vec<i64>>();
    let (fresh, others) = (row(50), row(60));
    let mut entries = fresh.clone();
    for is_copy_alone in [true, false] {
        let begin = Instant::now();
        for turn in 0..TURNS {
            std::hint::black_box(&mut entries).copy_from_slice(&fresh);
            if !is_copy_alone {
                improve_row(&mut entries, &others, i64::from(turn % 16) - 16);
            }
        }
        let took = begin.elapsed().as_nanos();
        println!("row {} {took} {}", if is_copy_alone { "CopyAlone" } else { "Plain" }, entries[0]);
    }
}

fn main() {
    time_rows();
    for both_ways in [true, false] {
        let edges = edges(both_ways);
        let begin = Instant::now();
        let rows = closure(&edges);
        let took = begin.elapsed().as_nanos();
        let sum = rows.map(|rows| rows.iter().filter(|&&entry| entry < ABSENT).fold(0, |a: i64, &b| a.wrapping_add(b)));
        println!("closure {both_ways} {took} {}", sum.map_or("loop".to_string(), |sum| sum.to_string()));
    }
}
