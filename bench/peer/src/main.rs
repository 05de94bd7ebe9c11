//! An unproved program of the same search rule as `itv`, to compare with: it reads a network as lines of words, and prints the
//! greatest and the least separation of each row with times that attain it.
//!
//! `events N`, `lin FROM TO LOW HIGH`, `late TARGET COUNT (EVENT LOW HIGH)..`, `early ..`, `row FROM TO`; `*` is an open end.
//! With the word `levels` it reads nothing, and times levels of a graph.

mod levels;

use std::collections::hash_map::{Entry, HashMap};
use std::collections::VecDeque;
use std::fmt::Write as _;
use std::io::{self, Read, Write};

const END_LIMIT: i64 = 1_000_000_000_000;
const OPEN: i64 = i64::MAX;

#[derive(Clone, Copy, PartialEq)]
enum Kind {
    Lin,
    Late,
    Early,
}

struct Cause {
    event: usize,
    low: Option<i64>,
    high: Option<i64>,
}

struct Constraint {
    kind: Kind,
    target: usize,
    causes: Vec<Cause>,
}

impl Constraint {
    fn can_split(&self) -> bool {
        self.causes.len() > 1
    }

    /// The edge of a cause on the choice side: from, to, weight.
    fn choice(&self, cause: usize) -> Option<(usize, usize, i64)> {
        let c = &self.causes[cause];
        match self.kind {
            Kind::Early => c.low.map(|low| (self.target, c.event, -low)),
            _ => c.high.map(|high| (c.event, self.target, high)),
        }
    }

    fn is_met(&self, times: &[i64]) -> bool {
        let t = times[self.target];
        let low = |c: &Cause| c.low.is_none_or(|l| t >= times[c.event] + l);
        let high = |c: &Cause| c.high.is_none_or(|h| t <= times[c.event] + h);
        match self.kind {
            Kind::Lin => self.causes.iter().all(|c| low(c) && high(c)),
            Kind::Late => self.causes.iter().all(low) && self.causes.iter().any(high),
            Kind::Early => self.causes.iter().all(high) && self.causes.iter().any(low),
        }
    }
}

#[derive(Clone, Copy)]
struct Arc {
    to: usize,
    weight: i64,
}

struct Network {
    events: usize,
    constraints: Vec<Constraint>,
    rows: Vec<(usize, usize)>,
}

/// Labels with an undo log.
struct Labels {
    value: Vec<i64>,
    log: Vec<(usize, i64)>,
}

impl Labels {
    fn set(&mut self, event: usize, value: i64) {
        self.log.push((event, self.value[event]));
        self.value[event] = value;
    }

    fn undo(&mut self, mark: usize) {
        while self.log.len() > mark {
            if let Some((event, value)) = self.log.pop() {
                self.value[event] = value;
            }
        }
    }
}

/// Room for the search backwards from an event.
struct Scratch {
    at: Vec<usize>,
    reached: Vec<bool>,
    queue: Vec<usize>,
}

struct Level {
    constraint: usize,
    cause: usize,
    feasible: usize,
    source: usize,
    edge: Option<usize>,
}

struct Search<'n> {
    net: &'n Network,
    /// The numbers of the constraints with two or more causes. Times that meet all arcs meet the others.
    splits: Vec<usize>,
    arcs: Vec<Vec<Arc>>,
    into: Vec<Vec<usize>>,
    feasible: Labels,
    labels: Labels,
    levels: Vec<Level>,
    is_split: Vec<bool>,
    queue: Vec<usize>,
    waits: Vec<bool>,
    leaves: u64,
    budget: u64,
}

/// How a search for a bound ends.
enum End {
    Closed(i64),
    Unbounded,
    Within(i64, i64),
}

impl<'n> Search<'n> {
    fn new(net: &'n Network, budget: u64) -> Option<Search<'n>> {
        let mut arcs = vec![Vec::new(); net.events];
        let mut into = vec![Vec::new(); net.events];
        let mut places = HashMap::new();
        let mut add = |from: usize, to: usize, weight: i64| match places.entry((from, to)) {
            // Of the edges from one event to another only one of least weight counts.
            Entry::Occupied(place) => {
                let arc: &mut Arc = &mut arcs[from][*place.get()];
                arc.weight = arc.weight.min(weight);
            }
            Entry::Vacant(place) => {
                place.insert(arcs[from].len());
                arcs[from].push(Arc { to, weight });
                into[to].push(from);
            }
        };
        for c in &net.constraints {
            let both = !c.can_split();
            for cause in &c.causes {
                if both || c.kind == Kind::Early {
                    if let Some(high) = cause.high {
                        add(cause.event, c.target, high);
                    }
                }
                if both || c.kind == Kind::Late {
                    if let Some(low) = cause.low {
                        add(c.target, cause.event, -low);
                    }
                }
            }
        }
        let mut search = Search {
            net,
            splits: (0..net.constraints.len()).filter(|&n| net.constraints[n].can_split()).collect(),
            arcs,
            into,
            feasible: Labels { value: vec![0; net.events], log: Vec::new() },
            labels: Labels { value: vec![OPEN; net.events], log: Vec::new() },
            levels: Vec::new(),
            is_split: vec![false; net.constraints.len()],
            queue: Vec::new(),
            waits: vec![false; net.events],
            leaves: 0,
            budget,
        };
        search.settle_first().then_some(search)
    }

    /// The feasible labels of the always-edges, or false where these close a loop with a negative sum.
    fn settle_first(&mut self) -> bool {
        let events = self.net.events;
        let mut queue: VecDeque<usize> = (0..events).collect();
        let mut falls = vec![0; events];
        let mut waits = vec![true; events];
        while let Some(from) = queue.pop_front() {
            waits[from] = false;
            for &Arc { to, weight } in &self.arcs[from] {
                if self.feasible.value[from] + weight < self.feasible.value[to] {
                    self.feasible.value[to] = self.feasible.value[from] + weight;
                    falls[to] += 1;
                    if falls[to] > events {
                        return false;
                    }
                    if !waits[to] {
                        waits[to] = true;
                        queue.push_back(to);
                    }
                }
            }
        }
        true
    }

    /// Lets labels fall from the events that wait. `stop` is an event that must not fall.
    fn fall(&mut self, source: bool, stop: Option<usize>) -> bool {
        let mut first = 0;
        let mut fine = true;
        while first < self.queue.len() {
            let from = self.queue[first];
            first += 1;
            self.waits[from] = false;
            let base = if source { self.labels.value[from] } else { self.feasible.value[from] };
            for k in 0..self.arcs[from].len() {
                let Arc { to, weight } = self.arcs[from][k];
                let labels = if source { &mut self.labels } else { &mut self.feasible };
                if base + weight < labels.value[to] {
                    if stop == Some(to) {
                        fine = false;
                        break;
                    }
                    labels.set(to, base + weight);
                    if !self.waits[to] {
                        self.waits[to] = true;
                        self.queue.push(to);
                    }
                }
            }
            if !fine {
                break;
            }
        }
        for event in self.queue.drain(..) {
            self.waits[event] = false;
        }
        fine
    }

    fn start(&mut self, source: usize) {
        while self.retreat().is_some() {}
        self.leaves = 0;
        self.labels.value.fill(OPEN);
        self.labels.log.clear();
        self.labels.value[source] = 0;
        self.queue.push(source);
        self.waits[source] = true;
        self.fall(true, None);
        self.labels.log.clear();
        self.feasible.log.clear();
    }

    fn descend(&mut self, constraint: usize, cause: usize) -> bool {
        let (feasible, source) = (self.feasible.log.len(), self.labels.log.len());
        let edge = self.net.constraints[constraint].choice(cause);
        if let Some((from, to, weight)) = edge {
            if self.feasible.value[from] + weight < self.feasible.value[to] {
                self.feasible.set(to, self.feasible.value[from] + weight);
                self.arcs[from].push(Arc { to, weight });
                self.into[to].push(from);
                self.queue.push(to);
                self.waits[to] = true;
                if from == to || !self.fall(false, Some(from)) {
                    self.queue.clear();
                    self.waits.fill(false);
                    self.arcs[from].pop();
                    self.into[to].pop();
                    self.feasible.undo(feasible);
                    return false;
                }
            } else {
                self.arcs[from].push(Arc { to, weight });
                self.into[to].push(from);
            }
            let base = self.labels.value[from];
            if base != OPEN && base + weight < self.labels.value[to] {
                self.labels.set(to, base + weight);
                self.queue.push(to);
                self.waits[to] = true;
                self.fall(true, None);
            }
        }
        self.levels.push(Level { constraint, cause, feasible, source, edge: edge.map(|e| e.0) });
        self.is_split[constraint] = true;
        true
    }

    fn retreat(&mut self) -> Option<(usize, usize)> {
        let level = self.levels.pop()?;
        if let Some(from) = level.edge {
            if let Some(arc) = self.arcs[from].pop() {
                self.into[arc.to].pop();
            }
        }
        self.feasible.undo(level.feasible);
        self.labels.undo(level.source);
        self.is_split[level.constraint] = false;
        Some((level.constraint, level.cause))
    }

    /// The label of an event from the source, if it is a number.
    fn label(&self, event: usize) -> Option<i64> {
        Some(self.labels.value[event]).filter(|label| *label != OPEN)
    }

    /// Times that attain each label that is a number; the other events are put off.
    fn times(&self, out: &mut [i64]) {
        let mut off = i64::MIN / 4;
        for e in 0..self.net.events {
            if self.labels.value[e] != OPEN {
                off = off.max(self.labels.value[e] - self.feasible.value[e]);
            }
        }
        for e in 0..self.net.events {
            out[e] = if self.labels.value[e] == OPEN { self.feasible.value[e] + off } else { self.labels.value[e] };
        }
    }

    /// The constraint nearest to an event among those that are wanted.
    fn nearest(&self, scratch: &mut Scratch, to: usize, wanted: impl Fn(usize) -> bool) -> Option<usize> {
        let Scratch { at, reached, queue } = scratch;
        at.fill(usize::MAX);
        reached.fill(false);
        queue.clear();
        for &number in &self.splits {
            let c = &self.net.constraints[number];
            if wanted(number) {
                if c.kind == Kind::Early {
                    for cause in &c.causes {
                        at[cause.event] = at[cause.event].min(number);
                    }
                } else {
                    at[c.target] = at[c.target].min(number);
                }
            }
        }
        reached[to] = true;
        queue.push(to);
        let mut first = 0;
        while first < queue.len() {
            // The events of one distance.
            let ring = first..queue.len();
            let best = queue[ring.clone()].iter().map(|&e| at[e]).min().unwrap_or(usize::MAX);
            if best != usize::MAX {
                return Some(best);
            }
            first = ring.end;
            for place in ring {
                for &from in &self.into[queue[place]] {
                    if !reached[from] {
                        reached[from] = true;
                        queue.push(from);
                    }
                }
            }
        }
        None
    }

    /// The first constraint that times break, which meet all arcs.
    fn first_broken(&self, times: &[i64]) -> Option<usize> {
        self.splits.iter().copied().find(|&n| !self.net.constraints[n].is_met(times))
    }

    /// Continues to the next open case: false where none is left.
    fn next(&mut self, mut pending: Option<(usize, usize)>) -> bool {
        loop {
            if let Some((constraint, cause)) = pending {
                if cause < self.net.constraints[constraint].causes.len() {
                    if self.descend(constraint, cause) {
                        return true;
                    }
                    self.leaves += 1;
                    pending = Some((constraint, cause + 1));
                    continue;
                }
            }
            match self.retreat() {
                None => return false,
                Some((constraint, cause)) => pending = Some((constraint, cause + 1)),
            }
        }
    }

    fn find(&mut self, times: &mut [i64]) -> bool {
        while self.retreat().is_some() {}
        self.leaves = 0;
        loop {
            times.copy_from_slice(&self.feasible.value);
            match self.first_broken(times) {
                None => return true,
                Some(number) => {
                    if !self.next(Some((number, 0))) {
                        return false;
                    }
                }
            }
        }
    }

    /// The greatest separation; the times attain it, or what was found of it when the budget was used up.
    fn greatest(&mut self, from: usize, to: usize, known: &[i64], best: &mut [i64]) -> End {
        self.start(from);
        let root = self.labels.value[to];
        best.copy_from_slice(known);
        let mut value = known[to] - known[from];
        let mut times = vec![0; self.net.events];
        let mut scratch = Scratch {
            at: vec![usize::MAX; self.net.events],
            reached: vec![false; self.net.events],
            queue: Vec::with_capacity(self.net.events),
        };
        loop {
            if self.leaves >= self.budget {
                return End::Within(root, value);
            }
            let upper = self.labels.value[to];
            if upper != OPEN && upper <= value {
                self.leaves += 1;
                if !self.next(None) {
                    return End::Closed(value);
                }
                continue;
            }
            self.times(&mut times);
            if upper == OPEN {
                self.raise(&mut times, from, to, value);
            }
            let split = match self.first_broken(&times) {
                None if upper == OPEN => {
                    best.copy_from_slice(&times);
                    return End::Unbounded;
                }
                None => {
                    value = upper;
                    best.copy_from_slice(&times);
                    self.leaves += 1;
                    if !self.next(None) {
                        return End::Closed(value);
                    }
                    continue;
                }
                Some(first) if upper == OPEN => {
                    self.nearest(&mut scratch, to, |n| !self.is_split[n]).unwrap_or(first)
                }
                Some(first) => self
                    .nearest(&mut scratch, to, |n| !self.net.constraints[n].is_met(&times))
                    .unwrap_or(first),
            };
            if !self.next(Some((split, 0))) {
                return End::Closed(value);
            }
        }
    }

    fn raise(&self, times: &mut [i64], from: usize, to: usize, reach: i64) {
        let (mut lowest, mut highest) = (times[to], times[from]);
        for e in 0..times.len() {
            if self.labels.value[e] == OPEN {
                lowest = lowest.min(times[e]);
            } else {
                highest = highest.max(times[e]);
            }
        }
        let by = (highest - lowest + END_LIMIT + 1).max(reach - (times[to] - times[from])).max(0);
        for e in 0..times.len() {
            if self.labels.value[e] == OPEN {
                times[e] += by;
            }
        }
    }
}

fn read(text: &str) -> Network {
    let mut net = Network { events: 0, constraints: Vec::new(), rows: Vec::new() };
    for line in text.lines() {
        let mut words = line.split(' ');
        let word = words.next().unwrap_or("");
        let mut number = || words.next().and_then(|w| w.parse::<i64>().ok());
        match word {
            "events" => net.events = number().unwrap_or(0) as usize,
            "row" => {
                let (from, to) = (number().unwrap_or(0), number().unwrap_or(0));
                net.rows.push((from as usize, to as usize));
            }
            "lin" => {
                let (from, to) = (number().unwrap_or(0) as usize, number().unwrap_or(0) as usize);
                let (low, high) = (number(), number());
                net.constraints.push(Constraint {
                    kind: Kind::Lin,
                    target: to,
                    causes: vec![Cause { event: from, low, high }],
                });
            }
            "late" | "early" => {
                let target = number().unwrap_or(0) as usize;
                let count = number().unwrap_or(0);
                let causes = (0..count)
                    .map(|_| Cause { event: number().unwrap_or(0) as usize, low: number(), high: number() })
                    .collect();
                let kind = if word == "late" { Kind::Late } else { Kind::Early };
                net.constraints.push(Constraint { kind, target, causes });
            }
            _ => {}
        }
    }
    net
}

fn put_times(out: &mut String, times: &[i64], zero: i64) {
    out.push_str("times");
    for t in times {
        let _ = write!(out, " {}", t - zero);
    }
    out.push('\n');
}

fn put_bound(out: &mut String, word: &str, end: End, sign: i64) {
    let _ = match end {
        End::Closed(value) => writeln!(out, "{word} {}", sign * value),
        End::Unbounded => writeln!(out, "{word} unbounded"),
        End::Within(OPEN, value) => writeln!(out, "{word} within * found {}", sign * value),
        End::Within(root, value) => writeln!(out, "{word} within {} found {}", sign * root, sign * value),
    };
}

fn main() -> io::Result<()> {
    if std::env::args().nth(1).is_some_and(|word| word == "levels") {
        levels::time_all();
        return Ok(());
    }
    let mut text = String::new();
    io::stdin().read_to_string(&mut text)?;
    let net = read(&text);
    let budget = std::env::args().nth(1).and_then(|w| w.parse().ok()).unwrap_or(100_000);
    let mut out = String::new();
    let Some(mut search) = Search::new(&net, budget) else {
        println!("finding inconsistent");
        return Ok(());
    };
    let mut known = vec![0; net.events];
    if !search.find(&mut known) {
        println!("finding inconsistent");
        return Ok(());
    }
    let mut best = vec![0; net.events];
    let stdout = io::stdout();
    let mut sink = stdout.lock();
    for (number, &(from, to)) in net.rows.iter().enumerate() {
        out.clear();
        let _ = writeln!(out, "row {number}");
        let most = search.greatest(from, to, &known, &mut best);
        put_bound(&mut out, "max", most, 1);
        put_times(&mut out, &best, best[from]);
        let least = search.greatest(to, from, &known, &mut best);
        put_bound(&mut out, "min", least, -1);
        put_times(&mut out, &best, best[from]);
        sink.write_all(out.as_bytes())?;
    }
    Ok(())
}
