//! Planning and encoding by two builds of the uplink's library, as ratios within
//! one run.
//!
//! A round is one call of each on the same buffers; the one that comes first in
//! one round comes last in the next.
//!
//! Planning: the builds may plan a table differently, as before and after C-18.
//! Both accept it, and each gives the same plan in all rounds. How many checks of
//! a table are set aside is chance: the rounds of several tables of a kind are
//! put together.
//!
//! Encoding: a plan is made once and used at each size, by both. A block is cold
//! if block, scratch and information were flushed from the caches before each
//! call; the plan stays. Before anything is timed answer, block and scratch of
//! both are compared.
//!
//! Both builds have the call with the size, that is, since C-16. An older one has
//! another call and another plan, and can't be measured here.

#![allow(dead_code)]

#[path = "../tests/gen.rs"]
mod gen;
#[path = "../tests/model.rs"]
mod model;
mod plain;
mod rounds;
mod tuned;
#[macro_use]
mod uplink;

use gen::Rng;
use rounds::{flush, micros, millis, plan, rounds, table, tables, Ratio, SIZES, TABLES};
use std::time::{Duration, Instant};
use uplink::{Build, LIBRARY};

build!(BEFORE, "before", before_bs_plan, before_bs_encode);

/// The later build and the earlier one.
const BUILDS: [Build; 2] = [LIBRARY, BEFORE];

/// Times of both builds in each round.
fn measure(long: Duration, mut timed: impl FnMut(usize) -> f64) -> Vec<[f64; 2]> {
    let mut first = 1;
    rounds(long, || {
        first = 1 - first;
        let mut times = [0.0; 2];
        for build in [first, 1 - first] {
            times[build] = timed(build);
        }
        times
    })
}

/// The time of the later build, and its ratio to the earlier one.
fn figures(times: &[[f64; 2]]) -> (f64, Ratio) {
    let time = Ratio::of(times.iter().map(|times| times[0])).median;
    (time, Ratio::of(times.iter().map(|times| times[0] / times[1])))
}

// ----------------------------------------------------------------- planning

/// Beside the tables of the other benchmarks: as many checks set aside as may be.
const COPIES: (&str, usize, usize) = ("copies", 4 * model::MAX_GAP, 3 * model::MAX_GAP);

/// So many tables of a kind.
const MANY: usize = 8;

/// The most that planning may take beside the earlier build, on regular and
/// staircase tables.
const MARK: f64 = 1.3;

/// A table that both builds accept, the answer and the plan of each, and what is
/// lent.
struct Planning {
    table: Vec<u16>,
    made: [(model::Planned, Vec<u32>); 2],
    plan: Vec<u32>,
    work: Vec<u64>,
}

impl Planning {
    fn new(table: Vec<u16>) -> Option<Self> {
        let (mut plan, mut work) = (vec![7; model::PLAN_BUFFER], vec![7; model::WORK_BUFFER]);
        let made = BUILDS.map(|build| {
            let answer = (build.plan)(&table, &mut plan, &mut work);
            (answer, plan[..answer.length as usize].to_vec())
        });
        let accepted = made.iter().all(|(answer, _)| answer.refusal == 0);
        accepted.then_some(Planning { table, made, plan, work })
    }
    fn timed(&mut self, build: usize) -> f64 {
        let Planning { table, made, plan, work } = self;
        let start = Instant::now();
        let answer = (BUILDS[build].plan)(table, plan, work);
        let time = micros(start);
        let (expected, words) = &made[build];
        assert!(answer == *expected && plan.starts_with(words), "another plan");
        time
    }
}

/// The gaps are medians over the tables.
fn compare_planning() {
    println!(
        "{:<18} {:>6} {:>10} {:>7} {:>8}  {:<22} {:>4}  verdict",
        "table", "tables", "gap before", "gap now", "us", "plan, now to before", "mark"
    );
    for (kind, n, m) in TABLES.into_iter().chain([COPIES]) {
        let mut some: Vec<Planning> =
            tables(kind, n, m, 1).filter_map(Planning::new).take(MANY).collect();
        let gap = |build: usize| {
            Ratio::of(some.iter().map(|with| with.made[build].0.gap as f64)).median
        };
        let gaps = format!("{:>10} {:>7}", gap(1), gap(0));
        let long = millis(4000) / MANY as u32;
        let times: Vec<[f64; 2]> =
            some.iter_mut().flat_map(|with| measure(long, |build| with.timed(build))).collect();
        let (time, ratio) = figures(&times);
        let verdict = match kind {
            "regular" | "staircase" => format!("{MARK:.2}  {}", ratio.verdict(MARK)),
            _ => format!("{:>4}", "-"),
        };
        let table = format!("{kind} {n} {m}");
        println!("{table:<18} {MANY:>6} {gaps} {time:>8.1}  {ratio:<22} {verdict}");
    }
}

// ----------------------------------------------------------------- encoding

/// Beside the tables of the other benchmarks: no step at all, and every other
/// place an information place, so that no two stand together.
const MORE: [(&str, usize, usize); 2] = [("few", 1024, 0), ("pairs", 1024, 512)];

struct Lent {
    plan: Vec<u32>,
    size: usize,
    information: Vec<u8>,
    block: Vec<u8>,
    scratch: Vec<u8>,
}

impl Lent {
    fn new(plan: &[u32], size: usize) -> Self {
        let p = model::read_plan(plan).unwrap();
        let information = Rng::new(1, 1).bytes((p.n - p.kept) * size);
        let (block, scratch) = (vec![7; p.n * size], vec![7; p.g * size]);
        Lent { plan: plan.to_vec(), size, information, block, scratch }
    }
    fn encode(&mut self, build: usize) -> model::Encoded {
        let Lent { plan, size, information, block, scratch } = self;
        (BUILDS[build].encode)(plan, *size, information, block, scratch)
    }
    fn timed(&mut self, build: usize, warm: bool) -> f64 {
        if !warm {
            [&self.block, &self.scratch, &self.information].into_iter().for_each(|b| flush(b));
        }
        let start = Instant::now();
        self.encode(build);
        micros(start)
    }
    /// Answer, block and scratch, whatever they held.
    fn outcome(&mut self, build: usize) -> (model::Encoded, Vec<u8>, Vec<u8>) {
        self.block.fill(7);
        self.scratch.fill(7);
        (self.encode(build), self.block.clone(), self.scratch.clone())
    }
}

fn compare_encoding() {
    println!("{:<18} {:<5} {:>5} {:>8}  encode, now to before", "table", "block", "s", "us");
    let mut slower = Vec::new();
    for (kind, n, m) in TABLES.into_iter().chain(MORE) {
        let (plan, _) = plan(&table(kind, n, m, 1));
        for s in SIZES {
            let mut lent = Lent::new(&plan, s);
            assert!(lent.outcome(0) == lent.outcome(1), "another outcome");
            for (block, warm) in [("warm", true), ("cold", false)] {
                let times = measure(millis(1000), |build| lent.timed(build, warm));
                let (time, ratio) = figures(&times);
                let line = format!("{:<18} {block:<5} {s:>5}", format!("{kind} {n} {m}"));
                println!("{line} {time:>8.1}  {ratio}");
                if ratio.low > 1.0 {
                    slower.push(line);
                }
            }
        }
    }
    println!("\nslower in nine rounds of ten: {}", slower.len());
    slower.iter().for_each(|line| println!("{line}"));
}

fn main() {
    compare_planning();
    println!();
    compare_encoding();
}
