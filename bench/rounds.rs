//! What is measured on, and how: tables by kind, rounds, and ratios within a round.

use crate::gen::{self, Rng};
use crate::{model, tuned};
use std::fmt;
use std::time::{Duration, Instant};

/// Kind, n and m. Half of the places hold information, scattered or in a row;
/// in the last table nearly all do, so that there are few steps.
pub const TABLES: [(&str, usize, usize); 5] = [
    ("regular", 1024, 512),
    ("staircase", 1024, 512),
    ("regular", 256, 128),
    ("staircase", 256, 128),
    ("few", 1024, 16),
];
pub const SIZES: [usize; 7] = [1, 17, 64, 100, 256, 1000, 1024];

/// A ratio over all rounds.
#[derive(Clone, Copy)]
pub struct Ratio {
    pub median: f64,
    pub low: f64,
    pub high: f64,
}

impl Ratio {
    pub fn of(values: impl Iterator<Item = f64>) -> Self {
        let mut values: Vec<f64> = values.collect();
        values.sort_by(f64::total_cmp);
        let at = |percent: usize| values[(values.len() - 1) * percent / 100];
        Ratio { median: at(50), low: at(10), high: at(90) }
    }
    /// A mark is the most that the median may be.
    pub fn verdict(&self, mark: f64) -> &'static str {
        if self.median <= mark { "holds" } else { "missed" }
    }
}

impl fmt::Display for Ratio {
    fn fmt(&self, f: &mut fmt::Formatter) -> fmt::Result {
        f.pad(&format!("{:.2} ({:.2} to {:.2})", self.median, self.low, self.high))
    }
}

pub fn micros(since: Instant) -> f64 {
    since.elapsed().as_secs_f64() * 1e6
}

/// With QUICK=1 rounds last a tenth as long.
pub fn millis(long: u64) -> Duration {
    let quick = std::env::var("QUICK").is_ok_and(|quick| quick == "1");
    Duration::from_millis(if quick { long / 10 } else { long })
}

/// Rounds for so long, without the first two, which find code and branches cold.
pub fn rounds<const KINDS: usize>(
    long: Duration,
    mut round: impl FnMut() -> [f64; KINDS],
) -> Vec<[f64; KINDS]> {
    let mut rounds = Vec::new();
    let start = Instant::now();
    while rounds.len() < 23 || start.elapsed() < long {
        rounds.push(round());
    }
    rounds.split_off(2)
}

/// The plan of a table, for every size, and the planner's answer.
pub fn plan(table: &[u16]) -> (Vec<u32>, model::Planned) {
    let mut plan = vec![0; model::PLAN_BUFFER];
    let planned = tuned::plan(table, &mut plan, &mut vec![0; model::WORK_BUFFER]);
    plan.truncate(planned.length as usize);
    (plan, planned)
}

/// Puts the bytes out of the caches.
pub fn flush(bytes: &[u8]) {
    use std::arch::x86_64::{_mm_clflush, _mm_mfence};
    unsafe {
        for line in bytes.chunks(64).chain(bytes.last().map(std::slice::from_ref)) {
            _mm_clflush(line.as_ptr());
        }
        _mm_mfence();
    }
}

/// The tables of a kind, by seed.
pub fn tables(kind: &str, n: usize, m: usize, s: usize) -> impl Iterator<Item = Vec<u16>> + '_ {
    (1..).map(move |seed| {
        let mut rng = Rng::new(seed, 0);
        let checks = match kind {
            "regular" => gen::regular(&mut rng, n, m, 3),
            "staircase" => gen::staircase(&mut rng, n, m, 3),
            // Few steps: checks of four places.
            "few" => (0..m).map(|_| rng.some_below(n, 4)).collect(),
            // Each packet twice: every other place is an information place.
            "pairs" => (0..m).map(|c| vec![2 * c, 2 * c + 1]).collect(),
            // Copies of table B side by side, a check set aside in each.
            "copies" => {
                let (_, mut checks) = gen::side_by_side(&vec![gen::table_b(); m / 3]);
                rng.shuffle(&mut checks);
                checks
            }
            _ => panic!("no such kind"),
        };
        model::table_words(n, s, &checks)
    })
}

/// The first table of a kind that the planner takes.
pub fn table(kind: &str, n: usize, m: usize, s: usize) -> Vec<u16> {
    tables(kind, n, m, s).find(|t| plan(t).1.refusal == 0).unwrap()
}

/// The same table with another packet size.
pub fn with_size(table: &[u16], s: usize) -> Vec<u16> {
    let mut other = table.to_vec();
    other[2] = s as u16;
    other
}
