//! How many checks are set aside in regular tables: by the old rule, which took
//! the live check of greatest weight, and by C-18's, which takes the one with the
//! most places that lie in exactly two live checks.
//!
//! By the old rule the model counts them, and plans by document 01's limit. By the
//! new one the library plans each table, and its answer and its plan are compared
//! with the model's. Beyond C-20's limit a stored plan of the old rule is refused.

#![allow(dead_code)]

#[path = "../tests/gen.rs"]
mod gen;
#[path = "../tests/model.rs"]
mod model;
mod uplink;

use gen::Rng;
use model::{Choice, Planned, Table};
use std::cmp::Ordering::{Equal, Greater, Less};
use uplink::LIBRARY;

/// n and m: large tables, and small ones, where the new rule can set aside more.
const SIZES: [(usize, usize); 2] = [(1024, 512), (64, 32)];

/// The checks that hold a place.
const COLUMN: usize = 3;

/// Every place in exactly three checks, every check with equally many places. A
/// socket that puts a place twice into a check is exchanged for another, until
/// there is none.
fn regular(rng: &mut Rng, n: usize, m: usize) -> Table {
    let mut sockets: Vec<usize> = (0..n * COLUMN).map(|i| i % m).collect();
    rng.shuffle(&mut sockets);
    let twice = |sockets: &[usize], i: usize| {
        let of_place = &sockets[i / COLUMN * COLUMN..][..COLUMN];
        of_place.iter().filter(|c| **c == sockets[i]).count() > 1
    };
    while let Some(i) = (0..sockets.len()).find(|i| twice(&sockets, *i)) {
        sockets.swap(i, rng.below(n * COLUMN));
    }
    let mut checks = vec![Vec::new(); m];
    for (i, c) in sockets.into_iter().enumerate() {
        checks[c].push(i / COLUMN);
    }
    assert!(checks.iter().all(|c| c.len() * m == n * COLUMN));
    Table { n, s: 1, checks }
}

/// What a rule makes of a table: the number of checks set aside, and the add steps
/// of the plan, if there is one.
struct Outcome {
    gap: usize,
    additions: Option<usize>,
}

fn gap(t: &Table, choice: Choice) -> usize {
    model::triangulate(t, &model::kept_checks(t), choice).1.len()
}

fn old_rule(t: &Table) -> Outcome {
    let layout = model::layout_by(t, Choice::Weight, model::OLD_MAX_GAP);
    let additions = layout.ok().map(|l| model::adds(&model::steps(t, &l)));
    Outcome { gap: gap(t, Choice::Weight), additions }
}

/// By the library. Where that refuses the table, the gap is the model's alone. An
/// error says what the two answer, if they differ.
fn new_rule(t: &Table) -> Result<Outcome, String> {
    let table = gen::words(t);
    let planned = |by: fn(&[u16], &mut [u32], &mut [u64]) -> Planned| {
        let mut plan = vec![7; model::PLAN_BUFFER];
        let answer = by(&table, &mut plan, &mut vec![7; model::WORK_BUFFER]);
        (answer, plan)
    };
    let (answer, plan) = planned(LIBRARY.plan);
    let (expected, words) = planned(model::plan);
    let gap = gap(t, Choice::Freed);
    let right = match answer.refusal {
        0 => answer.gap as usize == gap,
        6 => gap > model::MAX_GAP,
        _ => false,
    };
    if !right || answer != expected || plan != words {
        return Err(format!("library {answer:?}, model {expected:?} with gap {gap}"));
    }
    let additions = (answer.refusal == 0).then_some(answer.additions as usize);
    Ok(Outcome { gap, additions })
}

/// Least, median and largest.
fn spread(values: impl Iterator<Item = usize>) -> Option<[usize; 3]> {
    let mut values: Vec<usize> = values.collect();
    values.sort();
    let last = values.len().checked_sub(1)?;
    Some([values[0], values[last / 2], values[last]])
}

/// A line for a rule. The additions are the median of the tables that both accept.
fn print_rule(name: &str, rule: usize, tables: &[[Outcome; 2]]) {
    let of_rule = tables.iter().map(|both| &both[rule]);
    let [least, median, largest] = spread(of_rule.clone().map(|one| one.gap)).unwrap();
    let refused = of_rule.clone().filter(|one| one.additions.is_none()).count();
    let beyond = of_rule.filter(|one| one.gap > model::MAX_GAP).count();
    let accepted = tables.iter().filter(|both| both.iter().all(|one| one.additions.is_some()));
    let additions = spread(accepted.filter_map(|both| both[rule].additions));
    let additions = additions.map_or("-".to_string(), |[_, median, _]| median.to_string());
    let many = tables.len();
    println!(
        "{name:<16} {many:>6} {least:>6} {median:>7} {largest:>8} {refused:>10} {beyond:>7} {additions:>10}"
    );
}

/// A number that the program is given.
fn argument(i: usize, default: u64) -> u64 {
    std::env::args().nth(i).map_or(default, |word| word.parse().expect("a number"))
}

fn main() {
    let (many, seed) = (argument(1, 200).max(1), argument(2, 1));
    for (n, m) in SIZES {
        println!("regular tables, n {n}, m {m}, every place in {COLUMN} checks, seed {seed}");
        println!("rule             tables  least  median  largest  refused 6  over {:<2}  additions", model::MAX_GAP);
        let both = |case: u64| {
            let t = regular(&mut Rng::new(seed, case), n, m);
            let new = new_rule(&t).unwrap_or_else(|differ| {
                eprintln!("table {case}: {differ}");
                std::process::exit(1)
            });
            [old_rule(&t), new]
        };
        let tables: Vec<[Outcome; 2]> = (0..many).map(both).collect();
        print_rule("greatest weight", 0, &tables);
        print_rule("most freed", 1, &tables);
        let [smaller, equal, larger] = [Less, Equal, Greater].map(|order| {
            tables.iter().filter(|[old, new]| new.gap.cmp(&old.gap) == order).count()
        });
        println!("gap by the new rule: smaller {smaller}, equal {equal}, larger {larger}");
        println!("the library's answers and plans are the model's\n");
    }
}
