//! Benchmarks of the libraries' calls, as ratios within one run. Built with
//! --cfg uplink (plan, encode), --cfg receiver (repair, full repair, why, merge,
//! lengthen, verify), --cfg tables (make, read, write), or some of them.
//!
//! A round is one call of each kind in turn: the library's, the pure
//! exclusive-or of as many additions on hot packets, the same additions at
//! their places in the block, and plain Rust. A ratio is taken within a round;
//! its median over all rounds is given, and the tenth and ninetieth percentile.
//! With QUICK=1 there are fewer rounds.

#![allow(unexpected_cfgs, dead_code, unused_imports, unused_mut, unused_variables)]

mod calls;
#[path = "../tests/gen.rs"]
mod gen;
#[path = "../tests/model.rs"]
mod model;
mod plain;
mod rounds;
mod tuned;
#[cfg(uplink)]
mod uplink;

use calls::{Call, Lent};
use rounds::{flush, micros, millis, plan, rounds, table, with_size, Ratio, SIZES, TABLES};
use std::hint::black_box;
use std::time::{Duration, Instant};

/// Sources, packets, ones and seed of the tables to make: the largest, and a
/// usual one.
const MADE: [[usize; 4]; 2] = [[512, 1024, 10, 1], [800, 1000, 3, 12_345]];

/// The tables that are read and written as text: the largest, six ones a column
/// and twelve a row, and a staircase.
fn texts() -> [(&'static str, Vec<u16>); 2] {
    let row = |c: usize| {
        let mut row: Vec<usize> =
            (0..6).flat_map(|k| [(c + 85 * k) % 512, 512 + (c + 37 * k * k) % 512]).collect();
        row.sort();
        row
    };
    let checks: Vec<Vec<usize>> = (0..512).map(row).collect();
    let largest = model::table_words(1024, 64, &checks);
    assert_eq!(largest.len(), 5 + 512 + 6144);
    [("largest", largest), ("staircase", table("staircase", 1024, 512, 64))]
}

// ---------------------------------------------------------------- measuring

/// Microseconds, and the ratios to the pure exclusive-or on hot packets and
/// over the real block, and to plain Rust. Plan, full repair, make, read and
/// write have only the last; where peeling alone restores it is the ratio to
/// repair.
struct Figures {
    time: f64,
    limits: Option<[Ratio; 2]>,
    plain: Ratio,
}

/// The time of so many additions of hot packets of s bytes. A function of its
/// own, so that its code is the same whatever stands around it.
#[inline(never)]
fn hot_additions(additions: usize, s: usize) -> f64 {
    let from = black_box(vec![vec![0x5au8; s]; 4]);
    let mut to = black_box(vec![0u8; s]);
    let start = Instant::now();
    for i in 0..additions {
        plain::add(&mut to, &from[i % 4]);
        black_box(&mut to);
    }
    micros(start)
}

/// The time of one call, with the packets in the caches or without.
fn timed<C: Call + ?Sized>(call: &mut C, run: fn(&mut C), warm: bool) -> f64 {
    call.reset();
    if !warm {
        call.packets().into_iter().for_each(flush);
    }
    let start = Instant::now();
    run(call);
    micros(start)
}

/// Rounds for so long, each call with the packets in the caches or without.
fn measure(call: &mut dyn Call, s: usize, warm: bool, long: Duration) -> Figures {
    let additions = call.additions();
    let rounds = rounds(long, || {
        [
            timed(call, |call| call.library(), warm),
            hot_additions(additions, s),
            timed(call, |call| call.real(), warm),
            timed(call, |call| call.plain(), warm),
        ]
    });
    let to = |kind: usize| Ratio::of(rounds.iter().map(|times| times[0] / times[kind]));
    Figures {
        time: Ratio::of(rounds.iter().map(|times| times[0])).median,
        limits: (additions > 0).then(|| [to(1), to(2)]),
        plain: to(3),
    }
}

// --------------------------------------------------- tables and their calls

/// Plans don't depend on the size: plan is timed once. With few steps encode
/// alone is timed: what comes before them shows there. Full repair is timed for
/// the larger tables, with 45 % lost, where peeling stalls, and with 20 %, where
/// it alone restores.
fn calls_of(
    kind: &str,
    table: &[u16],
    planned: &(Vec<u32>, model::Planned),
) -> Vec<(&'static str, Box<dyn Call>)> {
    let mut calls: Vec<(&'static str, Box<dyn Call>)> = Vec::new();
    let all = kind != "few";
    let lent = || Lent::new(table, planned);
    #[cfg(uplink)]
    {
        let plan = calls::Plan::new(lent());
        if all && table[2] == 64 {
            calls.push(("plan", Box::new(plan)));
        }
        calls.push(("encode", Box::new(calls::Encode::new(lent()))));
    }
    #[cfg(receiver)]
    if all {
        for (name, share) in [("repair 10 %", 10), ("repair 20 %", 20), ("repair 30 %", 30)] {
            calls.push((name, Box::new(calls::Repair::new(lent(), share))));
        }
        if table[1] == 1024 && [64, 1024].contains(&table[2]) {
            for (name, share, peeled) in [("full 45 %", 45, false), ("peeled 20 %", 20, true)] {
                let call = calls::FullRepair::new(lent(), share, peeled);
                calls.push((name, Box::new(call)));
            }
        }
        calls.push(("verify", Box::new(calls::Verify::new(lent()))));
        calls.push(("wrong byte", Box::new(calls::Verify::wrong_byte(lent()))));
    }
    calls
}

// ---------------------------------------------------------- contradictions

/// By how much the packets that are wrong are off, and how many of a hundred
/// places are lost besides. One is wrong; two are, by something else; two are, by
/// the same, so that all checks that fail have the same sum.
const WRONG: [(&str, &[u8], usize); 6] = [
    ("one", &[1], 0),
    ("two", &[1, 2], 0),
    ("two alike", &[1, 1], 0),
    ("one", &[1], 20),
    ("two", &[1, 2], 20),
    ("two alike", &[1, 1], 20),
];

/// Microseconds, the ratio to the library's repair of the block as it was sent,
/// the ratio to plain Rust, and plain Rust's to its own repair of the block as
/// it was sent.
#[cfg(receiver)]
struct Contradiction {
    time: f64,
    to_sent: Ratio,
    to_plain: Ratio,
    plain_to_sent: Ratio,
}

#[cfg(receiver)]
fn measure_wrong(call: &mut calls::Wrong, long: Duration) -> Contradiction {
    let kinds: [(bool, fn(&mut calls::Wrong, bool)); 4] = [
        (true, calls::Wrong::library),
        (false, calls::Wrong::library),
        (true, calls::Wrong::plain),
        (false, calls::Wrong::plain),
    ];
    // Before each call the block is repaired as it was sent, so that its packets
    // are as warm for all four.
    let timed = |call: &mut calls::Wrong, (wrong, run): (bool, fn(&mut calls::Wrong, bool))| {
        call.reset(false);
        call.library(false);
        call.reset(wrong);
        let start = Instant::now();
        run(call, wrong);
        micros(start)
    };
    // Where one takes much longer than another, the machine takes more of it for
    // other things: a quarter of as long is what each takes at least.
    let times = kinds.map(|kind| (0..5).map(|_| timed(call, kind)).fold(f64::MAX, f64::min));
    let longest = times.into_iter().fold(0.0, f64::max);
    let many = times.map(|time| (longest / time / 4.0).max(1.0) as usize);
    let rounds = rounds(long, || {
        std::array::from_fn(|i| {
            (0..many[i]).map(|_| timed(call, kinds[i])).sum::<f64>() / many[i] as f64
        })
    });
    let ratio = |a: usize, b: usize| {
        Ratio::of(rounds.iter().map(|times: &[f64; 4]| times[a] / times[b]))
    };
    Contradiction {
        time: Ratio::of(rounds.iter().map(|times| times[0])).median,
        to_sent: ratio(0, 1),
        to_plain: ratio(0, 2),
        plain_to_sent: ratio(2, 3),
    }
}

// ------------------------------------------------------------------ merging

/// How many of a hundred places each of two listeners has lost, and whether there
/// are clashes. With 45 % lost by each about 20 % are silent, with clashes about
/// as many are silent or in clash.
const MERGES: [(&str, usize, bool); 3] =
    [("merge 0 %", 0, false), ("merge 45 %", 45, false), ("clashes 30 %", 30, true)];

/// Microseconds, and the ratios to plain Rust, to the library's repair of the
/// merged block after a copy of it, to comparing and copying a block that both
/// heard, and to the pure exclusive-or on hot packets.
#[cfg(receiver)]
struct Merging {
    time: f64,
    to_plain: Ratio,
    to_repair: Ratio,
    to_memory: Option<Ratio>,
    to_hot: Ratio,
}

#[cfg(receiver)]
fn measure_merge(call: &mut calls::Merge, s: usize, warm: bool, long: Duration) -> Merging {
    let additions = call.additions();
    let kinds: [fn(&mut calls::Merge); 4] = [
        calls::Merge::library,
        calls::Merge::plain,
        calls::Merge::copy_and_repair,
        calls::Merge::compare_and_copy,
    ];
    let rounds = rounds(long, || {
        let [library, plain, repair, memory] = kinds.map(|run| timed(call, run, warm));
        [library, plain, repair, memory, hot_additions(additions, s)]
    });
    let to = |kind: usize| Ratio::of(rounds.iter().map(|times| times[0] / times[kind]));
    Merging {
        time: Ratio::of(rounds.iter().map(|times| times[0])).median,
        to_plain: to(1),
        to_repair: to(2),
        to_memory: call.all_agreed().then(|| to(3)),
        to_hot: to(4),
    }
}

/// Merging on one table at one size; clashes, marks and cold blocks where it is
/// marked.
#[cfg(receiver)]
fn merges(
    report: &mut Report,
    kind: &str,
    name: &str,
    s: usize,
    marked: bool,
    lent: impl Fn() -> Lent,
) {
    for (call, share, clashes) in MERGES.into_iter().filter(|(.., clashes)| marked || !clashes) {
        let mut with = calls::Merge::new(lent(), share, clashes);
        let warm = measure_merge(&mut with, s, true, millis(if marked { 800 } else { 300 }));
        report.merge_row(name, call, "warm", s, &warm);
        if marked {
            for (to, mark, ratio) in marks_of_merge(call, s, &warm) {
                report.marks.push(mark_line(call, kind, s, to, mark, ratio));
            }
            let cold = measure_merge(&mut with, s, false, millis(300));
            report.merge_row(name, call, "cold", s, &cold);
        }
    }
}

// ---------------------------------------------------------- a longer table

/// How many of a hundred places are lost under the first half of the checks, and
/// how many don't arrive under all of them. The staircase has new places; the
/// regular table has only new checks.
const LENGTHENS: [(&str, usize, usize); 2] = [("longer, few", 20, 70), ("longer, many", 45, 45)];

/// Microseconds, how many places are restored, and the ratios to plain Rust, to
/// entering and the library's repair by the new table, and to the pure
/// exclusive-or on hot packets.
#[cfg(receiver)]
struct Lengthening {
    time: f64,
    restored: u32,
    to_plain: Ratio,
    to_repair: Ratio,
    to_hot: Ratio,
}

#[cfg(receiver)]
fn measure_lengthen(
    call: &mut calls::Lengthen,
    s: usize,
    warm: bool,
    long: Duration,
) -> Lengthening {
    let additions = call.additions();
    let kinds: [fn(&mut calls::Lengthen); 3] =
        [calls::Lengthen::library, calls::Lengthen::plain, calls::Lengthen::enter_and_repair];
    let rounds = rounds(long, || {
        let [library, plain, repair] = kinds.map(|run| timed(call, run, warm));
        [library, plain, repair, hot_additions(additions, s)]
    });
    let to = |kind: usize| Ratio::of(rounds.iter().map(|times| times[0] / times[kind]));
    Lengthening {
        time: Ratio::of(rounds.iter().map(|times| times[0])).median,
        restored: call.restored(),
        to_plain: to(1),
        to_repair: to(2),
        to_hot: to(3),
    }
}

/// Going on under a longer table, on one table at one size.
#[cfg(receiver)]
fn lengthens(report: &mut Report, kind: &str, name: &str, s: usize, lent: impl Fn() -> Lent) {
    for (call, share, missing) in LENGTHENS {
        let mut with = calls::Lengthen::new(lent(), share, missing);
        let warm = measure_lengthen(&mut with, s, true, millis(800));
        report.lengthen_row(name, call, "warm", s, &warm);
        for (to, mark, ratio) in marks_of_lengthen(&warm) {
            report.marks.push(mark_line(call, kind, s, to, mark, ratio));
        }
        let cold = measure_lengthen(&mut with, s, false, millis(300));
        report.lengthen_row(name, call, "cold", s, &cold);
    }
}

// --------------------------------------------------------------- the reason

/// The mark that full repair leaves at the place that is asked for. Half of the
/// places are lost.
const WHYS: [(&str, u8); 2] = [("why restored", 2), ("why lost", 1)];

/// Microseconds, how many numbers are listed, and the ratios to plain Rust and to
/// the library's full repair of the same block.
#[cfg(receiver)]
struct Explaining {
    time: f64,
    length: u32,
    to_plain: Ratio,
    to_full: Ratio,
}

#[cfg(receiver)]
fn measure_why(call: &mut calls::Why, warm: bool, long: Duration) -> Explaining {
    let kinds: [fn(&mut calls::Why); 3] =
        [calls::Why::library, calls::Why::plain, calls::Why::full_repair];
    let rounds = rounds(long, || kinds.map(|run| timed(call, run, warm)));
    let to = |kind: usize| Ratio::of(rounds.iter().map(|times| times[0] / times[kind]));
    Explaining {
        time: Ratio::of(rounds.iter().map(|times| times[0])).median,
        length: call.length(),
        to_plain: to(1),
        to_full: to(2),
    }
}

/// The reason for a restored and for a lost place, on one table at one size.
#[cfg(receiver)]
fn whys(report: &mut Report, kind: &str, name: &str, s: usize, lent: impl Fn() -> Lent) {
    for (call, mark) in WHYS {
        let mut with = calls::Why::new(lent(), 50, mark);
        let warm = measure_why(&mut with, true, millis(800));
        report.why_row(name, call, "warm", s, &warm);
        for (to, mark, ratio) in marks_of_why(&warm) {
            report.marks.push(mark_line(call, kind, s, to, mark, ratio));
        }
        let cold = measure_why(&mut with, false, millis(300));
        report.why_row(name, call, "cold", s, &cold);
    }
}

// -------------------------------------------------------------------- marks

/// The most that the ratios may be where n is 1,024 and the block is warm: to
/// the pure exclusive-or at s 64 and at s 1,024, and to plain Rust. Full repair
/// has its mark to plain elimination at s 1,024 only. Make, read and write have
/// their mark for each table.
fn marks_of(call: &str, kind: &str, s: usize) -> Option<(Option<[f64; 2]>, f64)> {
    match (call, kind) {
        ("plan", _) => Some((None, 1.3)),
        ("make", _) => Some((None, 3.0)),
        ("read", _) => Some((None, 6.5)),
        ("write", _) => Some((None, 2.5)),
        ("encode", "few") => Some((None, 0.8)),
        ("encode", "regular") => Some((Some([1.75, 1.35]), 0.75)),
        ("encode", _) => Some((Some([2.1, 1.6]), 0.85)),
        ("repair 20 %", _) => Some((Some([2.9, 1.6]), 0.8)),
        ("full 45 %", _) if s == 1024 => Some((None, 1.5)),
        ("peeled 20 %", _) => Some((None, 3.0)),
        ("verify", _) => Some((Some([1.15, 1.15]), 0.75)),
        _ => None,
    }
}

/// The most that repair with one wrong packet and 20 % lost may cost beside the
/// block as it was sent: at s 64 a repair a place.
fn mark_of_wrong(s: usize) -> f64 {
    if s == 64 { 1024.0 } else { 300.0 }
}

/// What the ratios of merging are to, the most that they may be, and the ratios.
/// To comparing and copying the mark is another at s 64 and at s 1,024.
#[cfg(receiver)]
fn marks_of_merge(call: &str, s: usize, of: &Merging) -> Vec<(&'static str, f64, Ratio)> {
    let plain = ("plain Rust", 0.9, of.to_plain);
    let memory = if s == 64 { 10.0 } else { 3.0 };
    match (call, of.to_memory) {
        ("merge 0 %", Some(ratio)) => vec![plain, ("compare, copy", memory, ratio)],
        ("merge 45 %", _) => vec![plain, ("copy, repair", 1.4, of.to_repair)],
        _ => Vec::new(),
    }
}

/// What the ratios of going on under a longer table are to, the most that they may
/// be, and the ratios.
#[cfg(receiver)]
fn marks_of_lengthen(of: &Lengthening) -> [(&'static str, f64, Ratio); 2] {
    [("plain Rust", 0.9, of.to_plain), ("enter, repair", 1.4, of.to_repair)]
}

/// What the ratios of a reason are to, the most that they may be, and the ratios.
#[cfg(receiver)]
fn marks_of_why(of: &Explaining) -> [(&'static str, f64, Ratio); 2] {
    [("plain Rust", 2.0, of.to_plain), ("full repair", 3.5, of.to_full)]
}

fn mark_line(call: &str, kind: &str, s: usize, to: &str, mark: f64, ratio: Ratio) -> String {
    let verdict = ratio.verdict(mark);
    format!("{call:<12} {kind:<10} {s:>5}  {to:<14} {mark:>7.2}  {ratio:<25} {verdict}")
}

/// A line for each mark of a call at s 64 or 1,024.
fn mark_lines(call: &str, kind: &str, s: usize, figures: &Figures) -> Vec<String> {
    let Some((limits, plain)) = marks_of(call, kind, s) else { return Vec::new() };
    let line = |to: &str, mark: f64, ratio: Ratio| mark_line(call, kind, s, to, mark, ratio);
    let by_limit = limits.zip(figures.limits).map(|(marks, [hot, _])| {
        line("pure xor", if s == 64 { marks[0] } else { marks[1] }, hot)
    });
    let to = match call {
        "plan" => "tuned planner",
        "peeled 20 %" => "repair",
        _ => "plain Rust",
    };
    by_limit.into_iter().chain([line(to, plain, figures.plain)]).collect()
}

// ------------------------------------------------------------------ the run

/// What is printed at the end.
#[derive(Default)]
struct Report {
    figures: Vec<String>,
    contradictions: Vec<String>,
    merges: Vec<String>,
    lengthens: Vec<String>,
    whys: Vec<String>,
    marks: Vec<String>,
}

impl Report {
    fn row(&mut self, table: &str, call: &str, block: &str, s: usize, of: &Figures) {
        let [hot, real] = match of.limits {
            Some(limits) => limits.map(|ratio| ratio.to_string()),
            None => ["-", "-"].map(String::from),
        };
        self.figures.push(format!(
            "{table:<18} {call:<12} {block:<5} {s:>5} {:>8.1}  {hot:<22} {real:<22} {}",
            of.time, of.plain
        ));
    }
    #[cfg(receiver)]
    fn wrong_row(&mut self, table: &str, wrong: &str, share: usize, s: usize, of: &Contradiction) {
        let Contradiction { time, to_sent, to_plain, plain_to_sent } = of;
        let line = format!("{table:<18} {wrong:<9} {share:>4} {s:>5} {time:>8.1}");
        let ratios = format!("{to_sent:<27} {to_plain:<27} {plain_to_sent}");
        self.contradictions.push(format!("{line}  {ratios}"));
    }
    #[cfg(receiver)]
    fn merge_row(&mut self, table: &str, call: &str, block: &str, s: usize, of: &Merging) {
        let Merging { time, to_plain, to_repair, to_memory, to_hot } = of;
        let to_memory = to_memory.map_or("-".to_string(), |ratio| ratio.to_string());
        let line = format!("{table:<18} {call:<12} {block:<5} {s:>5} {time:>8.1}");
        let ratios = format!("{to_plain:<22} {to_repair:<22} {to_memory:<27} {to_hot}");
        self.merges.push(format!("{line}  {ratios}"));
    }
    #[cfg(receiver)]
    fn lengthen_row(&mut self, table: &str, call: &str, block: &str, s: usize, of: &Lengthening) {
        let Lengthening { time, restored, to_plain, to_repair, to_hot } = of;
        let line = format!("{table:<18} {call:<12} {block:<5} {s:>5} {time:>8.1} {restored:>8}");
        self.lengthens.push(format!("{line}  {to_plain:<22} {to_repair:<22} {to_hot}"));
    }
    #[cfg(receiver)]
    fn why_row(&mut self, table: &str, call: &str, block: &str, s: usize, of: &Explaining) {
        let Explaining { time, length, to_plain, to_full } = of;
        let line = format!("{table:<18} {call:<12} {block:<5} {s:>5} {time:>8.1} {length:>7}");
        self.whys.push(format!("{line}  {to_plain:<22} {to_full}"));
    }
    fn print(&self) {
        println!(
            "\n{:<18} {:<12} {:<5} {:>5} {:>8}  {:<22} {:<22} {}",
            "table", "call", "block", "s", "us", "to pure xor", "to xor in block", "to plain Rust"
        );
        self.figures.iter().for_each(|line| println!("{line}"));
        println!(
            "\n{:<18} {:<9} {:>4} {:>5} {:>8}  {:<27} {:<27} {}",
            "table",
            "wrong",
            "lost",
            "s",
            "us",
            "to none wrong",
            "to plain Rust",
            "plain, to none wrong"
        );
        self.contradictions.iter().for_each(|line| println!("{line}"));
        println!(
            "\n{:<18} {:<12} {:<5} {:>5} {:>8}  {:<22} {:<22} {:<27} {}",
            "table",
            "call",
            "block",
            "s",
            "us",
            "to plain Rust",
            "to copy, repair",
            "to compare, copy",
            "to pure xor"
        );
        self.merges.iter().for_each(|line| println!("{line}"));
        println!(
            "\n{:<18} {:<12} {:<5} {:>5} {:>8} {:>8}  {:<22} {:<22} {}",
            "table",
            "call",
            "block",
            "s",
            "us",
            "restored",
            "to plain Rust",
            "to enter, repair",
            "to pure xor"
        );
        self.lengthens.iter().for_each(|line| println!("{line}"));
        println!(
            "\n{:<18} {:<12} {:<5} {:>5} {:>8} {:>7}  {:<22} {}",
            "table", "call", "block", "s", "us", "listed", "to plain Rust", "to full repair"
        );
        self.whys.iter().for_each(|line| println!("{line}"));
        println!(
            "\n{:<12} {:<10} {:>5}  {:<14} {:>7}  {:<25} {}",
            "call", "table", "s", "ratio to", "mark", "this run", "verdict"
        );
        self.marks.iter().for_each(|line| println!("{line}"));
    }
}

fn main() {
    let mut report = Report::default();
    let start = Instant::now();
    for (kind, n, m) in TABLES {
        let name = format!("{kind} {n} {m}");
        eprintln!("{:4} s: {name}", start.elapsed().as_secs());
        let large = n == 1024;
        // One table and one plan, used at each size.
        let table = table(kind, n, m, 1);
        let planned = plan(&table);
        for s in SIZES {
            let marked = large && [64, 1024].contains(&s);
            for (call, mut with) in calls_of(kind, &with_size(&table, s), &planned) {
                let warm = measure(&mut *with, s, true, millis(if marked { 2000 } else { 300 }));
                report.row(&name, call, "warm", s, &warm);
                if marked {
                    report.marks.extend(mark_lines(call, kind, s, &warm));
                }
                if large && call != "plan" {
                    let cold = measure(&mut *with, s, false, millis(300));
                    report.row(&name, call, "cold", s, &cold);
                }
            }
            #[cfg(receiver)]
            for (wrong, off, share) in WRONG {
                if marked && kind != "few" {
                    let lent = Lent::new(&with_size(&table, s), &planned);
                    let mut call = calls::Wrong::new(lent, share, off);
                    let figures = measure_wrong(&mut call, millis(800));
                    report.wrong_row(&name, wrong, share, s, &figures);
                    if (wrong, share) == ("one", 20) {
                        let (mark, ratio) = (mark_of_wrong(s), figures.to_sent);
                        let line = mark_line("one wrong", kind, s, "none wrong", mark, ratio);
                        report.marks.push(line);
                    }
                }
            }
            #[cfg(receiver)]
            if kind != "few" {
                let lent = || Lent::new(&with_size(&table, s), &planned);
                merges(&mut report, kind, &name, s, marked, lent);
                if marked {
                    lengthens(&mut report, kind, &name, s, lent);
                    whys(&mut report, kind, &name, s, lent);
                }
            }
        }
    }
    #[cfg(tables)]
    for set in MADE {
        let [sources, packets, ones, _] = set;
        let name = format!("{packets} {}", packets - sources);
        eprintln!("{:4} s: making {name}", start.elapsed().as_secs());
        let made = measure(&mut calls::Staircase::new(set), 64, true, millis(2000));
        report.row(&format!("{name}, ones {ones}"), "make", "-", 64, &made);
        report.marks.extend(mark_lines("make", &name, 64, &made));
    }
    #[cfg(tables)]
    for (kind, table) in texts() {
        let name = format!("{kind} 1024 512");
        eprintln!("{:4} s: text of {name}", start.elapsed().as_secs());
        let calls: [(&str, Box<dyn Call>); 2] = [
            ("read", Box::new(calls::AlistRead::new(&table))),
            ("write", Box::new(calls::AlistWrite::new(&table))),
        ];
        for (call, mut with) in calls {
            let figures = measure(&mut *with, 64, true, millis(2000));
            report.row(&name, call, "-", 64, &figures);
            report.marks.extend(mark_lines(call, kind, 64, &figures));
        }
    }
    eprintln!("{:4} s: done", start.elapsed().as_secs());
    report.print();
}
