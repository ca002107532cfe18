//! One plan at many packet sizes in the comparison of the uplink: the encoder is
//! given the size, and the planner's plan doesn't depend on it.

use crate::gen::{self, Rng};
use crate::harness::{bare, equal, same, Run};
use crate::model::{self, Encoded, Plan, Planned, Step, Table};
use crate::{encode, information_of, lengths_of, library, plan};

/// The three sizes that are sent, then others round the powers of 2.
const SIZES: [usize; 17] =
    [64, 256, 1024, 1, 2, 3, 7, 63, 65, 100, 127, 128, 129, 511, 512, 513, 1023];

/// Sizes beyond the limits; of some the low 8, 16 or 32 bits are a size.
const WRONG: [usize; 14] = [
    0,
    1025,
    1026,
    1280,
    2048,
    65_536,
    65_600,
    1 << 32,
    1 << 32 | 64,
    1 << 62,
    1 << 63,
    1 << 63 | 64,
    usize::MAX - 63,
    usize::MAX,
];

pub fn wrong_size(rng: &mut Rng) -> usize {
    rng.pick(&WRONG)
}

fn read(words: &[u32]) -> Result<Plan, String> {
    model::read_plan(words).ok_or_else(|| "the plan isn't well-formed".to_string())
}

// ------------------------------------------------------- by byte positions

/// The bytes at one position of each packet.
fn at_position(packets: &[u8], size: usize, position: usize) -> Vec<u8> {
    packets.iter().skip(position).step_by(size).copied().collect()
}

/// Every position; of bare buffers the first, the last and one more.
fn positions(rng: &mut Rng, size: usize) -> Vec<usize> {
    if bare() {
        some_positions(rng, size)
    } else {
        (0..size).collect()
    }
}

fn some_positions(rng: &mut Rng, size: usize) -> Vec<usize> {
    vec![0, size - 1, rng.below(size)]
}

/// The block of random information at a size, if at each of these positions
/// block, scratch and count are the library's for the single bytes there.
fn by_positions(
    rng: &mut Rng,
    words: &[u32],
    size: usize,
    limit: usize,
    positions: &[usize],
) -> Result<Vec<u8>, String> {
    let p = read(words)?;
    let information = information_of(rng, &p, size);
    let whole = encode(rng, words, size, &information, lengths_of(&p, size), limit)?;
    same("refusal", &whole.0.refusal, &0)?;
    let (block, scratch) = (rng.bytes(p.n), rng.bytes(p.g));
    for position in positions.iter().copied() {
        let at = |packets: &[u8]| at_position(packets, size, position);
        let told = |what| format!("size {size}, limit {limit}, position {position}: {what}");
        let single = library(rng, words, 1, &at(&information), (&block, &scratch), limit);
        let single = single.map_err(told)?;
        same("single bytes, answer", &single.0, &whole.0).map_err(told)?;
        equal("single bytes, block", &single.1, &at(&whole.1)).map_err(told)?;
        equal("single bytes, scratch", &single.2, &at(&whole.2)).map_err(told)?;
    }
    Ok(whole.1)
}

/// A plan of a table at one size: position by position under each limit, and a
/// codeword after all steps.
fn at_size(t: &Table, words: &[u32], size: usize, limits: &[usize]) -> Result<(), String> {
    let rng = &mut Rng::new(16, size as u64);
    let positions = positions(rng, size);
    for limit in limits {
        by_positions(rng, words, size, *limit, &positions)?;
    }
    let block = by_positions(rng, words, size, usize::MAX, &positions)?;
    let table = model::table_words(t.n, size, &t.checks);
    same("codeword", &model::verify(&table, &block).codeword, &1)
}

// ----------------------------------------------------------------- planner

/// The library's answer and plan for the same checks with another size.
fn plan_with(rng: &mut Rng, t: &Table, s: usize) -> Result<(Planned, Vec<u32>), String> {
    let told = |what: String| format!("size {s}: {what}");
    plan(rng, &model::table_words(t.n, s, &t.checks)).map_err(told)
}

/// The planner's answer and plan are the same whatever the table's size, and a
/// size beyond the limits is refused.
fn one_plan(rng: &mut Rng, t: &Table, sizes: &[usize]) -> Result<(Planned, Vec<u32>), String> {
    let (answer, words) = plan_with(rng, t, t.s)?;
    for s in sizes {
        let (with, numbers) = plan_with(rng, t, *s)?;
        same(&format!("answer with size {s} and with {}", t.s), &with, &answer)?;
        equal(&format!("plan with size {s} and with {}", t.s), &numbers, &words)?;
    }
    for s in [0, 1025, 65_535] {
        same("answer", &plan_with(rng, t, s)?.0, &Planned::refused(2))?;
    }
    Ok((answer, words))
}

/// What the first section says.
fn first_section(t: &Table, answer: &Planned, words: &[u32]) -> Result<(), String> {
    same("refusal", &answer.refusal, &0)?;
    let n = t.n as u32;
    equal("first section", &words[..4], &[3, n, answer.gap, answer.kept])?;
    let information = n - answer.kept;
    same("information places", &words[4], &information)?;
    let steps = words[5 + information as usize];
    same("length", &answer.length, &(6 + information + steps))
}

// ------------------------------------------------------------ random cases

/// A size of the list; where the block would be large, mostly a small one.
fn listed_size(rng: &mut Rng, n: usize) -> usize {
    let size = rng.pick(&SIZES);
    if n * size > 60_000 && !rng.once_in(12) {
        rng.pick(&[1, 2, 3, 7])
    } else {
        size
    }
}

/// A plan, the planner's or a foreign one, at two sizes and under a limit.
fn positions_case(rng: &mut Rng) -> Result<(), String> {
    let table = gen::table(rng);
    let words = if rng.once_in(2) {
        gen::words_of_plan(&gen::foreign_plan(rng))
    } else {
        let (answer, words) = plan(rng, &gen::words(&table))?;
        if answer.refusal != 0 {
            return same("refusal", &answer.refusal, &6);
        }
        words
    };
    let p = read(&words)?;
    for _ in 0..2 {
        let size = listed_size(rng, p.n);
        let limit = match rng.below(3) {
            0 => usize::MAX,
            _ => rng.below(p.steps.len() + 2),
        };
        let positions = some_positions(rng, size);
        by_positions(rng, &words, size, limit, &positions)?;
    }
    Ok(())
}

fn one_plan_case(rng: &mut Rng) -> Result<(), String> {
    let t = gen::table(rng);
    let other = listed_size(rng, 1);
    one_plan(rng, &t, &[other]).map(|_| ())
}

pub fn random_case(rng: &mut Rng) -> Result<(), String> {
    if rng.once_in(4) {
        one_plan_case(rng)
    } else {
        positions_case(rng)
    }
}

// ------------------------------------------------------------- fixed cases

fn table(n: usize, checks: Vec<Vec<usize>>) -> Table {
    Table { n, s: 64, checks }
}

fn table_a() -> Table {
    table(7, vec![vec![0, 2, 4, 6], vec![1, 2, 5, 6], vec![3, 4, 5, 6]])
}

fn table_b() -> Table {
    let (n, checks) = gen::table_b();
    table(n, checks)
}

/// Whether checks are set aside, and the sizes: every one for small tables, those
/// that are sent for larger ones; fewer for bare buffers.
fn tables() -> Vec<(&'static str, Table, bool, &'static [usize])> {
    let regular = |n: usize, m: usize, seed: u64| {
        table(n, gen::regular(&mut Rng::new(16, seed), n, m, 3))
    };
    let staircase = |n: usize, m: usize, seed: u64| {
        table(n, gen::staircase(&mut Rng::new(16, seed), n, m, 3))
    };
    let every: &[usize] = if bare() { &[1, 7, 64, 65, 513] } else { &SIZES };
    let sent: &[usize] = if bare() { &[64] } else { &SIZES[..3] };
    vec![
        ("A", table_a(), false, every),
        ("B", table_b(), true, every),
        ("no check", table(3, vec![]), false, every),
        ("one place", table(1, vec![vec![0]]), false, every),
        ("regular 24", regular(24, 12, 1), true, every),
        ("regular 96", regular(96, 48, 2), true, every),
        ("staircase 64", staircase(64, 24, 3), false, every),
        ("regular 1,024", regular(1024, 512, 4), true, sent),
        ("staircase 1,024", staircase(1024, 512, 5), false, sent),
    ]
}

/// The plan of a table, made alike whatever its size.
fn planned_once(t: &Table, aside: bool) -> Result<Vec<u32>, String> {
    let others: &[usize] = if bare() { &[256] } else { &[1, 256, 1024] };
    let (answer, words) = one_plan(&mut Rng::new(16, 0), t, others)?;
    first_section(t, &answer, &words)?;
    same("checks set aside", &(answer.gap > 0), &aside)?;
    Ok(words)
}

fn table_cases(run: &mut Run) {
    for (name, t, aside, sizes) in tables() {
        let planned = planned_once(&t, aside);
        run.fixed(&format!("{name}, one plan"), planned.clone().map(|_| ()));
        let Ok(words) = planned else { continue };
        // Every limit of a short plan, two within a long one.
        let limits = match model::read_plan(&words).unwrap().steps.len() {
            count @ 0..=20 => (0..count).collect(),
            count => vec![count / 2, count - 1],
        };
        for size in sizes {
            run.fixed(&format!("{name}, size {size}"), at_size(&t, &words, *size, &limits));
        }
    }
}

/// A foreign plan of some length, with scratch.
fn long_plan(rng: &mut Rng) -> Vec<u32> {
    loop {
        let p = gen::foreign_plan(rng);
        if (100..400).contains(&p.steps.len()) && p.g > 0 && (20..200).contains(&p.n) {
            return gen::words_of_plan(&p);
        }
    }
}

/// Foreign plans, every position at every size.
fn foreign_cases(run: &mut Run) {
    let clear = Step::Clear;
    let add = |to: usize, from: usize| Step::Add { to, from };
    // Slots that are read before they are written, and cleared again and again.
    let steps = [
        add(4, 1),
        add(5, 4),
        add(0, 5),
        clear(4),
        add(4, 0),
        add(6, 3),
        add(2, 6),
        add(0, 2),
        clear(0),
        add(5, 6),
        add(2, 5),
        add(0, 4),
    ];
    let small = model::plan_words(5, 2, 3, &[1, 3], &steps);
    let rng = &mut Rng::new(16, 6);
    for (name, words) in [("small", small), ("long", long_plan(rng))] {
        let steps = model::read_plan(&words).unwrap().steps.len();
        for size in SIZES {
            for limit in [steps / 2, usize::MAX] {
                let positions = positions(rng, size);
                let got = by_positions(rng, &words, size, limit, &positions);
                run.fixed(&format!("foreign, {name}, size {size}"), got.map(|_| ()));
            }
        }
    }
}

/// The lengths of information, block and scratch.
type Lengths = [usize; 3];

fn lengths(p: &Plan, size: usize) -> Lengths {
    [p.n - p.kept, p.n, p.g].map(|packets| packets * size)
}

/// An encoding with buffers of these lengths is refused under every limit.
fn refused(words: &[u32], size: usize, lengths: Lengths, refusal: u32) -> Result<(), String> {
    let rng = &mut Rng::new(16, size as u64);
    let [information, block, scratch] = lengths;
    let information = rng.bytes(information);
    for limit in [0, 1, usize::MAX] {
        let (answer, ..) = encode(rng, words, size, &information, (block, scratch), limit)?;
        let name = format!("size {size}, lengths {lengths:?}");
        same(&name, &answer, &Encoded::refused(refusal))?;
    }
    Ok(())
}

/// Each of the three lengths one more and one less.
fn off_by_one(right: Lengths) -> Vec<Lengths> {
    let mut all = Vec::new();
    for i in 0..3 {
        for length in [right[i].wrapping_sub(1), right[i] + 1] {
            let mut wrong = right;
            wrong[i] = length;
            all.push(wrong);
        }
    }
    all.retain(|wrong| wrong.iter().all(|length| *length < usize::MAX));
    all
}

/// Lengths that are right for one size, for another in one buffer or in all, and
/// right ones but for a byte.
fn any_lengths(p: &Plan, size: usize) -> Vec<Lengths> {
    let right = lengths(p, size);
    let mut all = vec![right, [0; 3]];
    all.extend(off_by_one(right));
    for other in [1, 63, 64, 65, 256, 1024] {
        let by_other = lengths(p, other);
        all.push(by_other);
        for i in 0..3 {
            let mut wrong = right;
            wrong[i] = by_other[i];
            all.push(wrong);
        }
    }
    let [information, block, scratch] = right;
    all.push([block, information, scratch]);
    all.push([scratch, block, information]);
    all.push([information, block + scratch, 0]);
    all
}

/// Plans of B and ways to break them: whole ones of the old layout too.
fn broken_plans(right: &[u32]) -> Vec<(&'static str, Vec<u32>)> {
    let changed = |i: usize, value: u32| {
        let mut words = right.to_vec();
        words[i] = value;
        words
    };
    let old = |s: usize, first: u32| {
        let mut words = gen::old_layout(right, s);
        words[0] = first;
        words
    };
    let last = right.len() - 1;
    vec![
        ("no plan", vec![]),
        ("three words", right[..3].to_vec()),
        ("first word 2", changed(0, 2)),
        ("first word 4", changed(0, 4)),
        ("old layout, size 1", old(1, 4)),
        ("old layout, size 64", old(64, 4)),
        ("old layout, size 1,024", old(1024, 4)),
        ("old layout, size 0", old(0, 4)),
        ("old layout, first word 3", old(1, 3)),
        ("old layout, first word 3, size 64", old(64, 3)),
        ("n 0", changed(1, 0)),
        ("M one more", changed(3, right[3] + 1)),
        ("count of information", changed(4, right[4] + 1)),
        ("last step", changed(last, u32::MAX)),
        ("one word less", right[..last].to_vec()),
        ("one word more", [right, &[0]].concat()),
    ]
}

/// Refusals 2, 9 and 5, in that order, and that an old plan is no plan.
fn refusal_cases(run: &mut Run) {
    let rng = &mut Rng::new(16, 0);
    let planned = |rng: &mut Rng, t: &Table| plan(rng, &gen::words(t)).map(|planned| planned.1);
    let both = planned(rng, &table_a()).and_then(|a| planned(rng, &table_b()).map(|b| (a, b)));
    let (a, b) = match both {
        Ok(both) => both,
        Err(what) => return run.fixed("plans of A and B", Err(what)),
    };
    // Each packet count a multiple of 4, so that 2^62 bytes a packet wrap to none.
    let fours = model::plan_words(8, 4, 4, &[4, 5, 6, 7], &[Step::Add { to: 8, from: 4 }]);
    let whole = [("A", &a), ("B", &b), ("fours", &fours)];
    let broken = broken_plans(&b);

    for size in WRONG {
        let by_size = if size <= 2048 { size } else { 64 };
        for (name, words) in whole {
            let p = model::read_plan(words).unwrap();
            for lengths in any_lengths(&p, by_size) {
                run.fixed(&format!("{name}, 2 before 5"), refused(words, size, lengths, 2));
            }
        }
        let p = model::read_plan(&b).unwrap();
        for (name, words) in &broken {
            for lengths in [lengths(&p, by_size), [0; 3], [7; 3]] {
                run.fixed(&format!("{name}, 2 before 9"), refused(words, size, lengths, 2));
            }
        }
    }
    let sizes: &[usize] = if bare() { &[64] } else { &[1, 64, 256, 1024] };
    for size in sizes.iter().copied() {
        let p = model::read_plan(&b).unwrap();
        for (name, words) in &broken {
            for lengths in any_lengths(&p, size) {
                run.fixed(&format!("{name}, 9 before 5"), refused(words, size, lengths, 9));
            }
        }
        for (name, words) in whole {
            let p = model::read_plan(words).unwrap();
            let right = lengths(&p, size);
            for lengths in any_lengths(&p, size).into_iter().filter(|wrong| *wrong != right) {
                run.fixed(&format!("{name}, 5"), refused(words, size, lengths, 5));
            }
        }
    }
}

/// A plan with one number changed, under the lengths of the whole one and, where
/// it is well-formed still, under its own.
fn damaged(rng: &mut Rng, p: &Plan, words: &[u32], size: usize) -> Result<(), String> {
    let own = model::read_plan(words);
    for p in own.iter().chain([p]) {
        let information = information_of(rng, p, size);
        let limit = rng.pick(&[0, 1, usize::MAX]);
        encode(rng, words, size, &information, lengths_of(p, size), limit)?;
    }
    Ok(())
}

/// Every number of some plans changed: each bit, and to its neighbours and others.
fn damage_cases(run: &mut Run) {
    let rng = &mut Rng::new(16, 0);
    let of_table = |t: &Table| model::words_of_layout(t, &model::layout(t).unwrap());
    let old = gen::old_layout(&of_table(&table_b()), 2);
    for (name, t, words) in [
        ("A", table_a(), of_table(&table_a())),
        ("B", table_b(), of_table(&table_b())),
        ("B, old layout", table_b(), old),
    ] {
        let p = model::read_plan(&of_table(&t)).unwrap();
        for i in 0..words.len() {
            let number = words[i];
            let mut numbers: Vec<u32> = (0..32).map(|bit| number ^ 1 << bit).collect();
            numbers.extend([number.wrapping_sub(1), number.wrapping_add(1)]);
            numbers.extend([0, 1, 2, 3, 4, u32::MAX]);
            let mut result = Ok(());
            for other in numbers {
                let mut words = words.clone();
                words[i] = other;
                let told = |what| format!("changed to {other}: {what}");
                result = result.and(damaged(rng, &p, &words, 2).map_err(told));
            }
            run.fixed(&format!("{name}, number {i} changed"), result);
        }
    }
}

pub fn fixed_cases(run: &mut Run) {
    for part in [table_cases, foreign_cases, refusal_cases, damage_cases] {
        part(run);
    }
}
