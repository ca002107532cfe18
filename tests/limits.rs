//! How many checks are set aside and how many steps a plan has, in the comparison of
//! the uplink: as many as are allowed are planned and run, one more is refused, and so
//! is all that only document 01's limits allowed.

use crate::aside::{copies, runs, star};
use crate::gen::{self, Rng};
use crate::harness::{bare, equal, holds, same, Met, Run};
use crate::model::{self, Choice, Encoded, Plan, Planned, Step, Table};
use crate::model::{MAX_GAP, MAX_STEPS, OLD_MAX_GAP, OLD_MAX_STEPS};
use crate::{encode, encode_limits, information_of, known, lengths_of, plan, plan_into, planned};
use crate::{refused, sizes, Known};

// ------------------------------------------------- what random cases come upon

static PLANNED: Met = Met::new("a table with as many set aside as are taken");
static NOT_PLANNED: Met = Met::new("a table with one more set aside");
static GAP_RUN: Met = Met::new("a plan with as much scratch as is taken");
static GAP_REFUSED: Met = Met::new("a plan that is refused for one slot more");
static STEPS_RUN: Met = Met::new("a plan with as many steps as are taken");
static STEPS_REFUSED: Met = Met::new("a plan that is refused for one step more");
static BOTH_RUN: Met = Met::new("a plan with as much of both as is taken");

pub static ALL_MET: [&Met; 7] =
    [&PLANNED, &NOT_PLANNED, &GAP_RUN, &GAP_REFUSED, &STEPS_RUN, &STEPS_REFUSED, &BOTH_RUN];

/// A table that was planned, or refused.
pub fn count_planned(table: &[u16], answer: &Planned) {
    PLANNED.count_if(answer.refusal == 0 && answer.gap as usize == MAX_GAP);
    if answer.refusal == 6 {
        NOT_PLANNED.count_if(model::gap(&model::look_over(table).unwrap()) == MAX_GAP + 1);
    }
}

/// A plan that was carried out, or refused.
pub fn count_encoded(words: &[u32], answer: &Encoded) {
    let within = |gap: usize, steps: usize| model::read_plan_within(words, gap, steps).is_some();
    let count = |i: usize| words.get(i).map_or(0, |word| *word as usize);
    let (g, steps) = (count(2), words.len().saturating_sub(6 + count(4)));
    match answer.refusal {
        0 => {
            GAP_RUN.count_if(g == MAX_GAP);
            STEPS_RUN.count_if(steps == MAX_STEPS);
            BOTH_RUN.count_if(g == MAX_GAP && steps == MAX_STEPS);
        }
        9 if g == MAX_GAP + 1 => GAP_REFUSED.count_if(within(g, MAX_STEPS)),
        9 if steps == MAX_STEPS + 1 => STEPS_REFUSED.count_if(within(MAX_GAP, steps)),
        _ => {}
    }
}

// ----------------------------------------------------- plans beyond the limits

/// Whether a plan has more scratch or more steps than are taken.
pub fn passed(words: &[u32]) -> bool {
    let steps = words.len() - 6 - words[4] as usize;
    words[2] as usize > MAX_GAP || steps > MAX_STEPS
}

/// A plan that nothing but a limit refuses.
fn read_beyond(words: &[u32]) -> Result<Plan, String> {
    holds("beyond a limit", passed(words))?;
    let p = model::read_plan_within(words, usize::MAX, usize::MAX);
    p.ok_or_else(|| "the plan has another fault".to_string())
}

/// Such a plan is refused with 9 however few steps were to be carried out, with scratch
/// for its g, for the most that is taken, or none; block and scratch are kept.
pub fn beyond(rng: &mut Rng, words: &[u32], size: usize) -> Result<(), String> {
    let p = read_beyond(words)?;
    let information = information_of(rng, &p, size);
    let most = usize::MAX;
    for (scratch, limit) in [(p.g, 0), (p.g, MAX_STEPS), (p.g, most), (MAX_GAP, most), (0, most)] {
        let lengths = (p.n * size, scratch * size);
        let (answer, ..) = encode(rng, words, size, &information, lengths, limit)?;
        same("answer", &answer, &Encoded::refused(9))?;
    }
    Ok(())
}

/// The plan of a table, however many checks are set aside.
fn unlimited_plan(t: &Table) -> Vec<u32> {
    model::words_of_layout(t, &model::layout_by(t, Choice::Freed, usize::MAX).unwrap())
}

// ------------------------------------------------------------ random cases

/// A table's own plan runs. Where too many checks are set aside there is none, and the
/// one that there would be is refused.
fn table_case(rng: &mut Rng) -> Result<(), String> {
    let t = gen::limit_table(rng);
    let (answer, words) = plan(rng, &gen::words(&t))?;
    if answer.refusal == 0 {
        runs(rng, &t, &words, t.s)?;
        return Ok(());
    }
    same("answer", &answer, &Planned::refused(6))?;
    beyond(rng, &unlimited_plan(&t), t.s)
}

fn plan_case(rng: &mut Rng) -> Result<(), String> {
    let words = gen::words_of_plan(&gen::limit_plan(rng));
    let n = words[1] as usize;
    let size = gen::foreign_size(rng, n);
    if passed(&words) {
        beyond(rng, &words, size)
    } else {
        encode_limits(rng, &words, size).map(|_| ())
    }
}

pub fn random_case(rng: &mut Rng) -> Result<(), String> {
    if rng.once_in(2) {
        table_case(rng)
    } else {
        plan_case(rng)
    }
}

// ------------------------------------------------------------- fixed cases

/// Packet sizes.
const SIZES: [usize; 5] = [3, 1, 64, 65, 1024];

/// Limits on the steps that are carried out.
const LIMITS: [usize; 5] = [0, MAX_STEPS - 1, MAX_STEPS, MAX_STEPS + 1, usize::MAX];

/// All of a list, the first alone for bare buffers.
fn some<T>(list: &[T]) -> &[T] {
    &list[..if bare() { 1 } else { list.len() }]
}

pub fn copies_of_b(many: usize) -> Table {
    copies(gen::table_b(), many)
}

/// What is answered for copies of B.
fn answer_of(copies: u32) -> Planned {
    Planned {
        refusal: 0,
        length: 6 + 16 * copies,
        kept: 3 * copies,
        ones: 9 * copies,
        gap: copies,
        additions: 9 * copies,
    }
}

/// Refused, whatever work holds. The plan is kept.
fn refused_copies(many: usize) -> Result<(), String> {
    let table = gen::words(&copies_of_b(many));
    refused(&table, 6)?;
    for word in [0, 1, u64::MAX] {
        let rng = &mut Rng::new(20, word);
        let (plan, work) = (vec![7; model::PLAN_BUFFER], vec![word; model::WORK_BUFFER]);
        let (answer, after) = plan_into(rng, &table, &plan, &work)?;
        same("answer", &answer, &Planned::refused(6))?;
        equal("plan", &after, &plan)?;
    }
    Ok(())
}

/// Of each copy the first place is fitted and the second carries a packet, which comes
/// to the third and fourth too.
fn twenty_copies() -> Result<(), String> {
    let places = |first: usize| -> Vec<usize> { (0..20).map(|copy| 4 * copy + first).collect() };
    let aside: Vec<usize> = (0..20).map(|copy| 3 * copy).collect();
    let packets: Vec<u8> = (0..20).map(|copy| 0xa5 ^ copy).collect();
    let block: Vec<u8> = packets.iter().flat_map(|packet| [0, *packet, *packet, *packet]).collect();
    known(&Known {
        name: "20 copies of B",
        table: &gen::words(&copies_of_b(20)),
        aside: &aside,
        information: &places(1),
        fitted: &places(0),
        packets: &packets,
        block: &block,
        additions: 180,
    })
}

fn copies_cases(run: &mut Run) {
    for many in [1, 19, 20] {
        let got = planned(&copies_of_b(many), answer_of(many as u32));
        run.fixed(&format!("{many} copies of B"), got);
    }
    let mut twice = copies_of_b(20);
    twice.checks.extend(twice.checks.clone());
    run.fixed("20 copies of B, each check twice", planned(&twice, answer_of(20)));
    for many in [21, 22, 32, 33, 64, 170] {
        run.fixed(&format!("{many} copies of B"), refused_copies(many));
    }
    run.fixed("20 copies of B, block", twenty_copies());
    for size in some(&SIZES) {
        let t = copies_of_b(20);
        let rng = &mut Rng::new(20, 0);
        let got = plan(rng, &gen::words(&t)).and_then(|(_, words)| runs(rng, &t, &words, *size));
        run.fixed(&format!("20 copies of B, size {size}"), got.map(|_| ()));
    }
    // Planned once, by the limit that there was.
    for many in [21, 22, 32] {
        let got = beyond(&mut Rng::new(20, 0), &unlimited_plan(&copies_of_b(many)), 3);
        run.fixed(&format!("{many} copies of B, stored"), got);
    }
}

/// The lengths of buffers are what they were.
fn buffer_cases(run: &mut Run) {
    let tables = [("20 copies of B", copies_of_b(20)), ("filled", gen::filled(20))];
    let buffers = [
        (15_360, 8_192, 0),
        (15_361, 8_192, 0),
        (15_359, 8_192, 5),
        (15_360 - (OLD_MAX_STEPS - MAX_STEPS), 8_192, 5),
        (6 + 1_024 + MAX_STEPS, 8_192, 5),
        (15_360, 8_191, 5),
        (15_360, 8_193, 5),
    ];
    for (name, t) in some(&tables) {
        for (plan, work, refusal) in buffers {
            let rng = &mut Rng::new(20, 0);
            let got = plan_into(rng, &gen::words(t), &vec![7; plan], &vec![9; work]);
            let name = format!("{name}, plan of {plan}, work of {work}");
            run.fixed(&name, got.and_then(|got| same("refusal", &got.0.refusal, &refusal)));
        }
    }
    for (copies, size) in [(1, 1), (19, 3), (20, 1), (20, 3), (20, 64)] {
        let words = unlimited_plan(&copies_of_b(copies));
        let right = copies * size;
        for scratch in [right, right - 1, right + 1, 0, 20 * size, 21 * size, 32 * size] {
            let rng = &mut Rng::new(20, 0);
            let information = rng.bytes(copies * size);
            let lengths = (4 * copies * size, scratch);
            let got = encode(rng, &words, size, &information, lengths, usize::MAX);
            let refusal = if scratch == right { 0 } else { 5 };
            let name = format!("{copies} copies of B, size {size}, scratch of {scratch}");
            run.fixed(&name, got.and_then(|got| same("refusal", &got.0.refusal, &refusal)));
        }
    }
}

/// A plan of a table has 2W + 2g steps and one for each one of the inverse, less the ones
/// of the checks set aside and those at fitted places. Here W and g are the largest, the
/// inverse has the most ones, and these are few: hardly a plan can have more steps.
fn longest_plan() -> Result<(), String> {
    let t = gen::filled(20);
    let rng = &mut Rng::new(20, 0);
    let (answer, words) = plan(rng, &gen::words(&t))?;
    same("counts", &(answer.kept, answer.ones, answer.gap), &(512, 6_144, 20))?;
    same("steps", &(words.len() - 6 - 512), &(2 * 6_144 + 2 * 20 + 381 - 40 - 60))?;
    for size in [1, 3] {
        runs(rng, &t, &words, size)?;
    }
    Ok(())
}

/// The same with the gap that was allowed: more steps than are taken, too.
fn longest_stored_plan() -> Result<(), String> {
    let t = gen::filled(OLD_MAX_GAP);
    let rng = &mut Rng::new(20, 0);
    refused(&gen::words(&t), 6)?;
    let words = unlimited_plan(&t);
    let p = model::read_plan_within(&words, OLD_MAX_GAP, OLD_MAX_STEPS);
    holds("ran before", p.is_some_and(|p| p.steps.len() > MAX_STEPS))?;
    beyond(rng, &words, 3)
}

const CLEAR: Step = Step::Clear(0);
const ADD: Step = Step::Add { to: 0, from: 1 };

/// So many times the same step, on two places of which the second carries information.
fn repeated(step: Step, count: usize) -> Vec<u32> {
    model::plan_words(2, 0, 1, &[1], &vec![step; count])
}

/// What is left at the first place: nothing, or the packet after an odd number of
/// additions.
fn repeats(step: Step, count: usize, size: usize) -> Result<(), String> {
    let rng = &mut Rng::new(20, size as u64);
    let packet = rng.bytes(size);
    let words = repeated(step, count);
    for limit in LIMITS {
        let adds = if step == ADD { count.min(limit) } else { 0 };
        let (answer, block, _) = encode(rng, &words, size, &packet, (2 * size, 0), limit)?;
        same("answer", &answer, &Encoded { refusal: 0, additions: adds as u32 })?;
        let first = if adds % 2 == 1 { packet.clone() } else { vec![0; size] };
        equal("block", &block, &[first, packet.clone()].concat())?;
    }
    Ok(())
}

/// A plan of which some steps are carried out: block, scratch and count.
fn within(p: &Plan, size: usize) -> Result<(), String> {
    let words = gen::words_of_plan(p);
    let rng = &mut Rng::new(20, size as u64);
    let information = information_of(rng, p, size);
    for limit in LIMITS {
        let (answer, ..) = encode(rng, &words, size, &information, lengths_of(p, size), limit)?;
        let adds = model::adds(&p.steps[..limit.min(p.steps.len())]);
        same("answer", &answer, &Encoded { refusal: 0, additions: adds as u32 })?;
    }
    Ok(())
}

/// 2 comes before 9, and 9 before 5.
fn order(words: &[u32]) -> Result<(), String> {
    let p = read_beyond(words)?;
    let rng = &mut Rng::new(20, 0);
    let size = 2;
    let (block, scratch) = lengths_of(&p, size);
    let information = (p.n - p.kept) * size;
    for (information, block, scratch) in [
        (information, block, scratch),
        (information + 1, block, scratch),
        (information, block - 1, scratch),
        (information, block, scratch + 1),
        (information, block, MAX_GAP * size + 1),
        (0, 0, 0),
    ] {
        let information = rng.bytes(information);
        for (size, refusal) in [(size, 9), (sizes::wrong_size(rng), 2)] {
            let lengths = (block, scratch);
            let (answer, ..) = encode(rng, words, size, &information, lengths, usize::MAX)?;
            same("answer", &answer, &Encoded::refused(refusal))?;
        }
    }
    Ok(())
}

/// Names, and plans of 40 places, 4 of them with information.
fn plans_with(gaps: &[usize], counts: &[usize]) -> Vec<(String, Plan)> {
    let rng = &mut Rng::new(20, 0);
    let mut plans = Vec::new();
    for g in gaps {
        for count in counts {
            plans.push((format!("g {g}, {count} steps"), gen::plan_of(rng, 40, *g, 36, *count)));
        }
    }
    plans
}

const GAPS_BEYOND: [usize; 4] = [MAX_GAP + 1, MAX_GAP + 2, OLD_MAX_GAP, OLD_MAX_GAP + 1];
const STEPS_BEYOND: [usize; 4] = [MAX_STEPS + 1, MAX_STEPS + 2, OLD_MAX_STEPS, OLD_MAX_STEPS + 1];

fn within_cases(run: &mut Run) {
    let mut plans = plans_with(&[MAX_GAP], &[MAX_STEPS]);
    plans.extend(plans_with(&[MAX_GAP], &[MAX_STEPS - 1, 50, 0]));
    plans.extend(plans_with(&[MAX_GAP - 1, 0], &[MAX_STEPS, 50]));
    for (name, p) in some(&plans) {
        for size in some(&SIZES) {
            run.fixed(&format!("{name}, size {size}"), within(p, *size));
        }
    }
    for (name, step) in [("clear", CLEAR), ("add", ADD)] {
        for count in some(&[MAX_STEPS, MAX_STEPS - 1]) {
            for size in some(&SIZES) {
                let name = format!("{count} steps of {name}, size {size}");
                run.fixed(&name, repeats(step, *count, *size));
            }
        }
    }
}

/// The last slot of the most scratch is one, and the next isn't.
fn slot_cases(run: &mut Run) {
    let slot = 40 + MAX_GAP;
    for (last, refusal) in [(slot - 1, 0), (slot, 9)] {
        let add = |to: usize, from: usize| Step::Add { to, from };
        for step in [Step::Clear(last), add(last, 0), add(0, last)] {
            let words = model::plan_words(40, MAX_GAP, 40, &[], &[step]);
            let got = encode(&mut Rng::new(20, 0), &words, 3, &[], (120, 3 * MAX_GAP), 1);
            let got = got.and_then(|got| same("refusal", &got.0.refusal, &refusal));
            run.fixed(&format!("most scratch, {step:?}"), got);
        }
    }
}

fn beyond_cases(run: &mut Run) {
    let mut plans = plans_with(&GAPS_BEYOND, some(&[50, 0, MAX_STEPS, MAX_STEPS + 1]));
    plans.extend(plans_with(&[MAX_GAP, 0], some(&STEPS_BEYOND)));
    let mut words: Vec<(String, Vec<u32>)> =
        plans.into_iter().map(|(name, p)| (name, gen::words_of_plan(&p))).collect();
    for count in some(&STEPS_BEYOND).iter().copied() {
        words.push((format!("{count} steps of clear"), repeated(CLEAR, count)));
        words.push((format!("{count} steps of add"), repeated(ADD, count)));
    }
    // No step names the slot that is too many.
    for g in GAPS_BEYOND {
        let few = model::plan_words(40, g, 40, &[], &[CLEAR, Step::Add { to: 39, from: 40 }]);
        words.push((format!("g {g}, little of it used"), few));
    }
    for (name, words) in &words {
        for size in some(&[3, 1]) {
            run.fixed(name, beyond(&mut Rng::new(20, 0), words, *size));
        }
        run.fixed(&format!("{name}, order"), order(words));
    }
}

/// A star, whose checks are all linked, beside copies of B.
fn star_and_copies(groups: usize, copies: usize) -> Result<(), String> {
    let star = star(groups);
    let b = copies_of_b(copies);
    let (n, checks) = gen::side_by_side(&[(star.n, star.checks), (b.n, b.checks)]);
    let t = Table { n, s: 1, checks };
    let gap = groups - 1 + copies;
    same("gap", &model::gap(&t), &gap)?;
    let rng = &mut Rng::new(20, 0);
    let (answer, words) = plan(rng, &gen::words(&t))?;
    if gap <= MAX_GAP {
        return runs(rng, &t, &words, 3).map(|_| ());
    }
    same("answer", &answer, &Planned::refused(6))?;
    beyond(rng, &unlimited_plan(&t), 3)
}

fn star_cases(run: &mut Run) {
    for (groups, copies) in [(19, 1), (19, 2), (21, 0), (21, 1), (23, 0), (33, 0), (33, 1)] {
        let name = format!("star of {groups} groups, {copies} copies of B");
        run.fixed(&name, star_and_copies(groups, copies));
    }
}

pub fn fixed_cases(run: &mut Run) {
    let most = 2 * model::MAX_ONES + MAX_GAP * (MAX_GAP + 1);
    run.fixed("as many steps as a table can need", same("most steps", &MAX_STEPS, &most));
    if !bare() {
        let largest = gen::plan_of(&mut Rng::new(20, 1), 1024, MAX_GAP, 512, MAX_STEPS);
        run.fixed("most places, checks, scratch and steps", within(&largest, 1));
        run.fixed("a plan of many steps", longest_plan());
        run.fixed("a stored plan of many steps", longest_stored_plan());
    }
    for part in [copies_cases, buffer_cases, within_cases, slot_cases, beyond_cases, star_cases] {
        part(run);
    }
}
