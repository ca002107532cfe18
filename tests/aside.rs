//! Which check is set aside, in the comparison of the uplink: the planner takes the
//! one that frees the most places, and plans that were stored under document 01's
//! rule still run, but for those beyond the limits of C-20.

use crate::gen::{self, Rng};
use crate::harness::{bare, equal, same, Met, Run};
use crate::limits::{self, beyond};
use crate::model::{self, Choice, Layout, Planned, Table};
use crate::{carried, encode, encode_limits, known, known_block, known_layout, lengths_of};
use crate::{plan, planned, refused, Known, OLD_GAP_3, TABLE_B};

/// Document 01's layout of a table. More than OLD_MAX_GAP checks set aside made no plan.
fn old_layout(t: &Table) -> Result<Layout, u32> {
    model::layout_by(t, Choice::Weight, model::OLD_MAX_GAP)
}

/// The plan that was stored for a table: by document 01's rule, in C-16's layout.
fn stored_plan(t: &Table) -> Result<Vec<u32>, u32> {
    old_layout(t).map(|l| model::words_of_layout(t, &l))
}

/// The block that a plan of a table makes at a size, under limits too. After all
/// steps it is a codeword.
pub fn runs(rng: &mut Rng, t: &Table, words: &[u32], size: usize) -> Result<Vec<u8>, String> {
    let block = encode_limits(rng, words, size)?;
    let table = model::table_words(t.n, size, &t.checks);
    same("codeword", &model::verify(&table, &block).codeword, &1)?;
    Ok(block)
}

// ------------------------------------------------------------ random cases

pub static STORED_RUN: Met = Met::new("a stored plan that runs");
pub static STORED_REFUSED: Met = Met::new("a stored plan beyond the limits");

/// The block of the new plan, and again by the stored plan from the packets that
/// lie at its information places.
fn planned_case(rng: &mut Rng) -> Result<(), String> {
    let t = gen::gap_table(rng);
    let (answer, words) = plan(rng, &gen::words(&t))?;
    if answer.refusal != 0 {
        return same("refusal", &answer.refusal, &6);
    }
    let block = runs(rng, &t, &words, t.s)?;
    let Ok(stored) = stored_plan(&t) else { return Ok(()) };
    if limits::passed(&stored) {
        return beyond(rng, &stored, t.s);
    }
    let p = model::read_plan(&stored).ok_or("the stored plan isn't well-formed")?;
    let information = carried(&p, &block, t.s);
    let lengths = lengths_of(&p, t.s);
    let (_, again, _) = encode(rng, &stored, t.s, &information, lengths, usize::MAX)?;
    equal("block by the stored plan", &again, &block)
}

/// A stored plan at two sizes; mostly one that the new rule doesn't make.
fn stored_case(rng: &mut Rng) -> Result<(), String> {
    let (t, words) = loop {
        let t = match rng.below(8) {
            0 | 1 => gen::table(rng),
            2 => gen::limit_table(rng),
            _ => gen::gap_table(rng),
        };
        if let Ok(words) = stored_plan(&t) {
            break (t, words);
        }
    };
    let passed = limits::passed(&words);
    STORED_RUN.count_if(!passed);
    STORED_REFUSED.count_if(passed);
    for size in [t.s, gen::size(rng, t.n)] {
        if passed {
            beyond(rng, &words, size)?;
        } else {
            runs(rng, &t, &words, size)?;
        }
    }
    Ok(())
}

pub fn random_case(rng: &mut Rng) -> Result<(), String> {
    if rng.once_in(2) {
        planned_case(rng)
    } else {
        stored_case(rng)
    }
}

// ------------------------------------------------------------- fixed cases

/// What is worked out of a table by hand: checks set aside, own places in the order
/// of taking, and the checks that document 01's rule set aside.
struct Chosen {
    name: &'static str,
    t: Table,
    aside: Vec<usize>,
    own: Vec<usize>,
    old: Vec<usize>,
}

fn table(n: usize, checks: Vec<Vec<usize>>) -> Table {
    Table { n, s: 1, checks }
}

fn by_hand<const M: usize>(n: usize, checks: [&[usize]; M]) -> Table {
    table(n, checks.map(|c| c.to_vec()).to_vec())
}

pub fn copies((n, checks): (usize, Vec<Vec<usize>>), many: usize) -> Table {
    let (n, checks) = gen::side_by_side(&vec![(n, checks); many]);
    table(n, checks)
}

/// A ring of 260 checks, each with a place in common with the next. Of the others
/// one place lies in 258 checks, and one in the first three.
fn ring() -> Table {
    let check = |c: usize| {
        let mut places = vec![c, (c + 1) % 260];
        places.sort();
        places.extend((c > 1).then_some(260));
        places.extend((c < 3).then_some(261));
        places
    };
    table(262, (0..260).map(check).collect())
}

/// Counted are the places of each live check that lie in exactly two live checks.
fn chosen_tables() -> Vec<Chosen> {
    let places = |from: usize, to: usize, others: &[usize]| -> Vec<usize> {
        (from..=to).chain(others.iter().copied()).collect()
    };
    let every_other = |from: usize, other: usize| -> Vec<usize> {
        (from..64).step_by(2).chain([other]).collect()
    };
    let (n, checks) = gen::table_b();
    vec![
        // Counts 2 2 2. Then 2 and 3 are owned.
        Chosen { name: "B", t: table(n, checks), aside: vec![0], own: vec![2, 3], old: vec![0] },
        // 4 lies in 1 and 2, 5 in 3 and 5. Counts 0 1 1 1 0 1.
        Chosen {
            name: "the heaviest check frees none",
            t: copies(gen::heaviest_frees_none(), 1),
            aside: vec![1],
            own: vec![4, 7, 2, 1, 6],
            old: vec![0, 1],
        },
        // Counts 2 2 2 2: each of the places 0 to 3 lies in two checks. The first is
        // the lightest.
        Chosen {
            name: "all tied",
            t: by_hand(6, [&[0, 3], &[0, 1, 4, 5], &[1, 2, 4, 5], &[2, 3, 4, 5]]),
            aside: vec![0],
            own: vec![3, 2, 5],
            old: vec![1],
        },
        // Each place lies in three checks. Then 1 lies in 1 and 3, 3 in 2 and 3, 4 in
        // 1 and 2: counts 2 2 2 of the checks 1 to 3.
        Chosen {
            name: "no place in exactly two",
            t: by_hand(5, [&[1, 3, 4], &[0, 1, 2, 4], &[0, 2, 3, 4], &[0, 1, 2, 3]]),
            aside: vec![0, 1],
            own: vec![4, 3],
            old: vec![1, 2],
        },
        // Counts 0, twice. Then 1 lies in 2 and 4, 3 in 3 and 4, 4 and 5 in 2 and 3:
        // counts 3 3 2 of the checks 2 to 4.
        Chosen {
            name: "weight 1, none freed",
            t: copies(gen::weight_one_first(), 1),
            aside: vec![0, 1, 2],
            own: vec![5, 3],
            old: vec![2, 3],
        },
        // 0 lies in 0 and 1, the others in three. Counts 1 1 0 0 0. Then 1 owns 0, and
        // the counts of 2 to 4 are 2 2 2.
        Chosen {
            name: "weight 1, one freed",
            t: by_hand(6, [&[0], &[0, 1, 2, 3], &[1, 2, 4, 5], &[1, 3, 4, 5], &[2, 3, 4, 5]]),
            aside: vec![0, 2],
            own: vec![0, 2, 5],
            old: vec![1, 2],
        },
        // Each place lies in three checks. Without 0, place 0 lies in 2 and 3 and place
        // 1 in 3 and 4: counts 0 1 2 1 of the checks 1 to 4.
        Chosen {
            name: "in two only after one was set aside",
            t: by_hand(6, [&[0, 1], &[2, 3, 4], &[0, 2, 3, 5], &[0, 1, 2, 4, 5], &[1, 3, 4, 5]]),
            aside: vec![0, 3],
            own: vec![1, 5, 4],
            old: vec![3, 2],
        },
        // 4 owns 6 at once, and only then lie 0 and 3 in two checks. Counts 2 2 2 2.
        Chosen {
            name: "in two only after one was taken",
            t: by_hand(7, [&[0, 3], &[0, 1, 4, 5], &[1, 2, 4, 5], &[2, 3, 4, 5], &[0, 3, 6]]),
            aside: vec![0],
            own: vec![6, 3, 2, 5],
            old: vec![1],
        },
        // 2 isn't kept. Counts 2 2 2 2 of the others.
        Chosen {
            name: "in two kept checks, in three of the table",
            t: by_hand(6, [&[0, 3], &[0, 1, 4, 5], &[0, 3], &[1, 2, 4, 5], &[2, 3, 4, 5]]),
            aside: vec![0],
            own: vec![3, 2, 5],
            old: vec![1],
        },
        // Counts 21 21 22 64.
        Chosen {
            name: "weight 64, all freed",
            t: table(
                65,
                vec![
                    places(0, 20, &[64]),
                    places(21, 41, &[64]),
                    places(42, 63, &[64]),
                    places(0, 63, &[]),
                ],
            ),
            aside: vec![3],
            own: vec![63, 41, 64],
            old: vec![3],
        },
        // 64 lies in 1 and 3, all others in three checks. Counts 0 1 0 1 0.
        Chosen {
            name: "weight 64, none freed",
            t: table(
                66,
                vec![
                    places(0, 63, &[]),
                    places(0, 31, &[64, 65]),
                    places(32, 63, &[65]),
                    every_other(0, 64),
                    every_other(1, 65),
                ],
            ),
            aside: vec![1],
            own: vec![64, 30, 62, 65],
            old: vec![0, 1],
        },
        // Counts 2 each.
        Chosen {
            name: "a place in 258 live checks",
            t: ring(),
            aside: vec![0],
            own: [1, 261].into_iter().chain(3..=258).chain([260]).collect(),
            old: vec![2],
        },
    ]
}

fn chosen(c: &Chosen) -> Result<(), String> {
    let rng = &mut Rng::new(18, 0);
    let (answer, words) = plan(rng, &gen::words(&c.t))?;
    same("gap", &(answer.gap as usize), &c.aside.len())?;
    let layout = model::layout(&c.t).map_err(|refusal| format!("refused {refusal}"))?;
    same("aside", &layout.aside, &c.aside)?;
    let own: Vec<usize> = layout.solved.iter().rev().map(|(_, own)| *own).collect();
    same("own places", &own, &c.own)?;
    for size in [1, 3] {
        runs(rng, &c.t, &words, size)?;
    }
    Ok(())
}

/// The sizes that are sent, and one more.
fn sizes() -> &'static [usize] {
    if bare() {
        &[3, 64]
    } else {
        &[3, 64, 256, 1024]
    }
}

/// The stored plan of a table has this gap, and runs unless it is beyond the limit.
fn stored(t: &Table, gap: usize) -> Result<(), String> {
    let words = stored_plan(t).map_err(|refusal| format!("refused {refusal}"))?;
    same("gap", &(words[2] as usize), &gap)?;
    let rng = &mut Rng::new(18, 0);
    for size in sizes() {
        if gap > model::MAX_GAP {
            beyond(rng, &words, *size)?;
        } else {
            runs(rng, t, &words, *size)?;
        }
    }
    Ok(())
}

fn stored_by_hand(c: &Chosen) -> Result<(), String> {
    let old = old_layout(&c.t).map_err(|refusal| format!("refused {refusal}"))?;
    same("aside", &old.aside, &c.old)?;
    stored(&c.t, c.old.len())
}

/// A stored plan of which all is known.
fn stored_known(k: &Known) -> Result<(), String> {
    let t = model::look_over(k.table).map_err(|refusal| format!("refused {refusal}"))?;
    let old = old_layout(&t).map_err(|refusal| format!("refused {refusal}"))?;
    known_layout(k, &old)?;
    known_block(k, &model::words_of_layout(&t, &old))
}

fn known_cases(run: &mut Run) {
    let heaviest = gen::words(&copies(gen::heaviest_frees_none(), 1));
    let weight_one = gen::words(&copies(gen::weight_one_first(), 1));
    let new = [
        Known {
            name: "the heaviest check frees none, block",
            table: &heaviest,
            aside: &[1],
            information: &[0, 5],
            fitted: &[3],
            packets: &[1, 2],
            block: &[1, 0, 0, 0, 2, 2, 2, 3],
            additions: 29,
        },
        Known {
            name: "weight 1, none freed, block",
            table: &weight_one,
            aside: &[0, 1, 2],
            information: &[4],
            fitted: &[0, 1, 2],
            packets: &[1],
            block: &[0, 0, 0, 0, 1, 1],
            additions: 19,
        },
    ];
    for k in &new {
        run.fixed(k.name, known(k));
    }
    let old = [
        Known {
            name: "stored, P3",
            table: TABLE_B,
            aside: &[0],
            information: &[1],
            fitted: &[0],
            packets: &[0xa5],
            block: &[0, 0xa5, 0xa5, 0xa5],
            additions: 9,
        },
        Known {
            name: "stored, gap 3",
            table: OLD_GAP_3[0],
            aside: &[0, 2, 4],
            information: &[0],
            fitted: &[1, 2, 4],
            packets: &[1],
            block: &[1, 0, 1, 0, 1, 0],
            additions: 21,
        },
        Known {
            name: "stored, gap 3, an inverse of its own",
            table: OLD_GAP_3[1],
            aside: &[0, 1, 3],
            information: &[0],
            fitted: &[1, 2, 3],
            packets: &[1],
            block: &[1, 1, 0, 0, 1, 0],
            additions: 19,
        },
    ];
    for k in &old {
        run.fixed(k.name, stored_known(k));
    }
}

fn regular(n: usize, m: usize, seed: u64) -> Table {
    table(n, gen::regular(&mut Rng::new(18, seed), n, m, 3))
}

/// Tables whose plan is the one that was stored.
fn same_plan_cases(run: &mut Run) {
    let a = by_hand(7, [&[0, 2, 4, 6], &[1, 2, 5, 6], &[3, 4, 5, 6]]);
    let b = copies(gen::table_b(), 1);
    let most = copies(gen::table_b(), model::MAX_GAP);
    for (name, t) in [("A", a), ("B", b), ("as many copies of B as are taken", most)] {
        let stored = stored_plan(&t).map_err(|refusal| format!("refused {refusal}"));
        let planned = plan(&mut Rng::new(18, 0), &gen::words(&t));
        let result = stored.and_then(|stored| equal("plan", &planned?.1, &stored));
        run.fixed(&format!("{name}, plan as it was stored"), result);
    }
}

/// Large tables, of which about half as many checks are set aside now.
fn large_cases(run: &mut Run) {
    run.fixed("regular 512, stored", stored(&regular(512, 256, 0), 18));
    for (seed, gap) in [(987, 20), (242, 21), (0, 30)] {
        let name = format!("regular 1,024, stored with gap {gap}");
        run.fixed(&name, stored(&regular(1024, 512, seed), gap));
    }
}

/// By the old rule two checks of each copy were set aside, now it is one.
fn heaviest(many: usize) -> Table {
    copies(gen::heaviest_frees_none(), many)
}

fn heaviest_planned(many: usize) -> Result<(), String> {
    let t = heaviest(many);
    let many = many as u32;
    let expected = Planned {
        refusal: 0,
        length: 6 + 43 * many,
        kept: 6 * many,
        ones: 23 * many,
        gap: many,
        additions: 29 * many,
    };
    planned(&t, expected)
}

/// Tables that one rule plans and the other doesn't, by the limits that there were or
/// by those that there are.
fn limit_cases(run: &mut Run) {
    let (most, old) = (model::MAX_GAP, model::OLD_MAX_GAP);
    let refused_by_old = |t: &Table| same("old rule", &stored_plan(t).err(), &Some(6));

    for many in [most / 2, most / 2 + 1, old / 2, old / 2 + 1, most] {
        let name = format!("the heaviest check frees none, {many} copies");
        run.fixed(&name, heaviest_planned(many));
        let t = heaviest(many);
        let before = if 2 * many > old { refused_by_old(&t) } else { stored(&t, 2 * many) };
        run.fixed(&format!("{name}, stored"), before);
    }
    let t = heaviest(most + 1);
    run.fixed("the heaviest check frees none, too many", refused(&gen::words(&t), 6));

    let t = regular(1024, 512, 2);
    let rng = &mut Rng::new(18, 2);
    let planned = plan(rng, &gen::words(&t)).and_then(|(_, words)| runs(rng, &t, &words, 3));
    run.fixed("regular 1,024", refused_by_old(&t).and(planned.map(|_| ())));

    // By the old rule two checks of each copy were set aside, now it is three.
    for many in [most / 3 + 1, most / 2, most / 2 + 1, old / 2] {
        let t = copies(gen::weight_one_first(), many);
        run.fixed(&format!("weight 1, {many} copies, too many"), refused(&gen::words(&t), 6));
        run.fixed(&format!("weight 1, {many} copies, stored"), stored(&t, 2 * many));
    }
}

/// A star: groups of three checks, the first linked with each of the others, and a
/// place in no check. Of an odd number of groups a check of each but one is set aside.
/// Few ones, and a dense inverse.
pub fn star(groups: usize) -> Table {
    let group = |v: usize| {
        let (a, b) = (groups + 2 * v, groups + 2 * v + 1);
        let linked = if v == 0 { 1..groups } else { 0..1 };
        let mut second: Vec<usize> = [v, a].into_iter().chain(linked).collect();
        second.sort();
        [vec![v, a, b], second, vec![v, b]]
    };
    table(3 * groups + 1, (0..groups).flat_map(group).collect())
}

/// More than 4(W - M) additions, which is 496, where g(g + 1) is above 2(W - M).
fn beyond_four() -> Result<(), String> {
    let t = star(21);
    let length = 6 + 1 + 43 + 20 + 20 + 43 + 529;
    planned(&t, Planned { refusal: 0, length, kept: 63, ones: 187, gap: 20, additions: 529 })
}

pub fn fixed_cases(run: &mut Run) {
    run.fixed("more than 4(W - M) additions", beyond_four());
    for c in chosen_tables() {
        run.fixed(c.name, chosen(&c));
        run.fixed(&format!("{}, stored", c.name), stored_by_hand(&c));
    }
    for part in [known_cases, same_plan_cases, large_cases, limit_cases] {
        part(run);
    }
}
