//! The uplink's library against the model: planner and encoder. The cases of one
//! plan at many packet sizes are in sizes.rs, those of the check that is set aside
//! and of stored plans in aside.rs, those of how many are set aside and of how many
//! steps there are in limits.rs.

mod aside;
mod gen;
mod harness;
mod limits;
mod model;
mod sizes;

use gen::Rng;
use harness::{equal, holds, same, Lent, Run};
use model::{Encoded, Layout, Plan, Planned, Step, Table};

#[link(name = "uplink", kind = "static")]
extern "C" {
    fn bs_plan(
        table: *const u16,
        table_len: usize,
        plan: *mut u32,
        plan_len: usize,
        work: *mut u64,
        work_len: usize,
    ) -> Planned;
    fn bs_encode(
        plan: *const u32,
        plan_len: usize,
        size: usize,
        information: *const u8,
        information_len: usize,
        block: *mut u8,
        block_len: usize,
        scratch: *mut u8,
        scratch_len: usize,
        limit: usize,
    ) -> Encoded;
}

// ------------------------------------------------ one call, both ways

/// What is claimed of the counts of an accepted plan.
fn bounds(answer: &Planned) -> Result<(), String> {
    let (g, kept, ones) = (answer.gap as usize, answer.kept as usize, answer.ones as usize);
    let adds = answer.additions as usize;
    holds("additions at most 2(W - M) + g(g + 1)", adds <= 2 * (ones - kept) + g * (g + 1))?;
    if g * (g + 1) <= 2 * (ones - kept) {
        holds("additions at most 4(W - M)", adds <= 4 * (ones - kept))?;
    }
    Ok(())
}

/// What is claimed of an accepted plan: its bounds, and that it is well-formed.
fn own_plan(answer: &Planned, plan: &[u32]) -> Result<(), String> {
    bounds(answer)?;
    let p = model::read_plan(&plan[..answer.length as usize]);
    let steps = p.ok_or("the own plan isn't well-formed")?.steps.len();
    let (g, ones) = (answer.gap as usize, answer.ones as usize);
    holds("steps at most 2W + g(g + 1)", steps <= 2 * ones + g * (g + 1))
}

/// The library's answer and plan buffer, if they are the model's and an accepted
/// plan is what is claimed of it.
fn plan_into(
    rng: &mut Rng,
    table: &[u16],
    plan: &[u32],
    work: &[u64],
) -> Result<(Planned, Vec<u32>), String> {
    let lent_table = Lent::new(rng, table);
    let mut lent_plan = Lent::new(rng, plan);
    let mut lent_work = Lent::new(rng, work);
    let answer = unsafe {
        bs_plan(
            lent_table.ptr(),
            lent_table.len(),
            lent_plan.mut_ptr(),
            lent_plan.len(),
            lent_work.mut_ptr(),
            lent_work.len(),
        )
    };
    let (mut plan, mut work) = (plan.to_vec(), work.to_vec());
    let expected = model::plan(table, &mut plan, &mut work);
    same("plan", &answer, &expected)?;
    lent_table.kept("plan, table")?;
    lent_plan.holds("plan, plan", &plan)?;
    lent_work.holds("plan, work", &work)?;
    if answer.refusal == 0 {
        own_plan(&answer, &plan)?;
    }
    limits::count_planned(table, &answer);
    Ok((answer, plan))
}

/// A plan buffer and a work buffer that arrive full of anything.
fn buffers(rng: &mut Rng) -> (Vec<u32>, Vec<u64>) {
    let plan_len = model::PLAN_BUFFER + rng.pick(&[0, 0, 1, 50]);
    let plan = (0..plan_len).map(|_| rng.next() as u32).collect();
    let work = match rng.below(4) {
        0 => vec![0; model::WORK_BUFFER],
        1 => vec![u64::MAX; model::WORK_BUFFER],
        _ => (0..model::WORK_BUFFER).map(|_| rng.next()).collect(),
    };
    (plan, work)
}

/// The library's plan, cut to its length.
fn plan(rng: &mut Rng, table: &[u16]) -> Result<(Planned, Vec<u32>), String> {
    let (plan, work) = buffers(rng);
    let (answer, mut plan) = plan_into(rng, table, &plan, &work)?;
    plan.truncate(answer.length as usize);
    Ok((answer, plan))
}

/// What an encoding answers, and block and scratch afterwards.
type Outcome = (Encoded, Vec<u8>, Vec<u8>);

/// The library's outcome, on block and scratch that arrive with these bytes.
/// Nothing else is written.
fn library(
    rng: &mut Rng,
    plan: &[u32],
    size: usize,
    information: &[u8],
    (block, scratch): (&[u8], &[u8]),
    limit: usize,
) -> Result<Outcome, String> {
    let lent_plan = Lent::new(rng, plan);
    let lent_information = Lent::new(rng, information);
    let mut lent_block = Lent::new(rng, block);
    let mut lent_scratch = Lent::new(rng, scratch);
    let answer = unsafe {
        bs_encode(
            lent_plan.ptr(),
            lent_plan.len(),
            size,
            lent_information.ptr(),
            lent_information.len(),
            lent_block.mut_ptr(),
            lent_block.len(),
            lent_scratch.mut_ptr(),
            lent_scratch.len(),
            limit,
        )
    };
    lent_plan.kept("encode, plan")?;
    lent_information.kept("encode, information")?;
    lent_block.guarded("encode, block")?;
    lent_scratch.guarded("encode, scratch")?;
    Ok((answer, lent_block.content().to_vec(), lent_scratch.content().to_vec()))
}

/// The library's outcome, if it is the model's. The lengths are those of block
/// and scratch; they arrive full of anything.
fn encode(
    rng: &mut Rng,
    plan: &[u32],
    size: usize,
    information: &[u8],
    (block_len, scratch_len): (usize, usize),
    limit: usize,
) -> Result<Outcome, String> {
    let mut block = rng.bytes(block_len);
    let mut scratch = rng.bytes(scratch_len);
    let told = |what: String| format!("size {size}, limit {limit}: {what}");
    let given = library(rng, plan, size, information, (&block, &scratch), limit).map_err(told)?;
    let answer = model::encode(plan, size, information, &mut block, &mut scratch, limit);
    same("encode", &given.0, &answer).map_err(told)?;
    equal("encode, block", &given.1, &block).map_err(told)?;
    equal("encode, scratch", &given.2, &scratch).map_err(told)?;
    limits::count_encoded(plan, &given.0);
    Ok(given)
}

/// The lengths of block and scratch.
fn lengths_of(p: &Plan, size: usize) -> (usize, usize) {
    (p.n * size, p.g * size)
}

fn information_of(rng: &mut Rng, p: &Plan, size: usize) -> Vec<u8> {
    rng.bytes((p.n - p.kept) * size)
}

/// The packets of a block at a plan's information places.
fn carried(p: &Plan, block: &[u8], size: usize) -> Vec<u8> {
    p.information.iter().flat_map(|place| &block[place * size..][..size]).copied().collect()
}

/// The encoder under limits: all of a short plan, some of a long one. The block
/// after all steps; each carries the information.
fn encode_limits(rng: &mut Rng, words: &[u32], size: usize) -> Result<Vec<u8>, String> {
    let p = model::read_plan(words).ok_or("the plan isn't well-formed")?;
    let information = information_of(rng, &p, size);
    let lengths = lengths_of(&p, size);
    let count = p.steps.len();
    let bytes = (p.n + p.g) * size;
    let mut limits: Vec<usize> = vec![count, count + 1, usize::MAX];
    if count <= 60 && bytes < 4000 {
        limits.extend(0..count);
    } else {
        limits.extend([0, 1, count.saturating_sub(1), rng.below(count + 1)]);
        limits.push(rng.pick(&[usize::MAX - 1, 1 << 32, (1 << 32) + 1, 1 << 63]));
    }
    let mut whole = None;
    for limit in limits {
        let (answer, block, scratch) = encode(rng, words, size, &information, lengths, limit)?;
        same("refusal", &answer.refusal, &0)?;
        equal("information in the block", &carried(&p, &block, size), &information)?;
        if limit >= count {
            same("additions", &(answer.additions as usize), &model::adds(&p.steps))?;
            let result = (block, scratch);
            match &whole {
                None => whole = Some(result),
                Some(first) => holds("limits beyond the count agree", *first == result)?,
            }
        }
    }
    Ok(whole.unwrap().0)
}

// ------------------------------------------------------------ random cases

fn plan_case(rng: &mut Rng) -> Result<(), String> {
    let t = gen::table(rng);
    let table = gen::words(&t);
    let (mut plan, mut work) = buffers(rng);
    match rng.below(24) {
        0 => plan.truncate(rng.pick(&[0, 1, 15_359])),
        1 => work.resize(rng.pick(&[0, 1, 8_191, 8_193]), 7),
        2 => {
            plan.truncate(15_359);
            work.push(1);
        }
        _ => {}
    }
    plan_into(rng, &table, &plan, &work).map(|_| ())
}

/// Planning, then encoding: the block is a codeword with the information.
fn encode_case(rng: &mut Rng) -> Result<(), String> {
    let t = gen::table(rng);
    let table = gen::words(&t);
    let (answer, plan) = plan(rng, &table)?;
    if answer.refusal != 0 {
        return same("refusal", &answer.refusal, &6);
    }
    let block = encode_limits(rng, &plan, t.s)?;
    same("codeword", &model::verify(&table, &block).codeword, &1)?;

    if rng.once_in(3) {
        let p = model::read_plan(&plan).unwrap();
        let mut information = information_of(rng, &p, t.s);
        let mut lengths = lengths_of(&p, t.s);
        match rng.below(4) {
            0 => lengths.0 = gen::wrong_length(rng, lengths.0),
            1 => lengths.1 = gen::wrong_length(rng, lengths.1),
            2 => information.resize(gen::wrong_length(rng, information.len()), 3),
            _ => {
                // Too many in one, as many too few in another.
                lengths.0 += t.s;
                lengths.1 = lengths.1.saturating_sub(t.s);
            }
        }
        let (answer, _, _) = encode(rng, &plan, t.s, &information, lengths, usize::MAX)?;
        same("refusal", &answer.refusal, &5)?;
    }
    Ok(())
}

fn foreign_case(rng: &mut Rng) -> Result<(), String> {
    let p = gen::foreign_plan(rng);
    let words = gen::words_of_plan(&p);
    same("plan read", &model::read_plan(&words).as_ref(), &Some(&p))?;
    let size = gen::foreign_size(rng, p.n);
    encode_limits(rng, &words, size).map(|_| ())
}

fn damaged_plan_case(rng: &mut Rng) -> Result<(), String> {
    let p = if rng.once_in(2) {
        gen::foreign_plan(rng)
    } else {
        let t = gen::small_table(rng, 24, 16);
        let table = gen::words(&t);
        let (_, plan) = plan(rng, &table)?;
        model::read_plan(&plan).ok_or("the plan isn't well-formed")?
    };
    let right = gen::words_of_plan(&p);
    for _ in 0..6 {
        let mut words = right.clone();
        for _ in 0..rng.range(1, 2) {
            let which = rng.below(gen::PLAN_DAMAGES);
            gen::damage_plan(rng, &mut words, which);
        }
        // Lengths by the damaged counts or by the old ones, right or wrong.
        let count = |i: usize| words.get(i).map_or(0, |w| *w as usize);
        let (n, g, kept) = match rng.below(2) {
            0 => (p.n, p.g, p.kept),
            _ => (count(1).min(1025), count(2).min(model::OLD_MAX_GAP + 1), count(3)),
        };
        let size = gen::foreign_size(rng, p.n.max(n));
        let mut information = rng.bytes(n.saturating_sub(kept) * size);
        let mut lengths = (n * size, g * size);
        if rng.once_in(4) {
            lengths.0 += 1;
        }
        if rng.once_in(4) {
            lengths.1 += 1;
        }
        if rng.once_in(4) {
            information.push(1);
        }
        let limit = rng.pick(&[0, 1, usize::MAX]);
        let size = if rng.once_in(8) { sizes::wrong_size(rng) } else { size };
        encode(rng, &words, size, &information, lengths, limit)?;
    }
    Ok(())
}

fn damaged_table_case(rng: &mut Rng) -> Result<(), String> {
    let t = gen::table(rng);
    let (mut plan, mut work) = buffers(rng);
    if rng.once_in(4) {
        plan.truncate(15_359);
    }
    if rng.once_in(4) {
        work.truncate(8_191);
    }
    for _ in 0..3 {
        let mut words = gen::words(&t);
        for _ in 0..rng.range(1, 2) {
            let which = rng.below(gen::TABLE_DAMAGES);
            gen::damage_table(rng, &mut words, which);
        }
        plan_into(rng, &words, &plan, &work)?;
    }
    Ok(())
}

/// Small tables: layouts by trying subsets, codewords by trying them all.
fn brute_case(rng: &mut Rng) -> Result<(), String> {
    let t = match rng.below(2) {
        0 => gen::small_table(rng, 10, 9),
        _ => gen::small_gap_table(rng, 10, 9),
    };
    let table = gen::words(&t);
    let layout = model::layout_by_subsets(&t);
    same("layout", &model::layout(&t).as_ref(), &Ok(&layout))?;

    let (answer, plan) = plan(rng, &table)?;
    let g = layout.aside.len();
    same("plan by subsets", &plan, &model::words_of_layout(&t, &layout))?;
    same(
        "counts",
        &(answer.kept, answer.ones, answer.gap),
        &(layout.kept.len() as u32, layout.ones as u32, g as u32),
    )?;

    // The one codeword that has the information, bit by bit.
    let codewords = model::codewords(&t);
    let information = rng.bytes(layout.information.len());
    let (_, block, _) = encode(rng, &plan, 1, &information, (t.n, g), usize::MAX)?;
    for bit in 0..8 {
        let agree = |word: &&usize| {
            layout
                .information
                .iter()
                .zip(&information)
                .all(|(p, byte)| **word >> p & 1 == (*byte >> bit & 1) as usize)
        };
        let found: Vec<usize> = codewords.iter().filter(agree).copied().collect();
        same("codewords with the information", &found.len(), &1)?;
        let encoded = (0..t.n).fold(0, |word, p| word | ((block[p] >> bit & 1) as usize) << p);
        same("codeword", &encoded, &found[0])?;
    }
    Ok(())
}

fn random_case(rng: &mut Rng, number: u64) -> Result<(), String> {
    match number % 28 {
        0..=2 => plan_case(rng),
        3..=6 => encode_case(rng),
        7..=8 => foreign_case(rng),
        9..=11 => damaged_plan_case(rng),
        12..=13 => damaged_table_case(rng),
        14..=15 => brute_case(rng),
        16..=17 => sizes::random_case(rng),
        18..=21 => limits::random_case(rng),
        _ => aside::random_case(rng),
    }
}

// ------------------------------------------------------------- fixed cases

/// What is known of a table: checks set aside, fitted and information places, the
/// block for information 01 02 04 .. and the additions.
struct Known<'a> {
    name: &'a str,
    table: &'a [u16],
    aside: &'a [usize],
    information: &'a [usize],
    fitted: &'a [usize],
    packets: &'a [u8],
    block: &'a [u8],
    additions: u32,
}

/// What a layout of the table is known to hold.
fn known_layout(k: &Known, layout: &Layout) -> Result<(), String> {
    same("aside", &layout.aside, &k.aside.to_vec())?;
    same("information", &layout.information, &k.information.to_vec())?;
    same("fitted", &layout.fitted, &k.fitted.to_vec())
}

/// Block and additions of a plan of the table, under each limit.
fn known_block(k: &Known, plan: &[u32]) -> Result<(), String> {
    let mut rng = Rng::new(0, 0);
    let lengths = (k.block.len(), k.fitted.len());
    let steps = plan.len() - 6 - k.information.len();
    for limit in 0..=steps + 2 {
        let (answer, block, _) = encode(&mut rng, plan, 1, k.packets, lengths, limit)?;
        if limit >= steps {
            same("additions", &answer.additions, &k.additions)?;
            equal("block", &block, k.block)?;
        }
    }
    Ok(())
}

fn known(k: &Known) -> Result<(), String> {
    let t = model::look_over(k.table).map_err(|e| format!("refused {e}"))?;
    known_layout(k, &model::layout(&t).map_err(|e| format!("refused {e}"))?)?;
    let (answer, plan) = plan(&mut Rng::new(0, 0), k.table)?;
    same("refusal", &answer.refusal, &0)?;
    same("gap", &(answer.gap as usize), &k.aside.len())?;
    same("additions planned", &answer.additions, &k.additions)?;
    known_block(k, &plan)
}

fn planned(t: &Table, expected: Planned) -> Result<(), String> {
    let mut rng = Rng::new(0, 0);
    let (answer, _) = plan(&mut rng, &gen::words(t))?;
    same("answer", &answer, &expected)
}

fn refused(table: &[u16], refusal: u32) -> Result<(), String> {
    let (answer, _) = plan(&mut Rng::new(0, 0), table)?;
    same("answer", &answer, &Planned::refused(refusal))
}

const TABLE_B: &[u16] = &[2, 4, 1, 3, 3, 3, 3, 9, 0, 1, 2, 0, 1, 3, 0, 2, 3];

/// Tables of which document 01's rule set three checks aside.
const OLD_GAP_3: [&[u16]; 2] = [
    &[
        2, 6, 1, 5, 5, 4, 5, 4, 5, 23, 0, 1, 3, 4, 5, 0, 1, 4, 5, 0, 1, 2, 3, 5, 0, 1, 2, 3, 1, 2,
        3, 4, 5,
    ],
    &[
        2, 6, 1, 6, 5, 5, 4, 5, 4, 2, 25, 0, 1, 2, 3, 5, 1, 2, 3, 4, 5, 0, 1, 3, 5, 0, 2, 3, 4, 5,
        1, 2, 4, 5, 2, 3,
    ],
];

fn fixed_cases(run: &mut Run) {
    let a: &[u16] = &[2, 7, 1, 3, 4, 4, 4, 12, 0, 2, 4, 6, 1, 2, 5, 6, 3, 4, 5, 6];
    let b = TABLE_B;
    let cases = [
        Known {
            name: "P1 and P2",
            table: a,
            aside: &[],
            information: &[0, 1, 2, 4],
            fitted: &[],
            packets: &[1, 2, 4, 8],
            block: &[0x01, 0x02, 0x04, 0x0e, 0x08, 0x0b, 0x0d],
            additions: 9,
        },
        Known {
            name: "P3",
            table: b,
            aside: &[0],
            information: &[1],
            fitted: &[0],
            packets: &[0xa5],
            block: &[0, 0xa5, 0xa5, 0xa5],
            additions: 9,
        },
        Known {
            name: "P9",
            table: &[2, 1, 1, 1, 1, 1, 0],
            aside: &[],
            information: &[],
            fitted: &[],
            packets: &[],
            block: &[0],
            additions: 0,
        },
        Known {
            name: "P10",
            table: &[2, 3, 1, 0, 0],
            aside: &[],
            information: &[0, 1, 2],
            fitted: &[],
            packets: &[1, 2, 4],
            block: &[1, 2, 4],
            additions: 0,
        },
        Known {
            name: "a fitted packet that isn't zero",
            table: &[2, 4, 1, 3, 3, 2, 4, 9, 0, 1, 2, 2, 3, 0, 1, 2, 3],
            aside: &[2],
            information: &[0],
            fitted: &[1],
            packets: &[1],
            block: &[1, 1, 0, 0],
            additions: 9,
        },
        Known {
            name: "gap 2",
            table: &[2, 5, 1, 4, 4, 4, 4, 3, 15, 0, 1, 2, 4, 0, 2, 3, 4, 0, 1, 2, 3, 1, 3, 4],
            aside: &[0, 1],
            information: &[0],
            fitted: &[1, 2],
            packets: &[1],
            block: &[1, 0, 1, 0, 0],
            additions: 15,
        },
        // By document 01's rule the next two had gap 3: stored plans in aside.rs.
        Known {
            name: "gap 2, 3 by the old rule",
            table: OLD_GAP_3[0],
            aside: &[0, 1],
            information: &[0],
            fitted: &[1, 2],
            packets: &[1],
            block: &[1, 0, 1, 0, 1, 0],
            additions: 25,
        },
        Known {
            name: "gap 2, 3 by the old rule, a check not kept",
            table: OLD_GAP_3[1],
            aside: &[0, 2],
            information: &[1],
            fitted: &[2, 4],
            packets: &[1],
            block: &[1, 1, 0, 0, 1, 0],
            additions: 27,
        },
        Known {
            name: "gap 3, an inverse of its own",
            table: &[
                2, 7, 1, 6, 3, 5, 4, 5, 5, 5, 27, 0, 3, 6, 0, 1, 4, 5, 6, 3, 4, 5, 6, 1, 2, 3, 4, 6,
                1, 2, 4, 5, 6, 0, 1, 2, 3, 4,
            ],
            aside: &[0, 1, 3],
            information: &[1],
            fitted: &[2, 4, 5],
            packets: &[1],
            block: &[1, 1, 1, 0, 1, 0, 1],
            additions: 30,
        },
    ];
    for case in &cases {
        run.fixed(case.name, known(case));
    }

    // What the paper says of the layouts.
    let layout = |table: &[u16]| model::layout(&model::look_over(table).unwrap()).unwrap();
    let own = |table: &[u16]| layout(table).solved.iter().map(|(_, p)| *p).collect::<Vec<_>>();
    run.fixed("P1, own places", same("own", &own(a), &vec![6, 5, 3]));
    run.fixed(
        "gap 2, inverse",
        same("inverse", &layout(cases[5].table).inverse, &vec![vec![0], vec![0, 1]]),
    );
    run.fixed(
        "gap 3, inverse",
        same("inverse", &layout(cases[8].table).inverse, &vec![vec![0, 2], vec![0, 1, 2], vec![0]]),
    );
    let a4: &[u16] =
        &[2, 7, 1, 4, 4, 4, 4, 4, 16, 0, 2, 4, 6, 1, 2, 5, 6, 3, 4, 5, 6, 0, 1, 4, 5];
    let answer = plan(&mut Rng::new(0, 0), a4);
    run.fixed("P7, M stays 3", answer.and_then(|p| same("M", &p.0.kept, &3)));

    let a_words: Vec<u32> = vec![
        3, 7, 0, 3, 4, 0, 1, 2, 4, 12, 24576, 16801792, 16801794, 16801796, 20480, 16797697,
        16797698, 16797702, 12288, 16789508, 16789509, 16789510,
    ];
    let got = plan(&mut Rng::new(0, 0), a);
    run.fixed("plan of A", got.and_then(|p| same("words", &p.1, &a_words)));
    let b_words: Vec<u32> = vec![
        3, 4, 1, 3, 1, 1, 15, 12288, 16789505, 8192, 16785411, 16384, 16793601, 16793602, 0,
        16777220, 12288, 16789504, 16789505, 8192, 16785408, 16785411,
    ];
    let got = plan(&mut Rng::new(0, 0), b);
    run.fixed("plan of B", got.and_then(|p| same("words", &p.1, &b_words)));

    let mut file = Vec::new();
    b.iter().for_each(|w| file.extend(w.to_le_bytes()));
    let listing = "places 4 size 1 kept 3 ones 9 gap 1\ninfo 1\nclear 3\nadd 1 3\nclear 2\n\
        add 3 2\nclear 4\nadd 1 4\nadd 2 4\nclear 0\nadd 4 0\nclear 3\nadd 0 3\nadd 1 3\n\
        clear 2\nadd 0 2\nadd 3 2\nadds 9\n";
    run.fixed("planlist of B", same("text", &model::planlist(&file), &listing.to_string()));

    // Limits.
    let wide = |n: usize, weight: usize| model::table_words(n, 1, &[(0..weight).collect()]);
    let one = |n: usize, weight: usize| Table { n, s: 1, checks: vec![(0..weight).collect()] };
    let answer = |n: u32, w: u32| Planned {
        refusal: 0,
        length: 6 + (n - 1) + w,
        kept: 1,
        ones: w,
        gap: 0,
        additions: w - 1,
    };
    run.fixed("n 1,024", planned(&one(1024, 2), answer(1024, 2)));
    run.fixed("n 1,025", refused(&wide(1025, 2), 2));
    run.fixed("weight 64", planned(&one(64, 64), answer(64, 64)));
    run.fixed("weight 65", refused(&wide(65, 65), 3));
    let full = |checks: usize| model::table_words(64, 1, &vec![(0..64).collect::<Vec<_>>(); checks]);
    run.fixed("6,208 ones", refused(&full(97), 3));
    run.fixed("6,144 ones", plan(&mut Rng::new(0, 0), &full(96)).and_then(|p| same("M", &p.0.kept, &1)));
    let singles = Table { n: 512, s: 1, checks: (0..512).map(|p| vec![p]).collect() };
    run.fixed(
        "512 checks of weight 1",
        planned(
            &singles,
            Planned { refusal: 0, length: 518, kept: 512, ones: 512, gap: 0, additions: 0 },
        ),
    );

    // Causes in their order.
    let mut order = |name: &str, table: &[u16], plan: usize, work: usize, refusal: u32| {
        let got = plan_into(&mut Rng::new(0, 0), table, &vec![7; plan], &vec![9; work]);
        run.fixed(
            name,
            got.and_then(|p| same("answer", &p.0, &Planned::refused(refusal))),
        );
    };
    let beyond = gen::words(&limits::copies_of_b(model::MAX_GAP + 1));
    order("plan, 1 before 2", &[3, 0, 0, 600], 0, 0, 1);
    order("plan, 2 before 3", &[2, 0, 1, 1, 65], 0, 0, 2);
    order("plan, 3 before 4", &[2, 2, 1, 1, 3, 2, 0, 9], 0, 0, 3);
    order("plan, 4 before 5", &[2, 2, 1, 1, 2, 2, 0, 2], 0, 0, 4);
    order("plan, 5 before 6", &beyond, 15_359, 8_192, 5);
    order("plan, work, 5 before 6", &beyond, 15_360, 8_193, 5);
    order("plan, 6", &beyond, 15_360, 8_192, 6);

    // Each part of cause 9 by itself, with right and with wrong lengths.
    let clear = |to: usize| Step::Clear(to).number();
    let add = |to: usize, from: usize| Step::Add { to, from }.number();
    let right: Vec<u32> = vec![3, 5, 1, 3, 2, 1, 3, 3, clear(0), add(5, 4), add(2, 5)];
    let changed = |i: usize, value: u32| {
        let mut words = right.clone();
        words[i] = value;
        words
    };
    let mut plans: Vec<(&str, Vec<u32>, u32)> = vec![
        ("well-formed", right.clone(), 0),
        ("first word 2", changed(0, 2), 9),
        ("first word 4", changed(0, 4), 9),
        ("old layout", gen::old_layout(&right, 1), 9),
        ("n 0", changed(1, 0), 9),
        ("n with another count", changed(1, 6), 9),
        ("n 1,025", changed(1, 1025), 9),
        ("g over M", changed(2, 4), 9),
        ("g over M and over its limit", changed(2, model::MAX_GAP as u32 + 1), 9),
        ("M over n", changed(3, 6), 9),
        ("M with another count", changed(3, 2), 9),
        ("count of information", changed(4, 3), 9),
        ("place not below n", changed(6, 5), 9),
        ("places equal", changed(6, 1), 9),
        ("places descending", changed(5, 4), 9),
        ("count of steps, more", changed(7, 4), 9),
        ("count of steps, fewer", changed(7, 2), 9),
        ("count of steps, most", changed(7, u32::MAX), 9),
        ("kind 2", changed(8, clear(0) + 2 * 16_777_216), 9),
        ("kind 255", changed(8, clear(0) + 255 * 16_777_216), 9),
        ("clear outside", changed(8, clear(6)), 9),
        ("add to outside", changed(8, add(6, 0)), 9),
        ("add from outside", changed(8, add(0, 6)), 9),
        ("last slot", changed(8, add(0, 5)), 0),
        ("clear with from", changed(8, clear(0) + 1), 9),
        ("added into itself", changed(8, add(4, 4)), 9),
        ("information cleared", changed(8, clear(1)), 9),
        ("information added into", changed(8, add(3, 0)), 9),
        ("information added", changed(8, add(0, 3)), 0),
        ("empty", vec![], 9),
        ("five words", right[..5].to_vec(), 9),
        ("one word less", right[..10].to_vec(), 9),
    ];
    let mut longer = right.clone();
    longer.push(clear(0));
    plans.push(("one word more", longer, 9));
    let with_kept = |kept: usize| {
        let mut words = vec![3, 600, 7, kept as u32, 600 - kept as u32];
        words.extend(0..600 - kept as u32);
        words.extend([1, clear(606)]);
        words
    };
    plans.push(("M 512 of 600", with_kept(512), 0));
    plans.push(("M 513 of 600", with_kept(513), 9));
    let with_places = |n: usize| {
        let mut words = vec![3, n as u32, 0, 1, n as u32 - 1];
        words.extend(1..n as u32);
        words.extend([2, clear(0), add(0, n - 1)]);
        words
    };
    plans.push(("n 1,024", with_places(1024), 0));
    plans.push(("n 1,025", with_places(1025), 9));
    let rng = &mut Rng::new(0, 0);
    for (name, words, refusal) in &plans {
        let count = |i: usize| words.get(i).map_or(0, |w| *w as usize).min(2048);
        for size in [1, 3] {
            let information = rng.bytes(count(1).saturating_sub(count(3)) * size);
            let lengths = (count(1) * size, count(2) * size);
            for limit in [0, 1, usize::MAX] {
                let got = encode(rng, words, size, &information, lengths, limit);
                run.fixed(name, got.and_then(|e| same("refusal", &e.0.refusal, refusal)));
            }
            let longer = (lengths.0 + 1, lengths.1);
            let got = encode(rng, words, size, &information, longer, usize::MAX);
            let first = if *refusal == 0 { 5 } else { 9 };
            run.fixed(
                &format!("{name}, block too long"),
                got.and_then(|e| same("answer", &e.0, &Encoded::refused(first))),
            );
        }
    }
}

fn main() {
    let mut run = Run::from_arguments(7000);
    fixed_cases(&mut run);
    sizes::fixed_cases(&mut run);
    aside::fixed_cases(&mut run);
    limits::fixed_cases(&mut run);
    run.random(random_case);
    run.met(&limits::ALL_MET);
    run.met(&[&aside::STORED_RUN, &aside::STORED_REFUSED]);
    run.end()
}
