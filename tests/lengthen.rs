//! A longer table in the middle of a pass, in the comparison of the receiver.

use crate::gen::{self, Rng};
use crate::harness::{bare, equal, holds, same, Lent, Met, Run};
use crate::merge::{rained, repair_of, with_deaf, wrong, Held};
use crate::model::{self, Repaired, Table};
use crate::rain::within_bound;
use crate::{a_off, block_for, contradicts, corrupt, limit_checks, lose, map_of, ok};
use crate::{packet_of, places_lost, repair_alone, zeroed, zeros_but, A, A4, B, P2};

#[link(name = "receiver", kind = "static")]
extern "C" {
    fn bs_lengthen(
        old_table: *const u16,
        old_table_len: usize,
        new_table: *const u16,
        new_table_len: usize,
        block: *mut u8,
        block_len: usize,
        map: *mut u8,
        map_len: usize,
        arrivals: *const u8,
        arrivals_len: usize,
        arrivals_map: *const u8,
        arrivals_map_len: usize,
    ) -> Repaired;
}

/// The words of the old table and of the new one.
type Tables<'a> = [&'a [u16]; 2];

// ----------------------------------------------------- one call, both ways

/// The library's answer, and block and map; it wrote nowhere else.
fn lengthen_alone(
    rng: &mut Rng,
    [old, new]: Tables,
    carried: &Held,
    arrivals: &Held,
) -> Result<(Repaired, Held), String> {
    let (lent_old, lent_new) = (Lent::new(rng, old), Lent::new(rng, new));
    let (mut block, mut map) = (Lent::new(rng, &carried.block), Lent::new(rng, &carried.map));
    let (came, marks) = (Lent::new(rng, &arrivals.block), Lent::new(rng, &arrivals.map));
    // An unchanged table is lent once, for both.
    let first = if old == new { &lent_new } else { &lent_old };
    let answer = unsafe {
        bs_lengthen(
            first.ptr(),
            lent_old.len(),
            lent_new.ptr(),
            lent_new.len(),
            block.mut_ptr(),
            block.len(),
            map.mut_ptr(),
            map.len(),
            came.ptr(),
            came.len(),
            marks.ptr(),
            marks.len(),
        )
    };
    lent_old.kept("lengthen, old table")?;
    lent_new.kept("lengthen, new table")?;
    came.kept("lengthen, arrivals")?;
    marks.kept("lengthen, arrivals' map")?;
    block.guarded("lengthen, block")?;
    map.guarded("lengthen, map")?;
    Ok((answer, Held { block: block.content().to_vec(), map: map.content().to_vec() }))
}

fn same_held(name: &str, got: &Held, expected: &Held) -> Result<(), String> {
    equal(&format!("{name}, map"), &got.map, &expected.map)?;
    equal(&format!("{name}, block"), &got.block, &expected.block)
}

static EIGHT: Met = Met::new("lengthen, 8");
static SEVEN: Met = Met::new("lengthen, 7");
static FIFTEEN: Met = Met::new("lengthen, 15");
static SIXTEEN: Met = Met::new("lengthen, 16");
static BAD_3: Met = Met::new("lengthen, a place that the old repair marked 3");
static LATE: Met = Met::new("lengthen, a restored place arrives");
static OTHER: Met = Met::new("lengthen, an arrival other than the known packet");
static NEW_BACK: Met = Met::new("lengthen, a new place restored");
static BY_NEW: Met = Met::new("lengthen, an old place restored without arrivals");
static UNCHANGED: Met = Met::new("lengthen, an unchanged table");
static NOT_BLAMED: Met = Met::new("lengthen, a packet that repair would blame");

pub static ALL_MET: [&Met; 11] = [
    &EIGHT,
    &SEVEN,
    &FIFTEEN,
    &SIXTEEN,
    &BAD_3,
    &LATE,
    &OTHER,
    &NEW_BACK,
    &BY_NEW,
    &UNCHANGED,
    &NOT_BLAMED,
];

/// The library's answer, and block and map, if they are the model's, and what holds of
/// every such call holds.
fn lengthen(
    rng: &mut Rng,
    tables: Tables,
    carried: &Held,
    arrivals: &Held,
) -> Result<(Repaired, Held), String> {
    let (answer, after) = lengthen_alone(rng, tables, carried, arrivals)?;
    let mut expected = carried.clone();
    let Held { block, map } = &mut expected;
    let [old, new] = tables;
    let told = model::lengthen(old, new, block, map, &arrivals.block, &arrivals.map);
    same("lengthen", &answer, &told)?;
    same_held("lengthen", &after, &expected)?;
    holds_of_lengthen(rng, tables, carried, arrivals, &answer, &after)?;
    EIGHT.count_if(answer.refusal == 8);
    SEVEN.count_if(answer.refusal == 7);
    FIFTEEN.count_if(answer.refusal == 15);
    SIXTEEN.count_if(answer.refusal == 16);
    Ok((answer, after))
}

/// The first in their order of all causes that hold, but for 8; 0 if none does.
fn cause(tables: Tables, carried: &Held, arrivals: &Held) -> u32 {
    let [old, new] = match tables.map(model::look_over) {
        [Err(cause), _] | [Ok(_), Err(cause)] => return cause,
        [Ok(old), Ok(new)] => [old, new],
    };
    let lengths = [new.n * new.s, new.n];
    let fits = |held: &Held| [held.block.len(), held.map.len()] == lengths;
    let among = |marks: &[u8], map: &[u8]| map.iter().all(|mark| marks.contains(mark));
    let causes = [
        (5, !fits(carried) || !fits(arrivals)),
        (15, !model::lengthens_by_ones(&old, &new)),
        (16, !among(&[0, 1, 2], &carried.map[..old.n.min(carried.map.len())])),
        (7, !among(&[0, 1], &arrivals.map)),
    ];
    causes.iter().find(|(_, holds)| *holds).map_or(0, |(cause, _)| *cause)
}

/// What holds of every call, seen from outside: known places keep mark and packet; a lost
/// place is 0 exactly with its arrival, else restored, or lost and zero; all that is known
/// afterwards agrees with every check; and the library's merge does the same.
fn holds_of_lengthen(
    rng: &mut Rng,
    tables: Tables,
    carried: &Held,
    arrivals: &Held,
    answer: &Repaired,
    after: &Held,
) -> Result<(), String> {
    let cause = cause(tables, carried, arrivals);
    let as_caused =
        if cause == 0 { [0, 8].contains(&answer.refusal) } else { answer.refusal == cause };
    holds(&format!("{} for the cause {cause}", answer.refusal), as_caused)?;
    if cause != 0 {
        same("refused", answer, &Repaired::refused(cause))?;
        return same_held("refused", after, carried);
    }
    let n = tables[0][1] as usize;
    let t = model::look_over(tables[1]).unwrap();
    let mut back = Vec::new();
    for p in 0..t.n {
        let packet = packet_of(&after.block, t.s, p);
        let of = |held: &Held| packet == packet_of(&held.block, t.s, p);
        let known = p < n && carried.map[p] != 1;
        let arrives = arrivals.map[p] == 0;
        let as_marked = match after.map[p] {
            mark if known => mark == carried.map[p] && of(carried),
            0 => arrives && of(arrivals),
            1 => !arrives && packet.iter().all(|b| *b == 0),
            2 => !arrives && answer.refusal == 0,
            _ => false,
        };
        holds(&format!("place {p} became {}", after.map[p]), as_marked)?;
        if !known && after.map[p] == 2 {
            back.push(p);
        }
        LATE.count_if(known && arrives && carried.map[p] == 2);
        OTHER.count_if(known && arrives && !of(arrivals));
        NEW_BACK.count_if(p >= n && after.map[p] == 2);
    }
    BY_NEW.count_if(!arrivals.map.contains(&0) && back.first().is_some_and(|p| *p < n));
    UNCHANGED.count_if(tables[0] == tables[1]);
    let entered = entered(n, &t, carried, arrivals);
    as_merged(rng, tables[1], &entered, answer, after)?;
    if answer.refusal == 8 {
        same("8, counts", answer, &contradicts(answer.check, answer.byte))?;
        return same_held("8, as then entered", after, &entered);
    }
    let left = places_lost(&after.map);
    let counted = ok(back.len() as u32, left.len() as u32, answer.additions);
    same("accepted", answer, &counted)?;
    within_bound(tables[1], answer.additions)?;
    holds("what is left is a stopping set", model::is_stopping_set(&t, &left))?;
    for (c, check) in t.checks.iter().enumerate() {
        let mut sum = vec![0; t.s];
        for p in check {
            sum.iter_mut().zip(packet_of(&after.block, t.s, *p)).for_each(|(a, b)| *a ^= b);
        }
        let lost = check.iter().any(|p| after.map[*p] == 1);
        holds(&format!("check {c} sums to zero"), lost || sum.iter().all(|b| *b == 0))?;
    }
    Ok(())
}

/// Block and map when arrivals are entered: the first packet at hand, zeros where there is
/// none.
fn entered(n: usize, t: &Table, carried: &Held, arrivals: &Held) -> Held {
    let [held, came] = [carried, arrivals].map(|held| (&held.block[..], &held.map[..]));
    let at_hand = model::packets_at_hand((n, t), held, came);
    let zeros = vec![0; t.s];
    let packet = |packets: &Vec<&[u8]>| packets.first().copied().unwrap_or(&zeros).to_vec();
    let mark = |p: usize| match carried.map[p] {
        mark if p < n && mark != 1 => mark,
        _ => at_hand[p].is_empty() as u8,
    };
    Held { block: at_hand.iter().flat_map(packet).collect(), map: (0..t.n).map(mark).collect() }
}

/// What was entered merged with a listener who heard nothing: that is the old repair
/// without C-17's rule. A 2 that was carried stays.
fn as_merged(
    rng: &mut Rng,
    table: &[u16],
    entered: &Held,
    answer: &Repaired,
    after: &Held,
) -> Result<(), String> {
    let (block, n) = (entered.block.clone(), entered.map.len());
    let first = Held { block, map: map_of(n, &places_lost(&entered.map)) };
    let (merged, third) = with_deaf(rng, table, &first)?;
    same("merged", answer, &repair_of(&merged))?;
    let mark = |p: usize| if entered.map[p] == 2 { 2 } else { third.map[p] };
    let map = (0..n).map(mark).collect();
    same_held("merged", after, &Held { block: third.block.clone(), map })
}

/// The same but for what doesn't count: bytes at lost places and marks at new ones,
/// packets that didn't arrive, arrivals at known places.
fn otherwise(rng: &mut Rng, n: usize, s: usize, carried: &Held, arrivals: &Held) -> (Held, Held) {
    let (mut carried, mut arrivals) = (carried.clone(), arrivals.clone());
    let fill = rng.pick(&[0, 1, 0x80, 255]);
    for p in 0..carried.map.len() {
        let place = p * s..(p + 1) * s;
        let known = p < n && carried.map[p] != 1;
        if p >= n {
            carried.map[p] = rng.pick(&[0, 1, 2, 3, 128, 255]);
        }
        if known {
            arrivals.map[p] = rng.below(2) as u8;
        } else {
            carried.block[place.clone()].fill(fill ^ p as u8);
        }
        if known || arrivals.map[p] == 1 {
            arrivals.block[place].fill(fill ^ p as u8 ^ 0x33);
        }
    }
    (carried, arrivals)
}

/// A call; and the same again where other things lay that don't count: answer, block and
/// map are the same.
fn over_anything(
    rng: &mut Rng,
    tables: Tables,
    carried: &Held,
    arrivals: &Held,
) -> Result<(Repaired, Held), String> {
    let (answer, after) = lengthen(rng, tables, carried, arrivals)?;
    if [0, 8].contains(&answer.refusal) {
        let (n, s) = (tables[0][1] as usize, tables[0][2] as usize);
        let (carried, arrivals) = otherwise(rng, n, s, carried, arrivals);
        let (again, then) = lengthen_alone(rng, tables, &carried, &arrivals)?;
        same("over others", &again, &answer)?;
        same_held("over others", &then, &after)?;
    }
    Ok((answer, after))
}

/// The library's repair of what was entered: the same answer, but that a place it would
/// blame isn't blamed here.
fn not_blamed(rng: &mut Rng, t: &Table, entered: &Held, answer: &Repaired) -> Result<(), String> {
    let plain = map_of(t.n, &places_lost(&entered.map));
    let (told, _, map) = repair_alone(rng, &gen::words(t), &entered.block, &plain)?;
    NOT_BLAMED.count_if(map.contains(&3));
    if map.contains(&3) {
        return same("not blamed", &answer.refusal, &8);
    }
    same("repair beside", answer, &told)
}

/// What sets of packets and of places say of a call: of small tables.
fn as_sets_say(
    rng: &mut Rng,
    [old, t]: [&Table; 2],
    carried: &Held,
    arrivals: &Held,
) -> Result<(), String> {
    let (answer, after) = lengthen(rng, [&gen::words(old), &gen::words(t)], carried, arrivals)?;
    let entered = entered(old.n, t, carried, arrivals);
    let lost = places_lost(&entered.map);
    if let Some((check, byte)) = model::contradictions(t, &lost, &entered.block).first() {
        same("8 by sets", &answer, &contradicts(*check, *byte))?;
        return same_held("8 by sets", &after, &entered);
    }
    let left = model::largest_stopping_set(t, &lost);
    let restored = (lost.len() - left.len()) as u32;
    same("answer by sets", &answer, &ok(restored, left.len() as u32, answer.additions))?;
    same("lost by sets", &places_lost(&after.map), &left)?;
    for (p, through) in model::peeled(t, &lost).iter().enumerate() {
        let packet = |q: &usize| packet_of(&entered.block, t.s, *q);
        let sum = |b: usize| through.iter().flatten().fold(0, |sum, q| sum ^ packet(q)[b]);
        let expected: Vec<u8> = (0..t.s).map(sum).collect();
        equal("packet by sets", packet_of(&after.block, t.s, p), &expected)?;
    }
    Ok(())
}

// ---------------------------------------------------------------- a pass

/// Block and map carried over to a table: at new places lies anything.
fn carry(rng: &mut Rng, held: &Held, t: &Table) -> Held {
    let mut carried = held.clone();
    let more = t.n - held.map.len();
    carried.block.extend(rng.bytes(more * t.s));
    carried.map.extend((0..more).map(|_| rng.pick(&[0, 1, 2, 3, 255])));
    carried
}

/// Places that none of some maps received.
fn by_none(n: usize, parts: &[Vec<u8>]) -> Vec<u8> {
    (0..n).map(|p| parts.iter().all(|map| map.get(p) != Some(&0)) as u8).collect()
}

/// The packets of a codeword that a map doesn't call lost. Anything else lies at lost ones.
fn heard(rng: &mut Rng, t: &Table, sent: &[u8], map: &[u8]) -> Held {
    rained(rng, t.s, &sent[..t.n * t.s], map.to_vec())
}

/// The library's repair of what was received of a codeword.
fn fresh(rng: &mut Rng, t: &Table, sent: &[u8], map: &[u8]) -> Result<Held, String> {
    let Held { block, map } = heard(rng, t, sent, map);
    let (answer, block, map) = repair_alone(rng, &gen::words(t), &block, &map)?;
    same("fresh repair", &answer.refusal, &0)?;
    Ok(Held { block, map })
}

/// Arrivals under a table that may be longer. Block and lost places are those of a fresh
/// repair with all that was received so far, which all maps together tell.
fn go_on(
    rng: &mut Rng,
    [old, t]: [&Table; 2],
    sent: &[u8],
    held: &Held,
    parts: &[Vec<u8>],
) -> Result<Held, String> {
    let carried = carry(rng, held, t);
    let arrivals = heard(rng, t, sent, parts.last().unwrap());
    let tables = [gen::words(old), gen::words(t)];
    let (answer, after) = over_anything(rng, [&tables[0], &tables[1]], &carried, &arrivals)?;
    same("packets of one codeword", &answer.refusal, &0)?;
    let so_far = by_none(t.n, parts);
    let fresh = fresh(rng, t, sent, &so_far)?;
    let left = places_lost(&after.map);
    same("as fresh, lost", &left, &places_lost(&fresh.map))?;
    equal("as fresh, block", &after.block, &fresh.block)?;
    equal("as sent", &after.block, &zeroed(&sent[..t.n * t.s], t.s, &left))?;
    let received = |p: &usize| after.map[*p] != 0 || so_far[*p] == 0;
    same("0 without a packet", &(0..t.n).find(|p| !received(p)), &None)?;
    Ok(after)
}

/// A pass in parts: a table and a map for each, of what was received or arrived then. At
/// the end all arrivals at once leave the same.
fn pass(rng: &mut Rng, tables: &[Table], sent: &[u8], parts: &[Vec<u8>]) -> Result<(), String> {
    let first = fresh(rng, &tables[0], sent, &parts[0])?;
    let mut held = first.clone();
    for i in 1..tables.len() {
        held = go_on(rng, [&tables[i - 1], &tables[i]], sent, &held, &parts[..=i])?;
    }
    let last = tables.last().unwrap();
    let at_once = [parts[0].clone(), by_none(last.n, &parts[1..])];
    let after = go_on(rng, [&tables[0], last], sent, &first, &at_once)?;
    same("at once, lost", &places_lost(&after.map), &places_lost(&held.map))?;
    equal("at once, block", &after.block, &held.block)
}

// ------------------------------------------------------------ random tables

/// The first checks of a table, and places up to their last at least.
fn cut(rng: &mut Rng, t: &Table) -> Table {
    let m = t.checks.len();
    let m = match rng.below(6) {
        0 => 0,
        1 => m,
        2 => m.saturating_sub(1),
        3 => m / 2,
        _ => rng.range(0, m),
    };
    let checks = t.checks[..m].to_vec();
    let fewest = checks.iter().flatten().max().map_or(1, |p| p + 1);
    let any = rng.range(fewest, t.n);
    let n = rng.pick(&[fewest, fewest, any, t.n]);
    Table { n, s: t.s, checks }
}

/// A check over these places and new ones: one of the new ones after some old ones, any
/// places, old ones only, or one that is there already.
fn new_check(rng: &mut Rng, t: &Table, n: usize, i: usize) -> Vec<usize> {
    let weight = if rng.once_in(30) { 63 } else { rng.range(0, 6) };
    match rng.below(8) {
        0 => rng.some_below(n, weight),
        1 => rng.some_below(t.n, weight),
        2 if !t.checks.is_empty() => t.checks[rng.below(t.checks.len())].clone(),
        _ if n > t.n => {
            let mut check = rng.some_below(t.n, weight);
            check.push(t.n + i % (n - t.n));
            check
        }
        _ => rng.some_below(n, weight.max(2)),
    }
}

/// So many places and checks more, as far as there may be.
fn longer(rng: &mut Rng, t: &Table) -> Table {
    let places = match rng.below(8) {
        0 | 1 => 0,
        2 | 3 => rng.range(1, 3),
        4 if rng.once_in(6) => model::MAX_PLACES,
        _ => rng.range(0, 30),
    };
    let n = (t.n + places).min(model::MAX_PLACES);
    let many = match rng.below(8) {
        0 => 0,
        1 | 2 => rng.range(1, 3),
        3 if rng.once_in(6) => model::MAX_CHECKS,
        4 => n - t.n,
        _ => rng.range(0, 30),
    };
    let mut checks = t.checks.clone();
    let mut ones: usize = checks.iter().map(|c| c.len()).sum();
    for i in 0..many {
        let check = new_check(rng, t, n, i);
        ones += check.len();
        if checks.len() == model::MAX_CHECKS || ones > model::MAX_ONES {
            break;
        }
        checks.push(check);
    }
    Table { n, s: t.s, checks }
}

/// A table and a longer one. Large ones are seldom.
fn two_tables(rng: &mut Rng) -> [Table; 2] {
    let mut t = loop {
        let t = if rng.once_in(3) { gen::half_rate(rng) } else { gen::table(rng) };
        if t.n <= 128 || rng.once_in(6) {
            break t;
        }
    };
    t.s = t.s.min(40_000 / t.n);
    match rng.below(5) {
        0 => [t.clone(), t],
        1 | 2 => [cut(rng, &t), t],
        _ => {
            let new = longer(rng, &t);
            let s = t.s.min(40_000 / new.n);
            [Table { s, ..t }, Table { s, ..new }]
        }
    }
}

// ------------------------------------------------------------ random cases

/// Arrivals: none, few, or as many as there are.
fn arrive(rng: &mut Rng, n: usize) -> Vec<u8> {
    match rng.below(6) {
        0 => vec![1; n],
        1 => map_of(n, &[]),
        2 | 3 => {
            let share = rng.pick(&[2, 5, 10]);
            (0..n).map(|_| (rng.below(100) >= share) as u8).collect()
        }
        _ => lose(rng, n),
    }
}

/// A pass in two to five parts. The second goes on with the first one's table at times.
fn pass_case(rng: &mut Rng) -> Result<(), String> {
    let [first, second] = two_tables(rng);
    let mut tables = vec![first, second];
    if rng.once_in(2) {
        tables.push(longer(rng, &tables[1]));
    }
    if rng.once_in(2) {
        tables.insert(0, cut(rng, &tables[0]));
    }
    if rng.once_in(2) {
        let at = rng.below(tables.len());
        tables.insert(at, tables[at].clone());
    }
    let sent = gen::codeword(rng, tables.last().unwrap());
    let parts: Vec<Vec<u8>> = tables.iter().map(|t| arrive(rng, t.n)).collect();
    pass(rng, &tables, &sent, &parts)
}

/// What is carried: the library's repair of a block under the old table, or a block with
/// any marks up to 2.
fn carried_of(rng: &mut Rng, [old, t]: [&Table; 2], block: &[u8]) -> Result<Held, String> {
    let map = lose(rng, old.n);
    let Held { block, mut map } = heard(rng, old, block, &map);
    // Each received place is tried by repair, so only with few.
    if old.n <= 40 && rng.once_in(2) {
        let (answer, block, map) = repair_alone(rng, &gen::words(old), &block, &map)?;
        BAD_3.count_if(answer.refusal == 0 && map.contains(&3));
        return Ok(carry(rng, &Held { block, map }, t));
    }
    map.iter_mut().filter(|mark| **mark == 0).for_each(|mark| *mark = rng.pick(&[0, 0, 2]));
    Ok(carry(rng, &Held { block, map }, t))
}

/// Packets wrong alike in what is carried and in arrivals, and others in each.
fn wrong_case(rng: &mut Rng) -> Result<(), String> {
    let [old, t] = two_tables(rng);
    let sent = gen::codeword(rng, &t);
    let both = wrong(rng, t.s, &sent, &[0, 0, 0, 1, 2]);
    let [block, came] = [0; 2].map(|_| wrong(rng, t.s, &both, &[0, 0, 1, 1, 2, 4]));
    let carried = carried_of(rng, [&old, &t], &block)?;
    let map = arrive(rng, t.n);
    let arrivals = heard(rng, &t, &came, &map);
    let tables = [gen::words(&old), gen::words(&t)];
    let (answer, _) = over_anything(rng, [&tables[0], &tables[1]], &carried, &arrivals)?;
    if t.n <= 40 && [0, 8].contains(&answer.refusal) {
        not_blamed(rng, &t, &entered(old.n, &t, &carried, &arrivals), &answer)?;
    }
    Ok(())
}

/// One packet wrong among all of a codeword, here or there: 8, and nobody is blamed; or it
/// isn't looked at.
fn one_wrong_case(rng: &mut Rng) -> Result<(), String> {
    let [old, t] = loop {
        let tables = two_tables(rng);
        if tables[1].n <= 60 {
            break tables;
        }
    };
    let sent = gen::codeword(rng, &t);
    let mut off = sent.clone();
    let place = rng.below(t.n);
    corrupt(rng, &mut off, t.s, place);
    let marks: Vec<u8> = (0..old.n).map(|_| rng.pick(&[0, 0, 1, 2])).collect();
    let carried = carry(rng, &Held { block: off[..old.n * t.s].to_vec(), map: marks }, &t);
    let arrivals = Held { block: off, map: arrive(rng, t.n) };
    let tables = [gen::words(&old), gen::words(&t)];
    let (answer, _) = over_anything(rng, [&tables[0], &tables[1]], &carried, &arrivals)?;
    not_blamed(rng, &t, &entered(old.n, &t, &carried, &arrivals), &answer)
}

/// A change of a table that makes it another, nearly always.
fn change(rng: &mut Rng, t: &mut Table) {
    let m = t.checks.len();
    match rng.below(10) {
        0 => t.s = rng.pick(&[t.s + 1, t.s.saturating_sub(1), 1]).clamp(1, model::MAX_SIZE),
        1 => t.n = (t.checks.iter().flatten().max().map_or(1, |p| p + 1)).max(t.n - 1),
        _ if m == 0 => {}
        2 => t.checks.swap(rng.below(m), rng.below(m)),
        3 => {
            t.checks.remove(rng.below(m));
        }
        4 => {
            t.checks.pop();
        }
        5 => {
            let check = t.checks[rng.below(m)].clone();
            t.checks.insert(rng.below(m), check);
            t.checks.truncate(model::MAX_CHECKS);
        }
        6 => {
            // The last place of one goes to the next.
            let c = rng.below(m);
            if let (Some(place), true) = (t.checks[c].last().copied(), c + 1 < m) {
                if t.checks[c + 1].first().map_or(true, |first| place < *first) {
                    t.checks[c].pop();
                    t.checks[c + 1].insert(0, place);
                }
            }
        }
        7 => {
            t.checks[rng.below(m)].pop();
        }
        _ => {
            // Another place.
            let (c, place) = (rng.below(m), rng.below(t.n));
            let check = &mut t.checks[c];
            if !check.contains(&place) {
                check.pop();
                check.push(place);
                check.sort();
            }
        }
    }
}

/// One to four of these: a damaged table, one that isn't a lengthening, buffers of wrong
/// length, marks over 2 and over 1.
fn refused_case(rng: &mut Rng) -> Result<(), String> {
    let [old, t] = two_tables(rng);
    let block = block_for(rng, &t);
    let mut carried = carried_of(rng, [&old, &t], &block)?;
    let map = arrive(rng, t.n);
    let mut arrivals = heard(rng, &t, &block, &map);
    let (mut changed, mut tables) = (t.clone(), [gen::words(&old), gen::words(&t)]);
    for _ in 0..rng.range(1, 4) {
        let held = if rng.once_in(2) { &mut carried } else { &mut arrivals };
        match rng.below(16) {
            0 => held.block.resize(gen::wrong_length(rng, t.n * t.s), 0xa5),
            1 => held.map.resize(gen::wrong_length(rng, t.n), 3),
            2 => held.block.resize(old.n * t.s, 0xa5),
            3 => held.map.resize(old.n, 0),
            4 | 5 => {
                let (which, damage) = (rng.below(2), rng.below(gen::TABLE_DAMAGES));
                gen::damage_table(rng, &mut tables[which], damage);
            }
            6 => tables.swap(0, 1),
            7..=9 => {
                change(rng, &mut changed);
                tables[1] = gen::words(&changed);
                // The lengths are the new table's.
                for held in [&mut carried, &mut arrivals] {
                    held.block.resize(changed.n * changed.s, 0);
                    held.map.resize(changed.n, 1);
                }
            }
            _ => {
                if let Some(last) = held.map.len().checked_sub(1) {
                    let p = rng.pick(&[0, last, old.n.min(last), (old.n - 1).min(last)]);
                    held.map[p] = rng.pick(&[2, 3, 3, 4, 128, 255]);
                }
            }
        }
    }
    over_anything(rng, [&tables[0], &tables[1]], &carried, &arrivals).map(|_| ())
}

/// Small tables: packets of one codeword, wrong ones.
fn brute_case(rng: &mut Rng) -> Result<(), String> {
    let s = rng.range(1, 3);
    let t = Table { s, ..gen::small_table(rng, 9, 8) };
    let old = cut(rng, &t);
    let sent = gen::codeword(rng, &t);
    for _ in 0..4 {
        let [block, came] = [0; 2].map(|_| wrong(rng, s, &sent, &[0, 0, 0, 1, 2]));
        let map: Vec<u8> = (0..old.n).map(|_| rng.pick(&[0, 1, 1, 2])).collect();
        let held = heard(rng, &old, &block, &map);
        let carried = carry(rng, &held, &t);
        let map = arrive(rng, t.n);
        let arrivals = heard(rng, &t, &came, &map);
        as_sets_say(rng, [&old, &t], &carried, &arrivals)?;
    }
    Ok(())
}

pub fn random_case(rng: &mut Rng) -> Result<(), String> {
    match rng.below(9) {
        0..=2 => pass_case(rng),
        3 => wrong_case(rng),
        4 => one_wrong_case(rng),
        5..=7 => refused_case(rng),
        _ => brute_case(rng),
    }
}

// ------------------------------------------------------------- fixed cases

/// A table of so many places, with these checks after its own.
fn with(table: &[u16], n: usize, more: &[&[usize]]) -> Vec<u16> {
    let t = model::look_over(table).unwrap();
    let more = more.iter().map(|check| check.to_vec());
    let checks: Vec<Vec<usize>> = t.checks.into_iter().chain(more).collect();
    model::table_words(n, t.s, &checks)
}

/// Marks, a digit each.
fn marks(digits: &str) -> Vec<u8> {
    digits.bytes().map(|digit| digit - b'0').collect()
}

/// Packets of one byte at old places, and their marks.
type Carried<'a> = (&'a [u8], &'a str);

/// Places at which a packet of one byte arrives.
type Arrivals<'a> = &'a [(usize, u8)];

/// What lies at new places, and what didn't arrive, is anything. Afterwards the marks are
/// these, and the block is this one but for zeros at lost places.
fn went_on(
    tables: Tables,
    (block, map): Carried,
    arrivals: Arrivals,
    answer: Repaired,
    after: Carried,
) -> Result<(), String> {
    let n = tables[1][1] as usize;
    let map_after = marks(after.1);
    let expected = Held { block: zeroed(after.0, 1, &places_lost(&map_after)), map: map_after };
    for fill in [255, 0, 1, 2] {
        let mut carried = Held { block: block.to_vec(), map: marks(map) };
        carried.block.resize(n, fill);
        carried.map.resize(n, fill);
        let mut came = Held { block: vec![fill; n], map: vec![1; n] };
        for (p, packet) in arrivals {
            (came.block[*p], came.map[*p]) = (*packet, 0);
        }
        let (got, after) = over_anything(&mut Rng::new(22, 0), tables, &carried, &came)?;
        same("answer", &got, &answer)?;
        same_held("after", &after, &expected)?;
    }
    Ok(())
}

/// The packets of a block that arrive.
fn of(block: &[u8], places: &[usize]) -> Vec<(usize, u8)> {
    places.iter().map(|p| (*p, block[*p])).collect()
}

/// P2's block with some places off.
fn off(at: &[(usize, u8)]) -> [u8; 7] {
    let mut block = P2;
    at.iter().for_each(|(p, value)| block[*p] ^= value);
    block
}

const ALL: &[usize] = &[0, 1, 2, 3, 4, 5, 6];
const KNOWN: &str = "0000000";
const BACK: &str = "2222222";
/// What P4 leaves, and what is lost in P5 and P6.
const P4: &str = "0002022";
const P5: &str = "0010110";
const P6: &str = "0010101";

/// Carried packets of P2's block, and arrivals of it.
fn table_a_cases(run: &mut Run) {
    let mut goes = |name: &str, tables, map, places: &[usize], answer, after| {
        let came = of(&P2, places);
        let result = went_on(tables, (&P2, map), &came, answer, (&P2, after));
        run.fixed(&format!("longer, {name}"), result);
    };
    // P6 stalls, and P7's fourth check brings all back.
    goes("P6, then P7", [A, A4], P6, &[], ok(3, 0, 9), "0020202");
    goes("P6, nothing new", [A, A], P6, &[], ok(0, 3, 0), P6);
    goes("P5, then P7's table", [A, A4], P5, &[], ok(0, 3, 0), P5);
    // Check 0 brings one, check 1 the other.
    goes("P5, 2 arrives", [A, A], P5, &[2], ok(2, 0, 6), "0000220");
    goes("P5, 4 arrives", [A, A], P5, &[4], ok(2, 0, 6), "0020020");
    goes("P5, all arrive", [A, A], P5, &[2, 4, 5], ok(0, 0, 0), KNOWN);
    goes("P5, 2 and 5 arrive", [A, A4], P5, &[2, 5], ok(1, 0, 3), "0000200");
    goes("nothing lost", [A, A4], KNOWN, &[], ok(0, 0, 0), KNOWN);
    goes("all lost", [A, A4], "1111111", &[], ok(0, 7, 0), "1111111");
    goes("all lost, all arrive", [A, A4], "1111111", ALL, ok(0, 0, 0), KNOWN);
    goes("all restored", [A, A4], BACK, &[], ok(0, 0, 0), BACK);
    goes("all restored, all arrive", [A, A4], BACK, ALL, ok(0, 0, 0), BACK);
    // Marks stay, and what was restored earlier isn't counted.
    goes("after P4", [A, A4], P4, &[], ok(0, 0, 0), P4);
    goes("after P4, all arrive", [A, A], P4, ALL, ok(0, 0, 0), P4);
    goes("after P4, 0 lost", [A, A4], "1002022", &[], ok(1, 0, 3), "2002022");
    goes("after P4, 0 and 1 lost", [A, A4], "1102022", &[1], ok(1, 0, 3), "2002022");
    // What the old repair would have restored is restored now.
    goes("3 not yet restored", [A, A], "0001000", &[], ok(1, 0, 3), "0002000");
    goes("3 arrives", [A, A], "0001000", ALL, ok(0, 0, 0), KNOWN);

    // Arrivals at known places are ignored, whatever they are.
    let others: Vec<(usize, u8)> = P2.iter().map(|packet| packet ^ 0x80).enumerate().collect();
    let mut ignored = |name: &str, tables, map, came: Arrivals, answer, after| {
        let result = went_on(tables, (&P2, map), came, answer, (&P2, after));
        run.fixed(&format!("longer, others {name}"), result);
    };
    ignored("at received places", [A, A4], KNOWN, &others, ok(0, 0, 0), KNOWN);
    ignored("at restored places", [A, A4], BACK, &others, ok(0, 0, 0), BACK);
    ignored("after P4", [A, A], P4, &others, ok(0, 0, 0), P4);
    let some = [&others[..2], &[(2, P2[2])], &others[6..]].concat();
    ignored("with 2", [A, A], P5, &some, ok(2, 0, 6), "0000220");
}

/// The same with new places, which hold these packets.
fn new_place_cases(run: &mut Run) {
    let mut goes = |name: &str, new: &[u16], more: &[u8], map, places: &[usize], answer, after| {
        let sent = [&P2[..], more].concat();
        let came = of(&sent, places);
        let result = went_on([A, new], (&P2, map), &came, answer, (&sent, after));
        run.fixed(&format!("longer, {name}"), result);
    };
    // A copy of place 2 at 7.
    let copy = with(A, 8, &[&[2, 7]]);
    goes("7 restored", &copy, &[4], KNOWN, &[], ok(1, 0, 1), "00000002");
    goes("7 arrives", &copy, &[4], KNOWN, &[7], ok(0, 0, 0), "00000000");
    goes("7 lost", &copy, &[4], P5, &[], ok(0, 4, 0), "00101101");
    goes("7 brings 2, 4 and 5", &copy, &[4], P5, &[7], ok(3, 0, 7), "00202200");
    goes("2 brings 4, 5 and 7", &copy, &[4], P5, &[2], ok(3, 0, 7), "00002202");
    goes("7 after P4", &copy, &[4], P4, &[7], ok(0, 0, 0), "00020220");
    // 8 brings 7, 7 brings 2.
    let chain = with(A, 9, &[&[7, 8], &[2, 7]]);
    goes("8 brings all", &chain, &[4, 4], P5, &[8], ok(4, 0, 8), "002022020");
    goes("8 lost too", &chain, &[4, 4], P5, &[], ok(0, 5, 0), "001011011");
    // Places without a check, at the end or before the last.
    let free = with(A, 9, &[]);
    goes("two free places", &free, &[0, 0], KNOWN, &[], ok(0, 2, 0), "000000011");
    goes("8 arrives, free", &free, &[0, 9], KNOWN, &[8], ok(0, 1, 0), "000000010");
    goes("7 arrives, free", &free, &[9, 0], P5, &[7], ok(0, 4, 0), "001011001");
    let gap = with(A, 9, &[&[2, 8]]);
    goes("8 beyond a free one", &gap, &[0, 4], P5, &[8], ok(3, 1, 7), "002022010");
    // A place alone in its check is zero. An empty check says nothing.
    let alone = with(A, 8, &[&[], &[7], &[]]);
    goes("7 zero", &alone, &[0], KNOWN, &[], ok(1, 0, 0), "00000002");
    goes("7 zero, arrives", &alone, &[0], P5, &[7], ok(0, 3, 0), "00101100");
}

/// Tables with few checks or none, and packets of zeros.
fn few_cases(run: &mut Run) {
    let mut few = |name: &str, tables, carried: Carried, came: Arrivals, answer, after: Carried| {
        run.fixed(&format!("longer, {name}"), went_on(tables, carried, came, answer, after));
    };
    let none: &[u16] = &[2, 3, 1, 0, 0];
    let (first, block) = (&with(none, 3, &[&[0, 1, 2]])[..], &[5, 6, 9][..]);
    let after = (&[5, 6, 3][..], "022");
    few("a first check", [none, first], (block, "021"), &[], ok(1, 0, 2), after);
    let after = (&[1, 6, 7][..], "200");
    few("an arrival at last", [none, first], (block, "101"), &[(2, 7)], ok(1, 0, 2), after);
    let after = (&[0, 6, 7][..], "120");
    few("no check", [none, none], (block, "121"), &[(2, 7)], ok(0, 1, 0), after);
    let four = &with(none, 4, &[&[0, 1, 2], &[2, 3]])[..];
    let after = (&[5, 6, 3, 3][..], "0022");
    few("a check, then a place", [none, four], (block, "001"), &[], ok(2, 0, 3), after);
    let after = (&[5, 6, 3, 3][..], "0220");
    few("a place, then a check", [none, four], (block, "011"), &[(3, 3)], ok(2, 0, 3), after);

    let single: &[u16] = &[2, 1, 1, 1, 1, 1, 0];
    few("P9", [single, single], (&[9], "1"), &[], ok(1, 0, 0), (&[0], "2"));
    let two = &with(single, 2, &[])[..];
    few("P9, a place", [single, two], (&[0], "0"), &[(1, 8)], ok(0, 0, 0), (&[0, 8], "00"));
    let copy = &with(single, 2, &[&[0, 1]])[..];
    few("P9, a copy", [single, copy], (&[7], "1"), &[(0, 0)], ok(1, 0, 1), (&[0, 0], "02"));

    // Zeros are a packet, also as arrival.
    let (zeros, sent) = (&[0, 9, 9, 9], [0, 0xa5, 0xa5, 0xa5]);
    few("zeros arrive", [B, B], (zeros, "0111"), &[(1, 0)], ok(2, 0, 4), (&[0; 4], "0022"));
    few("zeros late", [B, B], (&sent, "0210"), &[(1, 0)], ok(1, 0, 2), (&sent, "0220"));
}

/// 8 tells check and byte of what was entered. The map then says 0 where something arrived,
/// 1 where nothing is known, and there the block is zero.
fn contradiction_cases(run: &mut Run) {
    let mut eight = |name: &str, new, carried: Carried, came: Arrivals, check, after: Carried| {
        let result = went_on([A, new], carried, came, contradicts(check, 0), after);
        run.fixed(&format!("longer, 8, {name}"), result);
    };
    // What repair would blame isn't blamed.
    let (p8, right) = (&off(&[(0, 0x10)])[..], &[(0, P2[0])][..]);
    eight("P8", A, (p8, KNOWN), &[], 0, (p8, KNOWN));
    eight("P8, marks 2", A4, (p8, "2020022"), &[], 0, (p8, "2020022"));
    eight("P8, the right one arrives", A, (p8, KNOWN), right, 0, (p8, KNOWN));
    eight("P8 restored", A, (p8, "2000000"), right, 0, (p8, "2000000"));
    for place in 0..7 {
        let block = &off(&[(place, 0x80)])[..];
        let check = [0, 1, 0, 2, 0, 1, 0][place];
        let lost: String = (0..7).map(|p| if p == place { '1' } else { '0' }).collect();
        let came = of(block, &[place]);
        eight(&format!("{place} wrong"), A4, (block, KNOWN), &[], check, (block, KNOWN));
        eight(&format!("{place} arrives wrong"), A4, (&P2, &lost), &came, check, (block, KNOWN));
    }
    // 3 and 5 are restored before the check fails, and lost again; or they arrive.
    eight("3 and 5 lost", A4, (p8, "0001010"), &[], 0, (p8, "0001010"));
    eight("3 arrives", A4, (p8, "0021010"), &of(&P2, &[3]), 0, (p8, "0020010"));
    eight("both arrive", A4, (p8, "0021012"), &of(&P2, &[3, 5]), 0, (p8, "0020002"));

    // The wrong arrival at 2 brings 4 and 5 wrong, which only the new check sees.
    let copy = &with(A, 8, &[&[2, 7]])[..];
    let wrong = [1, 2, 0x14, 0x0e, 0x18, 0x1b, 0x0d, 4, 0];
    let came = [(2, 0x14), (7, 4)];
    eight("seen by the new check", copy, (&P2, P5), &came, 3, (&wrong[..8], "00001100"));
    // Carried so, it is seen then; a free place more is lost.
    let copy_free = &with(A, 9, &[&[2, 7]])[..];
    let (carried, after) = ((&wrong[..7], "0000220"), (&wrong[..], "000022001"));
    eight("seen later", copy_free, carried, &[(7, 4)], 3, after);
    let then = [&P2[..], &[5]].concat();
    eight("a new place wrong", copy, (&P2, KNOWN), &[(7, 5)], 3, (&then, "00000000"));
    // A new place is restored and makes the next check fail; or an old one does.
    let two = &with(A, 9, &[&[2, 7], &[3, 7, 8]])[..];
    let then = [&P2[..], &[0, 9]].concat();
    eight("by a restored place", two, (&P2, KNOWN), &[(8, 9)], 4, (&then, "000000010"));
    let then = [&P2[..], &[9]].concat();
    eight("by an old place", copy, (&P2, "0010000"), &[(7, 9)], 3, (&then, "00100000"));
    // The lowest check that fails is an old one, or the first of two new ones.
    let both = &with(A, 7, &[&[0, 1], &[1, 2]])[..];
    let old = &off(&[(3, 1)])[..];
    eight("two new checks fail", both, (&P2, KNOWN), &[], 3, (&P2, KNOWN));
    eight("old and new checks fail", both, (old, KNOWN), &[], 2, (old, KNOWN));
    // A check with two lost places isn't judged, so the next one is told.
    let (later, then) = (&with(A, 8, &[&[0, 2]])[..], [old, &[0]].concat());
    eight("a later check", later, (old, "1010000"), &[], 2, (&then, "10100001"));

    let (carried, after) = ((&P2[..], P5), (&wrong[..7], "0000220"));
    let result = went_on([A, A], carried, &[(2, 0x14)], ok(2, 0, 6), after);
    run.fixed("longer, a wrong arrival not seen", result);
}

/// Check 1 restores place 1, then check 0 place 0: check 2 fails, by a byte of place 2 that
/// is carried or arrives.
fn deep(s: usize, depth: usize, mark: u8) -> Result<(), String> {
    let checks = [vec![0, 1], vec![1, 2, 3], vec![0]];
    let [old, new] =
        [(3, &checks[..1]), (4, &checks[..])].map(|(n, c)| model::table_words(n, s, c));
    let block = zeros_but(4, s, &[(2, depth, 1)]);
    let arrivals = Held { block, map: vec![1, 1, 0, 0] };
    let carried = Held { map: vec![1, 1, mark, 255], ..arrivals.clone() };
    let (answer, after) = over_anything(&mut Rng::new(22, 0), [&old, &new], &carried, &arrivals)?;
    same("answer", &answer, &contradicts(2, depth as u32))?;
    let map = vec![1, 1, if mark == 1 { 0 } else { mark }, 0];
    same_held("8", &after, &Held { map, ..arrivals })
}

/// Whole packets arrive at 6 and 7, the copy of 2. All others come back.
fn whole_packets(s: usize) -> Result<(), String> {
    let (table, sent, off) = a_off(s, &[(2, s - 1, 0x80), (6, 0, 1)]);
    let new = with(&table, 8, &[&[2, 7]]);
    let sent = [&sent[..], packet_of(&sent, s, 2)].concat();
    let carried = Held { block: [&off[..], &vec![7; s]].concat(), map: marks("00101119") };
    let mut arrivals = Held { block: vec![0xee; 8 * s], map: marks("11111100") };
    arrivals.block[6 * s..].copy_from_slice(&sent[6 * s..]);
    let tables: Tables = [&table, &new];
    let (answer, after) = over_anything(&mut Rng::new(22, 0), tables, &carried, &arrivals)?;
    same("answer", &answer, &ok(3, 0, 7))?;
    same_held("after", &after, &Held { block: sent, map: marks("00202200") })
}

fn size_cases(run: &mut Run) {
    for (s, depth) in [(1, 0), (2, 1), (63, 62), (64, 63), (65, 64), (100, 70), (1024, 1023)] {
        for mark in [0, 1, 2] {
            let name = format!("longer, 8, size {s}, byte {depth}, mark {mark}");
            run.fixed(&name, deep(s, depth, mark));
        }
    }
    for s in [1, 2, 63, 64, 65, 1024] {
        run.fixed(&format!("longer, size {s}"), whole_packets(s));
    }
}

/// Refused with this number, and nothing is written.
fn refused(tables: Tables, carried: &Held, arrivals: &Held, refusal: u32) -> Result<(), String> {
    let (answer, after) = lengthen(&mut Rng::new(22, 0), tables, carried, arrivals)?;
    same("answer", &answer, &Repaired::refused(refusal))?;
    same_held("refused", &after, carried)
}

/// A block of which place 0 is zero, if packets have two bytes, and others end with 1.
fn some_bytes(len: usize) -> Vec<u8> {
    (0..len).map(|i| (i > 1 && i % 2 == 1) as u8).collect()
}

/// Such blocks with maps of one mark each. Lengths of block and map, then of the arrivals'.
fn held_of([block, map, came, arrived]: [usize; 4], marks: [u8; 2]) -> [Held; 2] {
    let held = |block, map, mark| Held { block: some_bytes(block), map: vec![mark; map] };
    [held(block, map, marks[0]), held(came, arrived, marks[1])]
}

/// The same with a table's lengths.
fn full_of(table: &[u16], marks: [u8; 2]) -> [Held; 2] {
    let (n, s) = (table[1] as usize, table[2] as usize);
    held_of([n * s, n, n * s, n], marks)
}

/// Marks of one kind in the carried map and in the arrivals'.
fn marks_of_both() -> impl Iterator<Item = [u8; 2]> {
    [0, 1, 2, 3, 255].into_iter().flat_map(|carried| [0, 1, 2, 255].map(|came| [carried, came]))
}

/// 15, with any marks.
fn unlike(tables: Tables) -> Result<(), String> {
    for marks in marks_of_both() {
        let [carried, arrivals] = full_of(tables[1], marks);
        let result = refused(tables, &carried, &arrivals, 15);
        result.map_err(|what| format!("marks {marks:?}: {what}"))?;
    }
    Ok(())
}

/// Tables that aren't a lengthening of the first one.
fn unlike_cases(run: &mut Run) {
    let checks: &[&[usize]] = &[&[0, 1], &[2, 3, 4], &[], &[1, 5]];
    let table = |n: usize, s: usize, checks: &[&[usize]]| {
        model::table_words(n, s, &checks.iter().map(|c| c.to_vec()).collect::<Vec<_>>())
    };
    let old = table(7, 2, checks);
    let mut unlike = |name: &str, old: &[u16], new: &[u16]| {
        run.fixed(&format!("longer, 15, {name}"), unlike([old, new]));
    };
    let others: [(&str, &[&[usize]]); 26] = [
        ("another place at first", &[&[0, 2], &[2, 3, 4], &[], &[1, 5]]),
        ("another lowest place", &[&[0, 1], &[1, 3, 4], &[], &[1, 5]]),
        ("another lowest place at the end", &[&[0, 1], &[2, 3, 4], &[], &[0, 5]]),
        ("another place at the end", &[&[0, 1], &[2, 3, 4], &[], &[1, 6]]),
        ("another place in the middle", &[&[0, 1], &[2, 3, 5], &[], &[1, 5]]),
        ("a new place for an old one", &[&[0, 1], &[2, 3, 7], &[], &[1, 5]]),
        ("the first two exchanged", &[&[2, 3, 4], &[0, 1], &[], &[1, 5]]),
        ("first and last exchanged", &[&[1, 5], &[2, 3, 4], &[], &[0, 1]]),
        ("the empty one at the end", &[&[0, 1], &[2, 3, 4], &[1, 5], &[]]),
        ("the empty one first", &[&[], &[0, 1], &[2, 3, 4], &[1, 5]]),
        ("the first missing", &[&[2, 3, 4], &[], &[1, 5], &[0, 1]]),
        ("the empty one missing", &[&[0, 1], &[2, 3, 4], &[1, 5]]),
        ("the last missing", &[&[0, 1], &[2, 3, 4], &[]]),
        ("the last missing, another there", &[&[0, 1], &[2, 3, 4], &[], &[0, 7]]),
        ("one check", &[&[0, 1]]),
        ("no checks", &[]),
        ("one more new place", &[&[0, 1, 7], &[2, 3, 4], &[], &[1, 5]]),
        ("one more new place at the end", &[&[0, 1], &[2, 3, 4], &[], &[1, 5, 8]]),
        ("one more old place", &[&[0, 1], &[1, 2, 3, 4], &[], &[1, 5]]),
        ("a place in the empty one", &[&[0, 1], &[2, 3, 4], &[8], &[1, 5]]),
        ("one place less", &[&[0, 1], &[2, 3], &[], &[1, 5]]),
        ("cut after the third", &[&[0, 1, 2], &[3, 4], &[], &[1, 5]]),
        ("cut after the first", &[&[0], &[1, 2, 3, 4], &[], &[1, 5]]),
        ("cut for the empty one", &[&[0, 1], &[2, 3], &[4], &[1, 5]]),
        ("a new one before", &[&[0, 7], &[0, 1], &[2, 3, 4], &[], &[1, 5]]),
        ("a new one between", &[&[0, 1], &[2, 3, 4], &[0, 8], &[], &[1, 5]]),
    ];
    for (name, checks) in others {
        unlike(name, &old, &table(9, 2, checks));
        // With as many places as before, where they are enough.
        if checks.iter().all(|check| check.iter().all(|p| *p < 7)) {
            unlike(&format!("{name}, as many places"), &old, &table(7, 2, checks));
            let more = table(8, 2, &[checks, &[&[0, 7]]].concat());
            unlike(&format!("{name}, a check more"), &old, &more);
        }
    }
    unlike("a place less", &old, &table(6, 2, checks));
    unlike("a place less, a check more", &old, &table(6, 2, &[checks, &[&[0, 5]]].concat()));
    for (name, n) in [("", 7), (", more places", 9)] {
        for s in [1, 3, 4, 1024] {
            unlike(&format!("size {s}{name}"), &old, &table(n, s, checks));
        }
    }
    let new = table(9, 2, &[checks, &[&[0, 7], &[8]]].concat());
    unlike("exchanged", &new, &old);
    unlike("a check less than the longer one", &new, &table(9, 2, &[checks, &[&[0, 7]]].concat()));
    unlike("A for B", B, A);
    unlike("A4, then A", A4, A);

    // The same, but these are.
    for (name, new) in [
        ("unchanged", old.clone()),
        ("a place more", table(8, 2, checks)),
        ("an empty check more", table(7, 2, &[checks, &[&[]]].concat())),
        ("places and checks more", new.clone()),
        ("all of them again", table(7, 2, &[checks, checks].concat())),
    ] {
        let [carried, arrivals] = full_of(&new, [1, 1]);
        let result = lengthen(&mut Rng::new(22, 0), [&old, &new], &carried, &arrivals);
        let lost = new[1] as u32;
        let free = name == "places and checks more";
        let expected = if free { ok(1, lost - 1, 0) } else { ok(0, lost, 0) };
        let result = result.and_then(|(answer, _)| same("answer", &answer, &expected));
        run.fixed(&format!("longer, {name}, is one"), result);
    }
}

/// The new table's lengths in these cases, then the old one's, then others.
const LENGTHS: [[usize; 4]; 14] = [
    [8, 4, 8, 4],
    [6, 3, 6, 3],
    [6, 3, 8, 4],
    [8, 4, 6, 3],
    [0; 4],
    [7, 4, 8, 4],
    [9, 4, 8, 4],
    [8, 3, 8, 4],
    [8, 5, 8, 4],
    [8, 4, 7, 4],
    [8, 4, 16, 4],
    [8, 4, 8, 0],
    [8, 4, 8, 5],
    [4, 8, 4, 8],
];

/// Two tables with the causes that they give, all lengths and all marks: the first cause
/// is told.
fn in_order(tables: Tables, [first, second]: [u32; 2]) -> Result<(), String> {
    let cases = LENGTHS.iter().flat_map(|lengths| marks_of_both().map(move |m| (lengths, m)));
    // Bare buffers: a few.
    for (lengths, marks) in cases.step_by(if bare() { 7 } else { 1 }) {
        let [carried, arrivals] = held_of(*lengths, marks);
        let five = if *lengths == LENGTHS[0] { 0 } else { 5 };
        let by_marks = [16 * (marks[0] > 2) as u32, 7 * (marks[1] > 1) as u32];
        let causes = [first, second % 15, five, second].into_iter().chain(by_marks);
        let result = match causes.into_iter().find(|cause| *cause > 0) {
            Some(cause) => refused(tables, &carried, &arrivals, cause),
            None => lengthen(&mut Rng::new(22, 0), tables, &carried, &arrivals).map(|_| ()),
        };
        result.map_err(|what| format!("lengths {lengths:?}, marks {marks:?}: {what}"))?;
    }
    Ok(())
}

/// Each cause alone and with those that come later. Places contradict.
fn order_cases(run: &mut Run) {
    let old: &[u16] = &[2, 3, 2, 2, 1, 1, 2, 0, 1];
    let new: &[u16] = &[2, 4, 2, 3, 1, 1, 1, 3, 0, 1, 3];
    let olds: [(&[u16], u32); 8] = [
        (old, 0),
        (&[], 1),
        (&old[..4], 1),
        (&[3, 3, 2, 2, 1, 1, 2, 0, 1], 2),
        (&[2, 0, 1, 1, 65], 2),
        (&old[..8], 3),
        (&[2, 3, 2, 1, 3, 2, 0, 9], 3),
        (&[2, 3, 2, 2, 1, 1, 2, 0, 3], 4),
    ];
    let news: [(&[u16], u32); 10] = [
        (new, 0),
        (&[], 1),
        (&new[..4], 1),
        (&[2, 4, 0, 3, 1, 1, 1, 3, 0, 1, 3], 2),
        (&[2, 4, 2, 513, 1], 2),
        (&new[..10], 3),
        (&[2, 4, 2, 3, 1, 1, 1, 2, 0, 1, 3], 3),
        (&[2, 4, 2, 3, 1, 1, 1, 3, 0, 1, 4], 4),
        (&[2, 4, 2, 1, 2, 2, 1, 1], 4),
        (&[2, 4, 2, 3, 1, 1, 1, 3, 0, 2, 3], 15),
    ];
    for (i, (old, first)) in olds.into_iter().enumerate() {
        for (j, (new, second)) in news.into_iter().enumerate() {
            let result = in_order([old, new], [first, second]);
            run.fixed(&format!("longer, order, tables {i} and {j}"), result);
        }
    }
    let held = held_of(LENGTHS[0], [0, 0]);
    let result = lengthen(&mut Rng::new(22, 0), [old, new], &held[0], &held[1]);
    let result = result.and_then(|(answer, after)| {
        same("answer", &answer, &contradicts(1, 1))?;
        same("map", &after.map, &vec![0; 4])
    });
    run.fixed("longer, order, 8", result);
}

/// Each buffer of any wrong length; lengths that are another table's.
fn length_cases(run: &mut Run) {
    let old: &[u16] = &[2, 3, 2, 2, 1, 1, 2, 0, 1];
    let new: &[u16] = &[2, 5, 2, 3, 1, 1, 1, 3, 0, 1, 3];
    let right = [10, 5, 10, 5];
    let mut five = |tables: Tables, lengths: [usize; 4], refusal: u32| {
        for marks in [[0, 0], [1, 1], [2, 0], [3, 2]] {
            let [carried, arrivals] = held_of(lengths, marks);
            let result = refused(tables, &carried, &arrivals, refusal);
            run.fixed(&format!("longer, {refusal}, lengths {lengths:?}, marks {marks:?}"), result);
        }
    };
    for buffer in 0..4 {
        let exact = right[buffer];
        for length in [0, 1, 3, 6, exact / 2, exact - 1, exact + 1, 2 * exact] {
            let mut lengths = right;
            lengths[buffer] = length;
            if length != exact {
                five([old, new], lengths, 5);
            }
        }
    }
    for lengths in [
        [9, 5, 11, 5],
        [11, 5, 9, 5],
        [10, 4, 10, 6],
        [10, 6, 10, 4],
        [5, 10, 5, 10],
        [10, 5, 5, 10],
    ] {
        five([old, new], lengths, 5);
    }
    // Exchanged tables: lengths of the longer one are 5, those of the shorter 15.
    five([new, old], right, 5);
    five([new, old], [6, 3, 6, 3], 15);
    // Another size: its own lengths are 15, the old size's 5.
    let smaller: &[u16] = &[2, 5, 1, 3, 1, 1, 1, 3, 0, 1, 3];
    five([old, smaller], right, 5);
    five([old, smaller], [5; 4], 15);
    let larger: &[u16] = &[2, 5, 3, 3, 1, 1, 1, 3, 0, 1, 3];
    five([old, larger], right, 5);
    five([old, larger], [15, 5, 15, 5], 15);
}

/// A byte in the carried map, in the arrivals' and in both, among others. Three of five
/// places are old.
fn over(byte: u8, place: usize, marks: [u8; 2]) -> Result<(), String> {
    let tables: Tables = [&[2, 3, 2, 2, 1, 1, 2, 0, 1], &[2, 5, 2, 3, 1, 1, 1, 3, 0, 1, 3]];
    let [plain, none] = full_of(tables[1], marks);
    let (mut carried, mut came) = (plain.clone(), none.clone());
    (carried.map[place], came.map[place]) = (byte, byte);
    let sixteen = byte > 2 && place < 3;
    refused(tables, &plain, &came, 7)?;
    refused(tables, &carried, &came, if sixteen { 16 } else { 7 })?;
    match sixteen {
        true => refused(tables, &carried, &none, 16),
        false => over_anything(&mut Rng::new(22, 0), tables, &carried, &none).map(|_| ()),
    }
}

/// Marks over 2 in the carried map count at old places, marks over 1 in the arrivals'
/// everywhere.
fn mark_cases(run: &mut Run) {
    for (byte, p) in (0..5).flat_map(|p| [2, 3, 4, 127, 128, 254, 255].map(|byte| (byte, p))) {
        for marks in [0, 1, 2].into_iter().flat_map(|carried| [[carried, 0], [carried, 1]]) {
            let name = format!("longer, 16 and 7, {byte} at {p} among {marks:?}");
            run.fixed(&name, over(byte, p, marks));
        }
    }
    // A place that repair marked 3 isn't carried over; marked 2 it is.
    let (mut rng, p8) = (Rng::new(22, 0), off(&[(0, 0x10)]));
    let blamed = repair_alone(&mut rng, A, &p8, &[0; 7]).and_then(|(_, block, map)| {
        same("blamed", &map, &marks("3000000"))?;
        let (carried, arrivals) =
            (Held { block, map }, Held { block: P2.to_vec(), map: vec![0; 7] });
        refused([A, A4], &carried, &arrivals, 16)?;
        refused([A, A], &carried, &arrivals, 16)?;
        went_on([A, A4], (&carried.block, "2000000"), &[], ok(0, 0, 0), (&P2, "2000000"))
    });
    run.fixed("longer, 16 after P8", blamed);
}

/// A table at the limits.
pub fn limit_table(rng: &mut Rng, name: &str, s: usize) -> Table {
    let checks = match name {
        "most words" => (0..512).map(|_| rng.some_below(1024, 12)).collect(),
        _ => limit_checks(rng, name),
    };
    Table { n: 1024, s, checks }
}

/// The first half of a table's checks, with all places up to their last.
fn first_half(t: &Table) -> Table {
    let checks = t.checks[..t.checks.len() / 2].to_vec();
    let n = checks.iter().flatten().max().unwrap() + 1;
    Table { n, s: t.s, checks }
}

/// A third of the places is received, another arrives under the same table, a part of the
/// last with the longer one, then all of it.
fn limit_pass(rng: &mut Rng, t: &Table, sent: &[u8]) -> Result<(), String> {
    let half = first_half(t);
    let part = |n: usize, of: usize, i: usize| (0..n).map(|p| (p % of != i) as u8).collect();
    let parts = [part(half.n, 3, 0), part(half.n, 3, 1), part(1024, 9, 2), part(1024, 3, 2)];
    let tables = [half.clone(), half, t.clone(), t.clone()];
    pass(rng, &tables, sent, &parts)?;
    pass(rng, &tables[1..3], sent, &[parts[0].clone(), part(1024, 3, 1)])
}

/// The last byte of a packet that arrives is wrong, among received and restored places.
fn limit_wrong(rng: &mut Rng, t: &Table, sent: &[u8]) -> Result<(), String> {
    let check = t.checks.iter().position(|check| check.contains(&1021)).unwrap();
    let mut wrong = sent.to_vec();
    wrong[1022 * t.s - 1] ^= 0x80;
    let arrivals = Held { block: wrong.clone(), map: vec![0; 1024] };
    let tables = [gen::words(&first_half(t)), gen::words(t)];
    for old in &tables {
        let n = old[1] as usize;
        for mark in [0, 2] {
            let mut map = vec![mark; 1024];
            (map[1021], map[1022]) = (1, 0);
            let carried = Held { block: sent.to_vec(), map };
            let (answer, after) = over_anything(rng, [old, &tables[1]], &carried, &arrivals)?;
            same("answer", &answer, &contradicts(check as u32, t.s as u32 - 1))?;
            let mut map = carried.map;
            map[1021] = 0;
            map[n..].fill(0);
            same_held("8", &after, &Held { block: wrong.clone(), map })?;
        }
    }
    Ok(())
}

/// The last place of the last check is another, or is missing, or the check is; then 16
/// and 7 by the last place.
fn limit_refused(t: &Table, sent: &[u8]) -> Result<(), String> {
    let words = gen::words(t);
    let held = Held { block: sent.to_vec(), map: vec![0; 1024] };
    let mut other = t.clone();
    let m = other.checks.len();
    let last = other.checks[m - 1].pop().unwrap();
    refused([&words, &gen::words(&other)], &held, &held, 15)?;
    let free = |p: &usize| *p != last && !other.checks[m - 1].contains(p);
    let place = (0..1024).rev().find(free).unwrap();
    other.checks[m - 1].push(place);
    other.checks[m - 1].sort();
    refused([&words, &gen::words(&other)], &held, &held, 15)?;
    other.checks.pop();
    refused([&words, &gen::words(&other)], &held, &held, 15)?;

    let mut over = held.clone();
    over.map[1023] = 3;
    refused([&words, &words], &over, &held, 16)?;
    refused([&words, &words], &held, &over, 7)
}

fn limit_cases(run: &mut Run) {
    for (name, s) in [("regular", 1024), ("staircase", 64), ("heavy", 3), ("most words", 2)] {
        if bare() && s == 1024 {
            continue;
        }
        let mut rng = Rng::new(22, s as u64);
        let t = limit_table(&mut rng, name, s);
        let sent = gen::codeword(&mut rng, &t);
        let mut limit = |what: &str, result| {
            run.fixed(&format!("longer, {name}, size {s}, {what}"), result);
        };
        limit("a pass", limit_pass(&mut rng, &t, &sent));
        limit("a wrong arrival", limit_wrong(&mut rng, &t, &sent));
        limit("refused", limit_refused(&t, &sent));
    }
}

/// From the least to the most places and checks, and one beyond.
fn reach_cases(run: &mut Run) {
    let mut from_one = |name: &str, s: usize, checks: &[Vec<usize>], answer: Repaired| {
        let tables = [model::table_words(1, s, &[]), model::table_words(1024, s, checks)];
        let carried = Held { block: vec![7; 1024 * s], map: vec![0; 1024] };
        let mut arrivals = Held { block: vec![9; 1024 * s], map: vec![1; 1024] };
        arrivals.map[1023] = 0;
        let tables: Tables = [&tables[0], &tables[1]];
        let result = over_anything(&mut Rng::new(22, 0), tables, &carried, &arrivals);
        let result = result.and_then(|(got, _)| same("answer", &got, &answer));
        run.fixed(&format!("longer, from one place to 1,024, {name}"), result);
    };
    from_one("no check", 1, &[], ok(0, 1022, 0));
    from_one("large", if bare() { 16 } else { 1024 }, &[], ok(0, 1022, 0));
    // Each place is a copy of the next.
    let copies: Vec<Vec<usize>> = (0..512).map(|i| vec![1022 - i, 1023 - i]).collect();
    from_one("511 checks", 2, &copies[..511], ok(511, 511, 511));
    from_one("512 checks", 2, &copies, ok(512, 510, 512));
    let back: Vec<Vec<usize>> = copies.iter().rev().cloned().collect();
    from_one("512 checks, the last first", 2, &back, ok(512, 510, 512));
    let heavy = [(960..1024).collect(), (0..63).chain([1023]).collect()];
    from_one("weight 64", 1, &heavy, ok(0, 1022, 0));
    let most: Vec<Vec<usize>> = (0..96).map(|i| (i..i + 63).chain([1023]).collect()).collect();
    from_one("6,144 ones", 1, &most, ok(0, 1022, 0));

    let one = model::table_words(1, 1, &[]);
    let mut beyond = |name: &str, n: usize, checks: &[Vec<usize>], refusal: u32| {
        let far = model::table_words(n, 1, checks);
        for tables in [[&one[..], &far[..]], [&far[..], &one[..]]] {
            for n in [n, 1] {
                let held = Held { block: vec![0; n], map: vec![0; n] };
                let result = refused(tables, &held, &held, refusal);
                run.fixed(&format!("longer, {name}, lengths of {n}"), result);
            }
        }
    };
    beyond("1,025 places", 1025, &[], 2);
    beyond("513 checks", 1024, &vec![vec![]; 513], 2);
    beyond("weight 65", 1024, &[(0..65).collect()], 3);
    let mut ones: Vec<Vec<usize>> = vec![(0..64).collect(); 96];
    ones.push(vec![0]);
    beyond("6,145 ones", 1024, &ones, 3);
    beyond("place n", 7, &[vec![0, 7]], 4);
}

/// Every carried map of 0, 1 and 2 with every map of arrivals, by sets.
fn every_map(tables: [&Table; 2], carried: &[u8], arrivals: &[u8]) -> Result<(), String> {
    let [old, t] = tables;
    let mut rng = Rng::new(22, 0);
    let maps = 3usize.pow(old.n as u32);
    // Bare buffers: a few.
    let step = if bare() { 211 } else { 1 };
    for number in (0..maps << t.n).step_by(step) {
        let (mut marks, came) = (number >> t.n, number % (1 << t.n));
        let mut map = Vec::new();
        for _ in 0..old.n {
            map.push((marks % 3) as u8);
            marks /= 3;
        }
        let held = rained(&mut rng, t.s, &carried[..old.n * t.s], map);
        let carried = carry(&mut rng, &held, t);
        let map = (0..t.n).map(|p| (came >> p & 1) as u8).collect();
        let arrivals = rained(&mut rng, t.s, arrivals, map);
        as_sets_say(&mut rng, tables, &carried, &arrivals)
            .map_err(|what| format!("{:?} and {:?}: {what}", held.map, arrivals.map))?;
    }
    Ok(())
}

/// Every pass in three parts through three tables.
fn every_pass(tables: &[Table; 3], sent: &[u8]) -> Result<(), String> {
    let mut rng = Rng::new(22, 0);
    let bits: Vec<usize> = tables.iter().map(|t| t.n).collect();
    // Bare buffers: a few.
    let step = if bare() { 307 } else { 1 };
    for number in (0usize..1 << bits.iter().sum::<usize>()).step_by(step) {
        let mut rest = number;
        let mut part = |n: &usize| {
            let map = (0..*n).map(|p| (rest >> p & 1) as u8).collect();
            rest >>= n;
            map
        };
        let parts: Vec<Vec<u8>> = bits.iter().map(&mut part).collect();
        pass(&mut rng, tables, sent, &parts).map_err(|what| format!("{parts:?}: {what}"))?;
    }
    Ok(())
}

fn every_cases(run: &mut Run) {
    let b = model::look_over(B).unwrap();
    let table = |n: usize, checks: &[&[usize]]| Table {
        n,
        s: 1,
        checks: checks.iter().map(|c| c.to_vec()).collect(),
    };
    let more = |t: &Table, n: usize, checks: &[&[usize]]| {
        model::look_over(&with(&gen::words(t), n, checks)).unwrap()
    };
    let (none, line) = (table(3, &[]), table(3, &[&[0, 1], &[1, 2]]));
    let pairs: [(Table, Table); 8] = [
        (b.clone(), b.clone()),
        (b.clone(), more(&b, 5, &[&[1, 4]])),
        (none.clone(), more(&none, 4, &[&[0, 1, 2], &[2, 3]])),
        (line.clone(), more(&line, 5, &[&[0, 3], &[3, 4], &[1, 3]])),
        (table(4, &[&[0, 1, 2], &[2, 3]]), table(4, &[&[0, 1, 2], &[2, 3], &[0, 3]])),
        (table(2, &[]), table(4, &[])),
        (table(1, &[&[0]]), table(3, &[&[0], &[0, 2], &[1]])),
        (table(1, &[]), table(5, &[&[0, 1, 2], &[2, 3, 4], &[1, 4], &[0, 3]])),
    ];
    for (i, (old, new)) in pairs.iter().enumerate() {
        let sent = gen::codeword(&mut Rng::new(22, i as u64), new);
        let tables = [old, new];
        run.fixed(&format!("every map of pair {i}"), every_map(tables, &sent, &sent));
        for p in 0..new.n {
            let mut wrong = sent.clone();
            wrong[p] ^= 0x10;
            let name = format!("every map of pair {i}, place {p} wrong");
            run.fixed(&format!("{name} as arrival"), every_map(tables, &sent, &wrong));
            if p < old.n && p % 2 == 0 {
                run.fixed(&format!("{name} as carried"), every_map(tables, &wrong, &sent));
            }
        }
    }
    let chains = [
        [none.clone(), more(&none, 4, &[&[0, 1, 2]]), more(&none, 5, &[&[0, 1, 2], &[2, 3, 4]])],
        [line.clone(), line.clone(), more(&line, 4, &[&[0, 3]])],
        [
            table(2, &[]),
            table(4, &[&[0, 2], &[1, 2, 3]]),
            table(4, &[&[0, 2], &[1, 2, 3], &[0, 1]]),
        ],
    ];
    for (i, tables) in chains.iter().enumerate() {
        let sent = gen::codeword(&mut Rng::new(23, i as u64), &tables[2]);
        run.fixed(&format!("every pass of chain {i}"), every_pass(tables, &sent));
    }
}

pub fn fixed_cases(run: &mut Run) {
    table_a_cases(run);
    new_place_cases(run);
    few_cases(run);
    contradiction_cases(run);
    size_cases(run);
    unlike_cases(run);
    order_cases(run);
    length_cases(run);
    mark_cases(run);
    limit_cases(run);
    reach_cases(run);
    every_cases(run);
}
