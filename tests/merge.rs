//! Merging of what two listeners heard, in the comparison of the receiver.

use crate::gen::{self, Rng};
use crate::harness::{bare, equal, holds, same, Lent, Run};
use crate::model::{self, Merged, Repaired, Table};
use crate::{a_off, age, aged, block_for, byte_of, contradicts, corrupt, holds_of_repair};
use crate::{limit_checks, lose, map_of, ok, packet_of, places_lost, repair_alone};
use crate::{worked_tables, zeroed, zeros_but, Byte, A, A4, B, P2};
use std::collections::BTreeSet;

#[link(name = "receiver", kind = "static")]
extern "C" {
    fn bs_merge(
        table: *const u16,
        table_len: usize,
        block1: *const u8,
        block1_len: usize,
        map1: *const u8,
        map1_len: usize,
        block2: *const u8,
        block2_len: usize,
        map2: *const u8,
        map2_len: usize,
        block3: *mut u8,
        block3_len: usize,
        map3: *mut u8,
        map3_len: usize,
    ) -> Merged;
}

/// A block with its map: a listener's, or the third.
#[derive(Clone, Debug, PartialEq)]
pub struct Held {
    pub block: Vec<u8>,
    pub map: Vec<u8>,
}

// ----------------------------------------------------- one call, both ways

/// The library's answer, and the third block and map; it wrote nowhere else.
fn merge_alone(
    rng: &mut Rng,
    table: &[u16],
    first: &Held,
    second: &Held,
    third: &Held,
) -> Result<(Merged, Held), String> {
    let lent_table = Lent::new(rng, table);
    let (block1, map1) = (Lent::new(rng, &first.block), Lent::new(rng, &first.map));
    let (block2, map2) = (Lent::new(rng, &second.block), Lent::new(rng, &second.map));
    let (mut block3, mut map3) = (Lent::new(rng, &third.block), Lent::new(rng, &third.map));
    let answer = unsafe {
        bs_merge(
            lent_table.ptr(),
            lent_table.len(),
            block1.ptr(),
            block1.len(),
            map1.ptr(),
            map1.len(),
            block2.ptr(),
            block2.len(),
            map2.ptr(),
            map2.len(),
            block3.mut_ptr(),
            block3.len(),
            map3.mut_ptr(),
            map3.len(),
        )
    };
    lent_table.kept("merge, table")?;
    block1.kept("merge, first block")?;
    map1.kept("merge, first map")?;
    block2.kept("merge, second block")?;
    map2.kept("merge, second map")?;
    block3.guarded("merge, third block")?;
    map3.guarded("merge, third map")?;
    Ok((answer, Held { block: block3.content().to_vec(), map: map3.content().to_vec() }))
}

/// A listener merged with one who heard nothing: the old repair of its block, without
/// C-17's rule.
pub fn with_deaf(
    rng: &mut Rng,
    table: &[u16],
    listener: &Held,
) -> Result<(Merged, Held), String> {
    let Held { block, map } = listener;
    let deaf = Held { block: vec![0x5a; block.len()], map: vec![1; map.len()] };
    merge_alone(rng, table, listener, &deaf, &deaf)
}

fn same_held(name: &str, got: &Held, expected: &Held) -> Result<(), String> {
    equal(&format!("{name}, third map"), &got.map, &expected.map)?;
    equal(&format!("{name}, third block"), &got.block, &expected.block)
}

/// The library's answer, and the third block and map, if they are the model's, and
/// what holds of every merge holds.
fn merge(
    rng: &mut Rng,
    table: &[u16],
    first: &Held,
    second: &Held,
    third: &Held,
) -> Result<(Merged, Held), String> {
    let (answer, after) = merge_alone(rng, table, first, second, third)?;
    let mut expected = third.clone();
    let Held { block, map } = &mut expected;
    let told =
        model::merge(table, &first.block, &first.map, &second.block, &second.map, block, map);
    same("merge", &answer, &told)?;
    same_held("merge", &after, &expected)?;
    holds_of_merge(table, [first, second], third, &answer, &after)?;
    Ok((answer, after))
}

/// What holds of every merge, seen from outside.
fn holds_of_merge(
    table: &[u16],
    listeners: [&Held; 2],
    third: &Held,
    answer: &Merged,
    after: &Held,
) -> Result<(), String> {
    if ![0, 8].contains(&answer.refusal) {
        same("refused", answer, &Merged::refused(answer.refusal))?;
        return same_held("refused", after, third);
    }
    let (n, s) = (table[1] as usize, table[2] as usize);
    let (counts, together) = by_sets(n, s, listeners);
    let before = (&together.block[..], &together.map[..]);
    holds_of_repair(table, before, &repair_of(answer), (&after.block, &after.map))?;
    holds("nobody is blamed", !after.map.contains(&3))?;
    if answer.refusal == 8 {
        return same("8, counts", &counts_of(answer), &[0; 4]);
    }
    same("counts", &counts_of(answer), &counts)?;
    same("all places are counted", &counts_of(answer).iter().sum(), &(n as u32))
}

/// The counts of agreed, single, silent and clash.
fn counts_of(answer: &Merged) -> [u32; 4] {
    [answer.agreed, answer.single, answer.silent, answer.clash]
}

/// What the answer says of the repair.
pub fn repair_of(answer: &Merged) -> Repaired {
    let Merged { refusal, restored, lost, additions, check, byte, .. } = *answer;
    Repaired { refusal, restored, lost, additions, check, byte }
}

/// The four counts by the set of packets that were heard at each place, and the
/// block and map that are repaired then: with one packet in the set it is taken.
fn by_sets(n: usize, s: usize, listeners: [&Held; 2]) -> ([u32; 4], Held) {
    let mut counts = [0; 4];
    let mut together = Held { block: vec![0; n * s], map: vec![1; n] };
    for p in 0..n {
        let hearing: Vec<&&Held> = listeners.iter().filter(|held| held.map[p] == 0).collect();
        let packets: BTreeSet<&[u8]> =
            hearing.iter().map(|held| packet_of(&held.block, s, p)).collect();
        let kind = match (hearing.len(), packets.len()) {
            (2, 1) => 0,
            (1, 1) => 1,
            (0, 0) => 2,
            _ => 3,
        };
        counts[kind] += 1;
        if packets.len() == 1 {
            let packet = packets.first().unwrap();
            together.block[p * s..(p + 1) * s].copy_from_slice(packet);
            together.map[p] = 0;
        }
    }
    (counts, together)
}

/// A block and a map that held anything.
fn anything(rng: &mut Rng, block_len: usize, map_len: usize) -> Held {
    let map = match rng.below(3) {
        0 => vec![255; map_len],
        1 => (0..map_len).map(|_| rng.below(4) as u8).collect(),
        _ => rng.bytes(map_len),
    };
    Held { block: rng.bytes(block_len), map }
}

/// A merge. With the listeners exchanged, over another third block and map, answer,
/// block and map are the same.
fn both_ways(
    rng: &mut Rng,
    table: &[u16],
    first: &Held,
    second: &Held,
    third: &Held,
) -> Result<(Merged, Held), String> {
    let (answer, after) = merge(rng, table, first, second, third)?;
    let other = anything(rng, third.block.len(), third.map.len());
    let (exchanged, other_after) = merge_alone(rng, table, second, first, &other)?;
    same("exchanged", &exchanged, &answer)?;
    let expected = if [0, 8].contains(&answer.refusal) { &after } else { &other };
    same_held("exchanged", &other_after, expected)?;
    Ok((answer, after))
}

/// The same over a third block and map that held anything.
fn over_anything(
    rng: &mut Rng,
    t: &Table,
    first: &Held,
    second: &Held,
) -> Result<(Merged, Held), String> {
    let third = anything(rng, t.n * t.s, t.n);
    both_ways(rng, &gen::words(t), first, second, &third)
}

/// A listener merged with itself, or with one who heard nothing: that is the repair
/// of its block, but without C-17's rule.
fn by_itself(rng: &mut Rng, t: &Table, listener: &Held) -> Result<(), String> {
    let words = gen::words(t);
    let (old, block, map) = repair_alone(rng, &words, &listener.block, &listener.map)?;
    let lost = places_lost(&listener.map).len() as u32;
    let received = t.n as u32 - lost;
    let deaf = Held { block: rng.bytes(t.n * t.s), map: vec![1; t.n] };
    for (name, other, agreed, single) in
        [("with itself", listener, received, 0), ("with a deaf one", &deaf, 0, received)]
    {
        let (answer, after) = over_anything(rng, t, listener, other)?;
        if map.contains(&3) {
            same(&format!("{name}, not blamed"), &answer.refusal, &8)?;
            continue;
        }
        same(name, &repair_of(&answer), &old)?;
        same_held(name, &after, &Held { block: block.clone(), map: map.clone() })?;
        if answer.refusal == 0 {
            let expected = [agreed, single, lost, 0];
            same(&format!("{name}, counts"), &counts_of(&answer), &expected)?;
        }
    }
    Ok(())
}

/// Two listeners to one codeword, both right where they heard: no clash, no 8,
/// nothing lost that either alone receives or restores, and every packet as sent.
fn one_codeword(
    rng: &mut Rng,
    t: &Table,
    sent: &[u8],
    first: &Held,
    second: &Held,
) -> Result<(Merged, Held), String> {
    let (answer, after) = over_anything(rng, t, first, second)?;
    same("one codeword, refusal and clash", &(answer.refusal, answer.clash), &(0, 0))?;
    let left = places_lost(&after.map);
    equal("one codeword", &after.block, &zeroed(sent, t.s, &left))?;
    for alone in [first, second] {
        let (_, _, map) = repair_alone(rng, &gen::words(t), &alone.block, &alone.map)?;
        same("lost by both only", &left.iter().find(|p| map[**p] != 1), &None)?;
    }
    Ok((answer, after))
}

/// A clash is as if nobody had heard, but for the counts.
fn as_if_silent(
    rng: &mut Rng,
    t: &Table,
    first: &Held,
    second: &Held,
) -> Result<(Merged, Held), String> {
    let (answer, after) = over_anything(rng, t, first, second)?;
    let (mut first, mut second) = (first.clone(), second.clone());
    let both = |p: &usize| first.map[*p] == 0 && second.map[*p] == 0;
    let differ = |p: &usize| packet_of(&first.block, t.s, *p) != packet_of(&second.block, t.s, *p);
    let clashes: Vec<usize> = (0..t.n).filter(both).filter(differ).collect();
    for p in &clashes {
        (first.map[*p], second.map[*p]) = (1, 1);
    }
    let (as_if, as_if_after) = over_anything(rng, t, &first, &second)?;
    same_held("as if silent", &after, &as_if_after)?;
    let clash = if answer.refusal == 0 { clashes.len() as u32 } else { 0 };
    let silent = as_if.silent - clash;
    same("as if silent", &answer, &Merged { silent, clash, ..as_if })?;
    Ok((answer, after))
}

/// What sets of packets and of places say of a merge: of small tables.
fn as_sets_say(rng: &mut Rng, t: &Table, first: &Held, second: &Held) -> Result<(), String> {
    let third = anything(rng, t.n * t.s, t.n);
    let (answer, after) = merge(rng, &gen::words(t), first, second, &third)?;
    let (counts, together) = by_sets(t.n, t.s, [first, second]);
    let lost = places_lost(&together.map);
    if let Some((check, byte)) = model::contradictions(t, &lost, &together.block).first() {
        same("8 by sets", &answer, &contradicted(*check, *byte))?;
        return same_held("8 by sets", &after, &together);
    }
    let left = model::largest_stopping_set(t, &lost);
    let restored = (lost.len() - left.len()) as u32;
    let expected = accepted(counts, [restored, left.len() as u32, answer.additions]);
    same("answer by sets", &answer, &expected)?;
    same("lost by sets", &places_lost(&after.map), &left)?;
    for (p, through) in model::peeled(t, &lost).iter().enumerate() {
        let packet = |q: &usize| packet_of(&together.block, t.s, *q);
        let sum = |b: usize| through.iter().flatten().fold(0, |sum, q| sum ^ packet(q)[b]);
        let expected: Vec<u8> = (0..t.s).map(sum).collect();
        equal("packet by sets", packet_of(&after.block, t.s, p), &expected)?;
    }
    Ok(())
}

// ---------------------------------------------------------------- answers

/// Agreed, single, silent, clash; restored, lost, additions.
fn accepted(counts: [u32; 4], repair: [u32; 3]) -> Merged {
    let [agreed, single, silent, clash] = counts;
    let [restored, lost, additions] = repair;
    let none = Merged::refused(0);
    Merged { agreed, single, silent, clash, restored, lost, additions, ..none }
}

fn contradicted(check: u32, byte: u32) -> Merged {
    Merged { check, byte, ..Merged::refused(8) }
}

// ------------------------------------------------------------ random cases

/// A listener to a block, with old bytes at lost places.
pub fn rained(rng: &mut Rng, s: usize, block: &[u8], map: Vec<u8>) -> Held {
    let mut block = block.to_vec();
    age(rng, &mut block, s, &map);
    Held { block, map }
}

/// The same with any loss. At times the bytes at lost places are those of the block.
fn listener(rng: &mut Rng, s: usize, block: &[u8]) -> Held {
    let map = lose(rng, block.len() / s);
    if rng.once_in(4) {
        return Held { block: block.to_vec(), map };
    }
    rained(rng, s, block, map)
}

/// Different rain.
fn rain_case(rng: &mut Rng) -> Result<(), String> {
    let t = if rng.once_in(3) { gen::half_rate(rng) } else { gen::table(rng) };
    let sent = gen::codeword(rng, &t);
    let (first, second) = (listener(rng, t.s, &sent), listener(rng, t.s, &sent));
    one_codeword(rng, &t, &sent, &first, &second)?;
    by_itself(rng, &t, &first)
}

/// Some packets wrong.
pub fn wrong(rng: &mut Rng, s: usize, block: &[u8], many: &[usize]) -> Vec<u8> {
    let mut block = block.to_vec();
    for _ in 0..rng.pick(many) {
        let place = rng.below(block.len() / s);
        corrupt(rng, &mut block, s, place);
    }
    block
}

/// Packets wrong alike at both, and others at each.
fn wrong_case(rng: &mut Rng) -> Result<(), String> {
    let t = gen::table(rng);
    let sent = gen::codeword(rng, &t);
    let both = wrong(rng, t.s, &sent, &[0, 0, 0, 1, 2]);
    let [first, second] = [0; 2].map(|_| {
        let block = wrong(rng, t.s, &both, &[0, 1, 1, 2, 4, 30]);
        listener(rng, t.s, &block)
    });
    as_if_silent(rng, &t, &first, &second)?;
    // Each received place is tried by repair, so only with few.
    if t.n <= 40 {
        by_itself(rng, &t, &first)?;
    }
    Ok(())
}

/// One bit of one packet that both heard.
fn bit_case(rng: &mut Rng) -> Result<(), String> {
    let t = gen::table(rng);
    let sent = gen::codeword(rng, &t);
    let (mut first, mut second) = (listener(rng, t.s, &sent), listener(rng, t.s, &sent));
    let place = rng.below(t.n);
    for held in [&mut first, &mut second] {
        held.map[place] = 0;
        let packet = packet_of(&sent, t.s, place);
        held.block[place * t.s..(place + 1) * t.s].copy_from_slice(packet);
    }
    let (before, _) = one_codeword(rng, &t, &sent, &first, &second)?;
    let off = if rng.once_in(2) { &mut first } else { &mut second };
    off.block[place * t.s + byte_of(rng, t.s)] ^= 1 << rng.below(8);
    let (answer, after) = as_if_silent(rng, &t, &first, &second)?;
    let [agreed, single, silent, clash] = counts_of(&before);
    same("one bit, counts", &counts_of(&answer), &[agreed - 1, single, silent, clash + 1])?;
    equal("one bit", &after.block, &zeroed(&sent, t.s, &places_lost(&after.map)))
}

/// Any bytes, of few values, so that packets agree at times.
fn any_bytes(rng: &mut Rng, n: usize, s: usize) -> Held {
    let values = rng.pick(&[[0, 0, 0, 1], [0, 0x80, 0x80, 0x80], [3, 3, 0, 255]]);
    let block = (0..n * s).map(|_| rng.pick(&values)).collect();
    Held { block, map: lose(rng, n) }
}

fn any_case(rng: &mut Rng) -> Result<(), String> {
    let t = gen::table(rng);
    let (first, second) = (any_bytes(rng, t.n, t.s), any_bytes(rng, t.n, t.s));
    as_if_silent(rng, &t, &first, &second).map(|_| ())
}

/// One to four of these: a damaged table, buffers of wrong length, map bytes over 1.
/// In the third map these don't count.
fn refused_case(rng: &mut Rng) -> Result<(), String> {
    let t = gen::table(rng);
    let (mut words, block) = (gen::words(&t), block_for(rng, &t));
    let (first, second) = (listener(rng, t.s, &block), listener(rng, t.s, &block));
    let mut held = [first, second, anything(rng, t.n * t.s, t.n)];
    for _ in 0..rng.range(1, 4) {
        let Held { block, map } = &mut held[rng.below(3)];
        match rng.below(8) {
            0 => block.resize(gen::wrong_length(rng, t.n * t.s), 0xa5),
            1 => map.resize(gen::wrong_length(rng, t.n), 2),
            2 => {
                let which = rng.below(gen::TABLE_DAMAGES);
                gen::damage_table(rng, &mut words, which);
            }
            _ => {
                if let Some(last) = map.len().checked_sub(1) {
                    let p = rng.pick(&[0, last, last / 2]);
                    map[p] = rng.pick(&[2, 3, 128, 255]);
                }
            }
        }
    }
    let [first, second, third] = held;
    both_ways(rng, &words, &first, &second, &third).map(|_| ())
}

/// Small tables: packets of one codeword, wrong ones, any.
fn brute_case(rng: &mut Rng) -> Result<(), String> {
    let mut t = gen::small_table(rng, 9, 8);
    t.s = rng.range(1, 3);
    let sent = gen::codeword(rng, &t);
    for _ in 0..4 {
        let [first, second] = [0; 2].map(|_| {
            let block = wrong(rng, t.s, &sent, &[0, 0, 1, 2]);
            listener(rng, t.s, &block)
        });
        as_sets_say(rng, &t, &first, &second)?;
        let (first, second) = (any_bytes(rng, t.n, t.s), any_bytes(rng, t.n, t.s));
        as_sets_say(rng, &t, &first, &second)?;
    }
    Ok(())
}

pub fn random_case(rng: &mut Rng) -> Result<(), String> {
    match rng.below(7) {
        0 => rain_case(rng),
        1 => wrong_case(rng),
        2 => bit_case(rng),
        3 => any_case(rng),
        4 | 5 => refused_case(rng),
        _ => brute_case(rng),
    }
}

// ------------------------------------------------------------- fixed cases

/// A block, and the places of it that a listener lost.
type Heard<'a> = (&'a [u8], &'a [usize]);

/// Old bytes lie at lost places, and the third block and map are full of something.
/// Afterwards they are these.
fn merged(
    table: &[u16],
    first: Heard,
    second: Heard,
    answer: Merged,
    map: &[u8],
    block: &[u8],
) -> Result<(), String> {
    let mut rng = Rng::new(0, 0);
    let (n, s) = (table[1] as usize, table[2] as usize);
    let held = |(block, lost): Heard| Held { block: aged(block, s, lost), map: map_of(n, lost) };
    let expected = Held { block: block.to_vec(), map: map.to_vec() };
    for fill in [255, 0, 1] {
        let third = Held { block: vec![fill; n * s], map: vec![fill; n] };
        let (got, after) = both_ways(&mut rng, table, &held(first), &held(second), &third)?;
        same("answer", &got, &answer)?;
        same_held("after", &after, &expected)?;
    }
    Ok(())
}

/// P2's block with some places off.
fn p2_off(off: &[(usize, u8)]) -> [u8; 7] {
    let mut block = P2;
    off.iter().for_each(|(place, value)| block[*place] ^= value);
    block
}

/// What repair, with C-17's rule, answers to one listener alone.
fn alone(table: &[u16], (block, lost): Heard, answer: Repaired) -> Result<(), String> {
    let map = map_of(table[1] as usize, lost);
    let (got, _, _) = repair_alone(&mut Rng::new(0, 0), table, block, &map)?;
    same("repair", &got, &answer)
}

const ALL: &[usize] = &[0, 1, 2, 3, 4, 5, 6];

fn rain_cases(run: &mut Run) {
    let p2 = &P2[..];
    // Alone each stalls at three places. Together 2 comes back by check 1, then 4 by
    // check 0.
    let (first, second): (Heard, Heard) = ((p2, &[2, 4, 5]), (p2, &[2, 4, 6]));
    let together = accepted([3, 2, 2, 0], [2, 0, 6]);
    run.fixed("C-19", merged(A, first, second, together, &[0, 0, 2, 0, 2, 0, 0], p2));
    for (name, heard) in [("first", first), ("second", second)] {
        run.fixed(&format!("C-19, the {name} alone"), alone(A, heard, ok(0, 3, 0)));
    }

    let mut rain = |name: &str, lost: [&[usize]; 2], answer: Merged, map: [u8; 7]| {
        let after = zeroed(p2, 1, &places_lost(&map));
        let result = merged(A, (p2, lost[0]), (p2, lost[1]), answer, &map, &after);
        run.fixed(&format!("merge, {name}"), result);
    };
    let all = accepted([7, 0, 0, 0], [0, 0, 0]);
    rain("nothing lost", [&[], &[]], all, [0; 7]);
    let each = accepted([0, 7, 0, 0], [0, 0, 0]);
    rain("each what the other lost", [&[2, 4, 5], &[0, 1, 3, 6]], each, [0; 7]);
    rain("one heard nothing", [&[], ALL], each, [0; 7]);
    let none = accepted([0, 0, 7, 0], [0, 7, 0]);
    rain("nobody heard anything", [ALL, ALL], none, [1; 7]);
    let map = [0, 0, 0, 2, 0, 2, 2];
    let p4 = accepted([4, 0, 3, 0], [3, 0, 9]);
    rain("P4 twice", [&[3, 5, 6], &[3, 5, 6]], p4, map);
    let p4 = accepted([0, 4, 3, 0], [3, 0, 9]);
    rain("P4, the other heard nothing", [&[3, 5, 6], ALL], p4, map);
    let p5 = accepted([2, 2, 3, 0], [0, 3, 0]);
    rain("P5", [&[0, 2, 4, 5], &[1, 2, 4, 5]], p5, [0, 0, 1, 0, 1, 1, 0]);
    // Check 0 restores 0, check 2 restores 3.
    let some = accepted([3, 2, 2, 0], [2, 0, 6]);
    rain("0 and 3 by both", [&[0, 3, 5], &[0, 3, 6]], some, [2, 0, 0, 2, 0, 0, 0]);

    // Tables with few checks or none.
    let single: &[u16] = &[2, 1, 1, 1, 1, 1, 0];
    let no_checks: &[u16] = &[2, 3, 1, 0, 0];
    let mut few =
        |name: &str, table, one: Heard, other: Heard, answer, map: &[u8], block: &[u8]| {
            run.fixed(&format!("merge, {name}"), merged(table, one, other, answer, map, block));
        };
    let silent = accepted([0, 0, 1, 0], [1, 0, 0]);
    few("P9, silent", single, (&[9], &[0]), (&[9], &[0]), silent, &[2], &[0]);
    let clash = accepted([0, 0, 0, 1], [1, 0, 0]);
    few("P9, clash", single, (&[9], &[]), (&[8], &[]), clash, &[2], &[0]);
    few("P9, agreed", single, (&[9], &[]), (&[9], &[]), contradicted(0, 0), &[0], &[9]);
    few("P9, single", single, (&[9], &[]), (&[0], &[0]), contradicted(0, 0), &[0], &[9]);
    let zero = accepted([1, 0, 0, 0], [0, 0, 0]);
    few("P9, agreed on zero", single, (&[0], &[]), (&[0], &[]), zero, &[0], &[0]);
    let three = accepted([1, 1, 0, 1], [0, 1, 0]);
    let (first, second): (Heard, Heard) = ((&[1, 2, 3], &[]), (&[1, 5, 9], &[2]));
    few("P10", no_checks, first, second, three, &[0, 1, 0], &[1, 0, 3]);
    let three = accepted([0, 1, 1, 1], [0, 2, 0]);
    let (first, second): (Heard, Heard) = ((&[1, 2, 3], &[1]), (&[0, 5, 9], &[1, 2]));
    few("P10, one silent", no_checks, first, second, three, &[1, 1, 0], &[0, 0, 3]);
    // A packet of zeros is a packet.
    let b = accepted([2, 2, 0, 0], [0, 0, 0]);
    few("B, zeros", B, (&[0; 4], &[1]), (&[0; 4], &[2]), b, &[0; 4], &[0; 4]);
    let b = accepted([3, 0, 0, 1], [1, 0, 2]);
    let sent = [0, 0xa5, 0xa5, 0xa5];
    let off = [0, 0, 0xa5, 0xa5];
    few("B, zeros against a packet", B, (&sent, &[]), (&off, &[]), b, &[0, 2, 0, 0], &sent);
}

fn clash_cases(run: &mut Run) {
    let p2 = &P2[..];
    let p8 = &p2_off(&[(0, 0x10)])[..];
    let mut clash = |name: &str, table, first: Heard, second: Heard, answer, map: [u8; 7]| {
        let after = zeroed(p2, 1, &places_lost(&map));
        run.fixed(&format!("clash, {name}"), merged(table, first, second, answer, &map, &after));
    };
    // Check 0 restores place 0, whoever is wrong.
    let one = accepted([6, 0, 0, 1], [1, 0, 3]);
    let at_0 = [2, 0, 0, 0, 0, 0, 0];
    clash("P8 and P2", A, (p8, &[]), (p2, &[]), one, at_0);
    clash("both wrong", A, (p8, &[]), (&p2_off(&[(0, 0x20)]), &[]), one, at_0);
    for place in 0..7 {
        let mut map = [0; 7];
        map[place] = 2;
        let off = p2_off(&[(place, 0x80)]);
        clash(&format!("place {place}"), A, (p2, &[]), (&off, &[]), one, map);
    }
    // Checks 0 and 1 restore 0 and 1.
    let two = accepted([5, 0, 0, 2], [2, 0, 6]);
    let off = p2_off(&[(1, 0x10)]);
    clash("each wrong at one", A, (p8, &[]), (&off, &[]), two, [2, 2, 0, 0, 0, 0, 0]);
    // All four kinds: 0 in clash, 1 and 3 heard by one, 5 by none. Check 0 restores 0,
    // check 1 then 5.
    let four = accepted([3, 2, 1, 1], [2, 0, 6]);
    clash("all kinds", A, (p2, &[1, 5]), (p8, &[3, 5]), four, [2, 0, 0, 0, 0, 2, 0]);
    // As if P6 were lost; with a fourth check, P7.
    let off = p2_off(&[(2, 1), (4, 1), (6, 0xff)]);
    let three = accepted([4, 0, 0, 3], [0, 3, 0]);
    clash("P6", A, (p2, &[]), (&off, &[]), three, [0, 0, 1, 0, 1, 0, 1]);
    let three = accepted([4, 0, 0, 3], [3, 0, 9]);
    clash("P7", A4, (p2, &[]), (&off, &[]), three, [0, 0, 2, 0, 2, 0, 2]);
    let off = P2.map(|b| b ^ 0x80);
    let all = accepted([0, 0, 0, 7], [0, 7, 0]);
    clash("everywhere", A, (p2, &[]), (&off, &[]), all, [1; 7]);
    let off = p2_off(&[(2, 1), (4, 2), (5, 4), (6, 8)]);
    let (half, lost) = (accepted([0, 3, 0, 4], [0, 4, 0]), &[0, 1, 3][..]);
    let map = [0, 0, 1, 0, 1, 1, 1];
    clash("wherever both heard", A, (p2, lost), (&off, &[]), half, map);
}

/// 8 tells check and byte of what was put together. The third map says 1 where
/// nothing was, and the third block is zero there.
fn contradiction_cases(run: &mut Run) {
    let (p2, p8) = (&P2[..], &p2_off(&[(0, 0x10)])[..]);
    let off = &p2_off(&[(0, 0x10), (5, 1)])[..];
    let mut eight = |name: &str, first: Heard, second: Heard, lost: &[usize]| {
        let (map, after) = (map_of(7, lost), zeroed(p8, 1, lost));
        let result = merged(A, first, second, contradicted(0, 0), &map, &after);
        run.fixed(&format!("merge, 8, {name}"), result);
    };
    eight("agreed", (p8, &[]), (p8, &[]), &[]);
    eight("heard by one", (p8, &[]), (p8, ALL), &[]);
    eight("heard by either", (p8, &[1, 3, 5]), (p8, &[0, 2, 4, 6]), &[]);
    eight("place 0 heard by one", (p8, &[]), (p2, &[0]), &[]);
    eight("3 silent", (p8, &[3]), (p8, &[3, 5]), &[3]);
    eight("5 in clash", (p8, &[]), (off, &[]), &[5]);
    eight("3 silent, 5 in clash", (off, &[3]), (p8, &[3]), &[3, 5]);
    eight("1 and 3 silent, 5 in clash", (off, &[1, 3]), (p8, &[1, 3]), &[1, 3, 5]);

    // Repair of the same block would blame place 0.
    run.fixed("merge, not blamed", alone(A, (p8, &[]), ok(1, 0, 3)));
    let eight = model::table_words(8, 1, &model::look_over(A).unwrap().checks);
    let (with, without) = ([p8, &[7]].concat(), [p8, &[0]].concat());
    let map = [0, 0, 0, 0, 0, 0, 0, 1];
    let pairs: [(&str, Heard, Heard); 2] = [
        ("a place silent", (&with, &[7]), (&with, &[7])),
        ("a place in clash", (&with, &[]), (&without, &[])),
    ];
    for (name, first, second) in pairs {
        let result = merged(&eight, first, second, contradicted(0, 0), &map, &without)
            .and_then(|_| alone(&eight, (&with, &[7]), ok(1, 1, 3)));
        run.fixed(&format!("merge, not blamed, {name}"), result);
    }

    // Check 1 restores place 1, then check 0 place 0: check 2 fails.
    let checks = [vec![0, 1], vec![1, 2, 3], vec![0]];
    for (s, depth) in [(1, 0), (2, 1), (64, 63), (65, 64), (100, 70), (1024, 1023)] {
        let table = model::table_words(4, s, &checks);
        let block = zeros_but(4, s, &[(2, depth, 1)]);
        let other = zeros_but(4, s, &[(1, s - 1, 0x80), (2, depth, 1)]);
        let (first, second): (Heard, Heard) = ((&block, &[0]), (&other, &[0, 3]));
        let told = contradicted(2, depth as u32);
        let result = merged(&table, first, second, told, &[1, 1, 0, 0], &block);
        run.fixed(&format!("merge, 8, size {s}, byte {depth}"), result);
    }

    // A clash hides what the first check would tell. Check 511 has a packet of its
    // own.
    let mut many = vec![vec![]; 512];
    (many[256], many[511]) = (vec![0, 2], vec![1, 3]);
    let table = model::table_words(4, 1024, &many);
    let block = |bytes: &[Byte]| zeros_but(4, 1024, bytes);
    let both = block(&[(1, 5, 1), (0, 900, 1)]);
    let other = block(&[(1, 5, 1), (0, 900, 3)]);
    let result = merged(&table, (&both, &[]), (&both, &[]), contradicted(256, 900), &[0; 4], &both);
    run.fixed("merge, 8, check 256", result);
    let (map, after) = ([1, 0, 0, 0], block(&[(1, 5, 1)]));
    let told = contradicted(511, 5);
    let result = merged(&table, (&both, &[]), (&other, &[]), told, &map, &after);
    run.fixed("merge, 8, check 511", result);
}

/// Listeners who contradict alone, but not together.
fn hidden_cases(run: &mut Run) {
    let (one, other) = (p2_off(&[(1, 0x10), (3, 0x01)]), p2_off(&[(0, 0x10), (1, 0x11)]));
    for (name, block, check) in [("first", one, 1), ("second", other, 0)] {
        let result = alone(A, (&block, &[]), contradicts(check, 0));
        run.fixed(&format!("hidden, the {name} alone"), result);
    }
    let answer = accepted([5, 0, 0, 2], [2, 0, 6]);
    let result = merged(A, (&one, &[]), (&P2, &[]), answer, &[0, 2, 0, 2, 0, 0, 0], &P2);
    run.fixed("hidden, the other right", result);
    let answer = accepted([4, 0, 0, 3], [3, 0, 9]);
    let result = merged(A, (&one, &[]), (&other, &[]), answer, &[2, 2, 0, 2, 0, 0, 0], &P2);
    run.fixed("hidden, both wrong", result);
    // The check has two lost places and isn't judged.
    let table = [2, 3, 1, 1, 3, 3, 0, 1, 2];
    let (first, second): (Heard, Heard) = ((&[1, 1, 1], &[]), (&[2, 2, 1], &[]));
    let answer = accepted([1, 0, 0, 2], [0, 2, 0]);
    let result = merged(&table, first, second, answer, &[1, 1, 0], &[0, 0, 1]);
    run.fixed("hidden, not judged", result);
}

/// One bit of table A's codeword off: at one listener a clash, at both 8.
fn one_bit(s: usize, place: usize, byte: usize, bit: u8) -> Result<(), String> {
    let (table, sent, off) = a_off(s, &[(place, byte, bit)]);
    let mut map = [0; 7];
    map[place] = 2;
    let clash = accepted([6, 0, 0, 1], [1, 0, 3]);
    merged(&table, (&sent, &[]), (&off, &[]), clash, &map, &sent)?;
    let lost = &[place][..];
    let single = accepted([6, 1, 0, 0], [0, 0, 0]);
    merged(&table, (&sent, &[]), (&off, lost), single, &[0; 7], &sent)?;
    let check = [0, 1, 0, 2, 0, 1, 0][place];
    let told = contradicted(check, byte as u32);
    merged(&table, (&off, &[]), (&off, &[]), told, &[0; 7], &off)?;
    merged(&table, (&off, &[]), (&sent, lost), told, &[0; 7], &off)
}

/// Each bit of a packet in turn, at one place after another, without checks.
fn every_bit(s: usize) -> Result<(), String> {
    let mut rng = Rng::new(19, s as u64);
    let table = model::table_words(3, s, &[]);
    let first = Held { block: rng.bytes(3 * s), map: vec![0; 3] };
    let third = anything(&mut rng, 3 * s, 3);
    // Bare buffers: a few.
    let step = if bare() { 61 } else { 1 };
    for bit in (0..8 * s).step_by(step) {
        let (place, byte) = (bit % 3, bit / 8);
        let mut second = first.clone();
        second.block[place * s + byte] ^= 1 << (bit % 8);
        let (answer, after) = merge(&mut rng, &table, &first, &second, &third)?;
        let expected = accepted([2, 0, 0, 1], [0, 1, 0]);
        same(&format!("place {place}, bit {bit}"), &answer, &expected)?;
        same("third map", &after.map, &map_of(3, &[place]))?;
    }
    Ok(())
}

fn bit_cases(run: &mut Run) {
    for s in [1, 2, 63, 64, 65, 1024] {
        run.fixed(&format!("clash, size {s}, every bit"), every_bit(s));
        let mut bytes = vec![0, s - 1];
        bytes.dedup();
        let bits: Vec<(usize, u8)> = bytes.iter().flat_map(|b| [(*b, 0x01), (*b, 0x80)]).collect();
        for place in [0, 3, 6] {
            for (byte, bit) in bits.iter().copied() {
                let name = format!("clash, size {s}, place {place}, byte {byte}, bit {bit}");
                run.fixed(&name, one_bit(s, place, byte, bit));
            }
        }
    }
}

/// Two listeners to one codeword: one lost every third place, the other every
/// second. Then the last bit is off at two places that both heard; then one place
/// is off at both.
fn limit_cases(run: &mut Run) {
    for (name, s) in [("regular", 1024), ("staircase", 64), ("heavy", 3), ("most words", 2)] {
        if bare() && s == 1024 {
            continue;
        }
        let mut rng = Rng::new(19, s as u64);
        let checks = match name {
            "most words" => (0..512).map(|_| rng.some_below(1024, 12)).collect(),
            _ => limit_checks(&mut rng, name),
        };
        let t = Table { n: 1024, s, checks };
        let sent = gen::codeword(&mut rng, &t);
        let [first, mut second] = [3, 2].map(|every| {
            let map = (0..1024).map(|p| (p % every == 0) as u8).collect();
            rained(&mut rng, s, &sent, map)
        });
        let counted = |result: Result<(Merged, Held), String>, counts: [u32; 4]| {
            result.and_then(|(answer, _)| same("counts", &counts_of(&answer), &counts))
        };
        let result = one_codeword(&mut rng, &t, &sent, &first, &second);
        run.fixed(&format!("{name}, size {s}, merged"), counted(result, [341, 512, 171, 0]));
        for place in [1, 1021] {
            second.block[(place + 1) * s - 1] ^= 0x80;
        }
        let result = as_if_silent(&mut rng, &t, &first, &second);
        run.fixed(&format!("{name}, size {s}, two clashes"), counted(result, [339, 512, 171, 2]));

        let mut off = Held { block: sent, map: vec![0; 1024] };
        off.block[1022 * s - 1] ^= 0x80;
        let check = t.checks.iter().position(|check| check.contains(&1021)).unwrap();
        let result = over_anything(&mut rng, &t, &off, &off).and_then(|(answer, after)| {
            same("answer", &answer, &contradicted(check as u32, s as u32 - 1))?;
            same_held("8", &after, &off)
        });
        run.fixed(&format!("{name}, size {s}, one wrong at both"), result);
    }
}

/// Every pair of loss patterns of a table, by sets. If one codeword was sent nothing
/// is lost that either alone has.
fn every_pair(table: &[u16], block1: &[u8], block2: &[u8]) -> Result<(), String> {
    let mut rng = Rng::new(19, 0);
    let t = model::look_over(table).unwrap();
    let one_sent = block1 == block2 && model::verify(table, block1).codeword == 1;
    // Bare buffers: a few.
    let step = if bare() { 211 } else { 1 };
    for pair in (0usize..1 << (2 * t.n)).step_by(step) {
        let [first, second] = [(block1, 0), (block2, t.n)].map(|(block, from)| {
            let map = (0..t.n).map(|p| (pair >> (from + p) & 1) as u8).collect();
            rained(&mut rng, t.s, block, map)
        });
        let result = as_sets_say(&mut rng, &t, &first, &second).and_then(|_| match one_sent {
            true => one_codeword(&mut rng, &t, block1, &first, &second).map(|_| ()),
            false => Ok(()),
        });
        let lost = [&first, &second].map(|held| places_lost(&held.map));
        result.map_err(|what| format!("lost {:?} and {:?}: {what}", lost[0], lost[1]))?;
    }
    Ok(())
}

fn pair_cases(run: &mut Run) {
    let mut tables = worked_tables();
    let right = [vec![1, 2], vec![0, 1, 2, 3], vec![2, 3]];
    tables.push((model::table_words(4, 1, &right), vec![0; 4]));
    for (i, (table, block)) in tables.iter().enumerate() {
        run.fixed(&format!("every pair of table {i}"), every_pair(table, block, block));
        // All places of small tables, else the first and the last.
        let last = block.len() - 1;
        for p in (0..=last).step_by(if last < 5 { 1 } else { last }) {
            let mut wrong = block.clone();
            wrong[p] ^= 0x10;
            let name = format!("every pair of table {i}, place {p} wrong");
            run.fixed(&format!("{name} at one"), every_pair(table, block, &wrong));
            run.fixed(&format!("{name} at both"), every_pair(table, &wrong, &wrong));
        }
    }
}

/// Blocks of ones and maps of one mark, with these lengths: block and map of the
/// first, of the second, and the third ones.
fn refused_lengths(
    table: &[u16],
    lengths: [usize; 6],
    mark: u8,
    refusal: u32,
) -> Result<(), String> {
    let [block1, map1, block2, map2, block3, map3] = lengths;
    let held = |block: usize, map: usize| Held { block: vec![1; block], map: vec![mark; map] };
    let third = Held { block: vec![0xee; block3], map: vec![255; map3] };
    refused(table, &held(block1, map1), &held(block2, map2), &third, refusal)
}

fn refused(
    table: &[u16],
    first: &Held,
    second: &Held,
    third: &Held,
    refusal: u32,
) -> Result<(), String> {
    let (answer, after) = both_ways(&mut Rng::new(0, 0), table, first, second, third)?;
    same("answer", &answer, &Merged::refused(refusal))?;
    same_held("refused", &after, third)
}

/// Each cause, alone and with the next ones. Place 0 and place 1 contradict.
fn refusal_cases(run: &mut Run) {
    let good: &[u16] = &[2, 3, 2, 2, 1, 1, 2, 0, 1];
    let right = [6, 3, 6, 3, 6, 3];
    let mut order = |name: &str, table: &[u16], lengths: [usize; 6], refusal: u32| {
        for mark in [0, 1, 2] {
            let result = refused_lengths(table, lengths, mark, refusal);
            run.fixed(&format!("merge, {name}, marks {mark}"), result);
        }
    };
    let causes: [(&str, &[u16], u32); 8] = [
        ("empty table", &[], 1),
        ("1", &good[..4], 1),
        ("2", &[3, 3, 2, 2, 1, 1, 2, 0, 1], 2),
        ("3", &good[..8], 3),
        ("4", &[2, 3, 2, 2, 1, 1, 2, 0, 3], 4),
        ("1 before 2", &[3, 0, 0, 600], 1),
        ("2 before 3", &[2, 0, 1, 1, 65], 2),
        ("3 before 4", &[2, 3, 2, 1, 3, 2, 0, 9], 3),
    ];
    for (name, table, refusal) in causes {
        order(name, table, right, refusal);
        order(&format!("{name} and before 5"), table, [5, 4, 0, 2, 7, 6], refusal);
        order(&format!("{name} and before 5, all empty"), table, [0; 6], refusal);
    }
    for buffer in 0..6 {
        let exact = right[buffer];
        for length in [0, 1, exact - 1, exact + 1, 2 * exact] {
            let mut lengths = right;
            lengths[buffer] = length;
            order(&format!("5, buffer {buffer} of {length}"), good, lengths, 5);
        }
    }
    for lengths in [
        [0; 6],
        [3, 3, 3, 3, 3, 3],
        [6, 6, 6, 6, 6, 6],
        [12, 6, 12, 6, 12, 6],
        [3, 6, 6, 3, 6, 3],
        [6, 3, 3, 6, 6, 3],
        [6, 3, 6, 3, 3, 6],
        [7, 3, 5, 3, 6, 3],
        [6, 3, 7, 3, 5, 3],
        [6, 4, 6, 2, 6, 3],
        [6, 3, 6, 4, 6, 2],
        [5, 3, 5, 3, 5, 3],
        [6, 2, 6, 2, 6, 2],
    ] {
        order(&format!("5, lengths {lengths:?}"), good, lengths, 5);
    }

    // A map byte over 1: with all else heard, so that 8 would follow, or with
    // nothing heard.
    for (byte, place) in [2, 3, 4, 128, 255].into_iter().flat_map(|b| [(b, 0), (b, 1), (b, 2)]) {
        for others in [0, 1] {
            let plain = Held { block: vec![1; 6], map: vec![others; 3] };
            let mut over = plain.clone();
            over.map[place] = byte;
            let third = Held { block: vec![0xee; 6], map: vec![255; 3] };
            let name = format!("{byte} at {place} among {others}");
            let mut seven = |which: &str, first: &Held, second: &Held| {
                let result = refused(good, first, second, &third, 7);
                run.fixed(&format!("merge, 7, {which} map, {name}"), result);
            };
            seven("first", &over, &plain);
            seven("second", &plain, &over);
            seven("either", &over, &over);
        }
    }
    let (ones, heard) = (&[1; 6][..], (&[1; 6][..], &[][..]));
    run.fixed("merge, 8", merged(good, heard, heard, contradicted(0, 0), &[0; 3], ones));
    let (lost, after) = ((ones, &[0][..]), &[0, 0, 1, 1, 1, 1]);
    let result = merged(good, lost, lost, contradicted(1, 0), &[1, 0, 0], after);
    run.fixed("merge, 8, one of two", result);
}

pub fn fixed_cases(run: &mut Run) {
    rain_cases(run);
    clash_cases(run);
    contradiction_cases(run);
    hidden_cases(run);
    bit_cases(run);
    limit_cases(run);
    pair_cases(run);
    refusal_cases(run);
}
