//! The receiver's library against the model: repair, full repair, verification,
//! packet. Cases of merging are in merge.rs, those of reasons in why.rs, those of a longer
//! table in lengthen.rs, those of C-23's facts in rain.rs.

mod gen;
mod harness;
mod lengthen;
mod merge;
mod model;
mod rain;
mod why;

use gen::Rng;
use harness::{equal, holds, same, Lent, Run};
use model::{FullyRepaired, Part, Repaired, Table, Verified};

#[link(name = "receiver", kind = "static")]
extern "C" {
    fn bs_repair(
        table: *const u16,
        table_len: usize,
        block: *mut u8,
        block_len: usize,
        map: *mut u8,
        map_len: usize,
    ) -> Repaired;
    fn bs_full_repair(
        table: *const u16,
        table_len: usize,
        block: *mut u8,
        block_len: usize,
        map: *mut u8,
        map_len: usize,
        work: *mut u64,
        work_len: usize,
    ) -> FullyRepaired;
    fn bs_verify(table: *const u16, table_len: usize, block: *const u8, block_len: usize)
        -> Verified;
    fn bs_packet(n: usize, s: usize, place: usize, block: *const u8, block_len: usize) -> Part;
}

// ------------------------------------------------ one call, both ways

/// The library's answer, block and map; it wrote nowhere else.
fn repair_alone(
    rng: &mut Rng,
    table: &[u16],
    block: &[u8],
    map: &[u8],
) -> Result<(Repaired, Vec<u8>, Vec<u8>), String> {
    let lent_table = Lent::new(rng, table);
    let mut lent_block = Lent::new(rng, block);
    let mut lent_map = Lent::new(rng, map);
    let answer = unsafe {
        bs_repair(
            lent_table.ptr(),
            lent_table.len(),
            lent_block.mut_ptr(),
            lent_block.len(),
            lent_map.mut_ptr(),
            lent_map.len(),
        )
    };
    lent_table.kept("repair, table")?;
    lent_block.guarded("repair, block")?;
    lent_map.guarded("repair, map")?;
    Ok((answer, lent_block.content().to_vec(), lent_map.content().to_vec()))
}

/// The library's answer, block and map, if they are the model's, and what holds
/// of every repair holds.
fn repair(
    rng: &mut Rng,
    table: &[u16],
    block: &[u8],
    map: &[u8],
) -> Result<(Repaired, Vec<u8>, Vec<u8>), String> {
    let (answer, after, map_after) = repair_alone(rng, table, block, map)?;
    let (mut expected_block, mut expected_map) = (block.to_vec(), map.to_vec());
    let expected = model::repair(table, &mut expected_block, &mut expected_map);
    same("repair", &answer, &expected)?;
    equal("repair, block", &after, &expected_block)?;
    equal("repair, map", &map_after, &expected_map)?;
    holds_of_repair(table, (block, map), &answer, (&after, &map_after))?;
    Ok((answer, after, map_after))
}

/// What holds of every repair, seen from outside: of the answer, and of block
/// and map before and after.
fn holds_of_repair(
    table: &[u16],
    before: (&[u8], &[u8]),
    answer: &Repaired,
    after: (&[u8], &[u8]),
) -> Result<(), String> {
    if ![0, 8].contains(&answer.refusal) {
        same("refused", answer, &Repaired::refused(answer.refusal))?;
        return holds("refused, all kept", before == after);
    }
    let ((block, map), (block_after, map_after)) = (before, after);
    let (n, s) = (table[1] as usize, table[2] as usize);
    for p in 0..n {
        let packet = packet_of(block_after, s, p);
        let kept = packet == packet_of(block, s, p);
        let as_marked = match (map[p], map_after[p]) {
            (0, 0) => kept,
            (0, 3) => !kept,
            (1, 1) => packet.iter().all(|b| *b == 0),
            (1, 2) => true,
            _ => false,
        };
        holds(&format!("place {p}, {} became {}", map[p], map_after[p]), as_marked)?;
    }
    if answer.refusal == 8 {
        same("8, counts", answer, &contradicts(answer.check, answer.byte))?;
        return holds("8, map kept", map_after == map);
    }
    let marked = |byte: u8| map_after.iter().filter(|b| **b == byte).count() as u32;
    holds("one 3 at most", marked(3) <= 1)?;
    let Repaired { restored, lost, additions, .. } = *answer;
    same("counts", &(restored, lost), &(marked(2) + marked(3), marked(1)))?;
    same("accepted", answer, &ok(restored, lost, additions))?;
    rain::within_bound(table, additions)?;
    for (c, check) in model::look_over(table).unwrap().checks.iter().enumerate() {
        let mut sum = vec![0; s];
        for p in check {
            sum.iter_mut().zip(packet_of(block_after, s, *p)).for_each(|(a, b)| *a ^= b);
        }
        let lost = check.iter().any(|p| map_after[*p] == 1);
        holds(&format!("check {c} sums to zero"), lost || sum.iter().all(|b| *b == 0))?;
    }
    Ok(())
}

/// C-17's rule from outside: the library is asked again with each received place
/// marked lost too. An answer without a 3 is the old repair's, and so are block
/// and map; one with a 3, or 8, says that the old repair contradicts.
fn by_trial(rng: &mut Rng, table: &[u16], block: &[u8], map: &[u8]) -> Result<(), String> {
    let (answer, after, map_after) = repair_alone(rng, table, block, map)?;
    if answer.refusal == 0 && !map_after.contains(&3) {
        return Ok(());
    }
    let mut suspects = Vec::new();
    for p in (0..map.len()).filter(|p| map[*p] == 0) {
        let mut lost_too = map.to_vec();
        lost_too[p] = 1;
        let (answer, after, mut map_after) = repair_alone(rng, table, block, &lost_too)?;
        if answer.refusal == 0 && !map_after.contains(&3) && map_after[p] == 2 {
            map_after[p] = 3;
            suspects.push((answer, after, map_after));
        }
    }
    match suspects.pop() {
        Some(only) if suspects.is_empty() => {
            same("one suspect", &answer, &only.0)?;
            equal("one suspect, block", &after, &only.1)?;
            equal("one suspect, map", &map_after, &only.2)
        }
        last => {
            let count = suspects.len() + last.is_some() as usize;
            same(&format!("{count} suspects"), &answer.refusal, &8)
        }
    }
}

/// The library's answer, block, map and work; it wrote nowhere else.
fn full_repair_alone(
    rng: &mut Rng,
    table: &[u16],
    block: &[u8],
    map: &[u8],
    work: &[u64],
) -> Result<(FullyRepaired, Vec<u8>, Vec<u8>, Vec<u64>), String> {
    let lent_table = Lent::new(rng, table);
    let mut lent_block = Lent::new(rng, block);
    let mut lent_map = Lent::new(rng, map);
    let mut lent_work = Lent::new(rng, work);
    let answer = unsafe {
        bs_full_repair(
            lent_table.ptr(),
            lent_table.len(),
            lent_block.mut_ptr(),
            lent_block.len(),
            lent_map.mut_ptr(),
            lent_map.len(),
            lent_work.mut_ptr(),
            lent_work.len(),
        )
    };
    lent_table.kept("full repair, table")?;
    lent_block.guarded("full repair, block")?;
    lent_map.guarded("full repair, map")?;
    lent_work.guarded("full repair, work")?;
    let (block, map, work) = (lent_block.content(), lent_map.content(), lent_work.content());
    Ok((answer, block.to_vec(), map.to_vec(), work.to_vec()))
}

/// The library's answer, block and map, if they and the work are the model's.
fn full_repair_with(
    rng: &mut Rng,
    table: &[u16],
    block: &[u8],
    map: &[u8],
    work: &[u64],
) -> Result<(FullyRepaired, Vec<u8>, Vec<u8>), String> {
    let (answer, after, map_after, work_after) = full_repair_alone(rng, table, block, map, work)?;
    let (mut block, mut map, mut work) = (block.to_vec(), map.to_vec(), work.to_vec());
    let expected = model::full_repair(table, &mut block, &mut map, &mut work);
    same("full repair", &answer, &expected)?;
    equal("full repair, block", &after, &block)?;
    equal("full repair, map", &map_after, &map)?;
    equal("full repair, work", &work_after, &work)?;
    Ok((answer, block, map))
}

/// Work that held anything before.
fn dirty_work(rng: &mut Rng) -> Vec<u64> {
    let some = rng.next();
    (0..model::WORK_BUFFER as u64).map(|i| some.wrapping_mul(2 * i + 1)).collect()
}

fn full_repair(
    rng: &mut Rng,
    table: &[u16],
    block: &[u8],
    map: &[u8],
) -> Result<(FullyRepaired, Vec<u8>, Vec<u8>), String> {
    let work = dirty_work(rng);
    full_repair_with(rng, table, block, map, &work)
}

fn verify(rng: &mut Rng, table: &[u16], block: &[u8]) -> Result<Verified, String> {
    let lent_table = Lent::new(rng, table);
    let lent_block = Lent::new(rng, block);
    let answer = unsafe {
        bs_verify(lent_table.ptr(), lent_table.len(), lent_block.ptr(), lent_block.len())
    };
    same("verify", &answer, &model::verify(table, block))?;
    lent_table.kept("verify, table")?;
    lent_block.kept("verify, block")?;
    Ok(answer)
}

fn packet(rng: &mut Rng, n: usize, s: usize, place: usize, block: &[u8]) -> Result<Part, String> {
    let lent = Lent::new(rng, block);
    let answer = unsafe { bs_packet(n, s, place, lent.ptr(), lent.len()) };
    same("packet", &answer, &model::packet(n, s, place, block))?;
    lent.kept("packet, block")?;
    Ok(answer)
}

// ---------------------------------------------------------------- answers

const CODEWORD: Verified = Verified { refusal: 0, codeword: 1, check: 0, byte: 0 };

fn fails(check: u32, byte: u32) -> Verified {
    Verified { refusal: 0, codeword: 0, check, byte }
}

fn ok(restored: u32, lost: u32, additions: u32) -> Repaired {
    Repaired { refusal: 0, restored, lost, additions, check: 0, byte: 0 }
}

fn contradicts(check: u32, byte: u32) -> Repaired {
    Repaired { refusal: 8, restored: 0, lost: 0, additions: 0, check, byte }
}

fn fully(restored: u32, lost: u32) -> FullyRepaired {
    FullyRepaired { refusal: 0, restored, lost, check: 0, byte: 0 }
}

// ------------------------------------------------------------ random cases

/// Lost places: none, all, some share, a row of neighbours, or one.
fn lose(rng: &mut Rng, n: usize) -> Vec<u8> {
    let mut map = vec![0u8; n];
    match rng.below(12) {
        0 => {}
        1 => map.fill(1),
        2 => {
            let from = rng.below(n);
            let end = rng.range(from, n);
            map[from..end].fill(1);
        }
        3 => map[rng.below(n)] = 1,
        _ => {
            let share = rng.pick(&[5, 10, 20, 30, 40, 50, 70, 90]);
            map.iter_mut().for_each(|b| *b = (rng.below(100) < share) as u8);
        }
    }
    map
}

/// A byte of a packet: the last, one beside a multiple of 64, or any.
fn byte_of(rng: &mut Rng, s: usize) -> usize {
    match rng.below(4) {
        0 => s - 1,
        1 => (64 * rng.range(0, s / 64) + rng.below(3)).saturating_sub(1).min(s - 1),
        _ => rng.below(s),
    }
}

/// One bit, some bytes or all bytes of a packet changed.
fn corrupt(rng: &mut Rng, block: &mut [u8], s: usize, place: usize) {
    let packet = &mut block[place * s..(place + 1) * s];
    match rng.below(4) {
        0 | 1 => packet[byte_of(rng, s)] ^= 1 << rng.below(8),
        2 => {
            for _ in 0..rng.range(2, 4) {
                packet[byte_of(rng, s)] ^= rng.range(1, 255) as u8;
            }
        }
        _ => packet.iter_mut().for_each(|b| *b ^= rng.next() as u8),
    }
}

/// A codeword with one to three packets corrupted.
fn damaged_codeword(rng: &mut Rng, t: &Table) -> Vec<u8> {
    let mut block = gen::codeword(rng, t);
    for _ in 0..rng.range(1, 3) {
        let place = rng.below(t.n);
        corrupt(rng, &mut block, t.s, place);
    }
    block
}

/// A block for a table: mostly a codeword, at times corrupted or random.
fn block_for(rng: &mut Rng, t: &Table) -> Vec<u8> {
    match rng.below(12) {
        0 => rng.bytes(t.n * t.s),
        1 => vec![0; t.n * t.s],
        2..=4 => damaged_codeword(rng, t),
        _ => gen::codeword(rng, t),
    }
}

fn places_lost(map: &[u8]) -> Vec<usize> {
    (0..map.len()).filter(|p| map[*p] == 1).collect()
}

/// Old bytes at lost places.
fn age(rng: &mut Rng, block: &mut [u8], s: usize, map: &[u8]) {
    for p in places_lost(map) {
        block[p * s..(p + 1) * s].iter_mut().for_each(|b| *b = rng.next() as u8);
    }
}

fn repair_case(rng: &mut Rng) -> Result<(), String> {
    let t = gen::table(rng);
    let words = gen::words(&t);
    let mut block = block_for(rng, &t);
    let mut map = lose(rng, t.n);
    if !rng.once_in(4) {
        age(rng, &mut block, t.s, &map);
    }
    if rng.once_in(16) {
        for _ in 0..rng.range(1, 2) {
            let p = rng.pick(&[0, t.n - 1, t.n / 2]);
            map[p] = rng.pick(&[2, 3, 128, 255]);
        }
    }
    if rng.once_in(16) {
        block.resize(gen::wrong_length(rng, t.n * t.s), 0xa5);
    }
    if rng.once_in(16) {
        let fill = rng.pick(&[0, 1, 2]);
        map.resize(gen::wrong_length(rng, t.n), fill);
    }
    let (answer, block, map) = repair(rng, &words, &block, &map)?;
    if answer.refusal == 0 {
        // What is left is a stopping set, and a second call restores nothing.
        let left = places_lost(&map);
        holds("what is left is a stopping set", model::is_stopping_set(&t, &left))?;
        same("left", &(answer.lost as usize), &left.len())?;
        let again: Vec<u8> = map.iter().map(|b| (*b == 1) as u8).collect();
        let (second, _, _) = repair(rng, &words, &block, &again)?;
        same("second repair", &second, &Repaired { restored: 0, additions: 0, ..answer })?;
        if left.is_empty() {
            same("repaired block", &verify(rng, &words, &block)?.codeword, &1)?;
        }
        // The map as it is now is refusal 7 if something was restored.
        if answer.restored > 0 {
            same("old map", &repair(rng, &words, &block, &map)?.0.refusal, &7)?;
        }
    }
    Ok(())
}

fn verify_case(rng: &mut Rng) -> Result<(), String> {
    let t = gen::table(rng);
    let words = gen::words(&t);
    let mut block = block_for(rng, &t);
    if rng.once_in(10) {
        block.resize(gen::wrong_length(rng, t.n * t.s), 0);
    }
    verify(rng, &words, &block).map(|_| ())
}

/// Larger packets with some bytes wrong: both calls tell how deep.
fn byte_case(rng: &mut Rng) -> Result<(), String> {
    let mut t = gen::table(rng);
    t.s = rng.range(1, (40_000 / t.n).min(model::MAX_SIZE));
    let words = gen::words(&t);
    for _ in 0..4 {
        let mut block = damaged_codeword(rng, &t);
        verify(rng, &words, &block)?;
        let map = lose(rng, t.n);
        age(rng, &mut block, t.s, &map);
        repair(rng, &words, &block, &map)?;
    }
    Ok(())
}

/// A damaged table, with buffers of right or wrong lengths.
fn damaged_case(rng: &mut Rng) -> Result<(), String> {
    let t = gen::table(rng);
    let mut words = gen::words(&t);
    for _ in 0..rng.range(1, 2) {
        let which = rng.below(gen::TABLE_DAMAGES);
        gen::damage_table(rng, &mut words, which);
    }
    let n = words.get(1).map_or(t.n, |n| *n as usize);
    let n = if n <= 1024 && rng.once_in(2) { n } else { t.n };
    let mut block = rng.bytes((n * t.s).min(50_000));
    let mut map = lose(rng, n.max(1));
    map.truncate(n);
    if rng.once_in(6) {
        block.push(1);
    }
    if rng.once_in(6) {
        map.push(2);
    }
    if rng.once_in(6) && n > 0 {
        map[0] = 7;
    }
    repair(rng, &words, &block, &map)?;
    verify(rng, &words, &block)?;
    let work_len = if rng.once_in(6) { 8191 } else { model::WORK_BUFFER };
    full_repair_with(rng, &words, &block, &map, &vec![7; work_len])?;
    Ok(())
}

fn packet_case(rng: &mut Rng) -> Result<(), String> {
    let max = usize::MAX;
    let mut n = rng.range(1, 40);
    let mut s = rng.range(1, 20);
    if rng.once_in(8) {
        n = rng.pick(&[1, 1024]);
        s = rng.pick(&[1, 1023, 1024]);
    }
    let mut len = n * s;
    let mut place = rng.below(n);
    if rng.once_in(4) {
        place = rng.pick(&[n - 1, n, n + 1, max, max / s, max - 1]);
    }
    if rng.once_in(4) {
        len = gen::wrong_length(rng, len);
    }
    if rng.once_in(4) {
        n = rng.pick(&[0, 1025, 65536, 1 << 32, 1 << 63, max]);
    }
    if rng.once_in(4) {
        s = rng.pick(&[0, 1025, 65536, 1 << 32, 1 << 63, max]);
    }
    if rng.once_in(12) {
        // Products that come out as the length only when they wrap.
        (n, s, len) = rng.pick(&[(1 << 63, 2, 0), (1 << 32, 1 << 32, 0), (max, max, 1), (0, 5, 0)]);
        place = rng.pick(&[0, 1, max]);
    }
    let block = rng.bytes(len);
    let part = packet(rng, n, s, place, &block)?;
    if part.refusal == 0 {
        same("part", &(part.start, part.length), &(place * s, s))?;
    }
    Ok(())
}

/// Small tables: the definitions by brute force, not the model's calls.
fn brute_case(rng: &mut Rng) -> Result<(), String> {
    let t = gen::small_table(rng, 9, 8);
    let words = gen::words(&t);
    let codewords = model::codewords(&t);

    // Verification, on all bit patterns of six neighbouring places.
    let bit = rng.below(8);
    for pattern in 0usize..1 << t.n.min(6) {
        let pattern = pattern << rng.below(t.n - t.n.min(6) + 1);
        let block: Vec<u8> = (0..t.n).map(|p| ((pattern >> p & 1) as u8) << bit).collect();
        let answer = verify(rng, &words, &block)?;
        let is = codewords.binary_search(&pattern).is_ok();
        same("codeword", &(answer.codeword == 1), &is)?;
        if !is {
            let odd = |c: &Vec<usize>| c.iter().filter(|p| pattern >> **p & 1 == 1).count() % 2 == 1;
            let lowest = t.checks.iter().position(odd).unwrap();
            same("lowest check that fails", &(answer.check as usize), &lowest)?;
        }
    }

    // Repair leaves exactly the largest stopping set, whatever was lost.
    let mut block = vec![0u8; t.n];
    for bit in 0..8 {
        let word = rng.pick(&codewords);
        (0..t.n).for_each(|p| block[p] |= ((word >> p & 1) as u8) << bit);
    }
    for _ in 0..8 {
        let map = lose(rng, t.n);
        let lost = places_lost(&map);
        let mut received = block.clone();
        age(rng, &mut received, 1, &map);
        let left = model::largest_stopping_set(&t, &lost);
        let (answer, repaired, after) = repair(rng, &words, &received, &map)?;
        same("refusal", &answer.refusal, &0)?;
        same("largest stopping set", &places_lost(&after), &left)?;
        same("still lost", &(answer.lost as usize), &left.len())?;
        same("restored", &(answer.restored as usize), &(lost.len() - left.len()))?;
        for p in 0..t.n {
            let expected = if left.contains(&p) { 0 } else { block[p] };
            same("packet", &repaired[p], &expected)?;
        }
    }
    Ok(())
}

/// Small tables: check and byte are the lowest of all contradictions.
fn brute_byte_case(rng: &mut Rng) -> Result<(), String> {
    let mut t = gen::small_table(rng, 9, 8);
    t.s = rng.pick(&[1, 2, 63, 64, 65, 130]);
    let words = gen::words(&t);
    for _ in 0..8 {
        let mut block = damaged_codeword(rng, &t);
        let expected = match model::contradictions(&t, &[], &block).first() {
            None => CODEWORD,
            Some((check, byte)) => fails(*check, *byte),
        };
        same("verification", &verify(rng, &words, &block)?, &expected)?;

        let map = lose(rng, t.n);
        age(rng, &mut block, t.s, &map);
        as_sets_say(rng, &t, &block, &map)?;
    }
    Ok(())
}

/// Repair, with the rule of the one bad packet, by each place as a sum of
/// received ones.
fn as_sets_say(rng: &mut Rng, t: &Table, block: &[u8], map: &[u8]) -> Result<(), String> {
    let (answer, after, map_after) = repair(rng, &gen::words(t), block, map)?;
    let lost = places_lost(map);
    let accepted = ok(answer.restored, answer.lost, answer.additions);
    let (expected, bad) = match model::contradictions(t, &lost, block).first() {
        None => (accepted, None),
        Some((check, byte)) => match model::suspects_by_sets(t, &lost, block)[..] {
            [bad] => (accepted, Some(bad)),
            _ => (contradicts(*check, *byte), None),
        },
    };
    same("answer by sets", &answer, &expected)?;
    same("bad place by sets", &map_after.iter().position(|b| *b == 3), &bad)?;
    if answer.refusal == 8 {
        return Ok(());
    }
    let lost: Vec<usize> = lost.into_iter().chain(bad).collect();
    for (p, through) in model::peeled(t, &lost).iter().enumerate() {
        let sum = |b: usize| through.iter().flatten().fold(0, |sum, q| sum ^ block[q * t.s + b]);
        let packet: Vec<u8> = (0..t.s).map(sum).collect();
        same("packet by sets", &packet_of(&after, t.s, p).to_vec(), &packet)?;
        same("known by sets", &(map_after[p] != 1), &through.is_some())?;
    }
    Ok(())
}

// ---------------------------------------------- random cases, one bad packet

/// Some packets of a block wrong: one; several, each by itself; all by the same
/// difference, so that another may come out as the bad one; or each at bytes of
/// its own.
fn corrupt_some(rng: &mut Rng, block: &mut [u8], s: usize, received: &[usize]) {
    let many = rng.range(2, 3).min(received.len());
    let mut places = received.to_vec();
    rng.shuffle(&mut places);
    match rng.below(8) {
        0..=3 => corrupt(rng, block, s, places[0]),
        4 => places[..many].iter().for_each(|p| corrupt(rng, block, s, *p)),
        5 | 6 => {
            let mut difference = vec![0; s];
            corrupt(rng, &mut difference, s, 0);
            for p in &places[..many] {
                let packet = &mut block[p * s..(p + 1) * s];
                packet.iter_mut().zip(&difference).for_each(|(a, b)| *a ^= b);
            }
        }
        _ => {
            let bytes = rng.some_below(s, many);
            let turned = rng.below(many);
            let wrong = places.iter().cycle().skip(turned).zip(bytes);
            wrong.for_each(|(p, byte)| block[p * s + byte] ^= rng.range(1, 255) as u8);
        }
    }
}

/// A codeword with wrong packets among those received. Each received place is
/// tried, so large tables are seldom.
fn blame_case(rng: &mut Rng) -> Result<(), String> {
    let t = loop {
        let t = if rng.once_in(2) { gen::table(rng) } else { gen::half_rate(rng) };
        if t.n <= 128 || rng.once_in(24) {
            break t;
        }
    };
    let words = gen::words(&t);
    let codeword = gen::codeword(rng, &t);
    let share = rng.pick(&[0, 0, 5, 10, 20, 30, 40]);
    let map: Vec<u8> = (0..t.n).map(|_| (rng.below(100) < share) as u8).collect();
    let received: Vec<usize> = (0..t.n).filter(|p| map[*p] == 0).collect();
    if received.is_empty() {
        return Ok(());
    }
    let mut block = codeword.clone();
    corrupt_some(rng, &mut block, t.s, &received);
    let right = |p: &usize| packet_of(&block, t.s, *p) == packet_of(&codeword, t.s, *p);
    let wrong: Vec<usize> = (0..t.n).filter(|p| !right(p)).collect();
    age(rng, &mut block, t.s, &map);
    let (answer, after, map_after) = repair(rng, &words, &block, &map)?;
    if t.n <= 40 {
        by_trial(rng, &words, &block, &map)?;
    }

    // One is wrong, and if it is lost it comes back: it is blamed, and nobody
    // else. Then everything is as if it had been lost.
    if let [bad] = wrong[..] {
        let mut lost_too = map.clone();
        lost_too[bad] = 1;
        let (second, codeword, mut as_if) = repair_alone(rng, &words, &codeword, &lost_too)?;
        same("packets of one codeword", &second.refusal, &0)?;
        if as_if[bad] == 2 && answer.refusal == 0 {
            as_if[bad] = 3;
            same("as if lost", &answer, &second)?;
            equal("as if lost, block", &after, &codeword)?;
            equal("as if lost, map", &map_after, &as_if)?;
        } else if as_if[bad] == 2 {
            same("seen", &answer.refusal, &8)?;
        }
    }
    Ok(())
}

/// Small tables: each received place tried with the library.
fn brute_blame_case(rng: &mut Rng) -> Result<(), String> {
    let mut t = gen::small_table(rng, 12, 10);
    t.s = rng.range(1, 3);
    let words = gen::words(&t);
    for _ in 0..8 {
        let map = if rng.once_in(2) { vec![0; t.n] } else { lose(rng, t.n) };
        let received: Vec<usize> = (0..t.n).filter(|p| map[*p] == 0).collect();
        if received.is_empty() {
            continue;
        }
        let mut block = gen::codeword(rng, &t);
        corrupt_some(rng, &mut block, t.s, &received);
        age(rng, &mut block, t.s, &map);
        let (answer, _, map_after) = repair(rng, &words, &block, &map)?;
        let seen = answer.refusal == 8 || map_after.contains(&3);
        let contradictions = model::contradictions(&t, &places_lost(&map), &block);
        same("contradiction seen", &seen, &!contradictions.is_empty())?;
        by_trial(rng, &words, &block, &map)?;
    }
    Ok(())
}

// ------------------------------------------------- random cases, full repair

/// Full repair and what holds of it beside repair. Gives answer, block and map.
fn full_beside(
    rng: &mut Rng,
    t: &Table,
    block: &[u8],
    map: &[u8],
) -> Result<(FullyRepaired, Vec<u8>, Vec<u8>), String> {
    let words = gen::words(t);
    let (old, old_block, old_map) = repair(rng, &words, block, map)?;
    let (answer, after, map_after) = full_repair(rng, &words, block, map)?;
    if answer.refusal != 0 {
        return Ok((answer, after, map_after));
    }
    same("repair beside", &old.refusal, &0)?;
    for p in (0..t.n).filter(|p| old_map[*p] == 2) {
        same("restored alike, map", &map_after[p], &2)?;
        holds("restored alike", packet_of(&after, t.s, p) == packet_of(&old_block, t.s, p))?;
    }
    let lost = places_lost(map).len() as u32;
    same("restored and still lost", &(answer.restored + answer.lost), &lost)?;
    same("still lost", &(answer.lost as usize), &places_lost(&map_after).len())?;

    // A second call restores nothing; the map as it is now is refusal 7 if
    // something was restored.
    let again: Vec<u8> = map_after.iter().map(|b| (*b == 1) as u8).collect();
    let (second, same_block, _) = full_repair(rng, &words, &after, &again)?;
    same("second full repair", &second, &fully(0, answer.lost))?;
    holds("second full repair, block", same_block == after)?;
    if answer.restored > 0 {
        let (second, _, _) = full_repair(rng, &words, &after, &map_after)?;
        same("old map", &second, &FullyRepaired::refused(7))?;
    }
    if answer.lost == 0 {
        same("repaired block", &verify(rng, &words, &after)?.codeword, &1)?;
    }
    Ok((answer, after, map_after))
}

fn packet_of(block: &[u8], s: usize, place: usize) -> &[u8] {
    &block[place * s..(place + 1) * s]
}

fn full_case(rng: &mut Rng) -> Result<(), String> {
    let t = gen::table(rng);
    let mut block = block_for(rng, &t);
    let map = lose(rng, t.n);
    if !rng.once_in(4) {
        age(rng, &mut block, t.s, &map);
    }
    full_beside(rng, &t, &block, &map).map(|_| ())
}

/// One to three of these: a map byte over 1, and buffers of wrong length.
fn full_refused_case(rng: &mut Rng) -> Result<(), String> {
    let t = gen::table(rng);
    let mut block = block_for(rng, &t);
    let mut map = lose(rng, t.n);
    let mut work = dirty_work(rng);
    for _ in 0..rng.range(1, 3) {
        match rng.below(5) {
            0 => block.resize(gen::wrong_length(rng, t.n * t.s), 0xa5),
            1 => map.resize(gen::wrong_length(rng, t.n), 2),
            2 => work.resize(gen::wrong_length(rng, model::WORK_BUFFER), 5),
            _ => {
                if let Some(last) = map.len().checked_sub(1) {
                    let p = rng.pick(&[0, last, last / 2]);
                    map[p] = rng.pick(&[2, 3, 128, 255]);
                }
            }
        }
    }
    full_repair_with(rng, &gen::words(&t), &block, &map, &work).map(|_| ())
}

/// Packets of one codeword, so many lost that peeling stalls: what is restored
/// is the codeword's. Then with one byte of a received packet wrong.
fn stalled_case(rng: &mut Rng) -> Result<(), String> {
    let t = gen::half_rate(rng);
    let codeword = gen::codeword(rng, &t);
    let share = rng.range(40, 50);
    let lost = rng.some_below(t.n, t.n * share / 100);
    let map: Vec<u8> = (0..t.n).map(|p| lost.binary_search(&p).is_ok() as u8).collect();
    let mut block = codeword.clone();
    age(rng, &mut block, t.s, &map);
    let (answer, after, map_after) = full_beside(rng, &t, &block, &map)?;
    same("refusal", &answer.refusal, &0)?;
    let open = open_places(rng, &t, &map);
    for p in 0..t.n {
        let expected = if open[p] { vec![0; t.s] } else { packet_of(&codeword, t.s, p).to_vec() };
        same("still lost", &(map_after[p] == 1), &open[p])?;
        holds("packet", packet_of(&after, t.s, p) == expected)?;
    }

    let received: Vec<usize> = (0..t.n).filter(|p| map[*p] == 0).collect();
    block[rng.pick(&received) * t.s + byte_of(rng, t.s)] ^= rng.range(1, 255) as u8;
    full_beside(rng, &t, &block, &map).map(|_| ())
}

/// The places where codewords differ that agree with the received packets:
/// those where a random codeword that is zero at all received places isn't
/// zero. Its packets are long, so that none is zero by chance.
fn open_places(rng: &mut Rng, t: &Table, map: &[u8]) -> Vec<bool> {
    let received = (0..t.n).filter(|p| map[*p] == 0).map(|p| vec![p]);
    let checks = received.chain(t.checks.iter().cloned()).collect();
    let t = Table { n: t.n, s: 16, checks };
    let word = gen::codeword(rng, &t);
    word.chunks(t.s).map(|packet| packet.iter().any(|b| *b != 0)).collect()
}

/// The library does what all codewords say that agree.
fn as_codewords_say(
    rng: &mut Rng,
    t: &Table,
    codewords: &[usize],
    block: &[u8],
    map: &[u8],
) -> Result<(), String> {
    let lost = places_lost(map);
    let (answer, after, map_after) = full_repair(rng, &gen::words(t), block, map)?;
    let decided = model::decided_packets(t, codewords, &lost, block);
    let none_agrees = decided.is_none();
    let packets = decided.unwrap_or(vec![None; t.n]);
    let mut restored = 0;
    for p in 0..t.n {
        let (expected, byte) = match &packets[p] {
            _ if map[p] == 0 => (packet_of(block, t.s, p).to_vec(), 0),
            Some(packet) => (packet.clone(), 2),
            None => (vec![0; t.s], 1),
        };
        same("packet", &packet_of(&after, t.s, p).to_vec(), &expected)?;
        same("map byte", &map_after[p], &byte)?;
        restored += (byte == 2) as u32;
    }
    let expected = match none_agrees {
        true => FullyRepaired::refused(8),
        false => fully(restored, lost.len() as u32 - restored),
    };
    same("answer", &answer, &expected)
}

/// Small tables, some loss patterns.
fn brute_full_case(rng: &mut Rng) -> Result<(), String> {
    let mut t = gen::small_table(rng, 9, 8);
    t.s = rng.range(1, 3);
    let codewords = model::codewords(&t);
    for _ in 0..6 {
        let mut block = block_for(rng, &t);
        let map = lose(rng, t.n);
        age(rng, &mut block, t.s, &map);
        as_codewords_say(rng, &t, &codewords, &block, &map)?;
    }
    Ok(())
}

fn random_case(rng: &mut Rng, number: u64) -> Result<(), String> {
    match number % 48 {
        0..=6 => repair_case(rng),
        7..=9 => verify_case(rng),
        10..=12 => damaged_case(rng),
        13 => packet_case(rng),
        14 | 15 => brute_case(rng),
        16 => byte_case(rng),
        17 => brute_byte_case(rng),
        18 => full_case(rng),
        19 => full_refused_case(rng),
        20 => stalled_case(rng),
        21 => brute_full_case(rng),
        22 | 23 => blame_case(rng),
        24 => brute_blame_case(rng),
        25..=29 => merge::random_case(rng),
        30..=35 => why::random_case(rng),
        36..=41 => lengthen::random_case(rng),
        _ => rain::random_case(rng),
    }
}

// ------------------------------------------------------------- fixed cases

fn repaired(
    table: &[u16],
    block: &[u8],
    lost: &[usize],
    answer: Repaired,
    block_after: &[u8],
) -> Result<(), String> {
    let mut rng = Rng::new(0, 0);
    let map: Vec<u8> = (0..table[1] as usize).map(|p| lost.contains(&p) as u8).collect();
    let (got, after, _) = repair(&mut rng, table, block, &map)?;
    same("answer", &got, &answer)?;
    same("block", &after, &block_after.to_vec())
}

fn verified(table: &[u16], block: &[u8], answer: Verified) -> Result<(), String> {
    same("answer", &verify(&mut Rng::new(0, 0), table, block)?, &answer)
}

/// Refused by repair.
fn refused(table: &[u16], block: &[u8], map: &[u8], refusal: u32) -> Result<(), String> {
    let (answer, _, _) = repair(&mut Rng::new(0, 0), table, block, map)?;
    same("repair", &answer, &Repaired::refused(refusal))
}

fn refused_by_both(table: &[u16], block: &[u8], map: &[u8], refusal: u32) -> Result<(), String> {
    refused(table, block, map, refusal)?;
    verified(table, block, Verified::refused(refusal))
}

fn refusal_of_all(table: &[u16], n: usize, s: usize, refusal: u32) -> Result<(), String> {
    let block = Rng::new(0, 0).bytes(n * s);
    refused_by_both(table, &block, &vec![1; n], refusal)
}

/// Table A, the same with a fourth check, table B, and P2's block.
const A: &[u16] = &[2, 7, 1, 3, 4, 4, 4, 12, 0, 2, 4, 6, 1, 2, 5, 6, 3, 4, 5, 6];
const A4: &[u16] =
    &[2, 7, 1, 4, 4, 4, 4, 4, 16, 0, 2, 4, 6, 1, 2, 5, 6, 3, 4, 5, 6, 0, 1, 4, 5];
const B: &[u16] = &[2, 4, 1, 3, 3, 3, 3, 9, 0, 1, 2, 0, 1, 3, 0, 2, 3];
const P2: [u8; 7] = [0x01, 0x02, 0x04, 0x0e, 0x08, 0x0b, 0x0d];

/// Tables of the vectors with their blocks.
const VECTORS: [(&[u16], &[u8]); 4] = [
    (&[2, 4, 1, 3, 3, 2, 4, 9, 0, 1, 2, 2, 3, 0, 1, 2, 3], &[1, 1, 0, 0]),
    (
        &[2, 5, 1, 4, 4, 4, 4, 3, 15, 0, 1, 2, 4, 0, 2, 3, 4, 0, 1, 2, 3, 1, 3, 4],
        &[1, 0, 1, 0, 0],
    ),
    (
        &[
            2, 6, 1, 5, 5, 4, 5, 4, 5, 23, 0, 1, 3, 4, 5, 0, 1, 4, 5, 0, 1, 2, 3, 5, 0, 1, 2, 3, 1,
            2, 3, 4, 5,
        ],
        &[1, 0, 1, 0, 1, 0],
    ),
    (
        &[
            2, 6, 1, 6, 5, 5, 4, 5, 4, 2, 25, 0, 1, 2, 3, 5, 1, 2, 3, 4, 5, 0, 1, 3, 5, 0, 2, 3, 4,
            5, 1, 2, 4, 5, 2, 3,
        ],
        &[1, 1, 0, 0, 1, 0],
    ),
];

fn fixed_cases(run: &mut Run) {
    let (a, a4, b, p2) = (A, A4, B, P2);
    let old = |lost: &[usize]| {
        let mut block = p2;
        lost.iter().for_each(|p| block[*p] = 0xee);
        block
    };

    run.fixed("P2, verified", verified(a, &p2, CODEWORD));
    run.fixed("P3, verified", verified(b, &[0, 0xa5, 0xa5, 0xa5], CODEWORD));
    run.fixed("P4", repaired(a, &old(&[3, 5, 6]), &[3, 5, 6], ok(3, 0, 9), &p2));
    let zeroed = |lost: &[usize]| {
        let mut block = p2;
        lost.iter().for_each(|p| block[*p] = 0);
        block
    };
    let lost = [2, 4, 5];
    run.fixed("P5", repaired(a, &old(&lost), &lost, ok(0, 3, 0), &zeroed(&lost)));
    let lost = [2, 4, 6];
    run.fixed("P6", repaired(a, &old(&lost), &lost, ok(0, 3, 0), &zeroed(&lost)));
    run.fixed("P7", repaired(a4, &old(&lost), &lost, ok(3, 0, 9), &p2));
    let mut wrong = p2;
    wrong[0] = 0x11;
    run.fixed("P8", left_by(a, &wrong, &[], ok(1, 0, 3), &[3, 0, 0, 0, 0, 0, 0], &p2));
    run.fixed("P8, verified", verified(a, &wrong, fails(0, 0)));
    // Refusal 8 after restoring, as 0 and 2 are suspects: every lost place
    // becomes zero.
    wrong[3] = 0xee;
    wrong[5] = 0xee;
    let mut after = wrong;
    after[3] = 0;
    after[5] = 0;
    run.fixed("P8, two lost", repaired(a, &wrong, &[3, 5], contradicts(0, 0), &after));
    let single: Vec<u16> = vec![2, 1, 1, 1, 1, 1, 0];
    run.fixed("P9, verified", verified(&single, &[0], CODEWORD));
    run.fixed("P9, not zero", verified(&single, &[1], fails(0, 0)));
    run.fixed("P9, lost", repaired(&single, &[9], &[0], ok(1, 0, 0), &[0]));
    run.fixed("P9, blamed", left_by(&single, &[9], &[], ok(1, 0, 0), &[3], &[0]));
    let no_checks: Vec<u16> = vec![2, 3, 1, 0, 0];
    run.fixed("P10, verified", verified(&no_checks, &[1, 2, 3], CODEWORD));
    run.fixed("P10, lost", repaired(&no_checks, &[1, 2, 3], &[1], ok(0, 1, 0), &[1, 0, 3]));

    // The lowest check is looked for anew at each turn.
    let anew: Vec<u16> = vec![2, 3, 1, 3, 3, 1, 1, 5, 0, 1, 2, 0, 1];
    run.fixed("lowest check anew", repaired(&anew, &[7, 8, 0], &[0, 1], ok(2, 0, 2), &[0, 0, 0]));

    // Blocks of the vectors are codewords; one byte off they aren't.
    for (i, (table, block)) in VECTORS.iter().enumerate() {
        run.fixed(&format!("vector {i}"), verified(table, block, CODEWORD));
        let mut off = block.to_vec();
        off[0] ^= 0x40;
        run.fixed(&format!("vector {i}, one byte off"), verified(table, &off, fails(0, 0)));
    }

    // Limits.
    let wide = |n: usize, weight: usize| model::table_words(n, 1, &[(0..weight).collect()]);
    run.fixed("n 1,024", verified(&wide(1024, 2), &[3; 1024], CODEWORD));
    run.fixed("n 1,025", refusal_of_all(&wide(1025, 2), 1025, 1, 2));
    run.fixed("n 0", refusal_of_all(&[2, 0, 1, 0, 0], 0, 1, 2));
    run.fixed("s 1,024", verified(&[2, 2, 1024, 1, 2, 2, 0, 1], &[3; 2048], CODEWORD));
    run.fixed("s 1,025", refusal_of_all(&[2, 2, 1025, 1, 2, 2, 0, 1], 2, 1025, 2));
    run.fixed("s 0", refusal_of_all(&[2, 2, 0, 0, 0], 2, 0, 2));
    run.fixed("weight 64", verified(&wide(64, 64), &[5; 64], CODEWORD));
    run.fixed("weight 65", refusal_of_all(&wide(65, 65), 65, 1, 3));
    let many = |m: usize| model::table_words(2, 1, &vec![vec![]; m]);
    run.fixed("m 512", verified(&many(512), &[5, 6], CODEWORD));
    run.fixed("m 513", refusal_of_all(&many(513), 2, 1, 2));
    let full = |checks: usize| model::table_words(64, 1, &vec![(0..64).collect::<Vec<_>>(); checks]);
    run.fixed("6,144 ones", verified(&full(96), &[5; 64], CODEWORD));
    run.fixed("6,208 ones", refusal_of_all(&full(97), 64, 1, 3));
    // As many as the planner takes, and more.
    for copies in [model::MAX_GAP, model::MAX_GAP + 1, model::OLD_MAX_GAP + 1] {
        let (n, checks) = gen::side_by_side(&vec![gen::table_b(); copies]);
        let table = model::table_words(n, 1, &checks);
        let block: Vec<u8> = (0..n).map(|p| if p % 4 == 0 { 0 } else { p as u8 / 4 }).collect();
        run.fixed(&format!("{copies} copies of B, verified"), verified(&table, &block, CODEWORD));
    }

    // Causes in the order of their numbers.
    let bad_place: Vec<u16> = vec![2, 2, 1, 1, 2, 2, 0, 2];
    let mut order = |name: &str, table: &[u16], block: usize, map: &[u8], refusal: u32| {
        run.fixed(name, refused(table, &vec![1; block], map, refusal));
    };
    order("empty table", &[], 0, &[], 1);
    order("1 before 2", &[3, 0, 0, 600], 0, &[], 1);
    order("2 before 3", &[2, 0, 1, 1, 65], 0, &[], 2);
    order("3 before 4", &[2, 2, 1, 1, 3, 2, 0, 9], 0, &[], 3);
    order("4 before 5", &bad_place, 1, &[0], 4);
    order("5 before 7", &[2, 2, 1, 1, 2, 2, 0, 1], 3, &[2, 0], 5);
    order("7 before 8", &[2, 3, 1, 2, 1, 1, 2, 0, 1], 3, &[0, 0, 2], 7);
    order("8", &[2, 3, 1, 2, 1, 1, 2, 0, 1], 3, &[0, 0, 1], 8);
    for byte in [2, 3, 4, 128, 255] {
        let table = [2, 3, 1, 2, 1, 1, 2, 0, 1];
        order(&format!("7 for {byte}"), &table, 3, &[1, 1, byte], 7);
        order(&format!("7 before 8 for {byte}"), &table, 3, &[0, 0, byte], 7);
    }

    let mut part = |name: &str, n, s, place, len, expected: Part| {
        let got = packet(&mut Rng::new(0, 0), n, s, place, &vec![7; len]);
        run.fixed(name, got.and_then(|p| same("part", &p, &expected)));
    };
    part("packet", 7, 3, 2, 21, Part { refusal: 0, start: 6, length: 3 });
    part("packet, last", 1024, 1024, 1023, 1 << 20, Part { refusal: 0, start: 1047552, length: 1024 });
    part("packet, 2 before 5", 0, 3, 2, 21, Part::refused(2));
    part("packet, 5 before 10", 7, 3, 7, 20, Part::refused(5));
    part("packet, 10", 7, 3, 7, 21, Part::refused(10));
}

// ------------------------------------------- fixed cases: check and byte

/// Place, byte of its packet, value.
type Byte = (usize, usize, u8);

/// A block of zeros but for some bytes.
fn zeros_but(n: usize, s: usize, bytes: &[Byte]) -> Vec<u8> {
    let mut block = vec![0; n * s];
    for (place, byte, value) in bytes {
        block[place * s + byte] = *value;
    }
    block
}

/// The words of a table, and a block of zeros but for some bytes.
fn bench(n: usize, s: usize, checks: &[&[usize]], bytes: &[Byte]) -> (Vec<u16>, Vec<u8>) {
    let checks: Vec<Vec<usize>> = checks.iter().map(|c| c.to_vec()).collect();
    (model::table_words(n, s, &checks), zeros_but(n, s, bytes))
}

/// The block with old bytes at lost places.
fn aged(block: &[u8], s: usize, lost: &[usize]) -> Vec<u8> {
    let mut block = block.to_vec();
    lost.iter().for_each(|p| block[p * s..(p + 1) * s].fill(0xee));
    block
}

/// Refusal 8 tells this check and byte; so does verification if nothing is
/// lost. Lost places hold old bytes before, zero bytes after. There isn't exactly
/// one suspect.
fn told(
    (n, s): (usize, usize),
    checks: &[&[usize]],
    lost: &[usize],
    bytes: &[Byte],
    (check, byte): (u32, u32),
) -> Result<(), String> {
    let (table, after) = bench(n, s, checks, bytes);
    let block = aged(&after, s, lost);
    left_by(&table, &block, lost, contradicts(check, byte), &map_of(n, lost), &after)?;
    if lost.is_empty() {
        verified(&table, &block, fails(check, byte))?;
    }
    Ok(())
}

/// Size, bytes that aren't zero in one packet, the lowest of them.
const DEPTHS: [(usize, &[usize], u32); 32] = [
    (1, &[0], 0),
    (2, &[1], 1),
    (8, &[7], 7),
    (9, &[8], 8),
    (63, &[62], 62),
    (64, &[63], 63),
    (65, &[63], 63),
    (65, &[64], 64),
    (66, &[65], 65),
    (100, &[0], 0),
    (100, &[63], 63),
    (100, &[64], 64),
    (100, &[65], 65),
    (100, &[70], 70),
    (100, &[99], 99),
    (128, &[127], 127),
    (129, &[128], 128),
    (200, &[128], 128),
    (200, &[192], 192),
    (200, &[199], 199),
    (1023, &[1022], 1022),
    (1024, &[255], 255),
    (1024, &[256], 256),
    (1024, &[960], 960),
    (1024, &[1000], 1000),
    (1024, &[1023], 1023),
    // Several, also such that a lower one lies later in its piece of 64.
    (100, &[70, 71, 99], 70),
    (200, &[63, 64], 63),
    (200, &[69, 130, 192], 69),
    (200, &[5, 69, 133, 197], 5),
    (1024, &[1000, 1001, 1023], 1000),
    (1024, &[767, 768, 960], 767),
];

fn depth_cases(run: &mut Run) {
    // Places 2 and 3 lie in the same check: neither is blamed. Without 3 place 2
    // is.
    let checks: [&[usize]; 3] = [&[0, 1], &[1, 2, 3], &[0]];
    let alone: [&[usize]; 3] = [&[0, 1], &[1, 2], &[0]];
    for (s, depths, lowest) in DEPTHS {
        let bytes: Vec<Byte> = depths.iter().map(|b| (2, *b, 1)).collect();
        // Check 1 restores place 1, then check 0 place 0: check 2 fails. Taken
        // in one sweep, check 2 would restore place 0, and check 0 would fail.
        run.fixed(
            &format!("size {s}, bytes {depths:?}, lost 0 and 1"),
            told((4, s), &checks, &[0, 1], &bytes, (2, lowest)),
        );
        run.fixed(
            &format!("size {s}, bytes {depths:?}, none lost"),
            told((4, s), &checks, &[], &bytes, (1, lowest)),
        );
        run.fixed(
            &format!("size {s}, bytes {depths:?}, lost 0 and 1, blamed"),
            blamed((3, s), &alone, &[0, 1], &bytes, ok(3, 0, 2), &[2, 2, 3], &[]),
        );
        run.fixed(
            &format!("size {s}, bytes {depths:?}, none lost, blamed"),
            blamed((3, s), &alone, &[], &bytes, ok(1, 0, 1), &[0, 0, 3], &[]),
        );
    }
}

fn told_cases(run: &mut Run) {
    run.fixed(
        "C-12",
        repaired(
            &[2, 4, 1, 3, 2, 3, 1, 6, 0, 1, 1, 2, 3, 0],
            &[0xee, 0xee, 0x01, 0x02],
            &[0, 1],
            contradicts(2, 0),
            &[0, 0, 0x01, 0x02],
        ),
    );
    run.fixed(
        "C-12, byte 70",
        told((3, 100), &[&[0], &[0, 1, 2]], &[], &[(1, 80, 3), (2, 70, 5)], (1, 70)),
    );
    let pair: [&[usize]; 2] = [&[0], &[1]];
    run.fixed(
        "the higher check has the lower byte",
        told((2, 100), &pair, &[], &[(0, 80, 1), (1, 3, 1)], (0, 80)),
    );
    run.fixed(
        "the higher check has the lower byte, in another piece",
        told((2, 200), &pair, &[], &[(0, 199, 0x80), (1, 0, 0xff)], (0, 199)),
    );
    run.fixed(
        "the higher check has the higher byte",
        told((2, 200), &pair, &[], &[(0, 66, 1), (1, 131, 1)], (0, 66)),
    );
    run.fixed(
        "packets cancel at lower bytes",
        told(
            (3, 100),
            &[&[0, 1], &[2]],
            &[],
            &[(0, 3, 0xaa), (1, 3, 0xaa), (0, 64, 1), (1, 64, 1), (1, 90, 0x80)],
            (0, 90),
        ),
    );
    let four: [&[usize]; 4] = [&[0], &[1], &[2], &[3, 4]];
    run.fixed("the last of four", told((5, 3), &four, &[], &[(3, 2, 1)], (3, 2)));
    run.fixed(
        "the last two of four",
        told((5, 3), &four, &[], &[(2, 1, 1), (3, 0, 1)], (2, 1)),
    );
    let mut many: Vec<&[usize]> = vec![&[]; 256];
    many.push(&[0, 2]);
    run.fixed("check 256", told((4, 100), &many, &[], &[(0, 70, 1)], (256, 70)));
    many.resize(511, &[]);
    many.push(&[1, 3]);
    run.fixed("check 511", told((4, 1024), &many, &[], &[(1, 1023, 1)], (511, 1023)));
    run.fixed(
        "checks 256 and 511",
        told((4, 1024), &many, &[], &[(1, 5, 1), (0, 900, 1)], (256, 900)),
    );

    // A check with a lost place isn't judged, whatever its other packets are.
    run.fixed(
        "a lower check has lost places",
        told((5, 2), &[&[0, 1, 2], &[3, 4]], &[0, 1], &[(2, 0, 5), (3, 1, 7)], (1, 1)),
    );
    run.fixed(
        "a lower check has lost places, restored ones contradict",
        told(
            (7, 100),
            &[&[2, 4, 5], &[0, 1], &[1, 2, 6], &[0]],
            &[0, 1, 4, 5],
            &[(2, 70, 1)],
            (3, 70),
        ),
    );

    // Judged before lost places are zeroed again: then check 0 would fail too.
    run.fixed(
        "a restored packet cancels",
        told(
            (3, 100),
            &[&[0, 1], &[0, 2], &[1, 2]],
            &[0],
            &[(1, 70, 3), (2, 70, 3), (2, 90, 1)],
            (1, 90),
        ),
    );
    run.fixed(
        "a chain of restored packets",
        told(
            (5, 100),
            &[&[0, 1, 4], &[1, 2], &[2, 3], &[3]],
            &[1, 2, 3],
            &[(0, 66, 0x40)],
            (3, 66),
        ),
    );
}

/// Accepted calls and other refusals tell 0 and 0.
fn untold_cases(run: &mut Run) {
    // Check 1 can't be judged, and its received packet isn't zero.
    let checks: [&[usize]; 3] = [&[3, 4, 5], &[0, 1, 2], &[]];
    let (table, received) = bench(6, 100, &checks, &[(2, 70, 5), (3, 71, 7)]);
    let block = aged(&received, 100, &[0, 1, 5]);
    let after = zeros_but(6, 100, &[(2, 70, 5), (3, 71, 7), (5, 71, 7)]);
    run.fixed("accepted", repaired(&table, &block, &[0, 1, 5], ok(1, 2, 2), &after));
    run.fixed("accepted, as it came", verified(&table, &block, fails(0, 0)));
    run.fixed("accepted, afterwards", verified(&table, &after, fails(1, 70)));
    let whole = zeros_but(6, 100, &[(1, 70, 5), (2, 70, 5), (3, 71, 7), (5, 71, 7)]);
    run.fixed("a codeword", verified(&table, &whole, CODEWORD));
    run.fixed("a codeword, nothing lost", repaired(&table, &whole, &[], ok(0, 0, 0), &whole));

    // Check 1 fails at byte 1, but another cause comes first.
    let checks: [&[usize]; 3] = [&[0], &[1, 3], &[0, 2]];
    let (table, block) = bench(4, 2, &checks, &[(1, 1, 7)]);
    run.fixed("no other cause", told((4, 2), &checks, &[], &[(1, 1, 7)], (1, 1)));
    let with = |at: usize, word: u16| {
        let mut words = table.clone();
        words[at] = word;
        words
    };
    let longer = [&table[..], &[2]].concat();
    let map = [0; 4];
    run.fixed("untold with 1", refused_by_both(&table[..4], &block, &map, 1));
    run.fixed("untold with 2", refused_by_both(&with(0, 3), &block, &map, 2));
    run.fixed("untold with 3", refused_by_both(&longer, &block, &map, 3));
    run.fixed("untold with 4", refused_by_both(&with(12, 4), &block, &map, 4));
    run.fixed("untold with 5", refused_by_both(&table, &[&block[..], &[0]].concat(), &map, 5));
    run.fixed("untold with 5 for the map", refused(&table, &block, &map[..3], 5));
    run.fixed("untold with 7", refused(&table, &block, &[0, 0, 2, 0], 7));
    run.fixed("untold with 7, some lost", refused(&table, &block, &[1, 0, 255, 0], 7));
}

// ------------------------------------------- fixed cases, one bad packet

/// Old bytes lie at lost places. Afterwards map and block are these, and trial
/// of each place says so.
fn left_by(
    table: &[u16],
    block: &[u8],
    lost: &[usize],
    answer: Repaired,
    map_after: &[u8],
    block_after: &[u8],
) -> Result<(), String> {
    let mut rng = Rng::new(0, 0);
    let (n, s) = (table[1] as usize, table[2] as usize);
    let (block, map) = (aged(block, s, lost), map_of(n, lost));
    let (got, after, marked) = repair(&mut rng, table, &block, &map)?;
    same("answer", &got, &answer)?;
    same("map", &marked, &map_after.to_vec())?;
    equal("block", &after, block_after)?;
    by_trial(&mut rng, table, &block, &map)
}

/// The same for blocks of zeros but for some bytes.
fn blamed(
    (n, s): (usize, usize),
    checks: &[&[usize]],
    lost: &[usize],
    bytes: &[Byte],
    answer: Repaired,
    map_after: &[u8],
    bytes_after: &[Byte],
) -> Result<(), String> {
    let (table, block) = bench(n, s, checks, bytes);
    left_by(&table, &block, lost, answer, map_after, &zeros_but(n, s, bytes_after))
}

/// Table A, a codeword of this size, and the same with some bytes off.
fn a_off(s: usize, off: &[Byte]) -> (Vec<u16>, Vec<u8>, Vec<u8>) {
    let t = Table { s, ..model::look_over(A).unwrap() };
    let sent = gen::codeword(&mut Rng::new(17, s as u64), &t);
    let mut block = sent.clone();
    off.iter().for_each(|(place, byte, value)| block[place * s + byte] ^= value);
    (gen::words(&t), sent, block)
}

/// Bytes of one place are off: it is blamed, and all is as it was sent.
fn one_off(s: usize, place: usize, bytes: &[usize]) -> Result<(), String> {
    let value = |byte: usize| 1 + (byte % 255) as u8;
    let off: Vec<Byte> = bytes.iter().map(|byte| (place, *byte, value(*byte))).collect();
    let (table, sent, block) = a_off(s, &off);
    let mut map = [0; 7];
    map[place] = 3;
    left_by(&table, &block, &[], ok(1, 0, 3), &map, &sent)
}

/// Bytes of several places are off: nobody is blamed.
fn several_off(s: usize, off: &[Byte], (check, byte): (u32, u32)) -> Result<(), String> {
    let (table, _, block) = a_off(s, off);
    left_by(&table, &block, &[], contradicts(check, byte), &[0; 7], &block)
}

fn blame_cases(run: &mut Run) {
    // Several places of P2 off.
    let mut p2 = |name: &str, off: &[(usize, u8)], bad: Option<(usize, u8)>, answer: Repaired| {
        let (mut block, mut map) = (P2, [0; 7]);
        off.iter().for_each(|(place, value)| block[*place] ^= value);
        let mut after = block;
        if let Some((place, value)) = bad {
            after[place] ^= value;
            map[place] = 3;
        }
        run.fixed(&format!("P2, {name}"), left_by(A, &block, &[], answer, &map, &after));
    };
    let one = ok(1, 0, 3);
    p2("0 and 1 off by the same: 2", &[(0, 0x10), (1, 0x10)], Some((2, 0x10)), one);
    p2("2 and 3 off by the same: 6", &[(2, 7), (3, 7)], Some((6, 7)), one);
    p2("0, 1 and 3 off by the same: 6", &[(0, 7), (1, 7), (3, 7)], Some((6, 7)), one);
    p2("0, 1 and 2 off by the same: a codeword", &[(0, 7), (1, 7), (2, 7)], None, ok(0, 0, 0));
    p2("0 and 1 off", &[(0, 0x10), (1, 0x11)], None, contradicts(0, 0));
    p2("1 and 3 off", &[(1, 0x10), (3, 0x01)], None, contradicts(1, 0));
    p2("0, 1 and 3 off", &[(0, 0x10), (1, 0x10), (3, 0x11)], None, contradicts(0, 0));
    p2("5 and 6 off", &[(5, 1), (6, 2)], None, contradicts(0, 0));
    for place in 0..7 {
        for value in [0x01, 0x10, 0x80, 0xff] {
            p2(&format!("{place} off by {value}"), &[(place, value)], Some((place, value)), one);
        }
    }

    // More places beside those of table A: one in no check, two that stay lost.
    let a = model::look_over(A).unwrap().checks;
    let eight = model::table_words(8, 1, &a);
    let (p8, p2) = ([0x11, 0x02, 0x04, 0x0e, 0x08, 0x0b, 0x0d], P2);
    let then = |block: [u8; 7], more: &[u8]| [&block[..], more].concat();
    for (name, block, lost, answer, map, after) in [
        ("alone off", then(p2, &[7]), vec![], ok(0, 0, 0), [0, 0], then(p2, &[7])),
        ("off too", then(p8, &[7]), vec![], ok(1, 0, 3), [3, 0], then(p2, &[7])),
        ("lost too", then(p8, &[7]), vec![7], ok(1, 1, 3), [3, 1], then(p2, &[0])),
        ("lost alone", then(p2, &[7]), vec![7], ok(0, 1, 0), [0, 1], then(p2, &[0])),
    ] {
        let map = [map[0], 0, 0, 0, 0, 0, 0, map[1]];
        let result = left_by(&eight, &block, &lost, answer, &map, &after);
        run.fixed(&format!("a place in no check, {name}"), result);
    }
    let ten = model::table_words(10, 1, &[a, vec![vec![7, 8, 9], vec![7, 8]]].concat());
    let (block, after) = (then(p8, &[1, 2, 4]), then(p2, &[0, 0, 4]));
    let map = [3, 0, 0, 0, 0, 0, 0, 1, 1, 0];
    run.fixed("two stay lost", left_by(&ten, &block, &[7, 8], ok(1, 2, 3), &map, &after));

    // A packet that is right is blamed: if the wrong one is lost, nothing comes
    // back.
    let right: [&[usize]; 3] = [&[1, 2], &[0, 1, 2, 3], &[2, 3]];
    for (s, b) in [(1, 0), (100, 70)] {
        let after: Vec<Byte> = (0..4).map(|place| (place, b, 5)).collect();
        run.fixed(
            &format!("a right packet blamed, size {s}"),
            blamed((4, s), &right, &[2, 3], &[(1, b, 5)], ok(3, 0, 5), &[3, 0, 2, 2], &after),
        );
    }
    run.fixed(
        "the wrong packet doesn't come back",
        told((4, 2), &[&[0, 1], &[1, 2], &[0, 1, 2, 3], &[3]], &[1, 2], &[(0, 1, 5)], (2, 1)),
    );

    // One suspect, two, all.
    run.fixed("a pair", told((2, 3), &[&[0, 1]], &[], &[(0, 2, 5)], (0, 2)));
    run.fixed("three alike", told((3, 3), &[&[0, 1, 2]], &[], &[(1, 2, 5)], (0, 2)));
    let nested: [&[usize]; 2] = [&[0, 1], &[0, 1, 2]];
    run.fixed("0 and 1 alike", told((3, 1), &nested, &[], &[(0, 0, 5)], (0, 0)));
    run.fixed(
        "0 and 1 alike, 2 by itself",
        blamed((3, 1), &nested, &[], &[(2, 0, 5)], ok(1, 0, 2), &[0, 0, 3], &[]),
    );
    let single: [&[usize]; 2] = [&[0], &[0, 1]];
    run.fixed(
        "weight 1, place 0",
        blamed((2, 1), &single, &[], &[(0, 0, 5)], ok(1, 0, 0), &[3, 0], &[]),
    );
    run.fixed(
        "weight 1, place 1",
        blamed((2, 1), &single, &[], &[(1, 0, 5)], ok(1, 0, 1), &[0, 3], &[]),
    );
    let mut many: Vec<&[usize]> = vec![&[]; 511];
    many.push(&[1]);
    run.fixed(
        "check 511, blamed",
        blamed((2, 1024), &many, &[], &[(1, 1023, 1)], ok(1, 0, 0), &[0, 3], &[]),
    );
    let same_checks: Vec<&[usize]> = vec![&[1]; 512];
    run.fixed(
        "512 checks alike",
        blamed((2, 100), &same_checks, &[], &[(1, 70, 1)], ok(1, 0, 0), &[0, 3], &[]),
    );

    // Restored by another check than the lowest that failed, in which the place
    // isn't.
    run.fixed(
        "by another check",
        blamed(
            (6, 100),
            &[&[1, 2], &[2, 3], &[1, 2, 3, 4], &[0, 1], &[0, 5]],
            &[1, 2, 3],
            &[(0, 70, 9)],
            ok(4, 0, 4),
            &[3, 2, 2, 2, 0, 0],
            &[],
        ),
    );

    // A chain of 63 lost places, fed from one end or from the other.
    let mut chain: Vec<Vec<usize>> = (0..65).map(|p| vec![p, p + 1]).collect();
    chain.push(vec![0, 66]);
    let chain: Vec<&[usize]> = chain.iter().map(|check| &check[..]).collect();
    let lost: Vec<usize> = (1..64).collect();
    for bad in [0, 64] {
        let mut map: Vec<u8> = map_of(67, &lost).into_iter().map(|b| 2 * b).collect();
        map[bad] = 3;
        let result = blamed((67, 2), &chain, &lost, &[(bad, 1, 9)], ok(64, 0, 64), &map, &[]);
        run.fixed(&format!("a chain, place {bad} wrong"), result);
    }

    // Five copies: what most of those received say, if one says otherwise.
    let pairs: Vec<Vec<usize>> =
        (0..5).flat_map(|p| (p + 1..5).map(move |q| vec![p, q])).collect();
    let copies = model::table_words(5, 2, &pairs);
    let of = |values: [u8; 5]| -> Vec<u8> { values.iter().flat_map(|v| [0x33, *v]).collect() };
    for (values, lost, answer, map, after) in [
        ([9, 5, 5, 5, 5], vec![], ok(1, 0, 1), [3, 0, 0, 0, 0], [5; 5]),
        ([5, 5, 9, 5, 5], vec![], ok(1, 0, 1), [0, 0, 3, 0, 0], [5; 5]),
        ([5, 5, 5, 5, 9], vec![1], ok(2, 0, 2), [0, 2, 0, 0, 3], [5; 5]),
        ([9, 5, 5, 0, 0], vec![3, 4], ok(3, 0, 3), [3, 0, 0, 2, 2], [5; 5]),
        ([9, 9, 5, 0, 0], vec![3, 4], ok(3, 0, 3), [0, 0, 3, 2, 2], [9; 5]),
        ([0, 0, 5, 9, 5], vec![0, 1], ok(3, 0, 3), [2, 2, 0, 3, 0], [5; 5]),
        ([9, 9, 5, 5, 5], vec![], contradicts(1, 1), [0; 5], [9, 9, 5, 5, 5]),
        ([9, 8, 5, 5, 5], vec![], contradicts(0, 1), [0; 5], [9, 8, 5, 5, 5]),
        ([9, 5, 5, 5, 8], vec![], contradicts(0, 1), [0; 5], [9, 5, 5, 5, 8]),
        ([5, 5, 5, 9, 9], vec![], contradicts(2, 1), [0; 5], [5, 5, 5, 9, 9]),
    ] {
        let result = left_by(&copies, &of(values), &lost, answer, &map, &of(after));
        run.fixed(&format!("five copies, {values:?}, lost {lost:?}"), result);
    }
    // Two received: each could be the wrong one.
    for (lost, check) in [([2, 3, 4], 0), ([0, 1, 3], 3), ([0, 2, 4], 2)] {
        let block = of([9, 5, 7, 4, 3]);
        let (map, after) = (map_of(5, &lost), zeroed(&block, 2, &lost));
        let result = left_by(&copies, &block, &lost, contradicts(check, 1), &map, &after);
        run.fixed(&format!("five copies, lost {lost:?}"), result);
    }
}

/// Table A with packets of every size.
fn blame_size_cases(run: &mut Run) {
    // Bare buffers: a few.
    let step = if harness::bare() { 93 } else { 1 };
    for s in (1..=1024).step_by(step) {
        let some = Rng::new(17, s as u64).some_below(s, 3);
        let all: Vec<usize> = (0..s).collect();
        let bytes = match s % 5 {
            0 => &[0],
            1 => &[s - 1],
            2 => &[s / 2],
            3 => &some[..],
            _ => &all[..],
        };
        run.fixed(&format!("size {s}, one off"), one_off(s, s % 7, bytes));
    }
    for s in [1, 2, 8, 63, 64, 65, 100, 128, 129, 1000, 1023, 1024] {
        for place in 0..7 {
            for mut bytes in [vec![0], vec![s - 1], vec![s / 2], vec![0, s / 2, s - 1]] {
                bytes.dedup();
                let name = format!("size {s}, place {place} off at {bytes:?}");
                run.fixed(&name, one_off(s, place, &bytes));
            }
        }
        for (a, b) in [(0, s - 1), (s - 1, 0), (s / 2, s - 1), (s / 2, 0)] {
            if a == b {
                continue;
            }
            let low = a.min(b) as u32;
            let mut several = |name: &str, off: &[Byte], told: (u32, u32)| {
                let name = format!("size {s}, bytes {a} and {b}, {name}");
                run.fixed(&name, several_off(s, off, told));
            };
            // By byte a alone place 0 would be blamed; by byte b another, or
            // nobody.
            several("0 and 1", &[(0, a, 5), (1, b, 5)], (0, a as u32));
            several("0 and 6", &[(0, a, 5), (6, b, 5)], (0, low));
            several("0, and 0 and 1", &[(0, a, 5), (0, b, 5), (1, b, 5)], (0, low));
            several("0, and 1 and 3", &[(0, a, 5), (1, b, 5), (3, b, 6)], (0, a as u32));
            // 0 and 1 off by the same at both: 2 blamed. At one of the bytes
            // they are off by something else: nobody.
            let (table, _, block) = a_off(s, &[(0, a, 5), (1, a, 5), (0, b, 6), (1, b, 6)]);
            let mut after = block.clone();
            after[2 * s + a] ^= 5;
            after[2 * s + b] ^= 6;
            let map = [0, 0, 3, 0, 0, 0, 0];
            let result = left_by(&table, &block, &[], ok(1, 0, 3), &map, &after);
            run.fixed(&format!("size {s}, bytes {a} and {b}, 0 and 1 by the same"), result);
            let other = [(0, a, 5), (1, a, 5), (0, b, 6), (1, b, 7)];
            let result = several_off(s, &other, (0, low));
            run.fixed(&format!("size {s}, bytes {a} and {b}, 0 and 1 by another"), result);
        }
    }
}

/// Tables at the limits: one packet wrong among those received, blamed, and all
/// else as it was sent; then two.
fn blame_limit_cases(run: &mut Run) {
    for (name, s, share) in [
        ("regular", 1024, 20),
        ("staircase", 1024, 0),
        ("regular", 64, 0),
        ("staircase", 3, 20),
        ("heavy", 3, 0),
    ] {
        if harness::bare() && (s == 1024 || share > 0) {
            continue;
        }
        let mut rng = Rng::new(17, s as u64);
        let t = Table { n: 1024, s, checks: limit_checks(&mut rng, name) };
        let words = gen::words(&t);
        let sent = gen::codeword(&mut rng, &t);
        let map = map_of(t.n, &rng.some_below(t.n, t.n * share / 100));
        let received: Vec<usize> = (0..t.n).filter(|p| map[*p] == 0).collect();
        let (first, last) = (received[0], received[received.len() - 1]);
        let middle = received[received.len() / 2];
        let off = |places: &[usize]| {
            let mut block = sent.clone();
            places.iter().for_each(|p| block[(p + 1) * s - 1] ^= 1 + (p % 2) as u8);
            block
        };
        let bad = if s == 1024 { vec![last] } else { vec![first, middle, last] };
        for bad in bad {
            let result = repair(&mut rng, &words, &off(&[bad]), &map);
            let result = result.and_then(|(_, after, marked)| {
                same("blamed", &marked.iter().position(|b| *b == 3), &Some(bad))?;
                equal("block", &after, &zeroed(&sent, s, &places_lost(&marked)))
            });
            run.fixed(&format!("{name}, size {s}, place {bad} wrong"), result);
        }
        if s < 1024 {
            let result = repair(&mut rng, &words, &off(&[first, last]), &map)
                .and_then(|(answer, _, _)| same("refusal", &answer.refusal, &8));
            run.fixed(&format!("{name}, size {s}, two wrong"), result);
        }
    }
}

/// A bad packet that could be found, but another cause comes first.
fn blame_refusal_cases(run: &mut Run) {
    let block = [0x11, 0x02, 0x04, 0x0e, 0x08, 0x0b, 0x0d];
    let with = |at: usize, word: u16| {
        let mut words = A.to_vec();
        words[at] = word;
        words
    };
    let longer = |bytes: &[u8]| [bytes, &[0]].concat();
    let map = [0; 7];
    run.fixed("P8 with 1", refused(&A[..4], &block, &map, 1));
    run.fixed("P8 with 2", refused(&with(0, 3), &block, &map, 2));
    run.fixed("P8 with 3", refused(&A[..19], &block, &map, 3));
    run.fixed("P8 with 4", refused(&with(19, 7), &block, &map, 4));
    run.fixed("P8 with 5, block longer", refused(A, &longer(&block), &map, 5));
    run.fixed("P8 with 5, block shorter", refused(A, &block[..6], &map, 5));
    run.fixed("P8 with 5, map longer", refused(A, &block, &longer(&map), 5));
    run.fixed("P8 with 5, map shorter", refused(A, &block, &map[..6], 5));
    run.fixed("P8 with 5 and 7", refused(A, &block[..6], &[3; 7], 5));
    for (place, byte) in (0..7).zip([2, 3, 4, 3, 128, 255, 3]) {
        let mut map = map;
        map[place] = byte;
        run.fixed(&format!("P8 with 7 for {byte}"), refused(A, &block, &map, 7));
    }
    // After P8 has been answered its map is refused; with the 3 set back to 0
    // nothing is left to do.
    let again = repaired(A, &P2, &[], ok(0, 0, 0), &P2);
    run.fixed("P8 again", refused(A, &P2, &[3, 0, 0, 0, 0, 0, 0], 7).and(again));
}

// ------------------------------------------------- fixed cases, full repair

fn map_of(n: usize, lost: &[usize]) -> Vec<u8> {
    (0..n).map(|p| lost.contains(&p) as u8).collect()
}

/// Old bytes lie at lost places, and the work holds anything. Afterwards the
/// block is this one, and the map says 1 where a place is still lost, 2 where it
/// is restored.
fn fully_repaired(
    table: &[u16],
    block: &[u8],
    lost: &[usize],
    answer: FullyRepaired,
    still_lost: &[usize],
    block_after: &[u8],
) -> Result<(), String> {
    let mut rng = Rng::new(0, 0);
    let (n, s) = (table[1] as usize, table[2] as usize);
    let (got, after, map) =
        full_repair(&mut rng, table, &aged(block, s, lost), &map_of(n, lost))?;
    same("answer", &got, &answer)?;
    let twice = map_of(n, lost).into_iter().map(|b| 2 * b);
    let expected = twice.zip(map_of(n, still_lost)).map(|(two, one)| two - one);
    same("map", &map, &expected.collect())?;
    holds("block", after == block_after)
}

/// All that is lost comes back.
fn comes_back(table: &[u16], codeword: &[u8], lost: &[usize]) -> Result<(), String> {
    fully_repaired(table, codeword, lost, fully(lost.len() as u32, 0), &[], codeword)
}

/// None of what is lost comes back.
fn stays_lost(table: &[u16], block: &[u8], lost: &[usize]) -> Result<(), String> {
    let after = zeroed(block, table[2] as usize, lost);
    fully_repaired(table, block, lost, fully(0, lost.len() as u32), lost, &after)
}

/// Refusal 8 with check and byte 0; the map is kept, lost places become zero.
fn none_agrees(table: &[u16], block: &[u8], lost: &[usize]) -> Result<(), String> {
    let after = zeroed(block, table[2] as usize, lost);
    fully_repaired(table, block, lost, FullyRepaired::refused(8), lost, &after)
}

/// The same, and repair doesn't see it.
fn unseen(table: &[u16], block: &[u8], lost: &[usize]) -> Result<(), String> {
    none_agrees(table, block, lost)?;
    let mut rng = Rng::new(0, 0);
    let (old, _, _) = repair(&mut rng, table, block, &map_of(table[1] as usize, lost))?;
    same("repair", &old.refusal, &0)
}

fn zeroed(block: &[u8], s: usize, lost: &[usize]) -> Vec<u8> {
    let mut block = block.to_vec();
    lost.iter().for_each(|p| block[p * s..(p + 1) * s].fill(0));
    block
}

fn full_cases(run: &mut Run) {
    let restored = [0x01, 0x02, 0x04, 0x0e, 0x08, 0x0b, 0x0d];
    run.fixed("C-14", fully_repaired(A, &P2, &[2, 4, 6], fully(3, 0), &[], &restored));
    let left = [0x01, 0x02, 0, 0x0e, 0, 0, 0x0d];
    let lost = [2, 4, 5];
    run.fixed("C-14, open", fully_repaired(A, &P2, &lost, fully(0, 3), &lost, &left));
    for fill in [0, 1, u64::MAX] {
        let mut rng = Rng::new(0, 0);
        let (map, work) = (map_of(7, &[2, 4, 6]), vec![fill; model::WORK_BUFFER]);
        let result = full_repair_with(&mut rng, A, &aged(&P2, 1, &[2, 4, 6]), &map, &work)
            .and_then(|(_, after, _)| holds("block", after == restored));
        run.fixed(&format!("C-14, work of {fill}"), result);
    }
    run.fixed("full repair, P4", comes_back(A, &P2, &[3, 5, 6]));
    run.fixed("full repair, P7", comes_back(A4, &P2, &[2, 4, 6]));
    run.fixed("full repair, P7, open", stays_lost(A4, &P2, &[2, 4, 5]));
    run.fixed("full repair, nothing lost", comes_back(A, &P2, &[]));
    run.fixed("full repair, all lost", stays_lost(A, &P2, &[0, 1, 2, 3, 4, 5, 6]));
    let wrong = [0x11, 0x02, 0x04, 0x0e, 0x08, 0x0b, 0x0d];
    run.fixed("full repair, P8", none_agrees(A, &wrong, &[]));
    run.fixed("full repair, P8, two lost", none_agrees(A, &wrong, &[3, 5]));
    run.fixed("full repair, P8, place 0 lost", comes_back(A, &P2, &[0]));

    // Each check has two lost places or more. Of 6 and 7 only the sum is known;
    // 0, 1 and 2 are decided, apart from these or by their sum.
    let apart = [vec![0, 1, 3], vec![1, 2, 4], vec![0, 1, 2, 5], vec![6, 7, 8]];
    let by_sum = [vec![0, 1, 6, 7], vec![1, 2, 6, 7], vec![0, 1, 2, 5], vec![6, 7, 8]];
    for (checks, block) in [
        (apart, [0x01, 0x02, 0x04, 0x03, 0x06, 0x07, 0x08, 0x10, 0x18]),
        (by_sum, [0x1f, 0x07, 0x1f, 0x55, 0x66, 0x07, 0x08, 0x10, 0x18]),
    ] {
        let table = model::table_words(9, 1, &checks);
        let after = zeroed(&block, 1, &[6, 7]);
        let result =
            fully_repaired(&table, &block, &[0, 1, 2, 6, 7], fully(3, 2), &[6, 7], &after);
        run.fixed("some decided, two open", result);
    }

    // Tables with few checks or none.
    let single: &[u16] = &[2, 1, 1, 1, 1, 1, 0];
    run.fixed("full repair, P9, lost", comes_back(single, &[0], &[0]));
    run.fixed("full repair, P9, contradicts", none_agrees(single, &[9], &[]));
    let no_checks: &[u16] = &[2, 3, 1, 0, 0];
    run.fixed("full repair, P10", stays_lost(no_checks, &[1, 2, 3], &[1]));
    run.fixed("full repair, P10, all lost", stays_lost(no_checks, &[1, 2, 3], &[0, 1, 2]));
    run.fixed("full repair, P10, nothing lost", comes_back(no_checks, &[1, 2, 3], &[]));
    let empty = model::table_words(3, 1, &vec![vec![]; 512]);
    run.fixed("full repair, empty checks", stays_lost(&empty, &[1, 2, 3], &[0, 2]));
    // 0 and 1 are alike twice over, and so are 2 and 3.
    let twice = [vec![0, 1], vec![0, 1], vec![2, 3], vec![0, 1, 2, 3]];
    let twice = model::table_words(4, 1, &twice);
    run.fixed("redundant checks, all lost", stays_lost(&twice, &[5, 5, 6, 6], &[0, 1, 2, 3]));
    run.fixed("redundant checks, one of each lost", comes_back(&twice, &[5, 5, 6, 6], &[1, 2]));
    run.fixed("redundant checks, contradiction", none_agrees(&twice, &[5, 4, 6, 6], &[3]));
    // All lost, and all decided to be zero.
    let zero = model::table_words(3, 1, &[vec![0, 1], vec![1, 2], vec![0, 1, 2]]);
    run.fixed("all lost, all decided", comes_back(&zero, &[0, 0, 0], &[0, 1, 2]));
}

fn contradiction_cases(run: &mut Run) {
    // Two checks alike on lost places, with other sums of received ones.
    let alike =
        |s: usize| model::table_words(6, s, &[vec![0, 1, 2], vec![0, 1, 3], vec![4, 5]]);
    run.fixed("two sums of one pair", unseen(&alike(1), &[0, 0, 1, 2, 7, 7], &[0, 1]));
    run.fixed("two sums, one place restored", unseen(&alike(1), &[0, 0, 1, 2, 7, 7], &[0, 1, 5]));
    run.fixed("one sum of one pair", stays_lost(&alike(1), &[0, 0, 1, 1, 7, 7], &[0, 1]));
    // Three checks that sum to nothing on lost places.
    let round = model::table_words(6, 1, &[vec![0, 1, 3], vec![1, 2, 4], vec![0, 2, 5]]);
    run.fixed("three sums", unseen(&round, &[0, 0, 0, 1, 2, 4], &[0, 1, 2]));
    run.fixed("three sums that agree", stays_lost(&round, &[0, 0, 0, 1, 2, 3], &[0, 1, 2]));
    // Decided by elimination, but another check of the same places says otherwise.
    let over = [vec![0, 2, 4, 6], vec![1, 2, 5, 6], vec![3, 4, 5, 6], vec![2, 4, 6]];
    let over = model::table_words(7, 1, &over);
    run.fixed("one check too many", unseen(&over, &P2, &[2, 4, 6]));

    // At one bit of one byte only, in the last check only.
    for (s, byte) in [(2, 1), (63, 62), (64, 63), (65, 64), (128, 127), (1024, 512), (1024, 1023)] {
        let block = zeros_but(6, s, &[(2, byte, 0x80)]);
        run.fixed(&format!("two sums, size {s}, byte {byte}"), unseen(&alike(s), &block, &[0, 1]));
        let block = zeros_but(6, s, &[(4, byte, 1)]);
        let late = none_agrees(&alike(s), &block, &[0, 1]);
        run.fixed(&format!("the last check, size {s}, byte {byte}"), late);
    }
    let mut many = vec![vec![]; 510];
    many.extend([vec![0, 1, 2], vec![0, 1, 3]]);
    let many = model::table_words(4, 2, &many);
    run.fixed("checks 510 and 511", unseen(&many, &[0, 0, 0, 0, 5, 6, 5, 7], &[0, 1]));
}

/// Table A with packets of many sizes: what peeling can't restore, decided and
/// open, and a byte wrong.
fn size_cases(run: &mut Run) {
    let checks = model::look_over(A).unwrap().checks;
    for s in [1, 2, 7, 8, 9, 63, 64, 65, 127, 128, 129, 1023, 1024] {
        let mut rng = Rng::new(14, s as u64);
        let t = Table { n: 7, s, checks: checks.clone() };
        let (words, block) = (gen::words(&t), gen::codeword(&mut rng, &t));
        run.fixed(&format!("full repair, size {s}"), comes_back(&words, &block, &[2, 4, 6]));
        run.fixed(&format!("full repair, size {s}, open"), stays_lost(&words, &block, &[2, 4, 5]));
        let mut wrong = block.clone();
        wrong[s - 1] ^= 0x80;
        run.fixed(&format!("full repair, size {s}, wrong"), none_agrees(&words, &wrong, &[2, 4]));
    }
}

/// Checks of 1,024 places.
fn limit_checks(rng: &mut Rng, name: &str) -> Vec<Vec<usize>> {
    match name {
        "regular" => gen::regular(rng, 1024, 512, 3),
        "staircase" => gen::staircase(rng, 1024, 512, 3),
        _ => (0..96).map(|_| rng.some_below(1024, 64)).collect(),
    }
}

/// A table at the limits, with packets of one codeword.
fn limit_cases(run: &mut Run) {
    for (name, s, share) in [("regular", 1024, 45), ("staircase", 64, 47), ("heavy", 3, 40)] {
        if harness::bare() && s == 1024 {
            continue;
        }
        let mut rng = Rng::new(14, s as u64);
        let t = Table { n: 1024, s, checks: limit_checks(&mut rng, name) };
        let block = gen::codeword(&mut rng, &t);
        let map = map_of(t.n, &rng.some_below(t.n, t.n * share / 100));
        let mut wrong = block.clone();
        wrong[map.iter().position(|b| *b == 0).unwrap() * s + s - 1] ^= 1;
        for (what, block) in [("a codeword", &block), ("a byte wrong", &wrong)] {
            let result = full_beside(&mut rng, &t, block, &map);
            run.fixed(&format!("{name}, size {s}, {what}"), result.map(|_| ()));
        }
    }
}

/// Every loss pattern of a table: full repair against all codewords, repair
/// against sets and by trial.
fn every_pattern(table: &[u16], block: &[u8]) -> Result<(), String> {
    let mut rng = Rng::new(14, 0);
    let t = model::look_over(table).unwrap();
    let codewords = model::codewords(&t);
    // Bare buffers: a few.
    let step = if harness::bare() { 11 } else { 1 };
    for pattern in (0usize..1 << t.n).step_by(step) {
        let map: Vec<u8> = (0..t.n).map(|p| (pattern >> p & 1) as u8).collect();
        let mut block = block.to_vec();
        age(&mut rng, &mut block, t.s, &map);
        as_codewords_say(&mut rng, &t, &codewords, &block, &map)
            .and_then(|_| as_sets_say(&mut rng, &t, &block, &map))
            .and_then(|_| by_trial(&mut rng, table, &block, &map))
            .map_err(|what| format!("lost {:?}: {what}", places_lost(&map)))?;
    }
    Ok(())
}

/// Tables A, A with a fourth check, B and those of the vectors, each with a codeword.
fn worked_tables() -> Vec<(Vec<u16>, Vec<u8>)> {
    let worked: [(&[u16], &[u8]); 3] = [(A, &P2), (A4, &P2), (B, &[0, 0xa5, 0xa5, 0xa5])];
    let all = worked.into_iter().chain(VECTORS);
    all.map(|(table, block)| (table.to_vec(), block.to_vec())).collect()
}

fn pattern_cases(run: &mut Run) {
    let mut tables = worked_tables();
    let two_b = gen::side_by_side(&vec![gen::table_b(); 2]);
    tables.push((model::table_words(two_b.0, 1, &two_b.1), vec![0, 1, 1, 1, 0, 0, 0, 0]));
    // Ways to say five times the same.
    let copies = [[0, 1], [1, 2], [2, 3], [3, 4], [0, 4], [0, 2]].map(|pair| pair.to_vec());
    tables.push((model::table_words(5, 1, &copies), vec![0x5a; 5]));
    let right = [vec![1, 2], vec![0, 1, 2, 3], vec![2, 3]];
    tables.push((model::table_words(4, 1, &right), vec![0; 4]));
    for (i, (table, block)) in tables.iter().enumerate() {
        run.fixed(&format!("every pattern of table {i}"), every_pattern(table, block));
        for p in 0..block.len() {
            let mut wrong = block.clone();
            wrong[p] ^= 0x10;
            let result = every_pattern(table, &wrong);
            run.fixed(&format!("every pattern of table {i}, place {p} wrong"), result);
        }
    }
}

fn fully_refused(
    table: &[u16],
    block: &[u8],
    map: &[u8],
    work_len: usize,
    refusal: u32,
) -> Result<(), String> {
    let mut rng = Rng::new(0, 0);
    let work: Vec<u64> = (0..work_len).map(|_| rng.next()).collect();
    let (answer, _, _) = full_repair_with(&mut rng, table, block, map, &work)?;
    same("full repair", &answer, &FullyRepaired::refused(refusal))
}

/// Each cause, alone and with the next one. Place 0 and place 1 contradict.
fn full_refusal_cases(run: &mut Run) {
    let good: &[u16] = &[2, 3, 1, 2, 1, 1, 2, 0, 1];
    let right = model::WORK_BUFFER;
    let mut order = |name: &str, table: &[u16], block: usize, map: &[u8], work: usize, refusal| {
        let result = fully_refused(table, &vec![1; block], map, work, refusal);
        run.fixed(&format!("full repair, {name}"), result);
    };
    order("empty table", &[], 3, &[0; 3], right, 1);
    order("1", &good[..4], 3, &[0; 3], right, 1);
    order("1 before 2", &[3, 0, 0, 600], 0, &[], 0, 1);
    order("2", &[3, 3, 1, 2, 1, 1, 2, 0, 1], 3, &[0; 3], right, 2);
    order("2 before 3", &[2, 0, 1, 1, 65], 0, &[], 0, 2);
    order("3", &good[..8], 3, &[0; 3], right, 3);
    order("3 before 4", &[2, 2, 1, 1, 3, 2, 0, 9], 0, &[], 0, 3);
    order("4", &[2, 3, 1, 2, 1, 1, 2, 0, 3], 3, &[0; 3], right, 4);
    order("4 before 5", &[2, 3, 1, 2, 1, 1, 2, 0, 3], 1, &[0], 0, 4);
    for (block, map, work) in [
        (2, 3, right),
        (4, 3, right),
        (0, 3, right),
        (3, 2, right),
        (3, 4, right),
        (3, 0, right),
        (3, 3, right - 1),
        (3, 3, right + 1),
        (3, 3, 0),
        (3, 3, 1),
        (3, 3, 2 * right),
    ] {
        let name = |what: &str| format!("{what}, lengths {block} {map} {work}");
        order(&name("5"), good, block, &vec![0; map], work, 5);
        order(&name("5, some lost"), good, block, &vec![1; map], work, 5);
        order(&name("5 before 7"), good, block, &vec![2; map], work, 5);
    }
    for byte in [2, 3, 128, 255] {
        order(&format!("7 for {byte}"), good, 3, &[1, 1, byte], right, 7);
        order(&format!("7 before 8 for {byte}"), good, 3, &[byte, 0, 0], right, 7);
    }
    order("8", good, 3, &[0, 0, 1], right, 8);
    order("8, one of two", good, 3, &[1, 0, 1], right, 8);
}

fn main() {
    let mut run = Run::from_arguments(15936);
    fixed_cases(&mut run);
    depth_cases(&mut run);
    told_cases(&mut run);
    untold_cases(&mut run);
    blame_cases(&mut run);
    blame_size_cases(&mut run);
    blame_limit_cases(&mut run);
    blame_refusal_cases(&mut run);
    full_cases(&mut run);
    contradiction_cases(&mut run);
    size_cases(&mut run);
    limit_cases(&mut run);
    pattern_cases(&mut run);
    full_refusal_cases(&mut run);
    merge::fixed_cases(&mut run);
    why::fixed_cases(&mut run);
    lengthen::fixed_cases(&mut run);
    rain::fixed_cases(&mut run);
    run.random(random_case);
    run.met(&why::ALL_MET);
    run.met(&lengthen::ALL_MET);
    run.met(&rain::ALL_MET);
    run.end()
}
