//! Why a place is received, restored or lost after full repair, in the comparison of
//! the receiver.

use crate::gen::{self, Rng};
use crate::harness::{bare, equal, holds, same, Lent, Met, Run};
use crate::model::{self, FullyRepaired, Reason, Table, LOST, RECEIVED, RESTORED};
use crate::{a_off, age, aged, block_for, byte_of, dirty_work, full_repair_alone};
use crate::{limit_checks, lose, map_of, packet_of, places_lost, worked_tables, zeros_but};
use crate::{A, A4, P2};

#[link(name = "receiver", kind = "static")]
extern "C" {
    fn bs_why(
        table: *const u16,
        table_len: usize,
        block: *mut u8,
        block_len: usize,
        map: *mut u8,
        map_len: usize,
        work: *mut u64,
        work_len: usize,
        place: usize,
        reason: *mut u16,
        reason_len: usize,
    ) -> Reason;
}

/// What is lent to be written.
#[derive(Clone, Debug, PartialEq)]
struct Buffers {
    block: Vec<u8>,
    map: Vec<u8>,
    work: Vec<u64>,
    reason: Vec<u16>,
}

// ----------------------------------------------------- one call, both ways

/// The library's answer and the buffers; it wrote nowhere else.
fn why_alone(
    rng: &mut Rng,
    table: &[u16],
    before: &Buffers,
    place: usize,
) -> Result<(Reason, Buffers), String> {
    let lent_table = Lent::new(rng, table);
    let (mut block, mut map) = (Lent::new(rng, &before.block), Lent::new(rng, &before.map));
    let (mut work, mut reason) = (Lent::new(rng, &before.work), Lent::new(rng, &before.reason));
    let answer = unsafe {
        bs_why(
            lent_table.ptr(),
            lent_table.len(),
            block.mut_ptr(),
            block.len(),
            map.mut_ptr(),
            map.len(),
            work.mut_ptr(),
            work.len(),
            place,
            reason.mut_ptr(),
            reason.len(),
        )
    };
    lent_table.kept("why, table")?;
    block.guarded("why, block")?;
    map.guarded("why, map")?;
    work.guarded("why, work")?;
    reason.guarded("why, reason")?;
    let after = Buffers {
        block: block.content().to_vec(),
        map: map.content().to_vec(),
        work: work.content().to_vec(),
        reason: reason.content().to_vec(),
    };
    Ok((answer, after))
}

fn same_buffers(name: &str, got: &Buffers, expected: &Buffers) -> Result<(), String> {
    equal(&format!("{name}, map"), &got.map, &expected.map)?;
    equal(&format!("{name}, block"), &got.block, &expected.block)?;
    equal(&format!("{name}, work"), &got.work, &expected.work)?;
    equal(&format!("{name}, reason"), &got.reason, &expected.reason)
}

static EIGHT: Met = Met::new("why, 8");
static FOURTEEN: Met = Met::new("why, 14");
static BEFORE_8: Met = Met::new("why, 14 where packets contradict");
static LONG_LIST: Met = Met::new("why, a list of 64 checks or more");
static LARGE_SET: Met = Met::new("why, a set of 64 places or more");
static ALONE: Met = Met::new("why, a set of one place");

pub static ALL_MET: [&Met; 6] =
    [&EIGHT, &FOURTEEN, &BEFORE_8, &LONG_LIST, &LARGE_SET, &ALONE];

/// The library's answer and the buffers, if they are the model's, and what holds of
/// every answer holds.
fn why(
    rng: &mut Rng,
    table: &[u16],
    before: &Buffers,
    place: usize,
) -> Result<(Reason, Buffers), String> {
    let (answer, after) = why_alone(rng, table, before, place)?;
    let mut expected = before.clone();
    let Buffers { block, map, work, reason } = &mut expected;
    let told = model::why(table, block, map, work, place, reason);
    same("why", &answer, &told)?;
    same_buffers("why", &after, &expected)?;
    holds_of_why(rng, table, before, place, &answer, &after)?;
    EIGHT.count_if(answer.refusal == 8);
    FOURTEEN.count_if(answer.refusal == 14);
    LONG_LIST.count_if(answer.kind == RESTORED && answer.length >= 64);
    LARGE_SET.count_if(answer.kind == LOST && answer.length >= 64);
    ALONE.count_if(answer.kind == LOST && answer.length == 1);
    Ok((answer, after))
}

/// What holds of every answer, seen from outside: the library's full repair of the same
/// block leaves the same, and the list is what it has to be, but for the choice of used
/// checks or of one set.
fn holds_of_why(
    rng: &mut Rng,
    table: &[u16],
    before: &Buffers,
    place: usize,
    answer: &Reason,
    after: &Buffers,
) -> Result<(), String> {
    if ![0, 8].contains(&answer.refusal) {
        same("refused", answer, &Reason::refused(answer.refusal))?;
        return same_buffers("refused", after, before);
    }
    let Buffers { block, map, work, .. } = before;
    let (told, block, map, work) = full_repair_alone(rng, table, block, map, work)?;
    let FullyRepaired { refusal, restored, lost, .. } = told;
    let reason = after.reason.clone();
    same_buffers("full repair beside", after, &Buffers { block, map, work, reason })?;
    let Reason { kind, length, .. } = *answer;
    let beside = Reason { kind, length, restored, lost, ..Reason::refused(refusal) };
    same("full repair beside", answer, &beside)?;
    if refusal == 8 {
        same("8", answer, &Reason::refused(8))?;
        return equal("8, reason", &after.reason, &before.reason);
    }
    let t = model::look_over(table).unwrap();
    let list = list_of(answer, &after.reason)?;
    same("kind", &kind, &kind_of(after.map[place]))?;
    match kind {
        RECEIVED => same("received, list", &list, &vec![]),
        RESTORED => holds_of_list(&t, before, after, place, &list),
        _ => holds_of_set(&t, &after.map, place, &list),
    }
}

/// What a place is by its byte of the map after full repair.
fn kind_of(mark: u8) -> u32 {
    match mark {
        0 => RECEIVED,
        2 => RESTORED,
        _ => LOST,
    }
}

/// The list of an accepted answer: it ascends, and zeros follow.
fn list_of(answer: &Reason, reason: &[u16]) -> Result<Vec<usize>, String> {
    let length = answer.length as usize;
    holds("the list fits", length <= reason.len())?;
    let (list, rest) = reason.split_at(length);
    holds("the list ascends", list.windows(2).all(|pair| pair[0] < pair[1]))?;
    same("behind the list", &rest.iter().position(|number| *number != 0), &None)?;
    Ok(list.iter().map(|number| *number as usize).collect())
}

/// The sum of the listed checks holds the place, and otherwise received places, whose
/// packets sum to the restored one.
fn holds_of_list(
    t: &Table,
    before: &Buffers,
    after: &Buffers,
    place: usize,
    list: &[usize],
) -> Result<(), String> {
    holds("checks of the table", list.iter().all(|c| *c < t.checks.len()))?;
    let mut times = vec![0; t.n];
    list.iter().flat_map(|c| &t.checks[*c]).for_each(|p| times[*p] += 1);
    let (lost, received): (Vec<usize>, Vec<usize>) =
        (0..t.n).filter(|p| times[*p] % 2 == 1).partition(|p| before.map[*p] == 1);
    same("lost places of the sum", &lost, &vec![place])?;
    let mut sum = vec![0; t.s];
    for p in received {
        let packet = packet_of(&before.block, t.s, p);
        sum.iter_mut().zip(packet).for_each(|(a, b)| *a ^= b);
    }
    equal("packet by the list", packet_of(&after.block, t.s, place), &sum)
}

/// Places that are still lost, this one among them; every check meets them an even
/// number of times.
fn holds_of_set(t: &Table, map: &[u8], place: usize, set: &[usize]) -> Result<(), String> {
    holds("lost places", set.iter().all(|p| *p < t.n && map[*p] == 1))?;
    holds("the place itself", set.contains(&place))?;
    let within = map_of(t.n, set);
    let odd = |check: &Vec<usize>| check.iter().filter(|p| within[**p] == 1).count() % 2 == 1;
    same("a check that meets the set an odd number of times", &t.checks.iter().position(odd), &None)
}

/// Buffers of right lengths: work and reason held anything.
fn lent(rng: &mut Rng, block: &[u8], map: &[u8]) -> Buffers {
    let reason = match rng.below(4) {
        0 => vec![0xffff; model::REASON_BUFFER],
        1 => (0..1024).collect(),
        _ => (0..1024).map(|_| rng.next() as u16).collect(),
    };
    Buffers { block: block.to_vec(), map: map.to_vec(), work: dirty_work(rng), reason }
}

/// The answer for one place, its list, and the buffers afterwards.
fn ask(
    rng: &mut Rng,
    t: &Table,
    block: &[u8],
    map: &[u8],
    place: usize,
) -> Result<(Reason, Vec<usize>, Buffers), String> {
    let before = lent(rng, block, map);
    let (answer, after) = why(rng, &gen::words(t), &before, place)?;
    let list = if answer.refusal == 0 { list_of(&answer, &after.reason)? } else { vec![] };
    Ok((answer, list, after))
}

/// The reason is that of any packets: the same with a block of zeros of another size.
fn whatever_the_packets(
    rng: &mut Rng,
    t: &Table,
    map: &[u8],
    place: usize,
    answer: &Reason,
    list: &[usize],
) -> Result<(), String> {
    let s = rng.pick(&[1, 1, 2, 9]);
    let zeros = lent(rng, &vec![0; t.n * s], map);
    let table = model::table_words(t.n, s, &t.checks);
    let (of_zeros, after) = why_alone(rng, &table, &zeros, place)?;
    same("of zeros", &of_zeros, answer)?;
    same("of zeros, list", &list_of(&of_zeros, &after.reason)?, &list.to_vec())
}

/// Asked again with what was restored as received: a lost place has the same set. The
/// map as it is now is refusal 7 if something was restored.
fn asked_again(
    rng: &mut Rng,
    t: &Table,
    place: usize,
    answer: &Reason,
    list: &[usize],
    after: &Buffers,
) -> Result<(), String> {
    let words = gen::words(t);
    let again: Vec<u8> = after.map.iter().map(|mark| (*mark == 1) as u8).collect();
    let before = lent(rng, &after.block, &again);
    let (second, then) = why_alone(rng, &words, &before, place)?;
    let expected = match answer.kind {
        LOST => accepted(LOST, list, [0, answer.lost]),
        _ => accepted(RECEIVED, &[], [0, answer.lost]),
    };
    same("again", &second, &expected)?;
    equal("again, reason", &then.reason, &reason_of(if answer.kind == LOST { list } else { &[] }))?;
    equal("again, block", &then.block, &after.block)?;
    if answer.restored > 0 {
        let (third, then) = why_alone(rng, &words, after, place)?;
        same("old map", &third, &Reason::refused(7))?;
        same_buffers("old map", &then, after)?;
    }
    Ok(())
}

// --------------------------------------------------------------- by trial

/// A kind, and the list that goes with it.
type Told<'a> = (u32, &'a [usize]);

/// Whether the library's full repair restores a place of a block of zeros.
fn restores(
    rng: &mut Rng,
    n: usize,
    checks: &[Vec<usize>],
    lost: &[usize],
    place: usize,
) -> Result<bool, String> {
    let (table, work) = (model::table_words(n, 1, checks), [0; model::WORK_BUFFER]);
    let (answer, _, map, _) =
        full_repair_alone(rng, &table, &vec![0; n], &map_of(n, lost), &work)?;
    same("a block of zeros", &answer.refusal, &0)?;
    Ok(map[place] == 2)
}

/// A check isn't used if it, given one more place that is lost, restores this together
/// with lower checks. Not tried where a table has no room for that place.
fn used(rng: &mut Rng, t: &Table, lost: &[usize], check: usize) -> Result<bool, String> {
    let mut checks = t.checks[..=check].to_vec();
    checks[check].push(t.n);
    if model::look_over(&model::table_words(t.n + 1, 1, &checks)).is_err() {
        return Ok(true);
    }
    let more = [lost, &[t.n]].concat();
    Ok(!restores(rng, t.n + 1, &checks, &more, t.n)?)
}

/// The listed checks are used; they restore the place, and not without each. No place of
/// a set can be left out, whatever lower ones take its part. So many numbers of the list
/// are tried.
fn by_trial(
    rng: &mut Rng,
    t: &Table,
    lost: &[usize],
    place: usize,
    (kind, list): Told,
    most: usize,
) -> Result<(), String> {
    let mut some = list.to_vec();
    rng.shuffle(&mut some);
    some.truncate(most);
    if kind == RESTORED {
        let of = |list: &[usize]| -> Vec<Vec<usize>> {
            list.iter().map(|c| t.checks[*c].clone()).collect()
        };
        holds("restored by the list", restores(rng, t.n, &of(list), lost, place)?)?;
        for c in &some {
            holds(&format!("check {c} is used"), used(rng, t, lost, *c)?)?;
            let others: Vec<usize> = list.iter().copied().filter(|d| d != c).collect();
            let restored = restores(rng, t.n, &of(&others), lost, place)?;
            holds(&format!("check {c} is needed"), !restored)?;
        }
    }
    if kind == LOST {
        for p in some.iter().filter(|p| **p != place) {
            let lower = lost.iter().filter(|q| *q < p);
            let higher = list.iter().filter(|q| *q > p);
            let others: Vec<usize> = lower.chain(higher).chain([&place]).copied().collect();
            let restored = restores(rng, t.n, &t.checks, &others, place)?;
            holds(&format!("place {p} is needed"), restored)?;
        }
    }
    Ok(())
}

// --------------------------------------------------------- by all subsets

/// Each place's answer against all sums of used checks and all sets of lost places: of
/// small tables.
fn as_subsets_say(rng: &mut Rng, t: &Table, block: &[u8], map: &[u8]) -> Result<(), String> {
    let lost = places_lost(map);
    let sums = model::sums_of_used(t, &lost);
    let even = model::even_sets(t, &lost);
    for place in 0..t.n {
        let (answer, list, _) = ask(rng, t, block, map, place)?;
        if answer.refusal == 8 {
            continue;
        }
        let lists: Vec<&Vec<usize>> =
            sums.iter().filter(|(_, lost)| *lost == [place]).map(|(list, _)| list).collect();
        let sets: Vec<&Vec<usize>> = even.iter().filter(|set| set.contains(&place)).collect();
        let told = (answer.kind, &list);
        let result = match (&lists[..], &sets[..]) {
            _ if map[place] == 0 => same("received", &told, &(RECEIVED, &vec![])),
            ([only], []) => same("the only list", &told, &(RESTORED, *only)),
            ([], [first, others @ ..]) => {
                let least = others.iter().fold(*first, |least, set| model::lesser(least, set));
                let beaten = |set: &&&Vec<usize>| model::lesser(&list, set) != &list;
                same("a set is less", &sets.iter().find(beaten), &None)?;
                same("the least set", &told, &(LOST, least))
            }
            _ => Err(format!("{} lists, {} sets", lists.len(), sets.len())),
        };
        result.map_err(|what| format!("lost {lost:?}, place {place}: {what}"))?;
    }
    Ok(())
}

// ---------------------------------------------------------------- answers

/// The counts are of restored places and of those still lost.
fn accepted(kind: u32, list: &[usize], [restored, lost]: [u32; 2]) -> Reason {
    Reason { kind, length: list.len() as u32, restored, lost, ..Reason::refused(0) }
}

/// The reason buffer with this list.
fn reason_of(list: &[usize]) -> Vec<u16> {
    let mut reason = vec![0; model::REASON_BUFFER];
    reason.iter_mut().zip(list).for_each(|(number, listed)| *number = *listed as u16);
    reason
}

// ------------------------------------------------------------ random cases

/// Any table; large ones are seldom.
pub fn some_table(rng: &mut Rng) -> Table {
    loop {
        let mut t = if rng.once_in(2) { gen::table(rng) } else { gen::half_rate(rng) };
        if t.n <= 128 || rng.once_in(12) {
            t.s = t.s.min(8_000 / t.n);
            return t;
        }
    }
}

/// All places of a small table one after another, else one of each kind.
fn ask_some(rng: &mut Rng, t: &Table, block: &[u8], map: &[u8]) -> Result<(), String> {
    let first = rng.below(t.n);
    let (_, _, after) = ask(rng, t, block, map, first)?;
    let mut places: Vec<usize> = (0..t.n).collect();
    if t.n > 10 {
        rng.shuffle(&mut places);
        let one = |mark: u8| places.iter().copied().find(|p| after.map[*p] == mark);
        places = (0..3).filter_map(one).collect();
    }
    for place in places {
        let (answer, list, after) = ask(rng, t, block, map, place)?;
        if answer.refusal == 0 && rng.once_in(3) {
            whatever_the_packets(rng, t, map, place, &answer, &list)?;
            asked_again(rng, t, place, &answer, &list, &after)?;
            by_trial(rng, t, &places_lost(map), place, (answer.kind, &list), 2)?;
        }
    }
    Ok(())
}

fn any_case(rng: &mut Rng) -> Result<(), String> {
    let t = some_table(rng);
    let mut block = block_for(rng, &t);
    let map = lose(rng, t.n);
    if !rng.once_in(4) {
        age(rng, &mut block, t.s, &map);
    }
    ask_some(rng, &t, &block, &map)
}

/// Packets of one codeword, about as many lost as can come back, so that lists and sets
/// are long. Then with one byte of a received packet wrong.
fn stalled_case(rng: &mut Rng) -> Result<(), String> {
    let large = rng.once_in(3);
    let mut t = gen::half_rate(rng);
    while (t.n > 200) != large {
        t = gen::half_rate(rng);
    }
    t.s = t.s.min(8_000 / t.n);
    let share = rng.range(40, 52);
    let map = map_of(t.n, &rng.some_below(t.n, t.n * share / 100));
    let mut block = gen::codeword(rng, &t);
    age(rng, &mut block, t.s, &map);
    ask_some(rng, &t, &block, &map)?;

    let received: Vec<usize> = (0..t.n).filter(|p| map[*p] == 0).collect();
    block[rng.pick(&received) * t.s + byte_of(rng, t.s)] ^= rng.range(1, 255) as u8;
    let place = rng.below(t.n);
    ask(rng, &t, &block, &map, place).map(|_| ())
}

/// A place that isn't there.
fn beyond(rng: &mut Rng, n: usize, place: usize) -> usize {
    let far = rng.pick(&[1024, 1 << 16, 1 << 32, 1 << 63, usize::MAX - place]) + place;
    rng.pick(&[n, n, n + 1, far, far]).max(n)
}

/// One to four of these: a damaged table, buffers of wrong length, a map byte over 1, a
/// place that isn't there.
fn refused_case(rng: &mut Rng) -> Result<(), String> {
    let t = some_table(rng);
    let mut words = gen::words(&t);
    let (block, map) = (block_for(rng, &t), lose(rng, t.n));
    let mut before = lent(rng, &block, &map);
    let mut place = rng.below(t.n);
    for _ in 0..rng.range(1, 4) {
        let Buffers { block, map, work, reason } = &mut before;
        match rng.below(12) {
            0 => block.resize(gen::wrong_length(rng, t.n * t.s), 0xa5),
            1 => map.resize(gen::wrong_length(rng, t.n), 2),
            2 => work.resize(gen::wrong_length(rng, model::WORK_BUFFER), 5),
            3 | 4 => reason.resize(gen::wrong_length(rng, model::REASON_BUFFER), 5),
            5 => {
                let which = rng.below(gen::TABLE_DAMAGES);
                gen::damage_table(rng, &mut words, which);
            }
            6 | 7 => {
                if let Some(last) = map.len().checked_sub(1) {
                    let p = rng.pick(&[0, last, last / 2]);
                    map[p] = rng.pick(&[2, 3, 128, 255]);
                }
            }
            _ => place = beyond(rng, t.n, place),
        }
    }
    let (answer, _) = why(rng, &words, &before, place)?;
    if answer.refusal == 14 {
        let Buffers { block, map, work, .. } = &before;
        let (beside, ..) = full_repair_alone(rng, &words, block, map, work)?;
        BEFORE_8.count_if(beside.refusal == 8);
    }
    Ok(())
}

/// Small tables: packets of one codeword, wrong ones, any.
fn brute_case(rng: &mut Rng) -> Result<(), String> {
    let mut t = gen::small_table(rng, 9, 8);
    t.s = rng.range(1, 3);
    for _ in 0..2 {
        let mut block = if rng.once_in(4) { block_for(rng, &t) } else { gen::codeword(rng, &t) };
        let map = lose(rng, t.n);
        age(rng, &mut block, t.s, &map);
        as_subsets_say(rng, &t, &block, &map)?;
    }
    Ok(())
}

/// Somewhat larger ones: the library's full repair tells what can't be left out.
fn trial_case(rng: &mut Rng) -> Result<(), String> {
    let t = gen::small_table(rng, 40, 24);
    let block = gen::codeword(rng, &t);
    let map = lose(rng, t.n);
    let lost = places_lost(&map);
    if lost.is_empty() {
        return Ok(());
    }
    let place = rng.pick(&lost);
    let (answer, list, _) = ask(rng, &t, &block, &map, place)?;
    same("packets of one codeword", &answer.refusal, &0)?;
    by_trial(rng, &t, &lost, place, (answer.kind, &list), list.len())
}

pub fn random_case(rng: &mut Rng) -> Result<(), String> {
    match rng.below(8) {
        0 | 1 => any_case(rng),
        2 => stalled_case(rng),
        3 | 4 => refused_case(rng),
        5 | 6 => brute_case(rng),
        _ => trial_case(rng),
    }
}

// ------------------------------------------------------------- fixed cases

const HERE: Told = (RECEIVED, &[]);

/// The words of a table of packets of one byte.
fn table_of(n: usize, checks: &[&[usize]]) -> Vec<u16> {
    let checks: Vec<Vec<usize>> = checks.iter().map(|c| c.to_vec()).collect();
    model::table_words(n, 1, &checks)
}

/// The answer for one place. Old bytes lie at lost places, and the reason buffer is full
/// of something.
fn told(
    table: &[u16],
    block: &[u8],
    lost: &[usize],
    place: usize,
    (kind, list): Told,
    counts: [u32; 2],
    fill: u16,
) -> Result<(), String> {
    let mut rng = Rng::new(21, fill as u64);
    let (n, s) = (table[1] as usize, table[2] as usize);
    let (block, map, work) = (aged(block, s, lost), map_of(n, lost), dirty_work(&mut rng));
    let before = Buffers { block, map, work, reason: vec![fill; model::REASON_BUFFER] };
    let (answer, after) = why(&mut rng, table, &before, place)?;
    same("answer", &answer, &accepted(kind, list, counts))?;
    equal("reason", &after.reason, &reason_of(list))
}

/// The answer for each place of a block; subsets say so, and trial.
fn reasons(table: &[u16], block: &[u8], lost: &[usize], each: &[Told]) -> Result<(), String> {
    let of = |kind: u32| each.iter().filter(|told| told.0 == kind).count() as u32;
    let counts = [of(RESTORED), of(LOST)];
    let (mut rng, t) = (Rng::new(21, 0), model::look_over(table).unwrap());
    same("places", &each.len(), &t.n)?;
    for (place, one) in each.iter().enumerate() {
        let at = |what| format!("place {place}: {what}");
        for fill in [0xffff, 0, 1] {
            told(table, block, lost, place, *one, counts, fill).map_err(at)?;
        }
        by_trial(&mut rng, &t, lost, place, *one, t.n).map_err(at)?;
    }
    as_subsets_say(&mut rng, &t, block, &map_of(t.n, lost))
}

fn table_a_cases(run: &mut Run) {
    let mut a = |name: &str, table: &[u16], lost: &[usize], each: [Told; 7]| {
        run.fixed(&format!("why, {name}"), reasons(table, &P2, lost, &each));
    };
    // Places 2, 4 and 5: every check meets them in two.
    let set: Told = (LOST, &[2, 4, 5]);
    let open = [HERE, HERE, set, HERE, set, set, HERE];
    a("A, lost 2, 4, 5", A, &[2, 4, 5], open);
    a("A with a fourth check, lost 2, 4, 5", A4, &[2, 4, 5], open);
    // The fourth check has lost place 4 alone, as checks 0 and 1 have together.
    let (two, four): (Told, Told) = ((RESTORED, &[0, 2]), (RESTORED, &[0, 1]));
    let six: Told = (RESTORED, &[0, 1, 2]);
    let back = [HERE, HERE, two, HERE, four, HERE, six];
    a("A, lost 2, 4, 6", A, &[2, 4, 6], back);
    a("A with a fourth check, lost 2, 4, 6", A4, &[2, 4, 6], back);
    // Check 0 feeds 1 and 2; in the list of place 3 it cancels.
    let (three, five): (Told, Told) = ((RESTORED, &[1, 2]), (RESTORED, &[0, 1]));
    let p4 = [HERE, HERE, HERE, three, HERE, five, (RESTORED, &[0])];
    a("P4", A, &[3, 5, 6], p4);
    a("A, nothing lost", A, &[], [HERE; 7]);
    // Of the sets of place 6 the least is the one without 5, 4 and 2, though {2, 3, 6} has fewer places.
    let (low, high): (Told, Told) = ((LOST, &[0, 1, 2]), (LOST, &[0, 3, 4]));
    let all = [low, low, low, high, high, (LOST, &[1, 3, 5]), (LOST, &[0, 1, 3, 6])];
    a("A, all lost", A, &[0, 1, 2, 3, 4, 5, 6], all);
    for place in 0..7 {
        let mut each = [HERE; 7];
        // The lowest check that holds it.
        each[place] = (RESTORED, [&[0], &[1], &[0], &[2], &[0], &[1], &[0]][place]);
        a(&format!("A, place {place} lost"), A, &[place], each);
    }
}

fn small_cases(run: &mut Run) {
    let mut small = |name: &str, checks: &[&[usize]], block: &[u8], lost: &[usize], each: &[Told]| {
        let result = reasons(&table_of(block.len(), checks), block, lost, each);
        run.fixed(&format!("why, {name}"), result);
    };
    let restored = |list: &'static [usize]| -> Told { (RESTORED, list) };
    let lost = |list: &'static [usize]| -> Told { (LOST, list) };
    let both = [restored(&[0, 1]), restored(&[1])];
    small("C-21", &[&[1, 2], &[2]], &[7, 0, 0], &[1, 2], &[HERE, both[0], both[1]]);
    small("C-21, 1 lost", &[&[1, 2], &[2]], &[7, 0, 0], &[1], &[HERE, restored(&[0]), HERE]);
    // Of checks alike the lowest is used, and what lower ones sum to isn't.
    let [first, second] = [restored(&[0]), restored(&[1])];
    small("the sum after", &[&[0], &[1], &[0, 1]], &[0, 0], &[0, 1], &[first, second]);
    small("the sum first", &[&[0, 1], &[0], &[1]], &[0, 0], &[0, 1], &[second, both[0]]);
    small("the sum between", &[&[0], &[0, 1], &[1]], &[0, 0], &[0, 1], &[first, both[0]]);
    let twice: [&[usize]; 4] = [&[0, 1], &[0, 1], &[2, 3], &[0, 1, 2, 3]];
    let each = [HERE, restored(&[0]), restored(&[2]), HERE];
    small("twice the same", &twice, &[5, 5, 6, 6], &[1, 2], &each);
    let (low, high) = (lost(&[0, 1]), lost(&[2, 3]));
    let each = [low, low, high, high];
    small("twice the same, all lost", &twice, &[5, 5, 6, 6], &[0, 1, 2, 3], &each);
    // Check 1 differs from check 0 in received places only.
    let alike: [&[usize]; 3] = [&[0, 1, 2], &[0, 1, 3], &[1, 4]];
    let each = [restored(&[0, 2]), restored(&[2]), HERE, HERE, HERE];
    small("alike where lost", &alike, &[1, 2, 3, 3, 2], &[0, 1], &each);
    let each = [low, low, HERE, HERE];
    small("alike where lost, open", &alike[..2], &[1, 2, 3, 3], &[0, 1], &each);
    // Lost places that come back before: the map as it was lent decides.
    let before: [&[usize]; 3] = [&[0], &[0, 1], &[1, 2]];
    let each = [restored(&[0]), restored(&[0, 1]), restored(&[0, 1, 2])];
    small("one feeds the next", &before, &[0; 3], &[0, 1, 2], &each);
    let turned: [&[usize]; 3] = [&[1, 2], &[0, 1], &[0]];
    let each = [restored(&[2]), restored(&[1, 2]), restored(&[0, 1, 2])];
    small("the next feeds one", &turned, &[0; 3], &[0, 1, 2], &each);
    // Checks 0 and 1 leave 1 and 2, and check 2 has these too.
    let cancel: [&[usize]; 3] = [&[0, 1], &[0, 2], &[1, 2, 3]];
    let each = [lost(&[0, 1, 2]), lost(&[0, 1, 2]), lost(&[0, 1, 2]), restored(&[0, 1, 2])];
    small("a pair cancels", &cancel, &[5, 5, 5, 0], &[0, 1, 2, 3], &each);
    let round: [&[usize]; 3] = [&[0, 1], &[1, 2], &[0, 1, 2]];
    let each = [restored(&[1, 2]), restored(&[0, 1, 2]), restored(&[0, 2])];
    small("all lost, all decided", &round, &[0; 3], &[0, 1, 2], &each);
    // Of 6 and 7 only the sum is known.
    let by_sum: [&[usize]; 4] = [&[0, 1, 6, 7], &[1, 2, 6, 7], &[0, 1, 2, 5], &[6, 7, 8]];
    let pair = lost(&[6, 7]);
    let each = [
        restored(&[1, 2, 3]),
        restored(&[0, 1, 2]),
        restored(&[0, 2, 3]),
        HERE,
        HERE,
        HERE,
        pair,
        pair,
        HERE,
    ];
    let block = [0x1f, 0x07, 0x1f, 0x55, 0x66, 0x07, 0x08, 0x10, 0x18];
    small("two open", &by_sum, &block, &[0, 1, 2, 6, 7], &each);

    // Few checks or none.
    small("P9", &[&[0]], &[0], &[0], &[restored(&[0])]);
    small("P9, received", &[&[0]], &[0], &[], &[HERE]);
    let alone = [lost(&[0]), lost(&[1]), lost(&[2])];
    small("P10", &[], &[1, 2, 3], &[1], &[HERE, alone[1], HERE]);
    small("P10, all lost", &[], &[1, 2, 3], &[0, 1, 2], &alone);
    small("P10, nothing lost", &[], &[1, 2, 3], &[], &[HERE; 3]);
    let empty: [&[usize]; 3] = [&[], &[1, 2], &[]];
    small("empty checks", &empty, &[1, 2, 2], &[0, 2], &[alone[0], HERE, second]);
    let each = [alone[0], lost(&[1, 2]), lost(&[1, 2])];
    small("empty checks, all lost", &empty, &[1, 2, 2], &[0, 1, 2], &each);
    small("one check of all", &[&[0, 1, 2]], &[1, 2, 3], &[0, 1, 2], &[low, low, lost(&[0, 2])]);
}

/// Checks with numbers up to 511, places up to 1,023.
fn far_cases(run: &mut Run) {
    let mut far = |name: &str, table: &[u16], lost: &[usize], place: usize, one: Told, counts| {
        let block = vec![0; table[1] as usize];
        let result = told(table, &block, lost, place, one, counts, 0xffff);
        run.fixed(&format!("why, {name}"), result);
    };
    let all_empty = model::table_words(3, 1, &vec![vec![]; 512]);
    far("512 empty checks", &all_empty, &[0, 2], 2, (LOST, &[2]), [0, 2]);
    let mut last = vec![vec![]; 511];
    last.push(vec![1, 1023]);
    let table = model::table_words(1024, 1, &last);
    far("check 511", &table, &[1023], 1023, (RESTORED, &[511]), [1, 0]);
    far("check 511, place 1", &table, &[1], 1, (RESTORED, &[511]), [1, 0]);
    far("check 511, both lost", &table, &[1, 1023], 1, (LOST, &[1, 1023]), [0, 2]);
    far("check 511, both lost, 1,023", &table, &[1, 1023], 1023, (LOST, &[1, 1023]), [0, 2]);
    far("check 511, nothing lost", &table, &[], 1023, HERE, [0, 0]);
    let alike = model::table_words(1024, 1, &vec![vec![1023]; 512]);
    far("512 checks alike", &alike, &[1023], 1023, (RESTORED, &[0]), [1, 0]);
    let mut two = vec![vec![]; 255];
    two.extend([vec![256, 300], vec![300]]);
    let table = model::table_words(1024, 1, &two);
    far("checks 255 and 256", &table, &[256, 300], 256, (RESTORED, &[255, 256]), [2, 0]);
    far("checks 255 and 256, 300", &table, &[256, 300], 300, (RESTORED, &[256]), [2, 0]);

    // Without checks each of all places is lost alone.
    let none = model::table_words(1024, 1, &[]);
    let all: Vec<usize> = (0..1024).collect();
    for place in [0, 1, 255, 256, 1000, 1023] {
        far(&format!("no checks, {place}"), &none, &all, place, (LOST, &[place]), [0, 1024]);
    }
}

/// Chains of 512 checks: the longest list, the largest set.
fn chain_cases(run: &mut Run) {
    type Number = fn(usize) -> usize;
    let chains: [(&str, Number, Number); 4] = [
        ("ascending", |link| link, |check| check),
        ("spread", |link| (2 * link).min(1023), |check| 511 - check),
        ("descending", |link| 1023 - link, |check| check),
        ("mixed", |link| 37 * link % 1024, |check| 101 * check % 512),
    ];
    // Bare buffers: a few.
    let step = if bare() { 3 } else { 1 };
    for (name, place_of, number_of) in chains.into_iter().step_by(step) {
        // Check i of the chain holds links i and i + 1.
        let mut checks = vec![vec![]; 512];
        for i in 0..512 {
            let mut check = vec![place_of(i), place_of(i + 1)];
            check.sort();
            checks[number_of(i)] = check;
        }
        let table = model::table_words(1024, 1, &checks);
        let mut chain = |what: &str, lost: &[usize], link: usize, kind: u32, list: Vec<usize>| {
            let (mut list, many) = (list, lost.len() as u32);
            list.sort();
            let counts = if kind == RESTORED { [many, 0] } else { [0, many] };
            let mut lost: Vec<usize> = lost.iter().map(|link| place_of(*link)).collect();
            lost.sort();
            let result =
                told(&table, &[0; 1024], &lost, place_of(link), (kind, &list), counts, 0xffff);
            run.fixed(&format!("why, chain {name}, {what} lost, link {link}"), result);
        };
        let links: Vec<usize> = (0..=512).collect();
        for link in [0, 300, 511].into_iter().step_by(step) {
            let list = (link..512).map(number_of).collect();
            chain("all but the last", &links[..512], link, RESTORED, list);
        }
        for link in [1, 256, 512].into_iter().step_by(step) {
            let list = (0..link).map(number_of).collect();
            chain("all but the first", &links[1..], link, RESTORED, list);
        }
        for link in [0, 77, 512].into_iter().step_by(step) {
            let set = links.iter().map(|link| place_of(*link)).collect();
            chain("all", &links, link, LOST, set);
        }
    }
}

/// Refusal 8 for each place: the reason buffer is kept, and nothing is told.
fn contradict(table: &[u16], block: &[u8], lost: &[usize]) -> Result<(), String> {
    let mut rng = Rng::new(21, 0);
    let t = model::look_over(table).unwrap();
    for place in 0..t.n {
        let (block, map) = (aged(block, t.s, lost), map_of(t.n, lost));
        let (answer, _, _) = ask(&mut rng, &t, &block, &map, place)?;
        same(&format!("place {place}"), &answer, &Reason::refused(8))?;
    }
    Ok(())
}

fn contradiction_cases(run: &mut Run) {
    let mut p8 = P2;
    p8[0] = 0x11;
    let mut eight = |name: &str, table: &[u16], block: &[u8], lost: &[usize]| {
        run.fixed(&format!("why, 8, {name}"), contradict(table, block, lost));
    };
    eight("P8", A, &p8, &[]);
    eight("P8, 3 and 5 lost", A, &p8, &[3, 5]);
    eight("P8, 1 lost", A, &p8, &[1]);
    eight("P9", &[2, 1, 1, 1, 1, 1, 0], &[9], &[]);
    // Two sums of one pair of lost places, which peeling doesn't see.
    let alike = table_of(6, &[&[0, 1, 2], &[0, 1, 3], &[4, 5]]);
    eight("two sums of one pair", &alike, &[0, 0, 1, 2, 7, 7], &[0, 1]);
    eight("two sums, one place restored", &alike, &[0, 0, 1, 2, 7, 7], &[0, 1, 5]);
    let round = table_of(6, &[&[0, 1, 3], &[1, 2, 4], &[0, 2, 5]]);
    eight("three sums", &round, &[0, 0, 0, 1, 2, 4], &[0, 1, 2]);
    let one_lost = table_of(4, &[&[0, 1], &[2], &[2, 3]]);
    eight("the last place open", &one_lost, &[1, 2, 0, 0], &[3]);
    for (s, byte) in [(2, 1), (64, 63), (65, 64), (1024, 1023)] {
        let checks = [vec![0, 1, 2], vec![0, 1, 3], vec![4, 5]];
        let table = model::table_words(6, s, &checks);
        let block = zeros_but(6, s, &[(2, byte, 0x80)]);
        eight(&format!("size {s}, byte {byte}"), &table, &block, &[0, 1]);
    }
}

/// Table A with packets of many sizes.
fn size_cases(run: &mut Run) {
    for s in [1, 2, 7, 8, 9, 63, 64, 65, 127, 128, 129, 1023, 1024] {
        let (table, block, wrong) = a_off(s, &[(3, s - 1, 0x80)]);
        let mut size = |lost: &[usize], place: usize, one: Told, counts| {
            let result = told(&table, &block, lost, place, one, counts, 0xffff);
            run.fixed(&format!("why, size {s}, lost {lost:?}, place {place}"), result);
        };
        size(&[2, 4, 6], 2, (RESTORED, &[0, 2]), [3, 0]);
        size(&[2, 4, 6], 6, (RESTORED, &[0, 1, 2]), [3, 0]);
        size(&[2, 4, 6], 0, HERE, [3, 0]);
        size(&[2, 4, 5], 4, (LOST, &[2, 4, 5]), [0, 3]);
        size(&[2, 4, 5], 6, HERE, [0, 3]);
        let result = contradict(&table, &wrong, &[2, 4]);
        run.fixed(&format!("why, size {s}, wrong"), result);
    }
}

/// Tables at the limits, with packets of one codeword: each kind of place.
fn limit_cases(run: &mut Run) {
    for (name, s) in [("regular", 3), ("staircase", 16), ("heavy", 2), ("most words", 1)] {
        let mut rng = Rng::new(21, s as u64);
        let checks = match name {
            "most words" => (0..512).map(|_| rng.some_below(1024, 12)).collect(),
            _ => limit_checks(&mut rng, name),
        };
        let t = Table { n: 1024, s, checks };
        let sent = gen::codeword(&mut rng, &t);
        for share in [8, 46, 50, 54, 100] {
            if bare() && (share != 50 || name == "most words") {
                continue;
            }
            let map = map_of(t.n, &rng.some_below(t.n, t.n * share / 100));
            let mut block = sent.clone();
            age(&mut rng, &mut block, s, &map);
            let result = one_of_each_kind(&mut rng, &t, &block, &map);
            run.fixed(&format!("why, {name}, {share} of 100 lost"), result);
        }
    }
}

/// The lowest and the highest place of each kind.
fn one_of_each_kind(rng: &mut Rng, t: &Table, block: &[u8], map: &[u8]) -> Result<(), String> {
    let (_, _, after) = ask(rng, t, block, map, 0)?;
    for mark in 0..3 {
        let low = after.map.iter().position(|m| *m == mark);
        let high = after.map.iter().rposition(|m| *m == mark);
        for place in low.into_iter().chain(high) {
            let (answer, list, after) = ask(rng, t, block, map, place)?;
            same("packets of one codeword", &answer.refusal, &0)?;
            asked_again(rng, t, place, &answer, &list, &after)?;
        }
    }
    Ok(())
}

/// Every loss pattern of a table, every place, by all subsets.
fn every_pattern(table: &[u16], block: &[u8]) -> Result<(), String> {
    let mut rng = Rng::new(21, 0);
    let t = model::look_over(table).unwrap();
    // Bare buffers: a few.
    let step = if bare() { 37 } else { 1 };
    for pattern in (0usize..1 << t.n).step_by(step) {
        let map: Vec<u8> = (0..t.n).map(|p| (pattern >> p & 1) as u8).collect();
        let mut block = block.to_vec();
        age(&mut rng, &mut block, t.s, &map);
        as_subsets_say(&mut rng, &t, &block, &map)?;
    }
    Ok(())
}

fn pattern_cases(run: &mut Run) {
    let mut tables = worked_tables();
    let copies: [&[usize]; 6] = [&[0, 1], &[1, 2], &[2, 3], &[3, 4], &[0, 4], &[0, 2]];
    tables.push((table_of(5, &copies), vec![0x5a; 5]));
    tables.push((table_of(3, &[&[1, 2], &[2]]), vec![7, 0, 0]));
    let one_less: [&[usize]; 6] = [&[4, 5], &[3, 5], &[2, 4], &[1, 3], &[0, 1, 2], &[0, 5]];
    tables.push((table_of(6, &one_less), vec![0; 6]));
    for (i, (table, block)) in tables.iter().enumerate() {
        run.fixed(&format!("why, every pattern of table {i}"), every_pattern(table, block));
    }
    for (i, p) in [(0, 3), (2, 1), (3, 0), (7, 2)] {
        let (table, block) = &tables[i];
        let mut wrong = block.clone();
        wrong[p] ^= 0x10;
        let name = format!("why, every pattern of table {i}, place {p} wrong");
        run.fixed(&name, every_pattern(table, &wrong));
    }
}

/// A block of ones, a map of one mark, and these lengths of block, map, work and reason.
fn refused(
    table: &[u16],
    lengths: [usize; 4],
    mark: u8,
    place: usize,
    refusal: u32,
) -> Result<(), String> {
    let [block, map, work, reason] = lengths;
    let mut rng = Rng::new(21, 0);
    let before = Buffers {
        block: vec![1; block],
        map: vec![mark; map],
        work: vec![7; work],
        reason: vec![0xffff; reason],
    };
    let (answer, after) = why(&mut rng, table, &before, place)?;
    same("answer", &answer, &Reason::refused(refusal))?;
    equal("reason", &after.reason, &before.reason)
}

/// Places that aren't among three.
const BEYOND: [usize; 14] = [
    3,
    4,
    5,
    6,
    1023,
    1024,
    1 << 16,
    (1 << 16) + 1,
    1 << 32,
    (1 << 32) + 1,
    1 << 63,
    (1 << 63) + 2,
    usize::MAX - 1,
    usize::MAX,
];

/// Each cause, alone and with the next ones. Place 0 and place 1 contradict.
fn refusal_cases(run: &mut Run) {
    let good: &[u16] = &[2, 3, 2, 2, 1, 1, 2, 0, 1];
    let right = [6, 3, model::WORK_BUFFER, model::REASON_BUFFER];
    let mut order = |name: &str, table: &[u16], lengths: [usize; 4], refusal: u32| {
        for (mark, place) in [0, 1, 2].into_iter().flat_map(|m| [(m, 0), (m, 3), (m, usize::MAX)]) {
            let result = refused(table, lengths, mark, place, refusal);
            run.fixed(&format!("why, {name}, marks {mark}, place {place}"), result);
        }
    };
    let causes: [(&str, &[u16], u32); 10] = [
        ("empty table", &[], 1),
        ("1", &good[..4], 1),
        ("2", &[3, 3, 2, 2, 1, 1, 2, 0, 1], 2),
        ("3", &good[..8], 3),
        ("4", &[2, 3, 2, 2, 1, 1, 2, 0, 3], 4),
        ("4, a place twice", &[2, 3, 2, 1, 2, 2, 1, 1], 4),
        ("4, falling", &[2, 3, 2, 1, 2, 2, 1, 0], 4),
        ("1 before 2", &[3, 0, 0, 600], 1),
        ("2 before 3", &[2, 0, 1, 1, 65], 2),
        ("3 before 4", &[2, 3, 2, 1, 3, 2, 0, 9], 3),
    ];
    for (name, table, refusal) in causes {
        order(name, table, right, refusal);
        order(&format!("{name} and before 5"), table, [5, 4, 8191, 1025], refusal);
        order(&format!("{name} and before 5, all empty"), table, [0; 4], refusal);
    }
    for buffer in 0..4 {
        let exact = right[buffer];
        for length in [0, 1, 2, exact / 2, exact - 1, exact + 1, 2 * exact] {
            let mut lengths = right;
            lengths[buffer] = length;
            order(&format!("5, buffer {buffer} of {length}"), good, lengths, 5);
        }
    }
    for lengths in [
        [0; 4],
        [3, 3, 8192, 1024],
        [6, 6, 8192, 1024],
        [6, 3, 1024, 8192],
        [6, 3, 8191, 1025],
        [6, 3, 8193, 1023],
        [6, 3, 8192, 3],
        [6, 3, 8192, 6],
        [6, 3, 8192, 512],
        [5, 3, 8192, 1023],
        [6, 2, 8192, 1025],
        [6, 3, 2048, 1024],
        [6, 3, 8192, 4096],
    ] {
        order(&format!("5, lengths {lengths:?}"), good, lengths, 5);
    }

    for (byte, at) in [2, 3, 4, 128, 255].into_iter().flat_map(|b| [(b, 0), (b, 1), (b, 2)]) {
        for (others, place) in [(0, 0), (0, 2), (1, at), (0, 3), (1, 3), (0, 1 << 32)] {
            let result = seven(good, byte, at, others, place);
            run.fixed(&format!("why, 7, {byte} at {at} among {others}, place {place}"), result);
        }
    }
    for place in BEYOND {
        for mark in [0, 1] {
            let result = refused(good, right, mark, place, 14);
            run.fixed(&format!("why, 14, place {place}, marks {mark}"), result);
        }
    }
    for place in 0..3 {
        run.fixed(&format!("why, 8, place {place}"), refused(good, right, 0, place, 8));
    }
    // A single place; as many as there can be.
    let single: &[u16] = &[2, 1, 1, 1, 1, 1, 0];
    let lengths = [1, 1, model::WORK_BUFFER, model::REASON_BUFFER];
    run.fixed("why, 14, one place", refused(single, lengths, 1, 1, 14));
    run.fixed("why, 8, one place", refused(single, lengths, 0, 0, 8));
    let wide = model::table_words(1024, 1, &[vec![1023]]);
    let lengths = [1024, 1024, model::WORK_BUFFER, model::REASON_BUFFER];
    run.fixed("why, 14, 1,024 places", refused(&wide, lengths, 0, 1024, 14));
    run.fixed("why, 8, 1,024 places", refused(&wide, lengths, 0, 1023, 8));
    // As many numbers as there are places, or checks, aren't enough.
    for (n, reason) in [(7, 7), (512, 512), (1023, 1023)] {
        let table = model::table_words(n, 1, &[]);
        let lengths = [n, n, model::WORK_BUFFER, reason];
        let result = refused(&table, lengths, 1, 0, 5);
        run.fixed(&format!("why, 5, {n} places, reason of {reason}"), result);
    }
}

/// One byte over 1 among others, so that 8 would follow, or nothing else.
fn seven(table: &[u16], byte: u8, at: usize, others: u8, place: usize) -> Result<(), String> {
    let mut rng = Rng::new(21, 0);
    let mut before = lent(&mut rng, &[1; 6], &[others; 3]);
    before.map[at] = byte;
    let (answer, _) = why(&mut rng, table, &before, place)?;
    same("answer", &answer, &Reason::refused(7))
}

pub fn fixed_cases(run: &mut Run) {
    table_a_cases(run);
    small_cases(run);
    far_cases(run);
    chain_cases(run);
    contradiction_cases(run);
    size_cases(run);
    limit_cases(run);
    pattern_cases(run);
    refusal_cases(run);
}
