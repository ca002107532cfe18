//! Repair, merging, a longer table, full repair, the reason for a missing packet,
//! verification, encoding, the staircase maker and alist texts in plain Rust, for
//! comparison.

use crate::model::{Encoded, FullyRepaired, Made, Merged, Reason, Repaired, Verified};
use crate::model::{MAX_CHECKS, MAX_GAP, MAX_ONES, MAX_PLACES, MAX_SIZE, MAX_STEPS, MAX_WEIGHT};
use crate::model::{LOST, REASON_BUFFER, RECEIVED, RESTORED, WORK_BUFFER};
use std::cmp::Reverse;
use std::collections::BinaryHeap;

/// A table after the look-over: where each check's places start.
pub struct Checks<'a> {
    pub n: usize,
    pub s: usize,
    pub m: usize,
    starts: [u16; MAX_CHECKS + 1],
    places: &'a [u16],
}

impl<'a> Checks<'a> {
    #[inline]
    pub fn check(&self, c: usize) -> &'a [u16] {
        &self.places[self.starts[c] as usize..self.starts[c + 1] as usize]
    }
}

pub fn look_over(t: &[u16]) -> Result<Checks<'_>, u32> {
    if t.len() < 5 {
        return Err(1);
    }
    let (n, s, m) = (t[1] as usize, t[2] as usize, t[3] as usize);
    if t[0] != 2 || n == 0 || n > MAX_PLACES || s == 0 || s > MAX_SIZE || m > MAX_CHECKS {
        return Err(2);
    }
    if t.len() < 5 + m {
        return Err(3);
    }
    let mut starts = [0; MAX_CHECKS + 1];
    let mut sum = 0;
    for (w, end) in t[4..4 + m].iter().zip(&mut starts[1..]) {
        if *w as usize > MAX_WEIGHT {
            return Err(3);
        }
        sum += *w;
        *end = sum;
    }
    let ones = sum as usize;
    if t[4 + m] != sum || ones > MAX_ONES || t.len() != 5 + m + ones {
        return Err(3);
    }
    let t = Checks { n, s, m, starts, places: &t[5 + m..] };
    for c in 0..m {
        let mut least = 0;
        for p in t.check(c) {
            if *p < least || *p as usize >= n {
                return Err(4);
            }
            least = *p + 1;
        }
    }
    Ok(t)
}

/// Adds a packet into another.
#[inline]
pub fn add(to: &mut [u8], from: &[u8]) {
    for (a, b) in to.iter_mut().zip(from) {
        *a ^= *b;
    }
}

/// Adds the packet at one slot into that at another.
#[inline]
pub fn add_slots(slots: &mut [u8], s: usize, to: usize, from: usize) {
    if to < from {
        let (low, high) = slots.split_at_mut(from * s);
        add(&mut low[to * s..(to + 1) * s], &high[..s]);
    } else {
        let (low, high) = slots.split_at_mut(to * s);
        add(&mut high[..s], &low[from * s..(from + 1) * s]);
    }
}

/// The lowest byte of a check's sum that isn't zero.
#[inline]
fn nonzero_in_sum(check: &[u16], block: &[u8], sum: &mut [u8]) -> Option<usize> {
    let s = sum.len();
    let packet = |p: u16| &block[p as usize * s..][..s];
    let (first, others) = check.split_first()?;
    sum.copy_from_slice(packet(*first));
    for p in others {
        add(sum, packet(*p));
    }
    if sum.iter().fold(0, |any, b| any | *b) == 0 {
        return None;
    }
    sum.iter().position(|b| *b != 0)
}

// ----------------------------------------------------------- verification

pub fn verify(table: &[u16], block: &[u8]) -> Verified {
    let t = match look_over(table) {
        Ok(t) => t,
        Err(cause) => return Verified::refused(cause),
    };
    if block.len() != t.n * t.s {
        return Verified::refused(5);
    }
    let mut sum = [0; MAX_SIZE];
    for c in 0..t.m {
        if let Some(byte) = nonzero_in_sum(t.check(c), block, &mut sum[..t.s]) {
            return Verified { refusal: 0, codeword: 0, check: c as u32, byte: byte as u32 };
        }
    }
    Verified { refusal: 0, codeword: 1, check: 0, byte: 0 }
}

// ----------------------------------------------------------------- repair

/// What peeling gives: map bytes as they become, lost places left in each check,
/// and the checks that restored a place, each with its place, in order.
struct Peeled {
    state: Vec<u8>,
    unknown: Vec<u8>,
    used: Vec<bool>,
    turns: Vec<(u16, u16)>,
    additions: u32,
}

impl Peeled {
    /// The checks without a lost place. One that restored a place sums to zero.
    fn judged(&self) -> impl Iterator<Item = usize> + '_ {
        (0..self.used.len()).filter(|c| self.unknown[*c] == 0 && !self.used[*c])
    }
    fn restored(&self) -> u32 {
        self.turns.len() as u32
    }
}

fn zero_lost(block: &mut [u8], s: usize, map: &[u8]) {
    for (packet, _) in block.chunks_exact_mut(s).zip(map).filter(|(_, lost)| **lost == 1) {
        packet.fill(0);
    }
}

/// Peeling by the map alone, in which 1 is lost and all else known; what is to be
/// done with a check's packets at its turn is given.
#[inline]
fn peel_by(t: &Checks, map: &[u8], mut restore: impl FnMut(&[u16], usize)) -> Peeled {
    // For each check the count of lost places; for each place its checks.
    let mut first = vec![0u16; t.n + 1];
    for p in t.places {
        first[*p as usize + 1] += 1;
    }
    for p in 0..t.n {
        first[p + 1] += first[p];
    }
    let mut fill = first.clone();
    let mut of_place = vec![0u16; t.places.len()];
    let mut unknown = vec![0u8; t.m];
    for c in 0..t.m {
        for p in t.check(c) {
            let at = &mut fill[*p as usize];
            of_place[*at as usize] = c as u16;
            *at += 1;
            unknown[c] += (map[*p as usize] == 1) as u8;
        }
    }

    let mut state = map.to_vec();
    // Checks with one lost place, lowest first.
    let mut ready: BinaryHeap<Reverse<u16>> =
        (0..t.m).filter(|c| unknown[*c] == 1).map(|c| Reverse(c as u16)).collect();
    let mut used = vec![false; t.m];
    let mut turns = Vec::with_capacity(t.m);
    let mut additions = 0;
    while let Some(Reverse(c)) = ready.pop() {
        let c = c as usize;
        if unknown[c] != 1 {
            continue;
        }
        let check = t.check(c);
        let place = *check.iter().find(|p| state[**p as usize] == 1).unwrap() as usize;
        restore(check, place);
        additions += check.len() as u32 - 1;
        state[place] = 2;
        used[c] = true;
        turns.push((c as u16, place as u16));
        for c in &of_place[first[place] as usize..first[place + 1] as usize] {
            unknown[*c as usize] -= 1;
            if unknown[*c as usize] == 1 {
                ready.push(Reverse(*c));
            }
        }
    }
    Peeled { state, unknown, used, turns, additions }
}

fn peel(t: &Checks, block: &mut [u8], map: &[u8]) -> Peeled {
    let s = t.s;
    zero_lost(block, s, map);
    peel_by(t, map, |check, place| {
        for p in check.iter().filter(|p| **p as usize != place) {
            add_slots(block, s, place, *p as usize);
        }
    })
}

/// The lowest check and byte that fail among the checks without a lost place.
fn failing(t: &Checks, block: &[u8], peeled: &Peeled) -> Option<(usize, usize)> {
    let mut sum = [0; MAX_SIZE];
    let sum = &mut sum[..t.s];
    peeled.judged().find_map(|c| Some((c, nonzero_in_sum(t.check(c), block, sum)?)))
}

/// The one received place that, lost too, comes back without a contradiction.
///
/// Once it has come back all other places are as before but for what they have
/// of its packet. So the checks that fail have one and the same sum, and they
/// are the checks that have the place in their sum, by itself or through
/// restored ones. Sums are followed for 64 received places at a time, a bit each.
fn bad_place(t: &Checks, block: &[u8], map: &[u8], peeled: &Peeled) -> Option<usize> {
    let (mut sum, mut wrong) = ([0; MAX_SIZE], [0; MAX_SIZE]);
    let (sum, wrong) = (&mut sum[..t.s], &mut wrong[..t.s]);
    let (mut failing, mut right): (Vec<usize>, Vec<usize>) = (Vec::new(), Vec::new());
    for c in peeled.judged() {
        if nonzero_in_sum(t.check(c), block, sum).is_none() {
            right.push(c);
        } else if failing.is_empty() {
            wrong.copy_from_slice(sum);
            failing.push(c);
        } else if *sum == *wrong {
            failing.push(c);
        } else {
            return None;
        }
    }
    let mut bad = None;
    let mut through = [0u64; MAX_PLACES];
    for from in (0..t.n).step_by(64) {
        let some = from..t.n.min(from + 64);
        through.fill(0);
        let mut left = 0;
        for p in some.filter(|p| map[*p] == 0) {
            through[p] = 1 << (p - from);
            left |= through[p];
        }
        let sum_of = |check: &[u16], through: &[u64; MAX_PLACES]| {
            check.iter().fold(0, |sum, p| sum ^ through[*p as usize])
        };
        for (c, place) in &peeled.turns {
            // The place itself has nothing yet.
            through[*place as usize] = sum_of(t.check(*c as usize), &through);
        }
        for c in &failing {
            left &= sum_of(t.check(*c), &through);
        }
        for c in &right {
            if left == 0 {
                break;
            }
            left &= !sum_of(t.check(*c), &through);
        }
        while left != 0 {
            let p = from + left.trailing_zeros() as usize;
            left &= left - 1;
            let mut lost_too = map.to_vec();
            lost_too[p] = 1;
            if peel_by(t, &lost_too, |_, _| {}).state[p] == 2 && bad.replace(p).is_some() {
                return None;
            }
        }
    }
    bad
}

/// The answer where nothing contradicts.
fn accepted(peeled: &Peeled, map: &mut [u8]) -> Repaired {
    map.copy_from_slice(&peeled.state);
    let lost = map.iter().filter(|b| **b == 1).count() as u32;
    let (restored, additions) = (peeled.restored(), peeled.additions);
    Repaired { refusal: 0, restored, lost, additions, check: 0, byte: 0 }
}

/// The answer where the packets contradict, at this check and byte.
fn contradicted(t: &Checks, block: &mut [u8], map: &[u8], at: (usize, usize)) -> Repaired {
    zero_lost(block, t.s, map);
    Repaired { check: at.0 as u32, byte: at.1 as u32, ..Repaired::refused(8) }
}

pub fn repair(table: &[u16], block: &mut [u8], map: &mut [u8]) -> Repaired {
    let t = match look_over(table) {
        Ok(t) => t,
        Err(cause) => return Repaired::refused(cause),
    };
    if block.len() != t.n * t.s || map.len() != t.n {
        return Repaired::refused(5);
    }
    if map.iter().any(|b| *b > 1) {
        return Repaired::refused(7);
    }
    let mut peeled = peel(&t, block, map);
    if let Some(at) = failing(&t, block, &peeled) {
        let Some(bad) = bad_place(&t, block, map, &peeled) else {
            return contradicted(&t, block, map, at);
        };
        map[bad] = 1;
        peeled = peel(&t, block, map);
        peeled.state[bad] = 3;
    }
    accepted(&peeled, map)
}

// ----------------------------------------------------------------- merging

/// A block that was heard, and its map.
pub type Heard<'a> = (&'a [u8], &'a [u8]);

/// Agreed and single packets go into the block; the map says that all others are
/// lost. How many places are agreed, single, silent and in clash.
pub fn put_together(s: usize, heard: [Heard; 2], block: &mut [u8], map: &mut [u8]) -> [u32; 4] {
    let mut counts = [0; 4];
    for (p, (to, lost)) in block.chunks_exact_mut(s).zip(map).enumerate() {
        let packets = heard.map(|(block, map)| (map[p] == 0).then(|| &block[p * s..][..s]));
        let (kind, packet) = match packets {
            [Some(a), Some(b)] if a == b => (0, Some(a)),
            [Some(_), Some(_)] => (3, None),
            [None, None] => (2, None),
            [a, b] => (1, a.or(b)),
        };
        counts[kind] += 1;
        *lost = packet.is_none() as u8;
        if let Some(packet) = packet {
            to.copy_from_slice(packet);
        }
    }
    counts
}

/// Merging, then repair in which no place is blamed.
pub fn merge(table: &[u16], heard: [Heard; 2], block: &mut [u8], map: &mut [u8]) -> Merged {
    let t = match look_over(table) {
        Ok(t) => t,
        Err(cause) => return Merged::refused(cause),
    };
    let fit = |block: &[u8], map: &[u8]| block.len() == t.n * t.s && map.len() == t.n;
    if !fit(block, map) || !heard.iter().all(|(block, map)| fit(block, map)) {
        return Merged::refused(5);
    }
    if heard.iter().any(|(_, map)| map.iter().any(|b| *b > 1)) {
        return Merged::refused(7);
    }
    let [agreed, single, silent, clash] = put_together(t.s, heard, block, map);
    let peeled = peel(&t, block, map);
    if let Some(at) = failing(&t, block, &peeled) {
        let Repaired { refusal, check, byte, .. } = contradicted(&t, block, map, at);
        return Merged { check, byte, ..Merged::refused(refusal) };
    }
    let Repaired { refusal, restored, lost, additions, check, byte } = accepted(&peeled, map);
    Merged { refusal, agreed, single, silent, clash, restored, lost, additions, check, byte }
}

// ---------------------------------------------------------- a longer table

/// Whether the checks of the one table are the first of the other.
fn lengthens(old: &Checks, new: &Checks) -> bool {
    let (starts, ones) = (0..=old.m, old.places.len());
    old.s == new.s
        && old.n <= new.n
        && old.m <= new.m
        && old.starts[starts.clone()] == new.starts[starts]
        && *old.places == new.places[..ones]
}

/// Places from the old n on are lost. Then arrivals at lost places go into the
/// block, and count as received.
pub fn enter(s: usize, old_n: usize, came: Heard, block: &mut [u8], map: &mut [u8]) {
    let (arrivals, arrivals_map) = came;
    map[old_n..].fill(1);
    let came = arrivals.chunks_exact(s).zip(arrivals_map);
    for ((to, mark), (packet, lost)) in block.chunks_exact_mut(s).zip(map).zip(came) {
        if (*mark, *lost) == (1, 0) {
            to.copy_from_slice(packet);
            *mark = 0;
        }
    }
}

/// Arrivals entered, then repair by the longer table, in which no place is blamed.
pub fn lengthen(
    old: &[u16],
    new: &[u16],
    block: &mut [u8],
    map: &mut [u8],
    came: Heard,
) -> Repaired {
    let (old, t) = match look_over(old).and_then(|old| Ok((old, look_over(new)?))) {
        Ok(tables) => tables,
        Err(cause) => return Repaired::refused(cause),
    };
    let fit = |block: &[u8], map: &[u8]| block.len() == t.n * t.s && map.len() == t.n;
    if !fit(block, map) || !fit(came.0, came.1) {
        return Repaired::refused(5);
    }
    if !lengthens(&old, &t) {
        return Repaired::refused(15);
    }
    if map[..old.n].iter().any(|b| *b > 2) {
        return Repaired::refused(16);
    }
    if came.1.iter().any(|b| *b > 1) {
        return Repaired::refused(7);
    }
    enter(t.s, old.n, came, block, map);
    let peeled = peel(&t, block, map);
    match failing(&t, block, &peeled) {
        Some(at) => contradicted(&t, block, map, at),
        None => accepted(&peeled, map),
    }
}

// ------------------------------------------------------------- full repair

/// Words of a row.
const WORDS: usize = MAX_PLACES / 64;

/// The highest place of a row, whose words from so many on are zero.
#[inline]
fn highest(row: &[u64], words: &mut usize) -> Option<usize> {
    while *words > 0 {
        let top = row[*words - 1];
        if top != 0 {
            return Some(*words * 64 - 1 - top.leading_zeros() as usize);
        }
        *words -= 1;
    }
    None
}

#[inline]
fn add_words(to: &mut [u64], from: &[u64]) {
    for (a, b) in to.iter_mut().zip(from) {
        *a ^= *b;
    }
}

/// One more than the row that a place leads, 0 for none.
type Leads = [u16; MAX_PLACES];

/// The rows of the checks that have lost places, each led by its highest place,
/// where the sum of its packets lies in the block. None if a row comes out
/// empty and its sum isn't zero.
fn eliminate(t: &Checks, block: &mut [u8], peeled: &Peeled, work: &mut [u64]) -> Option<Leads> {
    let s = t.s;
    let mut leads = [0; MAX_PLACES];
    let mut sum = [0; MAX_SIZE];
    let sum = &mut sum[..s];
    for c in (0..t.m).filter(|c| peeled.unknown[*c] > 0) {
        let mut row = [0u64; WORDS];
        sum.fill(0);
        for p in t.check(c).iter().map(|p| *p as usize) {
            if peeled.state[p] == 1 {
                row[p / 64] |= 1 << (p % 64);
            } else {
                add(sum, &block[p * s..][..s]);
            }
        }
        let mut words = WORDS;
        loop {
            let Some(lead) = highest(&row, &mut words) else {
                if sum.iter().any(|b| *b != 0) {
                    return None;
                }
                break;
            };
            let packet = &mut block[lead * s..][..s];
            if leads[lead] == 0 {
                leads[lead] = c as u16 + 1;
                work[c * WORDS..][..WORDS].copy_from_slice(&row);
                packet.copy_from_slice(sum);
                break;
            }
            let by = (leads[lead] as usize - 1) * WORDS;
            add_words(&mut row[..words], &work[by..][..words]);
            add(sum, packet);
        }
    }
    Some(leads)
}

/// From the highest lead down: the rows of lower leads are added until the row
/// is empty, and its place is restored, or a place is met that leads no row, and
/// it stays lost. Packets are added only where the place is restored.
fn settle(t: &Checks, block: &mut [u8], state: &mut [u8], leads: &Leads, work: &[u64]) -> u32 {
    let mut restored = 0;
    let mut added: Vec<u16> = Vec::with_capacity(t.n);
    for lead in (0..t.n).rev().filter(|p| leads[*p] > 0) {
        let at = |place: usize| (leads[place] as usize - 1) * WORDS;
        let mut row = [0u64; WORDS];
        row.copy_from_slice(&work[at(lead)..][..WORDS]);
        row[lead / 64] ^= 1 << (lead % 64);
        let mut words = lead / 64 + 1;
        added.clear();
        loop {
            let Some(place) = highest(&row, &mut words) else {
                added.iter().for_each(|place| add_slots(block, t.s, lead, *place as usize));
                state[lead] = 2;
                restored += 1;
                break;
            };
            if leads[place] == 0 {
                break;
            }
            add_words(&mut row[..words], &work[at(place)..][..words]);
            added.push(place as u16);
        }
    }
    restored
}

/// Peeling, then elimination over what is still lost.
pub fn full_repair(
    table: &[u16],
    block: &mut [u8],
    map: &mut [u8],
    work: &mut [u64],
) -> FullyRepaired {
    let t = match look_over(table) {
        Ok(t) => t,
        Err(cause) => return FullyRepaired::refused(cause),
    };
    if block.len() != t.n * t.s || map.len() != t.n || work.len() != WORK_BUFFER {
        return FullyRepaired::refused(5);
    }
    if map.iter().any(|b| *b > 1) {
        return FullyRepaired::refused(7);
    }
    let mut peeled = peel(&t, block, map);
    let leads = match failing(&t, block, &peeled) {
        None => eliminate(&t, block, &peeled, work),
        Some(_) => None,
    };
    let Some(leads) = leads else {
        zero_lost(block, t.s, map);
        work.fill(0);
        return FullyRepaired::refused(8);
    };
    let restored = peeled.restored() + settle(&t, block, &mut peeled.state, &leads, work);
    map.copy_from_slice(&peeled.state);
    zero_lost(block, t.s, map);
    work.fill(0);
    let lost = map.iter().filter(|b| **b == 1).count() as u32;
    FullyRepaired { refusal: 0, restored, lost, check: 0, byte: 0 }
}

// ------------------------------------------------------------ the reason

/// Words with a bit for each check.
const CHECK_WORDS: usize = MAX_CHECKS / 64;

/// Lost places, and the checks whose sum has these and no other lost place.
#[derive(Clone, Copy)]
struct Traced {
    places: [u64; WORDS],
    checks: [u64; CHECK_WORDS],
}

#[inline]
fn flip(words: &mut [u64], i: usize) {
    words[i / 64] ^= 1 << (i % 64);
}

/// The bits that are set, ascending.
fn ones(words: &[u64]) -> impl Iterator<Item = usize> + '_ {
    (0..words.len() * 64).filter(|i| words[i / 64] >> (i % 64) & 1 == 1)
}

/// The lowest place of a row, whose words before this one are zero.
#[inline]
fn lowest(row: &[u64], word: &mut usize) -> Option<usize> {
    while *word < row.len() {
        if row[*word] != 0 {
            return Some(*word * 64 + row[*word].trailing_zeros() as usize);
        }
        *word += 1;
    }
    None
}

/// Rows of the used checks, each led by its lowest place.
struct TracedRows {
    rows: Vec<Traced>,
    leads: Leads,
}

impl TracedRows {
    /// A check is used if something is left of its lost places when the rows of
    /// lower ones are added.
    fn new(t: &Checks, lost: &[u8]) -> Self {
        let mut rows = TracedRows { rows: Vec::with_capacity(t.m), leads: [0; MAX_PLACES] };
        for c in 0..t.m {
            let mut row = Traced { places: [0; WORDS], checks: [0; CHECK_WORDS] };
            flip(&mut row.checks, c);
            for p in t.check(c).iter().filter(|p| lost[**p as usize] == 1) {
                flip(&mut row.places, *p as usize);
            }
            if let Some(lead) = rows.reduce(&mut row) {
                rows.rows.push(row);
                rows.leads[lead] = rows.rows.len() as u16;
            }
        }
        rows
    }
    /// The row that a place leads.
    #[inline]
    fn led_by(&self, place: usize) -> Option<&Traced> {
        match self.leads[place] {
            0 => None,
            one_more => Some(&self.rows[one_more as usize - 1]),
        }
    }
    /// The lowest place left of a row, to which those that its lowest places lead
    /// are added as long as they lead any.
    fn reduce(&self, row: &mut Traced) -> Option<usize> {
        let mut word = 0;
        loop {
            let lead = lowest(&row.places, &mut word)?;
            let Some(by) = self.led_by(lead) else { return Some(lead) };
            add_words(&mut row.places[word..], &by.places[word..]);
            add_words(&mut row.checks, &by.checks);
        }
    }
    /// A place that leads no row, and below it the leads that make each row even.
    fn even_set(&self, highest: usize) -> [u64; WORDS] {
        let mut set = [0; WORDS];
        flip(&mut set, highest);
        for lead in (0..highest).rev() {
            let Some(row) = self.led_by(lead) else { continue };
            let both = row.places.iter().zip(&set).fold(0, |both, (a, b)| both ^ (a & b));
            if both.count_ones() % 2 == 1 {
                flip(&mut set, lead);
            }
        }
        set
    }
}

/// Whether a lost place is restored by some checks, which are listed, or stays
/// lost with some places, which are listed.
fn explain(t: &Checks, lost: &[u8], place: usize) -> (u32, Vec<usize>) {
    let rows = TracedRows::new(t, lost);
    let mut row = Traced { places: [0; WORDS], checks: [0; CHECK_WORDS] };
    flip(&mut row.places, place);
    match rows.reduce(&mut row) {
        None => (RESTORED, ones(&row.checks).collect()),
        Some(left) => (LOST, ones(&rows.even_set(left)).collect()),
    }
}

/// Full repair, then elimination from the map as it was lent, in which each row
/// has a bit for each check in it.
pub fn why(
    table: &[u16],
    block: &mut [u8],
    map: &mut [u8],
    work: &mut [u64],
    place: usize,
    reason: &mut [u16],
) -> Reason {
    let t = match look_over(table) {
        Ok(t) => t,
        Err(cause) => return Reason::refused(cause),
    };
    let lengths = [block.len(), map.len(), work.len(), reason.len()];
    if lengths != [t.n * t.s, t.n, WORK_BUFFER, REASON_BUFFER] {
        return Reason::refused(5);
    }
    if map.iter().any(|b| *b > 1) {
        return Reason::refused(7);
    }
    if place >= t.n {
        return Reason::refused(14);
    }
    let lent = map.to_vec();
    let FullyRepaired { refusal, restored, lost, check, byte } =
        full_repair(table, block, map, work);
    if refusal != 0 {
        return Reason::refused(refusal);
    }
    let (kind, list) = match lent[place] {
        0 => (RECEIVED, Vec::new()),
        _ => explain(&t, &lent, place),
    };
    reason.fill(0);
    for (number, listed) in reason.iter_mut().zip(&list) {
        *number = *listed as u16;
    }
    Reason { refusal, kind, length: list.len() as u32, restored, lost, check, byte }
}

// --------------------------------------------------------------- encoding

/// Kind, to and from of a step.
#[inline]
pub fn step(word: u32) -> (u32, usize, usize) {
    (word >> 24, (word >> 12 & 4095) as usize, (word & 4095) as usize)
}

/// n, g, M of a well-formed plan.
fn plan_counts(plan: &[u32]) -> Option<(usize, usize, usize)> {
    if plan.len() < 6 || plan[0] != 3 {
        return None;
    }
    let word = |i: usize| plan[i] as usize;
    let (n, g, kept) = (word(1), word(2), word(3));
    if n == 0 || n > MAX_PLACES {
        return None;
    }
    if kept > n.min(MAX_CHECKS) || g > kept.min(MAX_GAP) {
        return None;
    }
    let info = n - kept;
    if word(4) != info || plan.len() < 6 + info {
        return None;
    }
    let count = word(5 + info);
    if count > MAX_STEPS || plan.len() != 6 + info + count {
        return None;
    }
    let mut is_info = [false; MAX_PLACES + MAX_GAP];
    let mut least = 0;
    for p in &plan[5..5 + info] {
        let p = *p as usize;
        if p < least || p >= n {
            return None;
        }
        is_info[p] = true;
        least = p + 1;
    }
    for word in &plan[6 + info..] {
        let (kind, to, from) = step(*word);
        if kind > 1 || to >= n + g || from >= n + g || is_info[to] {
            return None;
        }
        if (kind == 0 && from != 0) || (kind == 1 && from == to) {
            return None;
        }
    }
    Some((n, g, kept))
}

pub fn encode(
    plan: &[u32],
    s: usize,
    information: &[u8],
    block: &mut [u8],
    scratch: &mut [u8],
    limit: usize,
) -> Encoded {
    if s == 0 || s > MAX_SIZE {
        return Encoded::refused(2);
    }
    let Some((n, g, kept)) = plan_counts(plan) else { return Encoded::refused(9) };
    let info = n - kept;
    if information.len() != info * s || block.len() != n * s || scratch.len() != g * s {
        return Encoded::refused(5);
    }
    block.fill(0);
    scratch.fill(0);
    for (p, packet) in plan[5..5 + info].iter().zip(information.chunks_exact(s)) {
        block[*p as usize * s..][..s].copy_from_slice(packet);
    }
    let mut additions = 0;
    for word in plan[6 + info..].iter().take(limit) {
        let (kind, to, from) = step(*word);
        if kind == 0 {
            if to < n {
                block[to * s..][..s].fill(0);
            } else {
                scratch[(to - n) * s..][..s].fill(0);
            }
            continue;
        }
        additions += 1;
        match (to < n, from < n) {
            (true, true) => add_slots(block, s, to, from),
            (false, false) => add_slots(scratch, s, to - n, from - n),
            (true, false) => add(&mut block[to * s..][..s], &scratch[(from - n) * s..][..s]),
            (false, true) => add(&mut scratch[(to - n) * s..][..s], &block[from * s..][..s]),
        }
    }
    Encoded { refusal: 0, additions }
}

// -------------------------------------------------------------- staircases

/// Park and Miller's generator with the draws that are left.
struct Draws {
    raw: u64,
    left: u32,
}

impl Draws {
    #[inline]
    fn below(&mut self, max: usize) -> Option<usize> {
        self.left = self.left.checked_sub(1)?;
        self.raw = self.raw * 16_807 % 0x7fff_ffff;
        Some((max as u64 * self.raw / 0x7fff_ffff) as usize)
    }
}

/// RFC 5170's fill: for each check its source places, ascending. None if it
/// needs more than 65,536 draws.
fn source_rows(k: usize, m: usize, ones: usize, seed: usize) -> Option<Vec<Vec<u16>>> {
    let mut draws = Draws { raw: seed as u64, left: 65_536 };
    let mut rows: Vec<Vec<u16>> = vec![Vec::with_capacity(ones * k / m + 4); m];
    let mut choices: Vec<u16> = (0..ones * k).map(|h| (h % m) as u16).collect();
    let mut used = 0;
    // columns ascend, so that a row's one in column j is its last
    for j in 0..k as u16 {
        for _ in 0..ones {
            if choices[used..].iter().any(|r| rows[*r as usize].last() != Some(&j)) {
                let (at, row) = loop {
                    let at = used + draws.below(choices.len() - used)?;
                    let row = &mut rows[choices[at] as usize];
                    if row.last() != Some(&j) {
                        break (at, row);
                    }
                };
                row.push(j);
                choices[at] = choices[used];
                used += 1;
            } else {
                let row = loop {
                    let row = &mut rows[draws.below(m)?];
                    if row.last() != Some(&j) {
                        break row;
                    }
                };
                row.push(j);
            }
        }
    }
    for row in rows.iter_mut().filter(|row| row.len() < 2) {
        while row.len() < 2 {
            let j = draws.below(k)? as u16;
            if !row.contains(&j) {
                row.push(j);
            }
        }
        row.sort_unstable();
    }
    Some(rows)
}

pub fn staircase(
    sources: usize,
    packets: usize,
    ones: usize,
    seed: usize,
    size: usize,
    table: &mut [u16],
) -> Made {
    let m = packets.saturating_sub(sources);
    let seed_fits = seed >= 1 && seed <= 0x7fff_fffe;
    if sources == 0 || m == 0 || ones < 3 || ones > m.min(10) || !seed_fits {
        return Made::refused(11);
    }
    if packets > MAX_PLACES || size == 0 || size > MAX_SIZE || m > MAX_CHECKS {
        return Made::refused(2);
    }
    if table.len() != 6_661 {
        return Made::refused(5);
    }
    let Some(mut rows) = source_rows(sources, m, ones, seed) else { return Made::refused(11) };
    let mut total = 0;
    for (i, row) in rows.iter_mut().enumerate() {
        if i > 0 {
            row.push((sources + i - 1) as u16);
        }
        row.push((sources + i) as u16);
        total += row.len();
    }
    if total > MAX_ONES || rows.iter().any(|row| row.len() > MAX_WEIGHT) {
        return Made::refused(3);
    }
    table[..4].copy_from_slice(&[2, packets as u16, size as u16, m as u16]);
    table[4 + m] = total as u16;
    let mut next = 5 + m;
    for (i, row) in rows.iter().enumerate() {
        table[4 + i] = row.len() as u16;
        table[next..next + row.len()].copy_from_slice(row);
        next += row.len();
    }
    Made { refusal: 0, length: next as u32 }
}

// ------------------------------------------------------------ alist texts

/// The numbers of a text; none if something else stands in it.
fn numbers(text: &[u8]) -> Option<Vec<u32>> {
    let mut numbers = Vec::with_capacity(text.len() / 3);
    let (mut value, mut digits) = (0, 0);
    for byte in text {
        match byte {
            b'0'..=b'9' if digits < 6 => {
                value = 10 * value + (byte - b'0') as u32;
                digits += 1;
            }
            b' ' | b'\n' | b'\r' => {
                if digits > 0 {
                    numbers.push(value);
                }
                (value, digits) = (0, 0);
            }
            _ => return None,
        }
    }
    if digits > 0 {
        numbers.push(value);
    }
    Some(numbers)
}

/// Sorts the entries of each list. None if one is outside 1 to most or stands
/// twice, if there is other padding than 0, or for a wrong greatest weight.
fn sort_lists(lists: &mut [u32], weights: &[u32], greatest: usize, most: u32) -> Option<()> {
    if weights.iter().copied().max().unwrap_or(0) as usize != greatest {
        return None;
    }
    for (list, weight) in lists.chunks_mut(greatest.max(1)).zip(weights) {
        let (entries, padding) = list.split_at_mut(*weight as usize);
        entries.sort_unstable();
        let ascending = entries.windows(2).all(|pair| pair[0] < pair[1]);
        let in_range = entries.first() != Some(&0) && entries.last() <= Some(&most);
        if !ascending || !in_range || padding.iter().any(|number| *number != 0) {
            return None;
        }
    }
    Some(())
}

/// Whether sorted lists of columns are those that the rows make.
fn agree(columns: &[u32], weights: &[u32], a: usize, rows: &[u32], b: usize) -> bool {
    let mut met = vec![0; weights.len()];
    for (row, list) in (1..).zip(rows.chunks(b.max(1))) {
        for column in list.iter().take_while(|column| **column > 0).map(|c| *c as usize - 1) {
            let at = met[column];
            if at == weights[column] || columns[column * a + at as usize] != row {
                return false;
            }
            met[column] += 1;
        }
    }
    met == weights
}

pub fn alist_read(text: &[u8], size: usize, table: &mut [u16]) -> Made {
    let Some(mut numbers) = numbers(text) else { return Made::refused(12) };
    if numbers.len() < 4 {
        return Made::refused(12);
    }
    let (sizes, rest) = numbers.split_at_mut(4);
    let [n, m, a, b] = [0, 1, 2, 3].map(|i| sizes[i] as usize);
    if rest.len() != n + m + n * a + m * b {
        return Made::refused(12);
    }
    let (weights, lists) = rest.split_at_mut(n + m);
    let (column_weights, row_weights) = weights.split_at(n);
    let (columns, rows) = lists.split_at_mut(n * a);
    if sort_lists(columns, column_weights, a, m as u32).is_none()
        || sort_lists(rows, row_weights, b, n as u32).is_none()
    {
        return Made::refused(12);
    }
    if !agree(columns, column_weights, a, rows, b) {
        return Made::refused(13);
    }
    if n == 0 || n > MAX_PLACES || size == 0 || size > MAX_SIZE || m > MAX_CHECKS {
        return Made::refused(2);
    }
    let ones = row_weights.iter().sum::<u32>() as usize;
    if b > MAX_WEIGHT || ones > MAX_ONES {
        return Made::refused(3);
    }
    if table.len() != 6_661 {
        return Made::refused(5);
    }
    table[..4].copy_from_slice(&[2, n as u16, size as u16, m as u16]);
    table[4 + m] = ones as u16;
    for (word, weight) in table[4..].iter_mut().zip(row_weights) {
        *word = *weight as u16;
    }
    let entries = rows.iter().filter(|column| **column > 0);
    for (word, column) in table[5 + m..].iter_mut().zip(entries) {
        *word = *column as u16 - 1;
    }
    Made { refusal: 0, length: (5 + m + ones) as u32 }
}

fn put_number(text: &mut Vec<u8>, number: usize) {
    if number >= 10 {
        put_number(text, number / 10);
    }
    text.push(b'0' + (number % 10) as u8);
}

/// Numbers with blanks between them, then a line feed.
fn put_line(text: &mut Vec<u8>, numbers: impl Iterator<Item = usize>) {
    for (i, number) in numbers.enumerate() {
        if i > 0 {
            text.push(b' ');
        }
        put_number(text, number);
    }
    text.push(b'\n');
}

pub fn alist_write(table: &[u16], text: &mut [u8]) -> Made {
    let t = match look_over(table) {
        Ok(t) => t,
        Err(cause) => return Made::refused(cause),
    };
    let mut columns = vec![Vec::new(); t.n];
    for c in 0..t.m {
        for p in t.check(c) {
            columns[*p as usize].push(c + 1);
        }
    }
    let a = columns.iter().map(Vec::len).max().unwrap_or(0);
    let b = (0..t.m).map(|c| t.check(c).len()).max().unwrap_or(0);
    let mut written = Vec::new();
    put_line(&mut written, [t.n, t.m].into_iter());
    put_line(&mut written, [a, b].into_iter());
    put_line(&mut written, columns.iter().map(Vec::len));
    put_line(&mut written, (0..t.m).map(|c| t.check(c).len()));
    let zeros = std::iter::repeat(0);
    for list in &columns {
        put_line(&mut written, list.iter().copied().chain(zeros.clone()).take(a));
    }
    for c in 0..t.m {
        let places = t.check(c).iter().map(|p| *p as usize + 1);
        put_line(&mut written, places.chain(zeros.clone()).take(b));
    }
    if text.len() < written.len() {
        return Made::refused(5);
    }
    text[..written.len()].copy_from_slice(&written);
    Made { refusal: 0, length: written.len() as u32 }
}
