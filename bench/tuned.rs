//! A tuned planner in plain Rust, for comparison.
//!
//! Kept checks are found by dense elimination with the highest place as pivot
//! and only the words up to it. For each place there are the number of live
//! checks and the exclusive-or of their numbers, so that a place in exactly one
//! of them names it; the scan down for the highest such place starts from a
//! bound that is raised where a place becomes single. When a check is to be set
//! aside no place is single. So a place in exactly two live checks then lies in
//! both the next time, or both are gone: what a live check would free only grows,
//! by places of checks gone in between. A column is one u32 a place, pushed
//! through the checks; fitted places and the inverse come from one scan over
//! masks.

use crate::model::{Planned, MAX_CHECKS, MAX_GAP, MAX_PLACES, PLAN_BUFFER, WORK_BUFFER};
use crate::plain::{look_over, Checks};

/// Words of a row.
const WORDS: usize = MAX_PLACES / 64;

/// Step 1: the kept checks. The rows are made in `work`.
fn kept_checks(t: &Checks, work: &mut [u64]) -> Vec<u16> {
    let mut kept = Vec::with_capacity(t.m);
    // For each place one more than the row that it leads, 0 for none.
    let mut owner = [0u16; MAX_PLACES];
    for c in 0..t.m {
        let mut row = [0u64; WORDS];
        for p in t.check(c) {
            row[*p as usize / 64] |= 1 << (p % 64);
        }
        let mut words = t.check(c).last().map_or(0, |p| *p as usize / 64 + 1);
        while words > 0 {
            let top = row[words - 1];
            if top == 0 {
                words -= 1;
                continue;
            }
            let lead = words * 64 - 1 - top.leading_zeros() as usize;
            let k = owner[lead] as usize;
            if k == 0 {
                work[kept.len() * WORDS..][..words].copy_from_slice(&row[..words]);
                kept.push(c as u16);
                owner[lead] = kept.len() as u16;
                break;
            }
            let by = &work[(k - 1) * WORDS..][..words];
            for (a, b) in row[..words].iter_mut().zip(by) {
                *a ^= *b;
            }
        }
    }
    kept
}

/// For step 3: how many places of each live check lie in exactly two live checks.
struct Freed {
    /// The checks that hold each place, place by place, and where they start.
    holders: Vec<u16>,
    starts: [u16; MAX_PLACES + 1],
    /// The places that have come down to two, and are counted for both.
    counted: [bool; MAX_PLACES],
    /// One more than the number for each live check, 0 for others.
    keys: [u8; MAX_CHECKS],
}

impl Freed {
    /// For the kept checks that aren't taken.
    fn new(t: &Checks, kept: &[u16], taken: &[(u16, u16)], count: &[u16; MAX_PLACES]) -> Self {
        let mut keys = [0; MAX_CHECKS];
        kept.iter().for_each(|c| keys[*c as usize] = 1);
        taken.iter().for_each(|(c, _)| keys[*c as usize] = 0);
        // First the end of each place's holders, then down as they are filled in.
        let mut starts = [0; MAX_PLACES + 1];
        let mut sum = 0;
        for (start, k) in starts.iter_mut().zip(count) {
            sum += *k;
            *start = sum;
        }
        starts[MAX_PLACES] = sum;
        let mut holders = vec![0; sum as usize];
        for c in kept.iter().filter(|c| keys[**c as usize] == 1) {
            for p in t.check(*c as usize) {
                let start = &mut starts[*p as usize];
                *start -= 1;
                holders[*start as usize] = *c;
            }
        }
        let mut freed = Freed { holders, starts, counted: [false; MAX_PLACES], keys };
        freed.add(0..t.n as u16, count);
        freed
    }
    /// Counts those of some places that lie in exactly two live checks by now.
    #[inline]
    fn add(&mut self, places: impl Iterator<Item = u16>, count: &[u16; MAX_PLACES]) {
        for p in places.map(usize::from) {
            if count[p] == 2 && !self.counted[p] {
                self.counted[p] = true;
                for c in &self.holders[self.starts[p] as usize..self.starts[p + 1] as usize] {
                    let key = &mut self.keys[*c as usize];
                    *key += (*key > 0) as u8;
                }
            }
        }
    }
    /// The live check with the most, the lowest number on a tie.
    fn most(&self) -> u16 {
        let most = self.keys.iter().fold(0, |most, key| most.max(*key));
        self.keys.iter().position(|key| *key == most).unwrap() as u16
    }
}

/// Steps 2 and 3: checks with their own places in the order of taking, and the
/// checks set aside.
fn triangulate(t: &Checks, kept: &[u16]) -> (Vec<(u16, u16)>, Vec<u16>) {
    let mut count = [0u16; MAX_PLACES];
    let mut names = [0u16; MAX_PLACES];
    for c in kept {
        for p in t.check(*c as usize) {
            count[*p as usize] += 1;
            names[*p as usize] ^= *c;
        }
    }
    let mut taken = Vec::with_capacity(kept.len());
    let mut aside = Vec::with_capacity(MAX_GAP);
    let mut freed: Option<Freed> = None;
    // Checks gone since one was last set aside, that one too.
    let mut gone: Vec<u16> = Vec::with_capacity(kept.len());
    // No place from here on is single.
    let mut bound = t.n;
    for _ in 0..kept.len() {
        let single = count[..bound].iter().rposition(|k| *k == 1);
        bound = single.unwrap_or(0);
        let c = match single {
            Some(p) => {
                taken.push((names[p], p as u16));
                names[p]
            }
            None => {
                let freed = freed.get_or_insert_with(|| Freed::new(t, kept, &taken, &count));
                gone.iter().for_each(|c| freed.keys[*c as usize] = 0);
                for c in gone.drain(..) {
                    freed.add(t.check(c as usize).iter().copied(), &count);
                }
                let c = freed.most();
                aside.push(c);
                c
            }
        };
        gone.push(c);
        for p in t.check(c as usize) {
            let p = *p as usize;
            count[p] -= 1;
            names[p] ^= c;
            if count[p] == 1 && p >= bound {
                bound = p + 1;
            }
        }
    }
    (taken, aside)
}

/// Step 5: each place's column of the set-aside checks, 0 if it is owned.
fn columns(t: &Checks, taken: &[(u16, u16)], aside: &[u16]) -> [u32; MAX_PLACES] {
    let mut column = [0u32; MAX_PLACES];
    for (i, c) in aside.iter().enumerate() {
        for p in t.check(*c as usize) {
            column[*p as usize] ^= 1 << i;
        }
    }
    for (c, own) in taken {
        let bits = column[*own as usize];
        if bits != 0 {
            for p in t.check(*c as usize) {
                column[*p as usize] ^= bits;
            }
        }
    }
    column
}

/// The fitted places ascending, and the row of the inverse for each.
fn fit(column: &[u32], g: usize) -> ([u16; MAX_GAP], [u32; MAX_GAP]) {
    let sees = |mask: u32, bits: u32| (mask & bits).count_ones() % 2 == 1;
    let mut fitted = [0; MAX_GAP];
    let mut masks = [0u32; MAX_GAP];
    for (i, mask) in masks[..g].iter_mut().enumerate() {
        *mask = 1 << i;
    }
    // Masks below `free` have no place yet.
    let mut free = g;
    for (p, bits) in column.iter().enumerate().rev() {
        if free == 0 {
            break;
        }
        if *bits == 0 {
            continue;
        }
        let Some(i) = masks[..free].iter().position(|mask| sees(*mask, *bits)) else { continue };
        free -= 1;
        masks.swap(i, free);
        let by = masks[free];
        for (i, mask) in masks[..g].iter_mut().enumerate() {
            if i != free && sees(*mask, *bits) {
                *mask ^= by;
            }
        }
        fitted[free] = p as u16;
    }
    (fitted, masks)
}

struct Writer<'a> {
    plan: &'a mut [u32],
    at: usize,
    clears: usize,
}

impl Writer<'_> {
    #[inline]
    fn word(&mut self, word: u32) {
        self.plan[self.at] = word;
        self.at += 1;
    }
    #[inline]
    fn clear(&mut self, to: usize) {
        self.word((to << 12) as u32);
        self.clears += 1;
    }
    #[inline]
    fn add(&mut self, to: usize, from: usize) {
        self.word((1 << 24 | to << 12 | from) as u32);
    }
    /// A check into a slot, without the places to skip.
    #[inline]
    fn sum(&mut self, check: &[u16], to: usize, skip: impl Fn(usize) -> bool) {
        self.clear(to);
        for p in check {
            let from = *p as usize;
            if from != to && !skip(from) {
                self.add(to, from);
            }
        }
    }
}

pub fn plan(table: &[u16], plan: &mut [u32], work: &mut [u64]) -> Planned {
    let t = match look_over(table) {
        Ok(t) => t,
        Err(cause) => return Planned::refused(cause),
    };
    if plan.len() < PLAN_BUFFER || work.len() != WORK_BUFFER {
        return Planned::refused(5);
    }
    let kept = kept_checks(&t, work);
    work.fill(0);
    let (taken, aside) = triangulate(&t, &kept);
    let (n, g) = (t.n, aside.len());
    if g > MAX_GAP {
        return Planned::refused(6);
    }
    let (fitted, masks) = fit(&columns(&t, &taken, &aside)[..n], g);
    let fitted = &fitted[..g];

    // Owned or fitted places, and fitted ones.
    let mut solved = [false; MAX_PLACES];
    let mut is_fitted = [false; MAX_PLACES];
    for (_, own) in &taken {
        solved[*own as usize] = true;
    }
    for p in fitted {
        solved[*p as usize] = true;
        is_fitted[*p as usize] = true;
    }

    let mut w = Writer { plan, at: 0, clears: 0 };
    for word in [3, n, g, kept.len(), n - kept.len()] {
        w.word(word as u32);
    }
    for p in (0..n).filter(|p| !solved[*p]) {
        w.word(p as u32);
    }
    let count_at = w.at;
    w.word(0);
    if g > 0 {
        for (c, own) in taken.iter().rev() {
            w.sum(t.check(*c as usize), *own as usize, |p| is_fitted[p]);
        }
        for (i, c) in aside.iter().enumerate() {
            w.sum(t.check(*c as usize), n + i, |p| is_fitted[p]);
        }
        for (p, mask) in fitted.iter().zip(masks) {
            w.clear(*p as usize);
            for i in (0..g).filter(|i| mask >> i & 1 == 1) {
                w.add(*p as usize, n + i);
            }
        }
    }
    for (c, own) in taken.iter().rev() {
        w.sum(t.check(*c as usize), *own as usize, |_| false);
    }
    let (length, steps) = (w.at, w.at - count_at - 1);
    let additions = steps - w.clears;
    plan[count_at] = steps as u32;
    Planned {
        refusal: 0,
        length: length as u32,
        kept: kept.len() as u32,
        ones: kept.iter().map(|c| t.check(*c as usize).len() as u32).sum(),
        gap: g as u32,
        additions: additions as u32,
    }
}
