//! What a round calls: for each call the library's, the same additions at their
//! places in the block, and plain Rust, on the same buffers.
//!
//! Additions: for encode the add steps of the plan; for verify weight - 1 for
//! each check up to the one that fails; for repair those it reports, and
//! weight - 1 for each check without a lost place that restored none, as these
//! are looked at last.

#[cfg(uplink)]
pub use uplink::{Encode, Plan};

#[cfg(receiver)]
pub use receiver::{FullRepair, Lengthen, Merge, Repair, Verify, Why, Wrong};

#[cfg(tables)]
pub use tables::{AlistRead, AlistWrite, Staircase};

use crate::gen::Rng;
use crate::model;
use crate::plain::{self, add, add_slots};
use crate::tuned;
use std::hint::black_box;

pub trait Call {
    /// What the limits add; 0 if there are none.
    fn additions(&self) -> usize {
        0
    }
    /// Before each of the three; not measured.
    fn reset(&mut self) {}
    fn library(&mut self);
    fn real(&mut self) {}
    fn plain(&mut self);
    /// The buffers of packets.
    fn packets(&self) -> Vec<&[u8]> {
        Vec::new()
    }
}

/// What is lent for a table: its plan, random information, and a codeword with
/// the scratch behind it.
pub struct Lent {
    table: Vec<u16>,
    checks: Vec<Vec<usize>>,
    s: usize,
    plan: Vec<u32>,
    planned: model::Planned,
    information: Vec<u8>,
    slots: Vec<u8>,
}

impl Lent {
    /// The plan is the table's, whatever the size with which it was made.
    pub fn new(table: &[u16], (plan, planned): &(Vec<u32>, model::Planned)) -> Self {
        let (table, plan, planned) = (table.to_vec(), plan.clone(), *planned);
        let model::Table { n, s, checks } = model::look_over(&table).unwrap();
        let information = Rng::new(1, 1).bytes((n - planned.kept as usize) * s);
        let mut slots = vec![0; (n + planned.gap as usize) * s];
        let (block, scratch) = slots.split_at_mut(n * s);
        plain::encode(&plan, s, &information, block, scratch, usize::MAX);
        assert_eq!(plain::verify(&table, block).codeword, 1);
        Lent { table, checks, s, plan, planned, information, slots }
    }
    /// Bytes of the block.
    fn bytes(&self) -> usize {
        self.table[1] as usize * self.s
    }
}

/// The sum over a check by weight - 1 additions.
fn sum_of_check(check: &[usize], block: &[u8], sum: &mut [u8]) {
    let s = sum.len();
    let packet = |p: usize| &block[p * s..][..s];
    let [a, b, others @ ..] = check else { return };
    for ((sum, a), b) in sum.iter_mut().zip(packet(*a)).zip(packet(*b)) {
        *sum = *a ^ *b;
    }
    for p in others {
        add(sum, packet(*p));
    }
    black_box(sum);
}

/// The additions of the sums over some checks.
fn additions_of<'a>(checks: impl IntoIterator<Item = &'a Vec<usize>>) -> usize {
    checks.into_iter().map(|check| check.len().saturating_sub(1)).sum()
}

// ------------------------------------------------------------------- uplink

#[cfg(uplink)]
mod uplink {
    use super::*;
    use crate::uplink::LIBRARY;

    /// Plain Rust is the tuned planner here.
    pub struct Plan {
        lent: Lent,
        plan: Vec<u32>,
        work: Vec<u64>,
    }

    impl Plan {
        /// Both planners give the same plan, and clear the work.
        pub fn new(lent: Lent) -> Self {
            let plan = vec![7; model::PLAN_BUFFER];
            let mut call = Plan { lent, plan, work: Vec::new() };
            for by in [Self::library, Self::plain] {
                call.plan.fill(7);
                call.work = vec![7; model::WORK_BUFFER];
                by(&mut call);
                let (plan, rest) = call.plan.split_at(call.lent.plan.len());
                assert!(plan == call.lent.plan && rest.iter().all(|w| *w == 7), "another plan");
                assert!(call.work.iter().all(|w| *w == 0), "work isn't zero");
            }
            call
        }
    }

    impl Call for Plan {
        fn library(&mut self) {
            let Plan { lent, plan, work } = self;
            assert_eq!((LIBRARY.plan)(&lent.table, plan, work), lent.planned);
        }
        fn plain(&mut self) {
            let answer = tuned::plan(black_box(&self.lent.table), &mut self.plan, &mut self.work);
            assert_eq!(answer, self.lent.planned);
        }
    }

    pub struct Encode {
        lent: Lent,
        /// To and from of each add step.
        adds: Vec<(usize, usize)>,
    }

    impl Encode {
        /// The library gives the same block.
        pub fn new(lent: Lent) -> Self {
            let steps = &lent.plan[6 + lent.plan[4] as usize..];
            let adds = steps.iter().map(|word| plain::step(*word));
            let adds = adds.filter(|(kind, ..)| *kind == 1).map(|(_, to, from)| (to, from));
            let mut call = Encode { adds: adds.collect(), lent };
            let bytes = call.lent.bytes();
            let block = call.lent.slots[..bytes].to_vec();
            call.lent.slots.fill(7);
            call.library();
            assert!(call.lent.slots[..bytes] == block, "another block");
            call
        }
    }

    impl Call for Encode {
        fn additions(&self) -> usize {
            self.adds.len()
        }
        fn library(&mut self) {
            let bytes = self.lent.bytes();
            let Lent { plan, planned, s, information, slots, .. } = &mut self.lent;
            let (block, scratch) = slots.split_at_mut(bytes);
            let answer = (LIBRARY.encode)(plan, *s, information, block, scratch);
            assert_eq!((answer.refusal, answer.additions), (0, planned.additions));
        }
        fn real(&mut self) {
            for (to, from) in black_box(&self.adds) {
                add_slots(&mut self.lent.slots, self.lent.s, *to, *from);
            }
        }
        fn plain(&mut self) {
            let bytes = self.lent.bytes();
            let Lent { plan, planned, s, information, slots, .. } = &mut self.lent;
            let (block, scratch) = slots.split_at_mut(bytes);
            let plan = black_box(plan);
            let answer = plain::encode(plan, *s, information, block, scratch, usize::MAX);
            assert_eq!((answer.refusal, answer.additions), (0, planned.additions));
        }
        fn packets(&self) -> Vec<&[u8]> {
            vec![&self.lent.slots, &self.lent.information]
        }
    }
}

// ----------------------------------------------------------------- receiver

#[cfg(receiver)]
mod receiver {
    use super::*;

    #[link(name = "receiver", kind = "static")]
    extern "C" {
        fn bs_repair(
            table: *const u16,
            table_len: usize,
            block: *mut u8,
            block_len: usize,
            map: *mut u8,
            map_len: usize,
        ) -> model::Repaired;
        fn bs_full_repair(
            table: *const u16,
            table_len: usize,
            block: *mut u8,
            block_len: usize,
            map: *mut u8,
            map_len: usize,
            work: *mut u64,
            work_len: usize,
        ) -> model::FullyRepaired;
        fn bs_merge(
            table: *const u16,
            table_len: usize,
            block1: *const u8,
            block1_len: usize,
            map1: *const u8,
            map1_len: usize,
            block2: *const u8,
            block2_len: usize,
            map2: *const u8,
            map2_len: usize,
            block3: *mut u8,
            block3_len: usize,
            map3: *mut u8,
            map3_len: usize,
        ) -> model::Merged;
        fn bs_why(
            table: *const u16,
            table_len: usize,
            block: *mut u8,
            block_len: usize,
            map: *mut u8,
            map_len: usize,
            work: *mut u64,
            work_len: usize,
            place: usize,
            reason: *mut u16,
            reason_len: usize,
        ) -> model::Reason;
        fn bs_lengthen(
            old_table: *const u16,
            old_table_len: usize,
            new_table: *const u16,
            new_table_len: usize,
            block: *mut u8,
            block_len: usize,
            map: *mut u8,
            map_len: usize,
            arrivals: *const u8,
            arrivals_len: usize,
            arrivals_map: *const u8,
            arrivals_map_len: usize,
        ) -> model::Repaired;
        fn bs_verify(
            table: *const u16,
            table_len: usize,
            block: *const u8,
            block_len: usize,
        ) -> model::Verified;
    }

    pub struct Verify {
        lent: Lent,
        answer: model::Verified,
    }

    impl Verify {
        /// The library says what plain Rust says.
        pub fn new(lent: Lent) -> Self {
            let answer = plain::verify(&lent.table, &lent.slots[..lent.bytes()]);
            Verify { lent, answer }
        }
        /// The last byte of one packet is wrong: of those whose lowest check is
        /// the highest.
        pub fn wrong_byte(mut lent: Lent) -> Self {
            let lowest = |p: &usize| lent.checks.iter().position(|check| check.contains(p));
            let place = (0..lent.table[1] as usize).max_by_key(lowest).unwrap();
            lent.slots[(place + 1) * lent.s - 1] ^= 1;
            Verify::new(lent)
        }
        fn block(&self) -> &[u8] {
            &self.lent.slots[..self.lent.bytes()]
        }
        /// The checks up to the one that fails; all, if none does.
        fn looked_at(&self) -> &[Vec<usize>] {
            match self.answer.codeword {
                1 => &self.lent.checks,
                _ => &self.lent.checks[..=self.answer.check as usize],
            }
        }
    }

    impl Call for Verify {
        fn additions(&self) -> usize {
            additions_of(self.looked_at())
        }
        fn library(&mut self) {
            let (table, block) = (&self.lent.table, self.block());
            let answer =
                unsafe { bs_verify(table.as_ptr(), table.len(), block.as_ptr(), block.len()) };
            assert_eq!(answer, self.answer);
        }
        fn real(&mut self) {
            let mut sum = [0; model::MAX_SIZE];
            for check in self.looked_at() {
                sum_of_check(check, self.block(), &mut sum[..self.lent.s]);
            }
        }
        fn plain(&mut self) {
            assert_eq!(plain::verify(black_box(&self.lent.table), self.block()), self.answer);
        }
        fn packets(&self) -> Vec<&[u8]> {
            vec![self.block()]
        }
    }

    pub struct Repair {
        lent: Lent,
        received: Vec<u8>,
        map: Vec<u8>,
        answer: model::Repaired,
        /// Each check used, and the place that it restores, in order.
        turns: Vec<(Vec<usize>, usize)>,
        /// The checks that are looked at last.
        last: Vec<Vec<usize>>,
    }

    impl Repair {
        /// So many of a hundred places are lost; the library restores what
        /// plain Rust restores. Old bytes at lost places don't count, so that
        /// the block can be used again.
        pub fn new(mut lent: Lent, share: usize) -> Self {
            let received = received_map(&lent, share);
            let bytes = lent.bytes();
            let mut map = received.clone();
            let answer = plain::repair(&lent.table, &mut lent.slots[..bytes], &mut map);
            let (turns, last) = course(&lent.checks, received.clone());
            let (after, block) = (map.clone(), lent.slots[..bytes].to_vec());
            assert_eq!(turns.len(), answer.restored as usize);

            let mut call = Repair { lent, received, map, answer, turns, last };
            call.reset();
            call.library();
            assert!(call.map == after && call.lent.slots[..bytes] == block, "another block");
            call
        }
    }

    /// The library's repair.
    fn repair(lent: &mut Lent, map: &mut [u8]) -> model::Repaired {
        let bytes = lent.bytes();
        let Lent { table, slots, .. } = lent;
        let block = &mut slots[..bytes];
        unsafe {
            bs_repair(
                table.as_ptr(),
                table.len(),
                block.as_mut_ptr(),
                block.len(),
                map.as_mut_ptr(),
                map.len(),
            )
        }
    }

    /// The map of a block of which so many of a hundred places are lost.
    fn received_map(lent: &Lent, share: usize) -> Vec<u8> {
        map_in_rain(lent, share, 2)
    }

    /// As many places lost, but others in another rain.
    fn map_in_rain(lent: &Lent, share: usize, rain: u64) -> Vec<u8> {
        let n = lent.table[1] as usize;
        let mut map = vec![0; n];
        for p in Rng::new(share as u64, rain).some_below(n, n * share / 100) {
            map[p] = 1;
        }
        map
    }

    /// The course of a repair: each check used with the place that it restores,
    /// and the checks without a lost place that restored none.
    fn course(
        checks: &[Vec<usize>],
        mut lost: Vec<u8>,
    ) -> (Vec<(Vec<usize>, usize)>, Vec<Vec<usize>>) {
        let lost_in = |lost: &[u8], check: &[usize]| -> Vec<usize> {
            check.iter().copied().filter(|p| lost[*p] == 1).collect()
        };
        let mut turns = Vec::new();
        let mut used = vec![false; checks.len()];
        while let Some(c) = (0..checks.len()).find(|c| lost_in(&lost, &checks[*c]).len() == 1) {
            let place = lost_in(&lost, &checks[c])[0];
            lost[place] = 0;
            used[c] = true;
            turns.push((checks[c].clone(), place));
        }
        let last = |(check, used): &(&Vec<usize>, bool)| !used && lost_in(&lost, check).is_empty();
        let last = checks.iter().zip(used).filter(last);
        (turns, last.map(|(check, _)| check.clone()).collect())
    }

    /// The packets at some places, summed at a place; at none where only the
    /// sum is looked at.
    type Sum = (Vec<usize>, Option<usize>);

    /// The course of elimination over what is still lost: for each check with a
    /// lost place the places that are summed, its received ones and those that
    /// lead the rows added; then for each place that is settled those that lead
    /// the rows added to its own.
    fn elimination(checks: &[Vec<usize>], lost: &[bool]) -> Vec<Sum> {
        let mut leads: Vec<Option<Vec<bool>>> = vec![None; lost.len()];
        let mut sums = Vec::new();
        for check in checks.iter().filter(|check| check.iter().any(|p| lost[*p])) {
            let mut row = vec![false; lost.len()];
            check.iter().filter(|p| lost[**p]).for_each(|p| row[*p] = true);
            let mut places: Vec<usize> = check.iter().copied().filter(|p| !lost[*p]).collect();
            let lead = reduce(&mut row, &leads, &mut places);
            sums.push((places, lead));
            if let Some(lead) = lead {
                leads[lead] = Some(row);
            }
        }
        for place in (0..lost.len()).rev() {
            let Some(mut row) = leads[place].take() else { continue };
            row[place] = false;
            let mut places = Vec::new();
            if reduce(&mut row, &leads, &mut places).is_none() {
                sums.push((places, Some(place)));
            }
        }
        sums
    }

    /// The highest place left of a row, to which those that lead its places are
    /// added as long as they can be.
    fn reduce(
        row: &mut [bool],
        leads: &[Option<Vec<bool>>],
        places: &mut Vec<usize>,
    ) -> Option<usize> {
        while let Some(highest) = row.iter().rposition(|b| *b) {
            let Some(by) = &leads[highest] else { return Some(highest) };
            row.iter_mut().zip(by).for_each(|(a, b)| *a ^= b);
            places.push(highest);
        }
        None
    }

    impl Call for Repair {
        fn additions(&self) -> usize {
            self.answer.additions as usize + additions_of(&self.last)
        }
        fn reset(&mut self) {
            self.map.copy_from_slice(&self.received);
        }
        fn library(&mut self) {
            let answer = repair(&mut self.lent, &mut self.map);
            assert_eq!(answer, self.answer);
        }
        fn real(&mut self) {
            let Lent { slots, s, .. } = &mut self.lent;
            for (check, place) in &self.turns {
                for p in check.iter().filter(|p| *p != place) {
                    add_slots(slots, *s, *place, *p);
                }
            }
            let mut sum = [0; model::MAX_SIZE];
            for check in &self.last {
                sum_of_check(check, slots, &mut sum[..*s]);
            }
        }
        fn plain(&mut self) {
            let bytes = self.lent.bytes();
            let Lent { table, slots, .. } = &mut self.lent;
            let answer = plain::repair(black_box(table), &mut slots[..bytes], &mut self.map);
            assert_eq!(answer, self.answer);
        }
        fn packets(&self) -> Vec<&[u8]> {
            vec![&self.lent.slots[..self.lent.bytes()]]
        }
    }

    /// Repair of a block with wrong packets, beside that of the block as it was
    /// sent with the same places lost.
    pub struct Wrong {
        lent: Lent,
        received: Vec<u8>,
        map: Vec<u8>,
        /// Place, packet as sent, packet as received.
        packets: Vec<(usize, Vec<u8>, Vec<u8>)>,
        /// To the block with the wrong packets, and to the block as sent.
        answer: model::Repaired,
        accepted: model::Repaired,
    }

    impl Wrong {
        /// So many of a hundred places are lost. Received packets are off at
        /// their last byte, by each of these: one is blamed, several aren't. The
        /// library leaves what plain Rust leaves.
        pub fn new(mut lent: Lent, share: usize, off: &[u8]) -> Self {
            let (received, bytes) = (received_map(&lent, share), lent.bytes());
            let mut map = received.clone();
            let accepted = plain::repair(&lent.table, &mut lent.slots[..bytes], &mut map);
            assert_eq!(accepted.refusal, 0);

            let places: Vec<usize> = (0..map.len()).filter(|p| received[*p] == 0).collect();
            let packet = |(i, off): (usize, &u8)| {
                let place = places[places.len() * (2 * i + 1) / 4];
                let sent = lent.slots[place * lent.s..][..lent.s].to_vec();
                let mut wrong = sent.clone();
                wrong[lent.s - 1] ^= off;
                (place, sent, wrong)
            };
            let packets: Vec<_> = off.iter().enumerate().map(packet).collect();

            let mut call = Wrong { lent, received, map, packets, answer: accepted, accepted };
            call.reset(true);
            let block = &mut call.lent.slots[..bytes];
            call.answer = plain::repair(&call.lent.table, block, &mut call.map);
            let (block, map) = (block.to_vec(), call.map.clone());
            match call.packets[..] {
                [(place, ..)] => assert_eq!(map.iter().position(|b| *b == 3), Some(place)),
                _ => assert_eq!(call.answer.refusal, 8),
            }
            call.reset(true);
            call.library(true);
            assert!(call.map == map && call.lent.slots[..bytes] == block, "another block");
            call
        }
        /// Before each call; not measured.
        pub fn reset(&mut self, wrong: bool) {
            self.map.copy_from_slice(&self.received);
            let Lent { slots, s, .. } = &mut self.lent;
            for (place, as_sent, as_received) in &self.packets {
                let packet = if wrong { as_received } else { as_sent };
                slots[place * *s..][..*s].copy_from_slice(packet);
            }
        }
        pub fn library(&mut self, wrong: bool) {
            let answer = repair(&mut self.lent, &mut self.map);
            assert_eq!(answer, if wrong { self.answer } else { self.accepted });
        }
        pub fn plain(&mut self, wrong: bool) {
            let bytes = self.lent.bytes();
            let Lent { table, slots, .. } = &mut self.lent;
            let answer = plain::repair(black_box(table), &mut slots[..bytes], &mut self.map);
            assert_eq!(answer, if wrong { self.answer } else { self.accepted });
        }
    }

    /// What two listeners heard of one codeword, merged and repaired.
    pub struct Merge {
        /// The third block is here.
        lent: Lent,
        map: Vec<u8>,
        /// Block and map of each listener.
        heard: [(Vec<u8>, Vec<u8>); 2],
        /// The codeword, and the third map before the repair.
        sent: Vec<u8>,
        merged: Vec<u8>,
        answer: model::Merged,
        additions: usize,
    }

    impl Merge {
        /// Each listener has lost so many of a hundred places, in a rain of its
        /// own, and other bytes stand there. With clashes every fourth packet
        /// that both heard is off at the second one's last byte. The library
        /// leaves what plain Rust leaves, and repair of the merged block too.
        pub fn new(mut lent: Lent, share: usize, clashes: bool) -> Self {
            let (s, bytes) = (lent.s, lent.bytes());
            let sent = lent.slots[..bytes].to_vec();
            let mut heard = [2, 3].map(|rain| {
                let map = map_in_rain(&lent, share, rain);
                (with_other_bytes(&sent, s, &map), map)
            });
            if clashes {
                wrong_each_fourth(&mut heard, s);
            }
            let mut merged = vec![7; lent.table[1] as usize];
            let block = &mut lent.slots[..bytes];
            plain::put_together(s, slices(&heard), block, &mut merged);
            let mut map = merged.clone();
            let answer = plain::merge(&lent.table, slices(&heard), block, &mut map);
            let (after, block) = (map.clone(), block.to_vec());
            assert_eq!((answer.refusal, answer.clash > 0), (0, clashes));

            let (_, last) = course(&lent.checks, merged.clone());
            let additions = answer.additions as usize + additions_of(&last);
            let mut call = Merge { lent, map, heard, sent, merged, answer, additions };
            for by in [Self::library, Self::copy_and_repair] {
                call.map.fill(7);
                call.lent.slots.fill(7);
                by(&mut call);
                assert!(call.map == after && call.lent.slots[..bytes] == block, "another block");
            }
            call
        }
        /// Whether both heard everything, and the same.
        pub fn all_agreed(&self) -> bool {
            self.answer.agreed as usize == self.map.len()
        }
        /// The library's repair of the merged block and map, both copied first.
        pub fn copy_and_repair(&mut self) {
            self.lent.slots[..self.sent.len()].copy_from_slice(&self.sent);
            self.map.copy_from_slice(&self.merged);
            let answer = repair(&mut self.lent, &mut self.map);
            let model::Repaired { refusal, restored, lost, .. } = answer;
            assert_eq!((refusal, restored, lost), (0, self.answer.restored, self.answer.lost));
        }
        /// The least that merging does where both heard everything: the blocks
        /// compared, and one of them copied.
        pub fn compare_and_copy(&mut self) {
            let [(one, _), (other, _)] = black_box(&self.heard);
            black_box(one == other);
            self.lent.slots[..one.len()].copy_from_slice(one);
            black_box(&mut self.lent.slots);
        }
    }

    impl Call for Merge {
        /// Those of the repair.
        fn additions(&self) -> usize {
            self.additions
        }
        fn library(&mut self) {
            let bytes = self.lent.bytes();
            let Lent { table, slots, .. } = &mut self.lent;
            let [(block1, map1), (block2, map2)] = &self.heard;
            let (block3, map3) = (&mut slots[..bytes], &mut self.map);
            let answer = unsafe {
                bs_merge(
                    table.as_ptr(),
                    table.len(),
                    block1.as_ptr(),
                    block1.len(),
                    map1.as_ptr(),
                    map1.len(),
                    block2.as_ptr(),
                    block2.len(),
                    map2.as_ptr(),
                    map2.len(),
                    block3.as_mut_ptr(),
                    block3.len(),
                    map3.as_mut_ptr(),
                    map3.len(),
                )
            };
            assert_eq!(answer, self.answer);
        }
        fn plain(&mut self) {
            let bytes = self.lent.bytes();
            let Lent { table, slots, .. } = &mut self.lent;
            let heard = slices(black_box(&self.heard));
            let answer = plain::merge(black_box(table), heard, &mut slots[..bytes], &mut self.map);
            assert_eq!(answer, self.answer);
        }
        fn packets(&self) -> Vec<&[u8]> {
            let [(one, _), (other, _)] = &self.heard;
            vec![one, other, &self.sent, &self.lent.slots]
        }
    }

    fn slices(heard: &[(Vec<u8>, Vec<u8>); 2]) -> [plain::Heard<'_>; 2] {
        heard.each_ref().map(slice)
    }

    fn slice((block, map): &(Vec<u8>, Vec<u8>)) -> plain::Heard<'_> {
        (block, map)
    }

    /// The block with other bytes at lost places.
    fn with_other_bytes(block: &[u8], s: usize, map: &[u8]) -> Vec<u8> {
        let mut block = block.to_vec();
        for (packet, _) in block.chunks_exact_mut(s).zip(map).filter(|(_, lost)| **lost == 1) {
            packet.iter_mut().for_each(|byte| *byte ^= 0x5a);
        }
        block
    }

    /// Of the packets that both heard, every fourth is off at the second one's
    /// last byte.
    fn wrong_each_fourth([(_, map1), (block2, map2)]: &mut [(Vec<u8>, Vec<u8>); 2], s: usize) {
        let both = (0..map1.len()).filter(|p| (map1[*p], map2[*p]) == (0, 0));
        for p in both.step_by(4) {
            block2[(p + 1) * s - 1] ^= 1;
        }
    }

    /// A block repaired by the first half of the checks, then gone on with by all
    /// of them.
    pub struct Lengthen {
        /// The new table, and the block.
        lent: Lent,
        old: Vec<u16>,
        map: Vec<u8>,
        /// The map as carried over, and block and map of the arrivals.
        carried: Vec<u8>,
        came: (Vec<u8>, Vec<u8>),
        answer: model::Repaired,
        additions: usize,
    }

    impl Lengthen {
        /// So many of a hundred places are lost in the first rain, and so many
        /// don't arrive in the second; other bytes stand there, and at new
        /// places. The library leaves what plain Rust leaves, and repair after
        /// entering too. Packets carried over stay as they are, and others are
        /// written, so that the block can be used again.
        pub fn new(mut lent: Lent, share: usize, missing: usize) -> Self {
            let (s, bytes) = (lent.s, lent.bytes());
            let sent = lent.slots[..bytes].to_vec();
            let half = &lent.checks[..lent.checks.len() / 2];
            let old_n = 1 + half.iter().flatten().max().unwrap();
            let old = model::table_words(old_n, s, half);

            let mut carried = map_in_rain(&lent, share, 2);
            carried[old_n..].fill(1);
            let mut block = with_other_bytes(&sent, s, &carried);
            carried[old_n..].fill(7);
            let (old_block, old_map) = (&mut block[..old_n * s], &mut carried[..old_n]);
            assert_eq!(plain::repair(&old, old_block, old_map).refusal, 0);
            let missing = map_in_rain(&lent, missing, 3);
            let came = (with_other_bytes(&sent, s, &missing), missing);

            let (mut map, mut entered) = (carried.clone(), carried.clone());
            plain::enter(s, old_n, slice(&came), &mut block.clone(), &mut entered);
            let (_, last) = course(&lent.checks, entered.clone());
            let slots = &mut lent.slots[..bytes];
            slots.copy_from_slice(&block);
            let answer = plain::lengthen(&old, &lent.table, slots, &mut map, slice(&came));
            assert_eq!((answer.refusal, answer.restored > 0), (0, true));

            let (after, repaired) = (map.clone(), slots.to_vec());
            let marks = after.iter().zip(&entered);
            let as_received = marks.map(|(mark, was)| if *was == 2 { 0 } else { *mark }).collect();
            let additions = answer.additions as usize + additions_of(&last);
            let mut call = Lengthen { lent, old, map, carried, came, answer, additions };
            let both: [(fn(&mut Self), Vec<u8>); 2] =
                [(Self::library, after), (Self::enter_and_repair, as_received)];
            for (by, after) in both {
                call.reset();
                call.lent.slots[..bytes].copy_from_slice(&block);
                by(&mut call);
                assert!(call.map == after && call.lent.slots[..bytes] == repaired, "another block");
            }
            call
        }
        /// Without the call: arrivals entered, restored places taken for received
        /// ones, and the library's repair by the new table.
        pub fn enter_and_repair(&mut self) {
            let bytes = self.lent.bytes();
            let (s, old_n) = (self.lent.s, self.old[1] as usize);
            let block = &mut self.lent.slots[..bytes];
            plain::enter(s, old_n, slice(&self.came), block, &mut self.map);
            self.map.iter_mut().for_each(|mark| *mark &= 1);
            assert_eq!(repair(&mut self.lent, &mut self.map), self.answer);
        }
        /// Places restored.
        pub fn restored(&self) -> u32 {
            self.answer.restored
        }
    }

    impl Call for Lengthen {
        /// Those of the repair.
        fn additions(&self) -> usize {
            self.additions
        }
        fn reset(&mut self) {
            self.map.copy_from_slice(&self.carried);
        }
        fn library(&mut self) {
            let bytes = self.lent.bytes();
            let Lent { table, slots, .. } = &mut self.lent;
            let (old, (arrivals, arrivals_map)) = (&self.old, &self.came);
            let (block, map) = (&mut slots[..bytes], &mut self.map);
            let answer = unsafe {
                bs_lengthen(
                    old.as_ptr(),
                    old.len(),
                    table.as_ptr(),
                    table.len(),
                    block.as_mut_ptr(),
                    block.len(),
                    map.as_mut_ptr(),
                    map.len(),
                    arrivals.as_ptr(),
                    arrivals.len(),
                    arrivals_map.as_ptr(),
                    arrivals_map.len(),
                )
            };
            assert_eq!(answer, self.answer);
        }
        fn plain(&mut self) {
            let bytes = self.lent.bytes();
            let Lent { table, slots, .. } = &mut self.lent;
            let (old, came) = (black_box(&self.old), slice(black_box(&self.came)));
            let block = &mut slots[..bytes];
            let answer = plain::lengthen(old, black_box(table), block, &mut self.map, came);
            assert_eq!(answer, self.answer);
        }
        fn packets(&self) -> Vec<&[u8]> {
            vec![&self.came.0, &self.lent.slots[..self.lent.bytes()]]
        }
    }

    /// Full repair beside plain elimination or, where peeling alone restores,
    /// beside the library's repair.
    pub struct FullRepair {
        lent: Lent,
        received: Vec<u8>,
        map: Vec<u8>,
        work: Vec<u64>,
        answer: model::FullyRepaired,
        peeled: bool,
        /// Every sum of the turns, of the look at the checks and of elimination.
        sums: Vec<Sum>,
    }

    impl FullRepair {
        /// So many of a hundred places are lost. Both sides give the same block
        /// and map, and the work is cleared.
        pub fn new(mut lent: Lent, share: usize, peeled: bool) -> Self {
            let received = received_map(&lent, share);
            let bytes = lent.bytes();
            let mut map = received.clone();
            let mut work = vec![7; model::WORK_BUFFER];
            let block = &mut lent.slots[..bytes];
            let answer = plain::full_repair(&lent.table, block, &mut map, &mut work);
            let (after, block) = (map.clone(), block.to_vec());
            assert_eq!(answer.refusal, 0);

            let sums = sums_of(&lent.checks, &received);
            let mut call = FullRepair { lent, received, map, work, answer, peeled, sums };
            for by in [Self::library, Self::plain] {
                call.reset();
                call.work.fill(7);
                by(&mut call);
                let repaired = &call.lent.slots[..bytes];
                assert!(call.map == after && repaired == block, "another block");
            }
            call.reset();
            call.library();
            assert!(call.work.iter().all(|w| *w == 0), "work isn't zero");
            call
        }
        /// As many restored and lost, by peeling alone.
        fn old_repair(&mut self) {
            let answer = repair(&mut self.lent, &mut self.map);
            assert_eq!(answer.restored, self.answer.restored);
            assert_eq!((answer.refusal, answer.lost, self.answer.lost), (0, 0, 0));
        }
    }

    /// The library's full repair.
    fn full_repair(lent: &mut Lent, map: &mut [u8], work: &mut [u64]) -> model::FullyRepaired {
        let bytes = lent.bytes();
        let Lent { table, slots, .. } = lent;
        let block = &mut slots[..bytes];
        unsafe {
            bs_full_repair(
                table.as_ptr(),
                table.len(),
                block.as_mut_ptr(),
                block.len(),
                map.as_mut_ptr(),
                map.len(),
                work.as_mut_ptr(),
                work.len(),
            )
        }
    }

    /// Every sum of a full repair, in order.
    fn sums_of(checks: &[Vec<usize>], received: &[u8]) -> Vec<Sum> {
        let (turns, last) = course(checks, received.to_vec());
        let mut lost: Vec<bool> = received.iter().map(|b| *b == 1).collect();
        let mut sums = Vec::new();
        for (check, place) in turns {
            lost[place] = false;
            sums.push((check.into_iter().filter(|p| *p != place).collect(), Some(place)));
        }
        sums.extend(last.into_iter().map(|check| (check, None)));
        sums.extend(elimination(checks, &lost));
        sums
    }

    impl Call for FullRepair {
        fn additions(&self) -> usize {
            let of = |(places, to): &Sum| places.len().saturating_sub(to.is_none() as usize);
            self.sums.iter().map(of).sum()
        }
        fn reset(&mut self) {
            self.map.copy_from_slice(&self.received);
        }
        fn library(&mut self) {
            let answer = full_repair(&mut self.lent, &mut self.map, &mut self.work);
            assert_eq!(answer, self.answer);
        }
        fn real(&mut self) {
            let Lent { slots, s, .. } = &mut self.lent;
            let mut sum = [0; model::MAX_SIZE];
            for (places, to) in &self.sums {
                match to {
                    Some(to) => places.iter().for_each(|p| add_slots(slots, *s, *to, *p)),
                    None => sum_of_check(places, slots, &mut sum[..*s]),
                }
            }
        }
        fn plain(&mut self) {
            if self.peeled {
                return self.old_repair();
            }
            let bytes = self.lent.bytes();
            let Lent { table, slots, .. } = &mut self.lent;
            let block = &mut slots[..bytes];
            let answer = plain::full_repair(black_box(table), block, &mut self.map, &mut self.work);
            assert_eq!(answer, self.answer);
        }
        fn packets(&self) -> Vec<&[u8]> {
            vec![&self.lent.slots[..self.lent.bytes()]]
        }
    }

    /// The reason for one place, restored or still lost, beside plain Rust and
    /// beside full repair of the same block.
    pub struct Why {
        lent: Lent,
        received: Vec<u8>,
        map: Vec<u8>,
        work: Vec<u64>,
        place: usize,
        reason: Vec<u16>,
        answer: model::Reason,
    }

    impl Why {
        /// So many of a hundred places are lost. Of those that full repair marks
        /// so the one with the longest list is asked for. The library leaves what
        /// plain Rust leaves, full repair the same block and map.
        pub fn new(lent: Lent, share: usize, mark: u8) -> Self {
            let received = received_map(&lent, share);
            let (map, bytes) = (received.clone(), lent.bytes());
            let (work, reason) = (vec![7; model::WORK_BUFFER], vec![7; model::REASON_BUFFER]);
            let answer = model::Reason::refused(0);
            let mut call = Why { lent, received, map, work, place: 0, reason, answer };
            full_repair(&mut call.lent, &mut call.map, &mut call.work);
            let marked: Vec<usize> = (0..call.map.len()).filter(|p| call.map[*p] == mark).collect();
            call.place = marked.into_iter().max_by_key(|p| call.listed(*p)).unwrap();
            call.listed(call.place);
            assert_eq!((call.answer.refusal, call.answer.kind), (0, 4 - mark as u32));
            let (after, list) = (call.map.clone(), call.reason.clone());
            let block = call.lent.slots[..bytes].to_vec();
            for by in [Self::library, Self::full_repair] {
                call.reset();
                call.work.fill(7);
                by(&mut call);
                assert!(call.map == after && call.lent.slots[..bytes] == block, "another block");
                assert!(call.work.iter().all(|w| *w == 0), "work isn't zero");
            }
            assert!(call.reason == list, "another list");
            call
        }
        /// How many numbers are listed for a place, by plain Rust, whose answer is
        /// kept.
        fn listed(&mut self, place: usize) -> u32 {
            self.reset();
            self.place = place;
            self.answer = self.by_plain();
            self.answer.length
        }
        fn by_plain(&mut self) -> model::Reason {
            let bytes = self.lent.bytes();
            let Lent { table, slots, .. } = &mut self.lent;
            let (block, map) = (&mut slots[..bytes], &mut self.map);
            let place = black_box(self.place);
            plain::why(black_box(table), block, map, &mut self.work, place, &mut self.reason)
        }
        pub fn full_repair(&mut self) {
            let answer = full_repair(&mut self.lent, &mut self.map, &mut self.work);
            let counts = (self.answer.restored, self.answer.lost);
            assert_eq!((answer.refusal, (answer.restored, answer.lost)), (0, counts));
        }
        /// Numbers in the list.
        pub fn length(&self) -> u32 {
            self.answer.length
        }
    }

    impl Call for Why {
        fn reset(&mut self) {
            self.map.copy_from_slice(&self.received);
        }
        fn library(&mut self) {
            let bytes = self.lent.bytes();
            let Lent { table, slots, .. } = &mut self.lent;
            let block = &mut slots[..bytes];
            let answer = unsafe {
                bs_why(
                    table.as_ptr(),
                    table.len(),
                    block.as_mut_ptr(),
                    block.len(),
                    self.map.as_mut_ptr(),
                    self.map.len(),
                    self.work.as_mut_ptr(),
                    self.work.len(),
                    self.place,
                    self.reason.as_mut_ptr(),
                    self.reason.len(),
                )
            };
            assert_eq!(answer, self.answer);
        }
        fn plain(&mut self) {
            let answer = self.by_plain();
            assert_eq!(answer, self.answer);
        }
        fn packets(&self) -> Vec<&[u8]> {
            vec![&self.lent.slots[..self.lent.bytes()]]
        }
    }
}

// ------------------------------------------------------------------- tables

#[cfg(tables)]
mod tables {
    use super::*;

    #[link(name = "tables", kind = "static")]
    extern "C" {
        fn bs_staircase(
            sources: usize,
            packets: usize,
            ones: usize,
            seed: usize,
            size: usize,
            table: *mut u16,
            table_len: usize,
        ) -> model::Made;
        fn bs_alist_read(
            text: *const u8,
            text_len: usize,
            size: usize,
            table: *mut u16,
            table_len: usize,
        ) -> model::Made;
        fn bs_alist_write(
            table: *const u16,
            table_len: usize,
            text: *mut u8,
            text_len: usize,
        ) -> model::Made;
    }

    /// No packets here: the making of one table.
    pub struct Staircase {
        /// Sources, packets, ones and seed.
        set: [usize; 4],
        table: Vec<u16>,
        answer: model::Made,
    }

    impl Staircase {
        /// Both makers give the same table, and keep the rest of the buffer.
        pub fn new(set: [usize; 4]) -> Self {
            let [sources, packets, ones, seed] = set;
            let mut expected = vec![7; model::TABLE_BUFFER];
            let answer = model::staircase(sources, packets, ones, seed, 64, &mut expected);
            assert_eq!(answer.refusal, 0);
            let mut call = Staircase { set, table: Vec::new(), answer };
            for by in [Self::library, Self::plain] {
                call.table = vec![7; model::TABLE_BUFFER];
                by(&mut call);
                assert!(call.table == expected, "another table");
            }
            call
        }
    }

    impl Call for Staircase {
        fn library(&mut self) {
            let [sources, packets, ones, seed] = self.set;
            let table = &mut self.table;
            let answer = unsafe {
                bs_staircase(sources, packets, ones, seed, 64, table.as_mut_ptr(), table.len())
            };
            assert_eq!(answer, self.answer);
        }
        fn plain(&mut self) {
            let [sources, packets, ones, seed] = black_box(self.set);
            let answer = plain::staircase(sources, packets, ones, seed, 64, &mut self.table);
            assert_eq!(answer, self.answer);
        }
    }

    /// The alist text of a table, read.
    pub struct AlistRead {
        text: Vec<u8>,
        table: Vec<u16>,
        answer: model::Made,
    }

    impl AlistRead {
        /// Both readers give the same table, and keep the rest of the buffer.
        pub fn new(table: &[u16]) -> Self {
            let text = model::alist_text(&model::look_over(table).unwrap()).into_bytes();
            let answer = model::Made { refusal: 0, length: table.len() as u32 };
            let mut call = AlistRead { text, table: Vec::new(), answer };
            let mut expected = table.to_vec();
            expected.resize(model::TABLE_BUFFER, 7);
            for by in [Self::library, Self::plain] {
                call.table = vec![7; model::TABLE_BUFFER];
                by(&mut call);
                assert!(call.table == expected, "another table");
            }
            call
        }
    }

    impl Call for AlistRead {
        fn library(&mut self) {
            let AlistRead { text, table, answer } = self;
            let read = unsafe {
                bs_alist_read(text.as_ptr(), text.len(), 64, table.as_mut_ptr(), table.len())
            };
            assert_eq!(read, *answer);
        }
        fn plain(&mut self) {
            let read = plain::alist_read(black_box(&self.text), 64, &mut self.table);
            assert_eq!(read, self.answer);
        }
    }

    /// The alist text of a table, written.
    pub struct AlistWrite {
        table: Vec<u16>,
        text: Vec<u8>,
        answer: model::Made,
    }

    impl AlistWrite {
        /// Both writers give the same text, and keep the rest of the buffer.
        pub fn new(table: &[u16]) -> Self {
            let mut expected = model::alist_text(&model::look_over(table).unwrap()).into_bytes();
            let answer = model::Made { refusal: 0, length: expected.len() as u32 };
            expected.resize(expected.len() + 100, 7);
            let mut call = AlistWrite { table: table.to_vec(), text: Vec::new(), answer };
            for by in [Self::library, Self::plain] {
                call.text = vec![7; expected.len()];
                by(&mut call);
                assert!(call.text == expected, "another text");
            }
            call
        }
    }

    impl Call for AlistWrite {
        fn library(&mut self) {
            let AlistWrite { table, text, answer } = self;
            let written = unsafe {
                bs_alist_write(table.as_ptr(), table.len(), text.as_mut_ptr(), text.len())
            };
            assert_eq!(written, *answer);
        }
        fn plain(&mut self) {
            let written = plain::alist_write(black_box(&self.table), &mut self.text);
            assert_eq!(written, self.answer);
        }
    }
}
