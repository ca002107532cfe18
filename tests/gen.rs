//! Seeded numbers, tables of many shapes, and damage.

#![allow(dead_code)]

use crate::model::{self, Places, Step, Table};

// ---------------------------------------------------------------- numbers

pub struct Rng(u64);

impl Rng {
    /// The numbers of one case: a case can be run again alone.
    pub fn new(seed: u64, case: u64) -> Self {
        let mut rng = Rng(seed ^ case.wrapping_mul(0xd134_2543_de82_ef95));
        rng.next();
        rng
    }
    pub fn next(&mut self) -> u64 {
        self.0 = self.0.wrapping_add(0x9e37_79b9_7f4a_7c15);
        let mut z = self.0;
        z = (z ^ (z >> 30)).wrapping_mul(0xbf58_476d_1ce4_e5b9);
        z = (z ^ (z >> 27)).wrapping_mul(0x94d0_49bb_1331_11eb);
        z ^ (z >> 31)
    }
    /// 0 to end - 1.
    pub fn below(&mut self, end: usize) -> usize {
        (self.next() % end as u64) as usize
    }
    /// low to high, both taken.
    pub fn range(&mut self, low: usize, high: usize) -> usize {
        low + self.below(high - low + 1)
    }
    /// True once in so many.
    pub fn once_in(&mut self, many: usize) -> bool {
        self.below(many) == 0
    }
    pub fn pick<T: Copy>(&mut self, list: &[T]) -> T {
        list[self.below(list.len())]
    }
    pub fn bytes(&mut self, len: usize) -> Vec<u8> {
        (0..len).map(|_| self.next() as u8).collect()
    }
    pub fn shuffle<T>(&mut self, list: &mut [T]) {
        for i in (1..list.len()).rev() {
            list.swap(i, self.below(i + 1));
        }
    }
    /// So many different numbers below end, ascending.
    pub fn some_below(&mut self, end: usize, many: usize) -> Vec<usize> {
        let mut chosen = std::collections::BTreeSet::new();
        while chosen.len() < many.min(end) {
            chosen.insert(self.below(end));
        }
        chosen.into_iter().collect()
    }
}

// ----------------------------------------------------------------- tables

type Checks = Vec<Vec<usize>>;

fn random_checks(rng: &mut Rng, n: usize, m: usize, heaviest: usize) -> Checks {
    (0..m)
        .map(|_| {
            let weight = rng.range(0, heaviest.min(n));
            rng.some_below(n, weight)
        })
        .collect()
}

/// Every place in the same number of checks, as far as that comes out.
pub fn regular(rng: &mut Rng, n: usize, m: usize, column: usize) -> Checks {
    let mut checks = vec![Vec::new(); m];
    let mut sockets: Vec<usize> = (0..n * column).map(|i| i % m).collect();
    rng.shuffle(&mut sockets);
    for (i, c) in sockets.into_iter().enumerate() {
        let check: &mut Vec<usize> = &mut checks[c];
        let place = i / column;
        if !check.contains(&place) {
            check.push(place);
        }
    }
    checks.iter_mut().for_each(|c| c.sort());
    checks
}

/// Information columns of a given weight, then a staircase of m places.
pub fn staircase(rng: &mut Rng, n: usize, m: usize, column: usize) -> Checks {
    let mut checks = regular(rng, n - m, m, column.min(m));
    for c in 0..m {
        if c > 0 {
            checks[c].push(n - m + c - 1);
        }
        checks[c].push(n - m + c);
    }
    checks
}

/// Tables side by side, each on its own places.
pub fn side_by_side(parts: &[(usize, Checks)]) -> (usize, Checks) {
    let (mut n, mut checks) = (0, Vec::new());
    for (places, part) in parts {
        for c in part {
            checks.push(c.iter().map(|p| p + n).collect());
        }
        n += places;
    }
    (n, checks)
}

pub fn table_b() -> (usize, Checks) {
    (4, vec![vec![0, 1, 2], vec![0, 1, 3], vec![0, 2, 3]])
}

/// The heaviest check, 0, lies on places in three checks or more. By document 01's
/// rule 0 and 1 are set aside, by C-18's only 1.
pub fn heaviest_frees_none() -> (usize, Checks) {
    let checks: [&[usize]; 6] =
        [&[0, 1, 2, 3, 6, 7], &[0, 1, 4, 7], &[0, 2, 4, 7], &[1, 3, 5, 6], &[2, 3], &[3, 5, 6]];
    (8, checks.map(|c| c.to_vec()).to_vec())
}

/// No place lies in exactly two checks, and the first has weight 1. By document 01's
/// rule 2 and 3 are set aside, by C-18's 0, 1 and 2.
pub fn weight_one_first() -> (usize, Checks) {
    let checks: [&[usize]; 5] =
        [&[0], &[1, 3, 4, 5], &[0, 1, 2, 4, 5], &[0, 2, 3, 4, 5], &[0, 1, 2, 3]];
    (6, checks.map(|c| c.to_vec()).to_vec())
}

/// Small tables with gaps, of which larger ones are put together.
fn gap_parts() -> Vec<(usize, Checks)> {
    vec![
        table_b(),
        (4, vec![vec![0, 1, 2], vec![2, 3], vec![0, 1, 2, 3]]),
        (5, vec![vec![0, 1, 2, 4], vec![0, 2, 3, 4], vec![0, 1, 2, 3], vec![1, 3, 4]]),
        (
            6,
            vec![
                vec![0, 1, 3, 4, 5],
                vec![0, 1, 4, 5],
                vec![0, 1, 2, 3, 5],
                vec![0, 1, 2, 3],
                vec![1, 2, 3, 4, 5],
            ],
        ),
        (
            6,
            vec![
                vec![0, 1, 2, 3, 5],
                vec![1, 2, 3, 4, 5],
                vec![0, 1, 3, 5],
                vec![0, 2, 3, 4, 5],
                vec![1, 2, 4, 5],
                vec![2, 3],
            ],
        ),
    ]
}

/// Cut to what a table can hold.
fn within_limits(checks: Checks) -> Checks {
    let mut ones = 0;
    let mut kept: Checks = Vec::new();
    for mut c in checks {
        c.truncate(model::MAX_WEIGHT);
        if kept.len() == model::MAX_CHECKS || ones + c.len() > model::MAX_ONES {
            break;
        }
        ones += c.len();
        kept.push(c);
    }
    kept
}

fn move_places(rng: &mut Rng, n: usize, checks: &mut Checks) {
    let mut places: Vec<usize> = (0..n).collect();
    rng.shuffle(&mut places);
    for c in checks.iter_mut() {
        c.iter_mut().for_each(|p| *p = places[*p]);
        c.sort();
    }
}

/// Duplicate, dependent, empty and weight 1 checks; places and checks moved.
fn vary(rng: &mut Rng, n: usize, checks: &mut Checks) {
    if rng.once_in(3) {
        move_places(rng, n, checks);
    }
    for _ in 0..rng.pick(&[0, 0, 0, 1, 2, 4]) {
        let extra = match rng.below(4) {
            0 => vec![],
            1 => vec![rng.below(n)],
            2 if !checks.is_empty() => checks[rng.below(checks.len())].clone(),
            _ => {
                let mut sum = Places::none();
                for c in checks.iter() {
                    if rng.once_in(3) {
                        sum.add(&Places::of(c));
                    }
                }
                let list: Vec<usize> = (0..n).filter(|p| sum.has(*p)).collect();
                if list.len() > model::MAX_WEIGHT {
                    continue;
                }
                list
            }
        };
        let at = rng.range(0, checks.len());
        checks.insert(at, extra);
    }
    if rng.once_in(3) {
        rng.shuffle(checks);
    }
}

fn shape(rng: &mut Rng) -> (usize, Checks) {
    match rng.below(40) {
        // Small, any weights.
        0..=9 => {
            let n = rng.range(1, 9);
            let m = rng.range(0, 8);
            (n, random_checks(rng, n, m, n))
        }
        10..=15 => {
            let n = rng.range(1, 32);
            let m = rng.range(0, 24);
            let heaviest = rng.range(1, n);
            (n, random_checks(rng, n, m, heaviest))
        }
        16..=19 => {
            let n = rng.range(2, 128);
            let m = rng.range(1, 96);
            let heaviest = rng.range(1, 8);
            (n, random_checks(rng, n, m, heaviest))
        }
        // Regular and staircase.
        20..=23 => {
            let n = rng.range(4, 120);
            let m = rng.range(2, n / 2);
            let column = rng.range(1, 4);
            (n, regular(rng, n, m, column))
        }
        24..=27 => {
            let m = rng.range(1, 60);
            let n = m + rng.range(1, 90);
            let column = rng.range(1, 4);
            (n, staircase(rng, n, m, column))
        }
        // Gaps from 1 to beyond MAX_GAP: dense checks, some with a staircase.
        28..=30 => {
            let dense = rng.range(1, model::MAX_GAP + 12);
            let stairs = rng.range(0, 20);
            let n = dense + stairs + rng.range(1, 24);
            let mut checks: Checks = (0..dense)
                .map(|_| {
                    let weight = rng.range(2, n.min(model::MAX_WEIGHT));
                    rng.some_below(n, weight)
                })
                .collect();
            if stairs > 0 {
                checks.extend(staircase(rng, n, stairs, 2));
            }
            (n, checks)
        }
        31..=33 => {
            let parts = gap_parts();
            let many = rng.range(1, model::MAX_GAP + 4);
            let only = rng.below(parts.len() + 1);
            let chosen: Vec<_> = (0..many)
                .map(|_| {
                    let i = if only < parts.len() { only } else { rng.below(parts.len()) };
                    parts[i].clone()
                })
                .collect();
            side_by_side(&chosen)
        }
        34 => {
            let mut parts = vec![table_b(); near_gap(rng)];
            let n = rng.range(1, 9);
            let m = rng.range(0, 3);
            let heaviest = n.min(3);
            parts.push((n, random_checks(rng, n, m, heaviest)));
            side_by_side(&parts)
        }
        // Large.
        35 => {
            let n = rng.range(128, 1024);
            let m = rng.range(1, 512);
            let heaviest = rng.range(1, 64);
            (n, random_checks(rng, n, m, heaviest))
        }
        36 => {
            let m = rng.range(64, 512);
            let n = rng.range(m + 1, 1024);
            (n, staircase(rng, n, m, 3))
        }
        37 => {
            let n = rng.range(128, 1024);
            let m = rng.range(n / 8, n / 2);
            let column = rng.range(2, 3);
            (n, regular(rng, n, m, column))
        }
        // At the limits: 6,144 ones.
        38 => {
            let n = 1024 - rng.pick(&[0, 0, 1, 5, 500]);
            let weight = rng.pick(&[12, 64]);
            let m = model::MAX_ONES / weight;
            (n, (0..m).map(|_| rng.some_below(n, weight)).collect())
        }
        // No checks, or empty ones only.
        _ => {
            let n = rng.range(1, 1024);
            let m = rng.pick(&[0, 0, 1, 2, 512]);
            (n, vec![Vec::new(); m])
        }
    }
}

/// A packet size: mostly small, at times one round a power of 2, seldom large.
pub fn size(rng: &mut Rng, n: usize) -> usize {
    let s = match rng.below(20) {
        0..=7 => rng.range(1, 4),
        8..=13 => rng.range(1, 40),
        14..=18 => rng.pick(&[7, 8, 9, 15, 16, 17, 31, 32, 33, 63, 64, 65, 127, 128, 129]),
        _ => rng.range(200, 1024),
    };
    if n * s > 40_000 && !rng.once_in(10) {
        (40_000 / n).max(1)
    } else {
        s
    }
}

pub fn table(rng: &mut Rng) -> Table {
    let (n, mut checks) = shape(rng);
    vary(rng, n, &mut checks);
    let checks = within_limits(checks);
    let s = size(rng, n);
    let t = Table { n, s, checks };
    debug_assert_eq!(model::look_over(&words(&t)).as_ref(), Ok(&t));
    t
}

/// Each place in as many checks as is drawn from a list.
fn by_columns(rng: &mut Rng, n: usize, m: usize, columns: &[usize]) -> Checks {
    let mut checks = vec![Vec::new(); m];
    for place in 0..n {
        let column = rng.pick(columns);
        for c in rng.some_below(m, column) {
            checks[c].push(place);
        }
    }
    checks
}

/// Every place in two checks or more, or in three or more, so that some check has
/// to be set aside at once.
fn stuck(rng: &mut Rng, n: usize, m: usize) -> Checks {
    let columns: [&[usize]; 7] =
        [&[2, 3], &[2, 2, 2, 3], &[2, 2, 3, 7], &[2, 4, 5], &[3], &[3, 3, 4], &[3, 5, 9]];
    let columns = rng.pick(&columns);
    by_columns(rng, n, m, columns)
}

fn insert_somewhere(rng: &mut Rng, checks: &mut Checks, check: Vec<usize>) {
    let at = if rng.once_in(3) { 0 } else { rng.range(0, checks.len()) };
    checks.insert(at, check);
}

/// Besides such checks: heavy ones on places that lie in two others already, so that
/// they free none; checks of weight 1; and ones that leave at once, by a place of
/// their own.
fn stuck_with_others(rng: &mut Rng, n: usize, m: usize) -> (usize, Checks) {
    let mut checks = stuck(rng, n, m);
    for _ in 0..rng.pick(&[0, 0, 1, 2, 4]) {
        let weight = rng.range(n / 3, n).clamp(1, model::MAX_WEIGHT);
        let heavy = rng.some_below(n, weight);
        insert_somewhere(rng, &mut checks, heavy);
    }
    for _ in 0..rng.pick(&[0, 0, 0, 1, 2]) {
        let single = vec![rng.below(n)];
        insert_somewhere(rng, &mut checks, single);
    }
    let leaving = rng.pick(&[0, 0, 1, 3, 8]);
    for own in n..n + leaving {
        let weight = rng.range(1, 5);
        let mut check = rng.some_below(n, weight);
        check.push(own);
        insert_somewhere(rng, &mut checks, check);
    }
    (n + leaving, checks)
}

/// A table in which rule 3 has much to choose from.
pub fn gap_table(rng: &mut Rng) -> Table {
    let (n, mut checks) = match rng.below(12) {
        0..=4 => {
            let m = rng.range(3, 12);
            let n = rng.range(3, 3 * m);
            stuck_with_others(rng, n, m)
        }
        5..=7 => {
            let m = rng.range(8, 40);
            let n = rng.range(m, 3 * m);
            stuck_with_others(rng, n, m)
        }
        // Weights up to 64.
        8 => {
            let m = rng.range(4, 12);
            let n = 16 * m + rng.below(9 * m);
            stuck_with_others(rng, n, m)
        }
        // The same again and again, so that all are tied.
        9 | 10 => {
            let m = rng.range(3, 7);
            let n = rng.range(3, 2 * m);
            let part = stuck_with_others(rng, n, m);
            side_by_side(&vec![part; rng.range(2, 12)])
        }
        _ => {
            let m = rng.range(40, 250);
            let n = rng.range(m, 4 * m);
            (n, by_columns(rng, n, m, &[2, 2, 2, 3]))
        }
    };
    vary(rng, n, &mut checks);
    Table { n, s: size(rng, n), checks: within_limits(checks) }
}

// Tables of which about MAX_GAP checks are set aside.

fn near_gap(rng: &mut Rng) -> usize {
    rng.range(model::MAX_GAP - 2, model::MAX_GAP + 2)
}

/// Copies of B, and parts of which no check is set aside.
fn copies_among_stairs(rng: &mut Rng) -> (usize, Checks) {
    let mut parts = vec![table_b(); near_gap(rng)];
    for _ in 0..rng.below(4) {
        let m = rng.range(1, 30);
        let n = m + rng.range(1, 40);
        let column = rng.range(1, 3);
        parts.push((n, staircase(rng, n, m, column)));
    }
    rng.shuffle(&mut parts);
    side_by_side(&parts)
}

/// Groups of three checks, of most of which one is set aside. The second also has
/// first places of other groups, so that the inverse has many ones.
fn linked_groups(rng: &mut Rng) -> (usize, Checks) {
    let groups = near_gap(rng) + rng.below(3);
    let seldom = rng.pick(&[3, 6, 12]);
    let mut checks = Vec::new();
    for v in 0..groups {
        let (a, b) = (groups + 2 * v, groups + 2 * v + 1);
        let mut second: Vec<usize> = (0..groups).collect();
        second.retain(|u| *u == v || rng.once_in(seldom));
        second.push(a);
        checks.extend([vec![v, a, b], second, vec![v, b]]);
    }
    (3 * groups + rng.below(3), checks)
}

/// Any checks, of as many ones at each place as make it about so many.
fn dense_checks(rng: &mut Rng) -> (usize, Checks) {
    let (m, column) = rng.pick(&[(46, 7), (36, 9), (32, 12), (28, 15)]);
    let m = m - 2 + rng.below(5);
    let n = rng.range(m, m + m / 2);
    (n, by_columns(rng, n, m, &[column]))
}

/// Groups of four checks that have place 1 in common, after three checks that have to do
/// with all of them. As many are set aside as there are groups, each of two ones; the
/// places from 2 on, one a group, are fitted and lie in three checks; and the inverse has
/// as few zeros as it can. Place 0 carries information.
fn dense_inverse(groups: usize) -> (usize, Checks) {
    let (x, y) = (2 + groups, 3 + groups);
    let (first, second) = (2..2 + groups / 2, 2 + groups / 2..2 + groups);
    let mut checks = vec![
        vec![x, y],
        [0, 1].into_iter().chain(first).chain([x]).collect(),
        second.chain([y]).collect(),
    ];
    for v in 0..groups {
        let fitted = 2 + v;
        let a = 4 + groups + 3 * v;
        let (b, c) = (a + 1, a + 2);
        checks.extend([vec![b, c], vec![1, a, b], vec![fitted, a, c], vec![0, fitted, a]]);
    }
    (4 + 4 * groups, checks)
}

/// These with others besides that have a place of their own: in all as many checks,
/// places and ones as are allowed, and a plan of nearly two steps for each one.
pub fn filled(gap: usize) -> Table {
    let (places, mut checks) = dense_inverse(gap);
    let more = model::MAX_CHECKS - checks.len();
    let ones = model::MAX_ONES - checks.iter().map(|c| c.len()).sum::<usize>();
    let n = model::MAX_PLACES;
    let others = n - more - places;
    for i in 0..more {
        let weight = ones / more + (i < ones % more) as usize;
        let place = |j: usize| places + (i * weight + j) % others;
        let mut check: Vec<usize> = (1..weight).map(place).collect();
        check.sort();
        check.push(n - more + i);
        checks.push(check);
    }
    Table { n, s: 1, checks }
}

pub fn limit_table(rng: &mut Rng) -> Table {
    let (n, mut checks) = match rng.below(4) {
        0 | 1 => copies_among_stairs(rng),
        2 => linked_groups(rng),
        _ => dense_checks(rng),
    };
    match rng.below(4) {
        0 => {}
        1 => vary(rng, n, &mut checks),
        _ => {
            move_places(rng, n, &mut checks);
            rng.shuffle(&mut checks);
        }
    }
    Table { n, s: size(rng, n), checks: within_limits(checks) }
}

/// About half as many checks as places, so that peeling stalls where elimination
/// still decides: regular, staircase, or of any weights.
pub fn half_rate(rng: &mut Rng) -> Table {
    let n = match rng.below(12) {
        0 => 1024,
        1 => rng.range(200, 1023),
        _ => rng.range(8, 160),
    };
    let m = n / 2;
    let mut checks = match rng.below(3) {
        0 => regular(rng, n, m, 3),
        1 => staircase(rng, n, m, 3),
        _ => (0..m)
            .map(|_| {
                let weight = if rng.once_in(16) { 64 } else { rng.range(2, 10) };
                rng.some_below(n, weight)
            })
            .collect(),
    };
    vary(rng, n, &mut checks);
    let s = rng.pick(&[1, 2, 3, 8, 17, 63, 64, 65, 127, 128]);
    Table { n, s: s.min(40_000 / n), checks: within_limits(checks) }
}

/// A table for brute force.
pub fn small_table(rng: &mut Rng, most_places: usize, most_checks: usize) -> Table {
    let n = rng.range(1, most_places);
    let m = rng.range(0, most_checks);
    let heaviest = rng.range(1, n);
    let mut checks = match rng.below(4) {
        0 if n > 3 => regular(rng, n, m.max(2), 2),
        1 if n > m && m > 0 => staircase(rng, n, m, 2),
        _ => random_checks(rng, n, m, heaviest),
    };
    vary(rng, n, &mut checks);
    checks.truncate(most_checks);
    Table { n, s: 1, checks }
}

/// One of which some check is set aside, nearly always.
pub fn small_gap_table(rng: &mut Rng, most_places: usize, most_checks: usize) -> Table {
    let n = rng.range(3, most_places);
    let m = rng.range(3, most_checks);
    let mut checks = stuck(rng, n, m);
    vary(rng, n, &mut checks);
    checks.truncate(most_checks);
    Table { n, s: 1, checks }
}

pub fn words(t: &Table) -> Vec<u16> {
    model::table_words(t.n, t.s, &t.checks)
}

/// A random codeword, by elimination over all checks.
pub fn codeword(rng: &mut Rng, t: &Table) -> Vec<u8> {
    let mut rows: Vec<(usize, Places)> = Vec::new();
    for check in &t.checks {
        let mut row = Places::of(check);
        for (pivot, earlier) in &rows {
            if row.has(*pivot) {
                row.add(earlier);
            }
        }
        if let Some(pivot) = row.lowest() {
            rows.push((pivot, row));
        }
    }
    let mut block = rng.bytes(t.n * t.s);
    // A row has no pivot of an earlier row, so the last is solved first.
    let mut packet = vec![0; t.s];
    for (pivot, row) in rows.iter().rev() {
        packet.fill(0);
        for p in row.ascending().filter(|p| p != pivot) {
            for (a, b) in packet.iter_mut().zip(&block[p * t.s..]) {
                *a ^= b;
            }
        }
        block[pivot * t.s..][..t.s].copy_from_slice(&packet);
    }
    block
}

// ------------------------------------------------------- damaged tables

pub const TABLE_DAMAGES: usize = 22;

/// One damage to a table; a cause of 1 to 4 nearly always.
pub fn damage_table(rng: &mut Rng, w: &mut Vec<u16>, which: usize) {
    let at = |w: &Vec<u16>, i: usize| w.get(i).copied().unwrap_or(0) as usize;
    let m = at(w, 3);
    let first_place = 5 + m;
    match which {
        0 => w.truncate(rng.below(5)),
        1 => set(w, 0, rng.pick(&[0, 1, 3, 4, 258, 512, 65535])),
        2 => set(w, 1, rng.pick(&[0, 1025, 1026, 2048, 65535])),
        3 => set(w, 2, rng.pick(&[0, 1025, 2048, 65535])),
        4 => set(w, 3, rng.pick(&[513, 1024, 65535])),
        // Fewer than 5 + m words.
        5 => w.truncate(rng.range(5, 4 + m.max(1))),
        6 => {
            let more = w.len().saturating_sub(4);
            set(w, 3, (more + rng.below(3)).min(512) as u16);
        }
        // A weight over 64, or another one, alone or with W0 and length in step.
        7 => {
            if m > 0 {
                let c = rng.below(m);
                set(w, 4 + c, rng.pick(&[65, 66, 128, 256, 65535]));
            }
        }
        8 | 9 => {
            if m > 0 && w.len() >= first_place {
                let c = 4 + rng.below(m);
                let more = if which == 8 { 65 - at(w, c).min(65) } else { 1 };
                let heavier = at(w, c) + more;
                set(w, c, heavier as u16);
                let ones = at(w, 4 + m) + more;
                set(w, 4 + m, ones as u16);
                for _ in 0..more {
                    let p = rng.below(at(w, 1).max(1)) as u16;
                    w.push(p);
                }
            }
        }
        10 => {
            if m > 0 {
                let c = 4 + rng.below(m);
                let changed = at(w, c) ^ rng.pick(&[1, 2, 64]);
                set(w, c, changed as u16);
            }
        }
        // W0 wrong.
        11 => {
            let changed = at(w, 4 + m).wrapping_add(rng.pick(&[1, 2, usize::MAX]));
            set(w, 4 + m, changed as u16);
        }
        12 => set(w, 4 + m, rng.pick(&[6145, 6208, 65535])),
        // W0 over 6,144 with weights and length that fit.
        13 => {
            let (n, s) = (rng.range(64, 1024), at(w, 2));
            let mut checks = vec![(0..64).collect::<Vec<usize>>(); 96];
            let extra = rng.range(1, 64);
            checks.push((0..extra).collect());
            *w = model::table_words(n, s, &checks);
        }
        // Weights whose sum is W0 only if it wraps at 16 bits.
        14 => {
            let (n, s) = (at(w, 1), at(w, 2));
            let mut words = vec![2, n as u16, s as u16, 512];
            words.extend(std::iter::repeat(128u16).take(512));
            words.push(0);
            *w = words;
        }
        15 => {
            w.pop();
        }
        16 => w.push(rng.next() as u16 % 1024),
        // Places.
        17 => {
            if w.len() > first_place {
                let i = rng.range(first_place, w.len() - 1);
                let n = at(w, 1);
                set(w, i, rng.pick(&[n, n + 1, 1024, 65535]) as u16);
            }
        }
        18 => {
            if w.len() > first_place {
                let last = w.len() - 1;
                let n = at(w, 1);
                set(w, last, n as u16);
            }
        }
        19 => {
            if w.len() > first_place + 1 {
                let i = rng.range(first_place + 1, w.len() - 1);
                w.swap(i, i - 1);
            }
        }
        20 => {
            if w.len() > first_place + 1 {
                let i = rng.range(first_place + 1, w.len() - 1);
                w[i] = w[i - 1];
            }
        }
        // One place less.
        _ => {
            let n = at(w, 1);
            set(w, 1, n.saturating_sub(1) as u16);
        }
    }
}

fn set(w: &mut [u16], i: usize, value: u16) {
    if let Some(word) = w.get_mut(i) {
        *word = value;
    }
}

/// A length near the right one, but another.
pub fn wrong_length(rng: &mut Rng, right: usize) -> usize {
    match rng.below(6) {
        0 if right > 0 => right - 1,
        1 if right > 0 => 0,
        2 => 2 * right + 1,
        3 if right > 1 => right / 2,
        _ => right + 1,
    }
}

// ------------------------------------------------------------------ plans

/// A plan of these counts, well-formed but for the limits that they pass. It need not
/// make sense.
pub fn plan_of(rng: &mut Rng, n: usize, g: usize, kept: usize, count: usize) -> model::Plan {
    let information = rng.some_below(n, n - kept);
    let written: Vec<usize> =
        (0..n + g).filter(|slot| information.binary_search(slot).is_err()).collect();
    let mut steps = Vec::new();
    while steps.len() < count && !written.is_empty() {
        let to = rng.pick(&written);
        let from = rng.below(n + g);
        if rng.once_in(5) || from == to {
            steps.push(Step::Clear(to));
        } else {
            steps.push(Step::Add { to, from });
        }
    }
    model::Plan { n, g, kept, information, steps }
}

/// One that is well-formed.
pub fn foreign_plan(rng: &mut Rng) -> model::Plan {
    let n = match rng.below(8) {
        0..=3 => rng.range(1, 6),
        4..=6 => rng.range(1, 60),
        _ => rng.range(60, 1024),
    };
    let kept = match rng.below(4) {
        0 => 0,
        1 => n.min(512),
        _ => rng.range(0, n.min(512)),
    };
    let most_gap = kept.min(model::MAX_GAP);
    let g = if rng.once_in(4) { most_gap } else { rng.range(0, most_gap) };
    let most = match rng.below(12) {
        0..=8 => 40,
        9 | 10 => 400,
        _ => model::MAX_STEPS,
    };
    let count = if most == model::MAX_STEPS && rng.once_in(2) { most } else { rng.below(most) };
    plan_of(rng, n, g, kept, count)
}

/// Beyond a limit: just so, or as far as was allowed before, or farther.
fn beyond(rng: &mut Rng, limit: usize, old: usize) -> usize {
    rng.pick(&[limit + 1, limit + 1, limit + 2, old, old + 1])
}

fn beyond_gap(rng: &mut Rng) -> usize {
    beyond(rng, model::MAX_GAP, model::OLD_MAX_GAP)
}

fn beyond_steps(rng: &mut Rng) -> usize {
    beyond(rng, model::MAX_STEPS, model::OLD_MAX_STEPS)
}

/// A plan with g near its limit, or the steps, or both: within, at or beyond them.
pub fn limit_plan(rng: &mut Rng) -> model::Plan {
    let g = match rng.below(4) {
        0 => rng.range(0, model::MAX_GAP),
        1 => model::MAX_GAP,
        2 => beyond_gap(rng),
        _ => near_gap(rng),
    };
    let count = match rng.below(16) {
        0 => beyond_steps(rng),
        1 => model::MAX_STEPS,
        2 => model::MAX_STEPS - 1,
        _ => rng.below(60),
    };
    let kept = g.max(1) + rng.below(20);
    let n = kept + rng.below(20);
    plan_of(rng, n, g, kept, count)
}

/// A packet size for a plan that may have many steps.
pub fn foreign_size(rng: &mut Rng, n: usize) -> usize {
    size(rng, n).min(4000 / n + 1)
}

pub fn words_of_plan(p: &model::Plan) -> Vec<u32> {
    model::plan_words(p.n, p.g, p.kept, &p.information, &p.steps)
}

/// The same plan as it was laid out when it had a size: 4, n, s, g, M.
pub fn old_layout(words: &[u32], s: usize) -> Vec<u32> {
    let mut old = words.to_vec();
    old[0] = 4;
    old.insert(2, s as u32);
    old
}

pub const PLAN_DAMAGES: usize = 31;

/// One damage to a plan; a cause of 9 nearly always.
pub fn damage_plan(rng: &mut Rng, w: &mut Vec<u32>, which: usize) {
    let at = |w: &Vec<u32>, i: usize| w.get(i).copied().unwrap_or(0) as usize;
    let (n, g, kept) = (at(w, 1), at(w, 2), at(w, 3));
    let info = at(w, 4).min(2000);
    let count_at = 5 + info;
    let first_step = 6 + info;
    let step_at = |rng: &mut Rng, w: &Vec<u32>| {
        if w.len() > first_step { Some(rng.range(first_step, w.len() - 1)) } else { None }
    };
    let put = |w: &mut Vec<u32>, i: usize, value: usize| {
        if let Some(word) = w.get_mut(i) {
            *word = value as u32;
        }
    };
    let number = |kind: usize, to: usize, from: usize| kind * 16_777_216 + to * 4_096 + from;
    // A whole plan with counts of its own.
    let whole = |n: usize, g: usize, kept: usize, info: usize, steps: usize| {
        let mut words = vec![3, n as u32, g as u32, kept as u32, info as u32];
        words.extend(0..info as u32);
        words.push(steps as u32);
        words.extend(vec![(n as u32).wrapping_sub(1).wrapping_mul(4_096) & 0xfff_fff; steps]);
        words
    };
    let max = u32::MAX as usize;
    match which {
        0 => w.truncate(rng.below(7)),
        1 => put(w, 0, rng.pick(&[0, 1, 2, 4, 5, max])),
        2 => put(w, 1, rng.pick(&[0, n + 1, n.wrapping_sub(1), 1025, 4096, max])),
        // The old layout, with its own first word or with the new one.
        3 | 4 => {
            if w.len() > 3 {
                let first = w[0];
                *w = old_layout(w, rng.pick(&[1, 2, 64, 1024]));
                if which == 4 {
                    w[0] = first;
                }
            }
        }
        5 => {
            let g = beyond_gap(rng);
            put(w, 2, rng.pick(&[g, g, kept + 1, 64, max]));
        }
        6 => put(w, 3, rng.pick(&[kept + 1, kept.wrapping_sub(1), n + 1, 513, max])),
        7 => put(w, 4, rng.pick(&[info + 1, info.wrapping_sub(1), 0, max, max - 5, 1 << 31])),
        8 => {
            let steps = beyond_steps(rng);
            put(w, count_at, rng.pick(&[0, steps, max, max - 6, 1 << 31]));
        }
        9 => {
            let count = at(w, count_at);
            put(w, count_at, rng.pick(&[count + 1, count.wrapping_sub(1)]));
        }
        10 => {
            w.pop();
        }
        11 => w.push(number(0, n + g - (n > 0) as usize, 0) as u32),
        // One word of the first section less.
        12 => {
            if w.len() > 3 {
                w.remove(rng.range(0, 3));
            }
        }
        // Wholes with one limit passed.
        13 => *w = whole(1025, 0, 1, 1024, 1),
        14 => *w = whole(40, beyond_gap(rng), 40, 0, 3),
        15 => *w = whole(9, 3, 2, 7, 2),
        16 => *w = whole(600, 0, 513, 87, 2),
        17 => *w = whole(3, 0, 1, 2, beyond_steps(rng)),
        18 => {
            *w = whole(3, 0, 4, 0, 1);
            put(w, 4, rng.pick(&[0, max]));
        }
        19 => *w = whole(0, 0, 0, 0, 0),
        // Information places.
        20 => {
            if info > 0 {
                put(w, 5 + rng.below(info), rng.pick(&[n, n + 1, n + g, 4096, max]));
            }
        }
        21 => {
            if info > 1 && w.len() >= 6 + info {
                let i = 5 + rng.below(info - 1);
                w.swap(i, i + 1);
            }
        }
        22 => {
            if info > 1 {
                let i = 5 + rng.below(info - 1);
                put(w, i + 1, at(w, i));
            }
        }
        23 => {
            if info > 0 {
                put(w, 4 + info, n);
            }
        }
        // Steps.
        24 => {
            if let Some(i) = step_at(rng, w) {
                let rest = at(w, i) % 16_777_216;
                put(w, i, rng.pick(&[2, 3, 16, 128, 255]) * 16_777_216 + rest);
            }
        }
        25 => {
            if let Some(i) = step_at(rng, w) {
                let kind = rng.below(2);
                put(w, i, number(kind, rng.pick(&[n + g, n + g + 1, 4095]) & 4095, 0));
            }
        }
        26 => {
            if let Some(i) = step_at(rng, w) {
                let to = at(w, i) % 16_777_216 / 4_096;
                put(w, i, number(1, to, rng.pick(&[n + g, n + g + 1, 4095]) & 4095));
            }
        }
        27 => {
            if let Some(i) = step_at(rng, w) {
                let to = at(w, i) % 16_777_216 / 4_096;
                put(w, i, number(0, to, rng.pick(&[1, 2, n + g, 4095]) & 4095));
            }
        }
        28 => {
            if let Some(i) = step_at(rng, w) {
                let to = at(w, i) % 16_777_216 / 4_096;
                put(w, i, number(1, to, to));
            }
        }
        29 => {
            if let Some(i) = step_at(rng, w) {
                if info > 0 {
                    let place = at(w, 5 + rng.below(info)) & 4095;
                    let from = if place == 0 { 1 } else { 0 };
                    let kind = rng.below(2);
                    put(w, i, number(kind, place, if kind == 1 { from } else { 0 }));
                }
            }
        }
        // Any word to anything.
        _ => {
            if !w.is_empty() {
                let i = rng.below(w.len());
                let value = rng.next() >> rng.pick(&[0, 8, 16, 20, 24, 30]);
                put(w, i, value as u32 as usize);
            }
        }
    }
}
