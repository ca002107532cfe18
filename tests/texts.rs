//! Alist texts of any kind: put together, given another form, damaged.
//!
//! A text is put together in three stages, so that each of them can be damaged:
//! lists of entries, which may disagree; lines of numbers, with sizes, weights
//! and padding; bytes.

use crate::gen::{self, Rng};
use crate::model;

// ------------------------------------------------------------------ lists

/// Entries from 1: the rows of each column, the columns of each row.
#[derive(Clone)]
pub struct Lists {
    pub columns: Vec<Vec<usize>>,
    pub rows: Vec<Vec<usize>>,
}

impl Lists {
    pub fn of(n: usize, checks: &[Vec<usize>]) -> Self {
        let mut lists = Lists { columns: vec![vec![]; n], rows: vec![vec![]; checks.len()] };
        for (check, places) in checks.iter().enumerate() {
            for place in places {
                lists.columns[*place].push(check + 1);
                lists.rows[check].push(place + 1);
            }
        }
        lists
    }
    /// Puts a one into its column's list, or takes it out.
    pub fn flip_in_column(&mut self, row: usize, column: usize) {
        flip(&mut self.columns[column - 1], row);
    }
    /// The same in its row's list.
    pub fn flip_in_row(&mut self, row: usize, column: usize) {
        flip(&mut self.rows[row - 1], column);
    }
    pub fn shuffle(&mut self, rng: &mut Rng) {
        self.columns.iter_mut().chain(&mut self.rows).for_each(|list| rng.shuffle(list));
    }
    pub fn text(&self) -> Vec<u8> {
        Lines::of(self).text()
    }
    /// The lists of columns or of rows, and what their entries are at most.
    fn side(&mut self, side: usize) -> (&mut Vec<Vec<usize>>, usize) {
        let most = [self.rows.len(), self.columns.len()][side];
        ([&mut self.columns, &mut self.rows][side], most)
    }
}

fn flip(list: &mut Vec<usize>, entry: usize) {
    match list.iter().position(|other| *other == entry) {
        Some(at) => _ = list.remove(at),
        None => list.push(entry),
    }
}

/// Lists that agree, with about so many entries.
fn sparse(rng: &mut Rng, n: usize, m: usize, entries: usize) -> Lists {
    let mut lists = Lists::of(n, &vec![vec![]; m]);
    if n > 0 && m > 0 {
        for _ in 0..entries {
            let (row, column) = (rng.range(1, m), rng.range(1, n));
            lists.flip_in_row(row, column);
            lists.flip_in_column(row, column);
        }
    }
    lists
}

/// Lists that agree: of a table, or of a matrix at or beyond some limit.
pub fn any_lists(rng: &mut Rng) -> Lists {
    let (n, m, entries) = match rng.below(24) {
        0..=9 => (rng.range(0, 8), rng.range(0, 8), rng.below(24)),
        10..=14 => (rng.range(1, 60), rng.range(0, 40), rng.below(200)),
        15 => (rng.range(1020, 1028), rng.range(0, 20), 100),
        16 => (rng.range(1, 20), rng.range(510, 516), 100),
        17 => (rng.range(1, 2200), rng.range(1, 2200), 300),
        // Rows of about 64 ones.
        18 => {
            let weight = rng.range(62, 67);
            let n = rng.range(weight, 200);
            let m = rng.range(1, 4);
            let checks: Vec<_> = (0..m).map(|_| rng.some_below(n, weight)).collect();
            return Lists::of(n, &checks);
        }
        // About 6,144 ones.
        19 => {
            let weight = rng.pick(&[16, 48, 64]);
            let n = rng.range(500, 1024);
            let m = model::MAX_ONES / weight;
            let mut checks: Vec<_> = (0..m).map(|_| rng.some_below(n, weight)).collect();
            checks.push((0..rng.below(3)).collect());
            return Lists::of(n, &checks);
        }
        _ => {
            let t = gen::table(rng);
            return Lists::of(t.n, &t.checks);
        }
    };
    sparse(rng, n, m, entries)
}

/// One damage to the lists, or a change that both sides take part in.
pub fn damage_lists(rng: &mut Rng, l: &mut Lists) {
    let (n, m) = (l.columns.len(), l.rows.len());
    if n == 0 || m == 0 {
        return;
    }
    let (row, column) = (rng.range(1, m), rng.range(1, n));
    let (lists, most) = l.side(rng.below(2));
    // Rather lists that have entries.
    let mut pick = || {
        let tries: Vec<usize> = (0..5).map(|_| rng.below(lists.len())).collect();
        tries.iter().copied().find(|i| !lists[*i].is_empty()).unwrap_or(tries[0])
    };
    let (one, other) = (pick(), pick());
    let weight = lists[one].len();
    match rng.below(12) {
        // One side only.
        0 => l.flip_in_row(row, column),
        1 => l.flip_in_column(row, column),
        2 | 3 => {
            l.flip_in_row(row, column);
            l.flip_in_column(row, column);
        }
        4 => _ = lists[one].pop(),
        // An entry moved, on one side only.
        5 | 6 if weight > 0 => {
            let at = rng.below(weight);
            let to = lists[one][at] + rng.pick(&[1, 64, 512, 1024, most - 1]) + rng.below(2);
            lists[one][at] = (to - 1) % most + 1;
        }
        // Entries exchanged between two lists of one side: no weight changes.
        7 => {
            if let (Some(entry), Some(back)) = (lists[one].pop(), lists[other].pop()) {
                lists[one].push(back);
                lists[other].push(entry);
            }
        }
        8 => lists.swap(one, other),
        // Repeated in its list, or outside its range.
        9 if weight > 0 => {
            let entry = lists[one][rng.below(weight)];
            lists[one].push(entry);
        }
        10 => {
            let entry = rng.pick(&[0, most + 1, most + 2, 65_537, 999_999]);
            lists[one].insert(rng.range(0, weight), entry);
        }
        // An empty list more: the matrix grows.
        _ => lists.push(vec![]),
    }
}

// ------------------------------------------------------------------ lines

/// Columns and rows, as they follow one another in a text.
pub const COLUMNS: usize = 0;
pub const ROWS: usize = 1;

/// Numbers by line: sizes, greatest weights, weights of the columns and of the
/// rows, then the list of each column and of each row.
#[derive(Clone)]
pub struct Lines {
    pub all: Vec<Vec<usize>>,
    n: usize,
}

impl Lines {
    /// With sizes, weights and padding as they should be.
    pub fn of(l: &Lists) -> Self {
        let weights = |lists: &[Vec<usize>]| lists.iter().map(|list| list.len()).collect();
        let weights: [Vec<usize>; 2] = [weights(&l.columns), weights(&l.rows)];
        let greatest = |side: usize| weights[side].iter().copied().max().unwrap_or(0);
        let [a, b] = [greatest(COLUMNS), greatest(ROWS)];
        let n = l.columns.len();
        let mut all = vec![vec![n, l.rows.len()], vec![a, b]];
        all.extend(weights);
        for (lists, width) in [(&l.columns, a), (&l.rows, b)] {
            for list in lists {
                let mut line = list.clone();
                line.resize(width, 0);
                all.push(line);
            }
        }
        Lines { all, n }
    }
    /// The lists of columns or of rows, each with its padding.
    pub fn lists(&mut self, side: usize) -> &mut [Vec<usize>] {
        let (columns, rows) = self.all[4..].split_at_mut(self.n);
        [columns, rows][side]
    }
    /// The first list of which weight and greatest weight are such.
    pub fn list_where(
        &mut self,
        side: usize,
        such: impl Fn(usize, usize) -> bool,
    ) -> &mut Vec<usize> {
        let greatest = self.all[1][side];
        let at = self.all[2 + side].iter().position(|weight| such(*weight, greatest)).unwrap();
        &mut self.lists(side)[at]
    }
    /// A greatest weight one higher, and a 0 more in each list.
    pub fn widen(&mut self, side: usize) {
        self.all[1].iter_mut().skip(side).take(1).for_each(|greatest| *greatest += 1);
        self.lists(side).iter_mut().for_each(|list| list.push(0));
    }
    /// A greatest weight one lower, and the last number of each list left out.
    pub fn narrow(&mut self, side: usize) {
        self.all[1][side] -= 1;
        self.lists(side).iter_mut().for_each(|list| _ = list.pop());
    }
    /// The bytes, with so much between numbers and behind each line.
    pub fn text_with(&self, between: &str, behind: &str) -> Vec<u8> {
        let mut text = String::new();
        for line in &self.all {
            let words: Vec<String> = line.iter().map(|number| number.to_string()).collect();
            text += &words.join(between);
            text += behind;
        }
        text.into_bytes()
    }
    pub fn text(&self) -> Vec<u8> {
        self.text_with(" ", "\n")
    }
}

/// A number beside another, or one that means something elsewhere.
fn other_number(rng: &mut Rng, number: usize, l: &Lists) -> usize {
    let (n, m) = (l.columns.len(), l.rows.len());
    match rng.below(7) {
        0 => rng.pick(&[0, 1, 2, 999_999, 1_000_000]),
        1 => rng.pick(&[n, n + 1, m, m + 1]),
        2 => number + 1,
        3 => number.saturating_sub(1),
        4 => number + rng.pick(&[64, 256, 512, 1024, 65_536]),
        5 => rng.below(n.max(m) + 2),
        _ => rng.below(1_000_000),
    }
}

/// One damage to the lines of some lists.
pub fn damage_lines(rng: &mut Rng, l: &Lists, lines: &mut Lines) {
    let all = &mut lines.all;
    let one = if rng.once_in(3) { rng.below(4) } else { rng.below(all.len()) };
    let other = rng.below(all.len());
    let at = rng.below(all[one].len().max(1));
    match rng.below(14) {
        // A number changed, put in, taken out.
        0..=2 if !all[one].is_empty() => all[one][at] = other_number(rng, all[one][at], l),
        3 => {
            let number = other_number(rng, 0, l);
            all[one].insert(at, number);
        }
        4 if !all[one].is_empty() => _ = all[one].remove(at),
        // Two numbers exchanged.
        5 if !all[one].is_empty() && !all[other].is_empty() => {
            let with = rng.below(all[other].len());
            let number = all[one][at];
            all[one][at] = all[other][with];
            all[other][with] = number;
        }
        // A line missing, doubled, at another's place, turned round.
        6 => all[one].clear(),
        7 => all[one].extend_from_within(..),
        8 => all.swap(one, other),
        9 => all[other].reverse(),
        // A greatest weight that nobody has, with lists that fit it.
        10 => lines.widen(rng.below(2)),
        // A weight more or less, with its list in step.
        11 | 12 => change_weight(rng, l, lines),
        // Columns and rows exchanged: another matrix, or only half of it done.
        _ => {
            all[0].reverse();
            if rng.once_in(2) {
                all[1].reverse();
                all.swap(2, 3);
                all[4..].rotate_left(l.columns.len());
            }
        }
    }
}

fn change_weight(rng: &mut Rng, l: &Lists, lines: &mut Lines) {
    let side = rng.below(2);
    let most = [l.rows.len(), l.columns.len()][side].max(1);
    let lists = lines.lists(side);
    let at = rng.below(lists.len().max(1));
    let Some(list) = lists.get_mut(at) else { return };
    let mut weight = list.iter().filter(|number| **number > 0).count();
    if weight < list.len() {
        list[weight] = rng.range(1, most);
        weight += 1;
    } else if weight > 0 {
        weight -= 1;
        list[weight] = 0;
    }
    lines.all[2 + side].iter_mut().skip(at).take(1).for_each(|told| *told = weight);
}

// ------------------------------------------------------------------ bytes

/// A text spelled with / for each line end.
pub fn spelled(text: &str) -> Vec<u8> {
    text.replace('/', "\n").into_bytes()
}

/// The text of some lines in any form: what is read is the same.
pub fn any_form(rng: &mut Rng, lines: &Lines) -> Vec<u8> {
    let mut text = lines.text();
    match rng.below(10) {
        0 => lines.text_with(" ", "\r\n"),
        1 => lines.text_with(" ", " "),
        2 => lines.text_with("\n", "\n"),
        3 => lines.text_with("  \r\n ", "\n\n"),
        4 => {
            text.pop();
            text
        }
        5 => [b" \r\n\n ", &text[..], b"\r"].concat(),
        6 => {
            text.clear();
            for number in lines.all.iter().flatten() {
                let width = rng.range(1, 6);
                text.extend(format!("{number:0width$}").bytes());
                text.push(rng.pick(b" \n\r"));
            }
            text
        }
        _ => text,
    }
}

/// One damage to the bytes.
pub fn damage_text(rng: &mut Rng, text: &mut Vec<u8>) {
    let byte = match rng.below(4) {
        0 => rng.next() as u8,
        1 => rng.pick(b"0123456789"),
        2 => rng.pick(b" \n\r"),
        _ => rng.pick(b"\t\0\x0b\x0c+-./:,;aAxe\x1f\x21\x7f\x80\xa0\xb1\xff"),
    };
    if text.is_empty() {
        return text.push(byte);
    }
    let at = rng.below(text.len());
    match rng.below(10) {
        0..=2 => text[at] = byte,
        3 | 4 => text.insert(at, byte),
        5 => _ = text.remove(at),
        6 => text.truncate(at),
        7 => text.push(byte),
        8 if at > 0 => text.swap(at - 1, at),
        _ => text.extend_from_within(at..),
    }
}
