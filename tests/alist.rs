//! Alist texts in the comparison of tables: reading and writing.

use crate::gen::{self, Rng};
use crate::harness::{bare, holds, same, Lent, Run};
use crate::model::{self, Made, Table, MAX_CHECKS, MAX_PLACES, TABLE_BUFFER};
use crate::texts::{any_form, any_lists, spelled, Lines, Lists, COLUMNS, ROWS};
use crate::texts::{damage_lines, damage_lists, damage_text};
use crate::{any_size, buffer, noise, odd_length, odd_number, SIZES};
use std::hint::black_box;
use std::time::{Duration, Instant};

#[link(name = "tables", kind = "static")]
extern "C" {
    fn bs_alist_read(
        text: *const u8,
        text_len: usize,
        size: usize,
        table: *mut u16,
        table_len: usize,
    ) -> Made;
    fn bs_alist_write(table: *const u16, table_len: usize, text: *mut u8, text_len: usize) -> Made;
}

// ----------------------------------------------------- one call, both ways

/// What went wrong with a text, of which the start is told.
fn told(text: &[u8], what: String) -> String {
    let start = text[..text.len().min(80)].escape_ascii();
    format!("text of {} bytes, {start}: {what}", text.len())
}

/// The library's answer and table, if they are the model's.
fn read_into(
    rng: &mut Rng,
    text: &[u8],
    size: usize,
    before: &[u16],
) -> Result<(Made, Vec<u16>), String> {
    let told = |what: String| told(text, format!("size {size}: {what}"));
    let lent_text = Lent::new(rng, text);
    let mut lent = Lent::new(rng, before);
    let answer = unsafe {
        bs_alist_read(lent_text.ptr(), lent_text.len(), size, lent.mut_ptr(), lent.len())
    };
    let mut table = before.to_vec();
    let expected = model::alist_read(text, size, &mut table);
    same("reading", &answer, &expected).map_err(told)?;
    lent.holds("reading, table", &table).map_err(told)?;
    lent_text.kept("reading, text").map_err(told)?;
    if answer.refusal != 0 {
        same("length", &answer.length, &0).map_err(told)?;
        lent.kept("reading, refused").map_err(told)?;
    }
    Ok((answer, table))
}

/// One reading into a buffer of some length, full of anything.
fn read_with(rng: &mut Rng, text: &[u8], size: usize, len: usize) -> Result<Made, String> {
    let before = buffer(rng, len);
    read_into(rng, text, size, &before).map(|(answer, _)| answer)
}

/// The library's answer and text, if they are the model's.
fn write_into(rng: &mut Rng, table: &[u16], before: &[u8]) -> Result<(Made, Vec<u8>), String> {
    let told = |what: String| {
        let start = &table[..table.len().min(24)];
        format!("table of {}, {start:?}, text buffer of {}: {what}", table.len(), before.len())
    };
    let lent_table = Lent::new(rng, table);
    let mut lent = Lent::new(rng, before);
    let answer =
        unsafe { bs_alist_write(lent_table.ptr(), lent_table.len(), lent.mut_ptr(), lent.len()) };
    let mut text = before.to_vec();
    let expected = model::alist_write(table, &mut text);
    same("writing", &answer, &expected).map_err(told)?;
    lent.holds("writing, text", &text).map_err(told)?;
    lent_table.kept("writing, table").map_err(told)?;
    if answer.refusal != 0 {
        same("length", &answer.length, &0).map_err(told)?;
        lent.kept("writing, refused").map_err(told)?;
    }
    Ok((answer, text))
}

/// One writing into a buffer of some length, full of anything.
fn write_with(rng: &mut Rng, table: &[u16], len: usize) -> Result<(Made, Vec<u8>), String> {
    let before = match rng.below(4) {
        0 => vec![0; len],
        1 => vec![b' '; len],
        _ => rng.bytes(len),
    };
    write_into(rng, table, &before)
}

// ----------------------------------------------------------- random cases

fn any_read_size(rng: &mut Rng) -> usize {
    if rng.once_in(12) {
        odd_number(rng, 64)
    } else {
        any_size(rng)
    }
}

/// A text read, whole or damaged at each of its stages.
fn read_case(rng: &mut Rng) -> Result<(), String> {
    let mut l = any_lists(rng);
    if rng.once_in(2) {
        l.shuffle(rng);
    }
    let many = rng.pick(&[1, 1, 1, 2, 3]);
    if rng.below(3) < 2 {
        (0..many).for_each(|_| damage_lists(rng, &mut l));
    }
    let mut lines = Lines::of(&l);
    if rng.once_in(4) {
        (0..many).for_each(|_| damage_lines(rng, &l, &mut lines));
    }
    let mut text = any_form(rng, &lines);
    if rng.once_in(4) {
        (0..many).for_each(|_| damage_text(rng, &mut text));
    }
    let size = any_read_size(rng);
    let len = if rng.once_in(12) { odd_length(rng) } else { TABLE_BUFFER };
    read_with(rng, &text, size, len).map(|_| ())
}

/// Bytes that are no text of a matrix: digits and gaps, seldom something else.
fn babble_case(rng: &mut Rng) -> Result<(), String> {
    let len = rng.below(60);
    let mut text: Vec<u8> = (0..len).map(|_| rng.pick(b"0012 \n 1 \r 0 1 2 ")).collect();
    if rng.once_in(4) {
        damage_text(rng, &mut text);
    }
    let size = any_read_size(rng);
    read_with(rng, &text, size, TABLE_BUFFER).map(|_| ())
}

/// The text of a table through the library, into a buffer that is longer or not.
fn written(rng: &mut Rng, t: &Table) -> Result<Vec<u8>, String> {
    let words = gen::words(t);
    let long = model::alist_text(t).len();
    let more = rng.pick(&[0, 0, 1, 7, 1000]);
    let (answer, mut text) = write_with(rng, &words, long + more)?;
    same("answer", &answer, &Made { refusal: 0, length: long as u32 })?;
    text.truncate(long);
    Ok(text)
}

/// The table of a text through the library.
fn read_again(rng: &mut Rng, text: &[u8], size: usize) -> Result<Vec<u16>, String> {
    let before = buffer(rng, TABLE_BUFFER);
    let (answer, mut table) = read_into(rng, text, size, &before)?;
    same("refusal", &answer.refusal, &0)?;
    table.truncate(answer.length as usize);
    Ok(table)
}

/// Written out and read again, also from a text with its lists in any order.
fn round_trip(rng: &mut Rng, t: &Table) -> Result<(), String> {
    let text = written(rng, t)?;
    holds("the same table", read_again(rng, &text, t.s)? == gen::words(t))?;
    let mut l = Lists::of(t.n, &t.checks);
    holds("the same text, put together here", l.text() == text)?;
    l.shuffle(rng);
    let shuffled = any_form(rng, &Lines::of(&l));
    holds("the same table, unsorted", read_again(rng, &shuffled, t.s)? == gen::words(t))
}

/// A table of any shape, with any size of packets.
fn any_table(rng: &mut Rng) -> Table {
    let mut t = gen::table(rng);
    t.s = any_size(rng);
    t
}

/// A damaged table is written.
fn write_damaged(rng: &mut Rng) -> Result<(), String> {
    let t = any_table(rng);
    let mut words = gen::words(&t);
    for _ in 0..rng.pick(&[1, 1, 1, 2]) {
        let which = rng.below(gen::TABLE_DAMAGES);
        gen::damage_table(rng, &mut words, which);
    }
    let long = model::look_over(&words).map_or(100, |t| model::alist_text(&t).len());
    let len = if rng.once_in(4) { rng.below(long + 1) } else { long + rng.below(3) };
    write_with(rng, &words, len).map(|_| ())
}

/// Buffers of about the text's length.
fn write_lengths(rng: &mut Rng) -> Result<(), String> {
    let t = any_table(rng);
    let words = gen::words(&t);
    let long = model::alist_text(&t).len();
    for (len, refusal) in [(long, 0), (long - 1, 5), (long + 1, 0), (rng.below(long), 5), (0, 5)] {
        let (answer, _) = write_with(rng, &words, len)?;
        same(&format!("refusal with {len} of {long}"), &answer.refusal, &refusal)?;
    }
    Ok(())
}

pub fn random_case(rng: &mut Rng, number: u64) -> Result<(), String> {
    match number % 16 {
        0..=1 => {
            let t = any_table(rng);
            round_trip(rng, &t)
        }
        2 => write_lengths(rng),
        3..=4 => write_damaged(rng),
        5 => babble_case(rng),
        _ => read_case(rng),
    }
}

// ------------------------------------------------------ texts and tables

/// Texts with their tables, both written out by hand: of document 01 A, B, P7,
/// P9 and P10; a place in no check and an empty check; empty checks only.
const KNOWN: [(&str, &str, &[u16]); 7] = [
    (
        "table A",
        "7 3/3 4/1 1 2 1 2 2 3/4 4 4/1 0 0/2 0 0/1 2 0/3 0 0/1 3 0/2 3 0/1 2 3/1 3 5 7/2 3 6 7/4 5 6 7/",
        &[2, 7, 1, 3, 4, 4, 4, 12, 0, 2, 4, 6, 1, 2, 5, 6, 3, 4, 5, 6],
    ),
    (
        "table B",
        "4 3/3 3/3 2 2 2/3 3 3/1 2 3/1 2 0/1 3 0/2 3 0/1 2 3/1 2 4/1 3 4/",
        &[2, 4, 1, 3, 3, 3, 3, 9, 0, 1, 2, 0, 1, 3, 0, 2, 3],
    ),
    (
        "P7's table",
        "7 4/3 4/2 2 2 1 3 3 3/4 4 4 4/1 4 0/2 4 0/1 2 0/3 0 0/1 3 4/2 3 4/1 2 3/\
         1 3 5 7/2 3 6 7/4 5 6 7/1 2 5 6/",
        &[2, 7, 1, 4, 4, 4, 4, 4, 16, 0, 2, 4, 6, 1, 2, 5, 6, 3, 4, 5, 6, 0, 1, 4, 5],
    ),
    ("P9's table", "1 1/1 1/1/1/1/1/", &[2, 1, 1, 1, 1, 1, 0]),
    ("P10's table", "3 0/0 0/0 0 0/////", &[2, 3, 1, 0, 0]),
    (
        "a place in no check, an empty check",
        "3 3/2 2/2 0 1/2 0 1/1 3/0 0/1 0/1 3/0 0/1 0/",
        &[2, 3, 1, 3, 2, 0, 1, 3, 0, 2, 0],
    ),
    ("empty checks only", "2 3/0 0/0 0/0 0 0//////", &[2, 2, 1, 3, 0, 0, 0, 0]),
];

/// The text gives the table, the table the text, and what is behind them stays.
fn known(spelling: &str, words: &[u16]) -> Result<(), String> {
    let rng = &mut Rng::new(0, 0);
    let text = spelled(spelling);
    let before = noise(rng, TABLE_BUFFER);
    let (answer, table) = read_into(rng, &text, 1, &before)?;
    same("read", &answer, &Made { refusal: 0, length: words.len() as u32 })?;
    same("table", &table[..words.len()].to_vec(), &words.to_vec())?;
    holds("rest of the table's buffer", table[words.len()..] == before[words.len()..])?;
    for more in [0, 1, 100] {
        let before = rng.bytes(text.len() + more);
        let (answer, full) = write_into(rng, words, &before)?;
        same("written", &answer, &Made { refusal: 0, length: text.len() as u32 })?;
        let (front, rest) = full.split_at(text.len());
        holds("text", front == text)?;
        holds("rest of the text's buffer", rest == &before[text.len()..])?;
    }
    let shorter = rng.bytes(text.len() - 1);
    same("one shorter", &write_into(rng, words, &shorter)?.0, &Made::refused(5))?;
    same("none", &write_into(rng, words, &[])?.0, &Made::refused(5))
}

/// Other texts of the table of three places and two checks: 0 1 and 0 2.
const THREE: &str = "3 2/2 2/2 1 1/2 2/1 2/1 0/2 0/1 2/1 3/";

fn forms() -> Vec<(&'static str, Vec<u8>)> {
    let plain = spelled(THREE);
    let each = |from: &str, to: &str| THREE.replace('/', "\n").replace(from, to).into_bytes();
    let digits = |width: usize| {
        let words = THREE.replace('/', " ");
        let words: Vec<String> =
            words.split_whitespace().map(|w| format!("{w:0>width$}")).collect();
        words.join(" ").into_bytes()
    };
    let with = |front: &str, behind: &str| [front.as_bytes(), &plain, behind.as_bytes()].concat();
    vec![
        ("as it is written", plain.clone()),
        ("no line feed at the end", plain[..plain.len() - 1].to_vec()),
        ("line ends 0d 0a", each("\n", "\r\n")),
        ("line ends 0d", each("\n", "\r")),
        ("line ends 0a 0d", each("\n", "\n\r")),
        ("all in one line", each("\n", " ")),
        ("all in one line, blank at the end cut", each("\n", " ")[..plain.len() - 1].to_vec()),
        ("each number in its line", each(" ", "\n")),
        ("0d between numbers", each(" ", "\r")),
        ("many blanks", each(" ", "    ")),
        ("empty lines", each("\n", "\n\n\r\n")),
        ("blanks before line ends", each("\n", " \n")),
        ("blanks at the lines' start", each("\n", "\n  ")),
        ("blanks in front", with("  ", "")),
        ("lines in front", with("\r\n\n", "")),
        ("blanks behind", with("", "   ")),
        ("lines behind", with("", "\n\n\r\n")),
        ("two digits", digits(2)),
        ("five digits", digits(5)),
        ("six digits", digits(6)),
        ("a column's list unsorted", spelled("3 2/2 2/2 1 1/2 2/2 1/1 0/2 0/1 2/1 3/")),
        ("a row's list unsorted", spelled("3 2/2 2/2 1 1/2 2/1 2/1 0/2 0/1 2/3 1/")),
        ("all lists unsorted", spelled("3 2/2 2/2 1 1/2 2/2 1/1 0/2 0/2 1/3 1/")),
        ("other lines", spelled("3/2 2 2/2 1/1 2/2 1 2/1/0 2 0 1/2 1 3")),
    ]
}

/// Small texts and their refusals. The right one is THREE's.
const SMALL: [(&str, &str, u32); 86] = [
    ("nothing", "", 12),
    ("a blank", " ", 12),
    ("a line feed", "/", 12),
    ("gaps only", " /  / \r/\r ", 12),
    ("one number", "3", 12),
    ("two numbers", "3 2", 12),
    ("three numbers", "3 2 2", 12),
    ("sizes and greatest weights only", "3 2/2 2/", 12),
    ("no lists", "3 2/2 2/2 1 1/2 2/", 12),
    ("no row lists", "3 2/2 2/2 1 1/2 2/1 2/1 0/2 0/", 12),
    ("the last number missing", "3 2/2 2/2 1 1/2 2/1 2/1 0/2 0/1 2/1/", 12),
    ("a column weight missing", "3 2/2 2/2 1/2 2/1 2/1 0/2 0/1 2/1 3/", 12),
    ("padding missing", "3 2/2 2/2 1 1/2 2/1 2/1/2/1 2/1 3/", 12),
    ("one number more", "3 2/2 2/2 1 1/2 2/1 2/1 0/2 0/1 2/1 3/0/", 12),
    ("one number more, at the end", "3 2/2 2/2 1 1/2 2/1 2/1 0/2 0/1 2/1 3 0", 12),
    ("one more of a list", "3 2/2 2/2 1 1/2 2/1 2/1 0/2 0 0/1 2/1 3/", 12),
    ("a text twice", "1 1/1 1/1/1/1/1/1 1/1 1/1/1/1/1/", 12),
    // Sizes.
    ("a column more", "4 2/2 2/2 1 1/2 2/1 2/1 0/2 0/1 2/1 3/", 12),
    ("a column less", "2 2/2 2/2 1 1/2 2/1 2/1 0/2 0/1 2/1 3/", 12),
    ("a row more", "3 3/2 2/2 1 1/2 2/1 2/1 0/2 0/1 2/1 3/", 12),
    ("sizes exchanged", "2 3/2 2/2 1 1/2 2/1 2/1 0/2 0/1 2/1 3/", 12),
    ("a column more, with its numbers", "4 2/2 2/2 1 1 0/2 2/1 2/1 0/2 0/0 0/1 2/1 3/", 0),
    ("a row more, with its numbers", "3 3/2 2/2 1 1/2 2 0/1 2/1 0/2 0/1 2/1 3/0 0/", 0),
    // Digits.
    ("seven digits", "0000003 2/2 2/2 1 1/2 2/1 2/1 0/2 0/1 2/1 3/", 12),
    ("seven digits at the end", "3 2/2 2/2 1 1/2 2/1 2/1 0/2 0/1 2/1 0000003", 12),
    ("seven digits of padding", "3 2/2 2/2 1 1/2 2/1 2/1 0000000/2 0/1 2/1 3/", 12),
    ("seven digits in a list", "3 2/2 2/2 1 1/2 2/1 2/0000001 0/2 0/1 2/1 3/", 12),
    ("a million", "1000000 0/0 0/", 12),
    ("eight digits", "00000003 2/2 2/2 1 1/2 2/1 2/1 0/2 0/1 2/1 3/", 12),
    ("twenty digits", "3 2/2 2/2 1 1/2 2/1 2/1 0/2 0/1 2/1 00000000000000000003", 12),
    ("a number that wraps at 32 bits", "4294967299 2/2 2/2 1 1/2 2/1 2/1 0/2 0/1 2/1 3/", 12),
    ("a number that wraps at 64 bits", "18446744073709551617 1/1 1/1/1/1/1/", 12),
    ("a number that wraps at 16 bits", "65539 2/2 2/2 1 1/2 2/1 2/1 0/2 0/1 2/1 3/", 12),
    // Other bytes.
    ("a tab", "3\t2/2 2/2 1 1/2 2/1 2/1 0/2 0/1 2/1 3/", 12),
    ("a tab at the end", "3 2/2 2/2 1 1/2 2/1 2/1 0/2 0/1 2/1 3/\t", 12),
    ("a plus", "+3 2/2 2/2 1 1/2 2/1 2/1 0/2 0/1 2/1 3/", 12),
    ("a minus", "3 2/2 2/2 1 1/2 2/1 2/1 -0/2 0/1 2/1 3/", 12),
    ("a sign alone", "3 2/2 2/2 1 1/2 2/1 2/1 0/2 0/1 2/1 3/+", 12),
    ("a point", "3. 2/2 2/2 1 1/2 2/1 2/1 0/2 0/1 2/1 3/", 12),
    ("a comma", "3, 2/2 2/2 1 1/2 2/1 2/1 0/2 0/1 2/1 3/", 12),
    ("hexadecimal", "0x3 2/2 2/2 1 1/2 2/1 2/1 0/2 0/1 2/1 3/", 12),
    ("a NUL at the end", "3 2/2 2/2 1 1/2 2/1 2/1 0/2 0/1 2/1 3/\0", 12),
    ("a NUL between", "3\x002/2 2/2 1 1/2 2/1 2/1 0/2 0/1 2/1 3/", 12),
    ("a form feed", "3 2\x0c2 2/2 1 1/2 2/1 2/1 0/2 0/1 2/1 3/", 12),
    ("a byte over 127", "3 2/2 2/2 1 1/2 2/1 2/1 0/2 0/1 2/1 3/\u{a0}", 12),
    ("other digits", "\u{0663} 2/2 2/2 1 1/2 2/1 2/1 0/2 0/1 2/1 3/", 12),
    ("a mark of byte order", "\u{feff}3 2/2 2/2 1 1/2 2/1 2/1 0/2 0/1 2/1 3/", 12),
    ("a remark", "3 2/2 2/2 1 1/2 2/1 2/1 0/2 0/1 2/1 3/# end/", 12),
    // Greatest weights.
    ("greatest column weight 3", "3 2/3 2/2 1 1/2 2/1 2 0/1 0 0/2 0 0/1 2/1 3/", 12),
    ("greatest column weight 3, lists not", "3 2/3 2/2 1 1/2 2/1 2/1 0/2 0/1 2/1 3/", 12),
    ("greatest column weight 1", "3 2/1 2/2 1 1/2 2/1/1/2/1 2/1 3/", 12),
    ("greatest column weight 0", "3 2/0 2/2 1 1/2 2////1 2/1 3/", 12),
    ("greatest row weight 3", "3 2/2 3/2 1 1/2 2/1 2/1 0/2 0/1 2 0/1 3 0/", 12),
    ("greatest row weight 1", "3 2/2 1/2 1 1/2 2/1 2/1 0/2 0/1/1/", 12),
    ("greatest weights exchanged", "4 2/3 2/2 1 1 0/2 2/1 2 0/1 0 0/2 0 0/0 0 0/1 2/1 3/", 12),
    ("greatest weights of nothing", "1 0/1 0/0//0/", 12),
    ("greatest row weight of no row", "1 0/0 1/0///", 12),
    ("greatest column weight of no column", "0 1/1 0//0//", 12),
    ("greatest row weight of empty rows", "1 1/0 1/0/0//0/", 12),
    // Entries.
    ("repeated in a column", "3 2/2 2/2 1 1/2 2/1 1/1 0/2 0/1 2/1 3/", 12),
    ("repeated in a row", "3 2/2 2/2 1 1/2 2/1 2/1 0/2 0/1 1/1 3/", 12),
    ("entry 0 in a column", "3 2/2 2/2 1 1/2 2/1 0/1 0/2 0/1 2/1 3/", 12),
    ("entry 0 in a row", "3 2/2 2/2 1 1/2 2/1 2/1 0/2 0/0 2/1 3/", 12),
    ("entry m + 1 in a column", "3 2/2 2/2 1 1/2 2/1 3/1 0/2 0/1 2/1 3/", 12),
    ("entry n + 1 in a row", "3 2/2 2/2 1 1/2 2/1 2/1 0/2 0/1 2/1 4/", 12),
    ("entry 65,537 in a column", "3 2/2 2/2 1 1/2 2/1 2/65537 0/2 0/1 2/1 3/", 12),
    ("entry 65,537 in a row", "3 2/2 2/2 1 1/2 2/1 2/1 0/2 0/65537 2/1 3/", 12),
    ("an entry where there is no row", "2 0/1 0/1 0//1/0/", 12),
    ("an entry where there is no column", "0 2/0 1//1 0/1/0/", 12),
    ("padding in a column", "3 2/2 2/2 1 1/2 2/1 2/1 2/2 0/1 2/1 3/", 12),
    ("padding that repeats the entry", "3 2/2 2/2 1 1/2 2/1 2/1 1/2 0/1 2/1 3/", 12),
    ("padding in a row", "3 2/2 2/2 1 0/2 1/1 2/1 0/0 0/1 2/1 3/", 12),
    ("padding in front", "3 2/2 2/2 1 1/2 2/1 2/0 1/2 0/1 2/1 3/", 12),
    ("padding of an empty list", "3 2/2 2/2 1 0/2 1/1 2/1 0/0 2/1 2/1 0/", 12),
    ("padding 999,999", "3 2/2 2/2 1 1/2 2/1 2/1 999999/2 0/1 2/1 3/", 12),
    // Agreement.
    ("missing in the row", "3 2/2 2/2 1 1/2 1/1 2/1 0/2 0/1 2/1 0/", 13),
    ("missing in the column", "3 2/2 2/2 1 0/2 2/1 2/1 0/0 0/1 2/1 3/", 13),
    ("columns exchanged", "3 2/2 2/2 1 1/2 2/1 2/2 0/1 0/1 2/1 3/", 13),
    ("another column in a row", "3 2/2 2/2 1 1/2 2/1 2/1 0/2 0/1 2/2 3/", 13),
    ("all columns empty", "3 2/0 2/0 0 0/2 2////1 2/1 3/", 13),
    ("all rows empty", "3 2/2 0/2 1 1/0 0/1 2/1 0/2 0///", 13),
    // Places.
    ("no column", "0 0/0 0////", 2),
    ("no column, in one line", "0 0 0 0", 2),
    ("no column, three rows", "0 3/0 0//0 0 0////", 2),
    ("one column, no row, in one line", "1 0 0 0 0", 0),
    ("one column, one empty row, in one line", "1 1 0 0 0 0", 0),
];

/// The refusal of a text read with some size, into a buffer of some length.
fn refused(text: &[u8], size: usize, len: usize, refusal: u32) -> Result<(), String> {
    let rng = &mut Rng::new(0, 0);
    let before = noise(rng, len);
    let (answer, _) = read_into(rng, text, size, &before)?;
    same(&format!("refusal, size {size}, buffer {len}"), &answer.refusal, &refusal)
        .map_err(|what| told(text, what))
}

/// Every byte at every place of a text: put in its place, put in before it.
fn every_byte(text: &[u8]) -> Result<(), String> {
    let rng = &mut Rng::new(0, 2);
    let table = vec![0x5a5a; TABLE_BUFFER];
    for at in 0..=text.len() {
        for byte in 0..=255 {
            let mut changed = text.to_vec();
            changed.insert(at, byte);
            read_into(rng, &changed, 1, &table)?;
            if at < text.len() {
                changed.remove(at + 1);
                read_into(rng, &changed, 1, &table)?;
            }
        }
    }
    Ok(())
}

/// Every number of a text changed to every other one up to some.
fn every_number(spelling: &str, most: usize) -> Result<(), String> {
    let rng = &mut Rng::new(0, 3);
    let table = vec![0x5a5a; TABLE_BUFFER];
    let numbers = model::numbers_of(&spelled(spelling)).unwrap();
    for at in 0..numbers.len() {
        for number in 0..=most {
            let mut changed = numbers.clone();
            changed[at] = number;
            let words: Vec<String> = changed.iter().map(|number| number.to_string()).collect();
            read_into(rng, words.join(" ").as_bytes(), 1, &table)?;
        }
    }
    Ok(())
}

/// A text at every length that it can be cut to.
fn every_cut(text: &[u8]) -> Result<(), String> {
    let rng = &mut Rng::new(0, 4);
    let table = vec![0x5a5a; TABLE_BUFFER];
    for len in 0..text.len() {
        let refusal = if len + 1 == text.len() { 0 } else { 12 };
        let (answer, _) = read_into(rng, &text[..len], 1, &table)?;
        same(&format!("refusal of {len} bytes"), &answer.refusal, &refusal)?;
    }
    Ok(())
}

fn small_cases(run: &mut Run) {
    for (name, spelling, words) in KNOWN {
        run.fixed(name, known(spelling, words));
    }
    let three = &[2, 3, 1, 2, 2, 2, 4, 0, 1, 0, 2];
    run.fixed("three places", known(THREE, three));
    for (name, text) in forms() {
        let table = read_again(&mut Rng::new(0, 0), &text, 1);
        run.fixed(name, table.and_then(|table| same("table", &table, &three.to_vec())));
    }
    for (name, spelling, refusal) in SMALL {
        run.fixed(name, refused(&spelled(spelling), 1, TABLE_BUFFER, refusal));
    }
    let text = spelled(THREE);
    for byte in [0x80, 0xa0, 0xb3, 0xff] {
        for at in 0..=text.len() {
            let mut text = text.clone();
            text.insert(at, byte);
            run.fixed("a byte over 127", refused(&text, 1, TABLE_BUFFER, 12));
        }
    }
    run.fixed("every cut", every_cut(&text));
    if !bare() {
        run.fixed("every byte", every_byte(&text));
        run.fixed("every number of three places", every_number(THREE, 70));
        run.fixed("every number of table A", every_number(KNOWN[0].1, 20));
    }
    for (size, refusal) in SIZES.into_iter().chain([(1 << 63, 2)]) {
        run.fixed(&format!("size {size}"), refused(&text, size, TABLE_BUFFER, refusal));
    }
    for (len, refusal) in
        [(0, 5), (1, 5), (10, 5), (11, 5), (6144, 5), (6660, 5), (6661, 0), (6662, 5), (13_322, 5)]
    {
        run.fixed(&format!("table buffer of {len}"), refused(&text, 1, len, refusal));
    }
}

// ----------------------------------------------------------------- limits

/// Rows of so many ones: the k-th holds places 16 apart, starting at 7 k.
fn rows_of(weight: usize, many: usize) -> Vec<Vec<usize>> {
    let row = |k: usize| {
        let mut row: Vec<usize> = (0..weight).map(|i| (7 * k + 16 * i) % 1024).collect();
        row.sort();
        row
    };
    (0..many).map(row).collect()
}

/// 6,144 ones in 96 rows, then so many more in a row of their own.
fn full(more: usize) -> Vec<Vec<usize>> {
    let mut checks = rows_of(64, 96);
    checks.push((0..more).collect());
    checks
}

/// n, the checks, and the refusal of their text with a size and a buffer that fit.
fn limits() -> Vec<(&'static str, usize, Vec<Vec<usize>>, u32)> {
    let first_and_last = |n: usize| vec![vec![0, n - 1], vec![], vec![n - 1]];
    let rows = |m: usize| {
        let mut rows = vec![vec![]; m];
        rows[0] = vec![0, 1];
        rows[m - 1] = vec![1];
        rows
    };
    let every_eighth = || (0..1024).step_by(8).collect::<Vec<usize>>();
    // Two ones a row, and more in the first rows.
    let many_rows = |ones: usize| {
        let mut rows: Vec<Vec<usize>> = (0..512).map(|i| (2 * i..2 * i + 2).collect()).collect();
        let mut left = ones - 1024;
        for (i, row) in rows.iter_mut().enumerate() {
            let more = left.min(62);
            row.extend((0..more).map(|j| (2 * i + 2 + j) % 1024));
            row.sort();
            left -= more;
        }
        rows
    };
    vec![
        ("n 1,023", 1023, first_and_last(1023), 0),
        ("n 1,024", 1024, first_and_last(1024), 0),
        ("n 1,025", 1025, first_and_last(1025), 2),
        ("n 1,026", 1026, first_and_last(1026), 2),
        ("n 1,025, the last place empty", 1025, first_and_last(1024), 2),
        ("n 1,024, no check", 1024, vec![], 0),
        ("n 1,025, no check", 1025, vec![], 2),
        ("m 511", 4, rows(511), 0),
        ("m 512", 4, rows(512), 0),
        ("m 513", 4, rows(513), 2),
        ("m 514", 4, rows(514), 2),
        ("m 512, empty", 1, vec![vec![]; 512], 0),
        ("m 513, empty", 1, vec![vec![]; 513], 2),
        ("m 513, no column", 0, vec![vec![]; 513], 2),
        ("n 1,024, m 512", 1024, many_rows(1024), 0),
        ("n 1,024, m 512, 6,144 ones", 1024, many_rows(6144), 0),
        ("n 1,024, m 512, 6,145 ones", 1024, many_rows(6145), 3),
        ("n 1,025, m 513", 1025, rows(513), 2),
        ("weight 63", 64, vec![(0..63).collect()], 0),
        ("weight 64", 64, vec![(0..64).collect()], 0),
        ("weight 64 at the end", 1024, vec![vec![0], (960..1024).collect()], 0),
        ("weight 65", 65, vec![(0..65).collect()], 3),
        ("weight 65 in the last row", 1024, vec![vec![0], (959..1024).collect()], 3),
        ("weight 66", 66, vec![(0..66).collect()], 3),
        ("weight 256", 256, vec![(0..256).collect()], 3),
        ("weight 257", 257, vec![(0..257).collect()], 3),
        ("weight 1,024", 1024, vec![(0..1024).collect()], 3),
        ("weight 1,025", 1025, vec![(0..1025).collect()], 2),
        ("column weight 65", 2, vec![vec![1]; 65], 0),
        ("column weight 512", 2, vec![vec![1]; 512], 0),
        ("column weight 513", 2, vec![vec![1]; 513], 2),
        ("column weight 512 twelve times", 12, vec![(0..12).collect(); 512], 0),
        ("column weight 512 thirteen times", 13, vec![(0..13).collect(); 512], 3),
        ("6,143 ones", 1024, full(0)[..95].iter().cloned().chain([(0..63).collect()]).collect(), 0),
        ("6,144 ones", 1024, full(0), 0),
        ("6,145 ones", 1024, full(1), 3),
        ("6,208 ones", 1024, full(64), 3),
        ("32,768 ones", 1024, rows_of(64, 512), 3),
        // 16 bits don't hold these numbers, or hold others for them.
        ("65,536 ones", 1024, vec![every_eighth(); 512], 3),
        ("65,537 ones", 1024, [vec![every_eighth(); 512], vec![vec![0]]].concat(), 2),
        ("n 65,536", 65_536, vec![], 2),
        ("n 65,537", 65_537, vec![], 2),
        ("n 65,539 and checks", 65_539, vec![vec![0, 1], vec![0, 2]], 2),
        ("n 66,560", 66_560, vec![vec![66_559]], 2),
        ("m 65,536", 1, vec![vec![]; 65_536], 2),
        ("m 65,537", 4, rows(65_537), 2),
    ]
}

/// The text as it is, with size 1,024; then with its lists in another order; then
/// where one entry more stands in a row only, in a column only; then with an entry
/// repeated.
fn limit(n: usize, checks: &[Vec<usize>], refusal: u32) -> Result<(), String> {
    let rng = &mut Rng::new(0, 5);
    let mut l = Lists::of(n, checks);
    refused(&l.text(), 1024, TABLE_BUFFER, refusal)?;
    if refusal == 0 {
        refused(&l.text(), 1024, TABLE_BUFFER - 1, 5)?;
        round_trip(rng, &Table { n, s: 1024, checks: checks.to_vec() })?;
    }
    l.shuffle(rng);
    refused(&l.text(), 1, TABLE_BUFFER, refusal)?;
    let m = checks.len();
    if n == 0 || m == 0 {
        return Ok(());
    }
    let mut disagrees = l.clone();
    disagrees.flip_in_row(m, n);
    refused(&disagrees.text(), 1, TABLE_BUFFER, 13)?;
    let mut disagrees = l.clone();
    disagrees.flip_in_column(1, 1);
    refused(&disagrees.text(), 1, TABLE_BUFFER, 13)?;
    if let Some(row) = l.rows.iter_mut().find(|row| !row.is_empty()) {
        row.push(row[0]);
        refused(&l.text(), 1, TABLE_BUFFER, 12)?;
    }
    Ok(())
}

/// Sizes that promise more numbers than there are, or others only if sums and
/// products are cut.
fn promised(run: &mut Run) {
    let zeros = |head: &str, many: usize| [head.as_bytes(), " 0".repeat(many).as_bytes()].concat();
    for (name, text) in [
        ("999,999 everywhere", spelled("999999 999999/999999 999999/")),
        ("999,999 columns", spelled("999999 0/0 0/")),
        ("999,999 rows", spelled("0 999999/0 0/")),
        ("greatest weights 999,999", spelled("1 1/999999 999999/1/1/1/1/")),
        ("numbers that fit by 16 bits", zeros("256 0 256 0", 256)),
        ("numbers that fit by 16 bits, columns", zeros("65536 0 0 0", 0)),
        ("numbers that fit by 16 bits, rows", zeros("1 65537 0 0", 2)),
        ("numbers that fit by 32 bits", zeros("65536 0 65536 0", 65_536)),
        ("numbers that fit by 32 bits, rows", zeros("0 65536 0 65536", 65_536)),
        ("both fit by 32 bits", zeros("32768 32768 65536 65536", 65_536)),
    ] {
        if !bare() || text.len() < 2_000 {
            run.fixed(name, refused(&text, 1, TABLE_BUFFER, 12));
        }
    }
}

fn limit_cases(run: &mut Run) {
    for (name, n, checks, refusal) in limits() {
        // Large texts take long under valgrind.
        let numbers = 2 * checks.iter().map(|c| c.len()).sum::<usize>() + n + checks.len();
        if !bare() || numbers < 2_500 || name == "n 1,024, m 512, 6,144 ones" {
            run.fixed(name, limit(n, &checks, refusal));
        }
    }
    promised(run);
    if !bare() {
        let columns = Lists::of(999_999, &[]).text();
        run.fixed("n 999,999", refused(&columns, 1, TABLE_BUFFER, 2));
        let rows = Lists::of(0, &vec![vec![]; 999_999]).text();
        run.fixed("m 999,999", refused(&rows, 1, TABLE_BUFFER, 2));
    }
}

// ----------------------------------------------------------------- blocks

/// Numbers of rows and columns about the ends of blocks of 64, 512 and 1,024.
const EDGES: [usize; 13] = [1, 2, 64, 65, 512, 513, 1023, 1024, 1025, 1537, 2047, 2048, 2049];

/// Ones at the edges, in many blocks; then one of them moved, on one side only.
fn blocks(n: usize, m: usize) -> Result<(), String> {
    let rng = &mut Rng::new(n as u64, m as u64);
    let refused = |l: &Lists, refusal: u32| refused(&l.text(), 1, TABLE_BUFFER, refusal);
    let rows: Vec<usize> = EDGES.into_iter().filter(|row| *row <= m).collect();
    let columns: Vec<usize> = EDGES.into_iter().filter(|column| *column <= n).collect();
    let mut checks = vec![vec![]; m];
    for (i, row) in rows.iter().enumerate() {
        for (j, column) in columns.iter().enumerate() {
            if (i + 2 * j) % 5 < 2 {
                checks[row - 1].push(column - 1);
            }
        }
    }
    let agree = Lists::of(n, &checks);
    refused(&agree, if n <= MAX_PLACES && m <= MAX_CHECKS { 0 } else { 2 })?;
    for row in rows.iter().copied() {
        for column in columns.iter().copied() {
            if bare() && !rng.once_in(40) {
                continue;
            }
            let mut l = agree.clone();
            l.flip_in_row(row, column);
            refused(&l, 13)?;
            // One more of them elsewhere in the same row, or in the same column.
            let distance = rng.pick(&[1, 64, 512, 1024]);
            if distance % n != 0 {
                l.flip_in_row(row, (column + distance - 1) % n + 1);
                refused(&l, 13)?;
            }
            let mut l = agree.clone();
            l.flip_in_column(row, column);
            refused(&l, 13)?;
            if distance % m != 0 {
                l.flip_in_column((row + distance - 1) % m + 1, column);
                refused(&l, 13)?;
            }
        }
    }
    Ok(())
}

/// Two ones at opposite corners of a rectangle; then the rows have them at the
/// two others, so that every weight agrees.
fn corners(n: usize, m: usize) -> Result<(), String> {
    let up_to = |most: usize| EDGES.into_iter().filter(move |edge| 1 < *edge && *edge <= most);
    for row in up_to(m) {
        for column in up_to(n) {
            if bare() && (row, column) != (m, n) {
                continue;
            }
            let mut l = Lists::of(n, &vec![vec![]; m]);
            l.flip_in_column(1, 1);
            l.flip_in_column(row, column);
            let mut others = l.clone();
            l.flip_in_row(1, 1);
            l.flip_in_row(row, column);
            let fits = n <= MAX_PLACES && m <= MAX_CHECKS;
            refused(&l.text(), 1, TABLE_BUFFER, if fits { 0 } else { 2 })?;
            others.flip_in_row(1, column);
            others.flip_in_row(row, 1);
            refused(&others.text(), 1, TABLE_BUFFER, 13)?;
        }
    }
    Ok(())
}

/// Ones on a diagonal; then the last two columns exchanged.
fn diagonal(long: usize) -> Result<(), String> {
    let mut l = Lists::of(long, &(0..long).map(|i| vec![i]).collect::<Vec<_>>());
    refused(&l.text(), 1, TABLE_BUFFER, 2)?;
    l.columns.swap(long - 2, long - 1);
    refused(&l.text(), 1, TABLE_BUFFER, 13)
}

fn block_cases(run: &mut Run) {
    for (n, m) in [(1024, 512), (1025, 512), (1024, 513), (1025, 1025), (2049, 2049)] {
        if !bare() || n == 1025 {
            run.fixed(&format!("blocks, n {n}, m {m}"), blocks(n, m));
        }
    }
    for (n, m) in [
        (1024, 512),
        (1025, 512),
        (1024, 513),
        (1024, 1024),
        (2047, 2047),
        (2048, 2048),
        (2049, 2049),
    ] {
        run.fixed(&format!("corners, n {n}, m {m}"), corners(n, m));
    }
    if !bare() {
        run.fixed("a diagonal of 20,000", diagonal(20_000));
    }
    // One row or column through all blocks; sizes about their ends.
    for long in [1023, 1024, 1025, 2047, 2048, 2049, 3073] {
        for short in [1, 2, 3] {
            if bare() && (short != 2 || ![1024, 1025, 2048].contains(&long)) {
                continue;
            }
            let wide = vec![(0..long).collect::<Vec<usize>>(); short];
            let wide = Lists::of(long, &wide);
            let tall = Lists { columns: wide.rows.clone(), rows: wide.columns.clone() };
            for l in [wide, tall] {
                let (n, m) = (l.columns.len(), l.rows.len());
                let fits = n <= MAX_PLACES && m <= MAX_CHECKS;
                let name = format!("full, n {n}, m {m}");
                let text = l.text();
                run.fixed(&name, refused(&text, 1, TABLE_BUFFER, if fits { 3 } else { 2 }));
                for (row, column) in [(1, 1), (m, n), (m.min(1025), n.min(1025))] {
                    let mut without = l.clone();
                    without.flip_in_row(row, column);
                    let name = format!("{name}, {row} {column} not in the row");
                    run.fixed(&name, refused(&without.text(), 1, TABLE_BUFFER, 13));
                    let mut without = l.clone();
                    without.flip_in_column(row, column);
                    let name = format!("{name}, {row} {column} not in the column");
                    run.fixed(&name, refused(&without.text(), 1, TABLE_BUFFER, 13));
                }
            }
        }
    }
}

// ----------------------------------------------------------------- orders

/// A cause of 12, put into the lines or into the bytes.
enum Fault {
    Lines(fn(&mut Lines)),
    Bytes(fn(&mut Vec<u8>)),
}

fn faults() -> Vec<(&'static str, Fault)> {
    fn entry(lines: &mut Lines, side: usize, number: usize) {
        lines.list_where(side, |weight, _| weight > 0)[0] = number;
    }
    fn repeat(lines: &mut Lines, side: usize) {
        let list = lines.list_where(side, |weight, _| weight > 1);
        list[1] = list[0];
    }
    fn pad(lines: &mut Lines, side: usize) {
        let list = lines.list_where(side, |weight, greatest| weight < greatest);
        *list.last_mut().unwrap() = 1;
    }
    use Fault::{Bytes, Lines as Numbers};
    vec![
        ("a tab", Bytes(|text| text.push(b'\t'))),
        ("a letter", Bytes(|text| text.insert(0, b'x'))),
        ("seven digits", Bytes(|text| _ = text.splice(0..0, *b"000000"))),
        ("too few numbers", Numbers(|lines| _ = lines.all.pop())),
        ("too many numbers", Numbers(|lines| lines.all.push(vec![0]))),
        ("greatest column weight too high", Numbers(|lines| lines.widen(COLUMNS))),
        ("greatest row weight too high", Numbers(|lines| lines.widen(ROWS))),
        ("greatest column weight too low", Numbers(|lines| lines.narrow(COLUMNS))),
        ("greatest row weight too low", Numbers(|lines| lines.narrow(ROWS))),
        ("entry 0 in a column", Numbers(|lines| entry(lines, COLUMNS, 0))),
        ("entry 0 in a row", Numbers(|lines| entry(lines, ROWS, 0))),
        ("entry m + 1", Numbers(|lines| entry(lines, COLUMNS, lines.all[0][ROWS] + 1))),
        ("entry n + 1", Numbers(|lines| entry(lines, ROWS, lines.all[0][COLUMNS] + 1))),
        ("repeated in a column", Numbers(|lines| repeat(lines, COLUMNS))),
        ("repeated in a row", Numbers(|lines| repeat(lines, ROWS))),
        ("padding in a column", Numbers(|lines| pad(lines, COLUMNS))),
        ("padding in a row", Numbers(|lines| pad(lines, ROWS))),
    ]
}

/// Shapes by causes of 2 and 3: name, n, rows, refusals. Each has a list of two
/// entries and a list with padding on both sides, whatever disagrees.
fn shapes() -> Vec<(&'static str, usize, Vec<Vec<usize>>, [Option<u32>; 2])> {
    let rows = |m: usize, mut first: Vec<Vec<usize>>| {
        first.extend([vec![0, 1, 2], vec![0, 1]]);
        first.resize(m, vec![]);
        first
    };
    let heavy = || vec![(0..65).collect()];
    vec![
        ("fits", 6, rows(4, vec![]), [None, None]),
        ("n 1,025", 1025, rows(4, vec![]), [Some(2), None]),
        ("m 513", 6, rows(513, vec![]), [Some(2), None]),
        ("weight 65", 70, rows(4, heavy()), [None, Some(3)]),
        ("6,149 ones", 1024, rows(100, rows_of(64, 96)), [None, Some(3)]),
        ("n 1,025, weight 65", 1025, rows(4, heavy()), [Some(2), Some(3)]),
        ("m 513, weight 65", 70, rows(513, heavy()), [Some(2), Some(3)]),
        ("m 513, 6,149 ones", 1024, rows(513, rows_of(64, 96)), [Some(2), Some(3)]),
    ]
}

fn disagreements() -> [(&'static str, fn(&mut Lists)); 4] {
    [
        ("agree", |_| ()),
        ("missing in a row", |l| _ = l.rows.iter_mut().find(|row| row.len() == 2).unwrap().pop()),
        ("missing in a column", |l| _ = l.columns[0].pop()),
        ("exchanged", |l| l.columns.swap(0, 5)),
    ]
}

/// Every cause with every other: the first by 12, 13, 2, 3, 5 is told.
fn order_cases(run: &mut Run) {
    let faults = faults();
    let none = std::iter::once(None);
    for (shape, n, checks, [two, three]) in shapes() {
        // Under valgrind only short texts, and two causes at once.
        if bare() && n + checks.len() > 100 {
            continue;
        }
        for (disagreement, disagree) in disagreements() {
            let mut lists = Lists::of(n, &checks);
            disagree(&mut lists);
            let thirteen = (disagreement != "agree").then_some(13);
            for fault in none.clone().chain(faults.iter().map(Some)) {
                let mut lines = Lines::of(&lists);
                if let Some((_, Fault::Lines(edit))) = fault {
                    edit(&mut lines);
                }
                let mut text = lines.text();
                if let Some((_, Fault::Bytes(edit))) = fault {
                    edit(&mut text);
                }
                let twelve = fault.map(|_| 12);
                for (size, len) in
                    [(1, 6661), (0, 6661), (1025, 6661), (1, 6660), (1, 6662), (1, 0), (0, 6660)]
                {
                    let by_size = (!(1..=1024).contains(&size)).then_some(2);
                    let five = (len != TABLE_BUFFER).then_some(5);
                    let causes = [twelve, thirteen, two, by_size, three, five];
                    if bare() && causes.iter().flatten().count() != 2 {
                        continue;
                    }
                    let refusal = causes.into_iter().flatten().next().unwrap_or(0);
                    let fault = fault.map_or("no fault", |(name, _)| name);
                    let name = format!("{shape}, {disagreement}, {fault}");
                    run.fixed(&name, refused(&text, size, len, refusal));
                }
            }
        }
    }
}

// ---------------------------------------------------------------- writing

/// Causes of 1 to 4 at once with a buffer that is too short: 5 comes last.
fn write_orders() -> Vec<(&'static str, Vec<u16>, usize, u32)> {
    let a = KNOWN[0].2;
    let changes = |changes: &[(usize, u16)]| {
        let mut words = a.to_vec();
        changes.iter().for_each(|(at, word)| words[*at] = *word);
        words
    };
    let changed = |at: usize, word: u16| changes(&[(at, word)]);
    let long = spelled(KNOWN[0].1).len();
    vec![
        ("no words", vec![], long, 1),
        ("four words", a[..4].to_vec(), long, 1),
        ("four words, no buffer", a[..4].to_vec(), 0, 1),
        ("first word 3", changed(0, 3), long, 2),
        ("n 0", changed(1, 0), long, 2),
        ("n 1,025", changed(1, 1025), long, 2),
        ("s 0", changed(2, 0), long, 2),
        ("s 1,024", changed(2, 1024), long, 0),
        ("s 1,025", changed(2, 1025), long, 2),
        ("m 513", changed(3, 513), long, 2),
        ("n 0, no buffer", changed(1, 0), 0, 2),
        ("s 0, no buffer", changed(2, 0), 0, 2),
        ("a weight of 65", changed(4, 65), long, 3),
        ("W0 wrong", changed(7, 11), long, 3),
        ("a word more", [a, &[0]].concat(), long, 3),
        ("a word less", a[..19].to_vec(), long, 3),
        ("a whole buffer", [a, &[0; TABLE_BUFFER - 20]].concat(), long, 3),
        ("W0 wrong, no buffer", changed(7, 11), 0, 3),
        ("a place too high", changed(11, 7), long, 4),
        ("a place repeated", changed(9, 0), long, 4),
        ("places not ascending", changed(8, 3), long, 4),
        ("a place too high, no buffer", changed(19, 7), 0, 4),
        ("2 before 3 and 4", changes(&[(1, 0), (7, 11), (19, 9)]), long, 2),
        ("3 before 4", changes(&[(7, 11), (19, 9)]), long, 3),
        ("exact", a.to_vec(), long, 0),
        ("one shorter", a.to_vec(), long - 1, 5),
        ("half", a.to_vec(), long / 2, 5),
        ("no buffer", a.to_vec(), 0, 5),
        ("one longer", a.to_vec(), long + 1, 0),
        ("much longer", a.to_vec(), 100_000, 0),
    ]
}

fn write_refused(words: &[u16], len: usize, refusal: u32) -> Result<(), String> {
    let rng = &mut Rng::new(0, 6);
    let before = rng.bytes(len);
    same("refusal", &write_into(rng, words, &before)?.0.refusal, &refusal)
}

/// Numbers of one to four digits, each as it is written.
fn digits_written() -> Result<(), String> {
    let rng = &mut Rng::new(0, 7);
    for n in [1, 9, 10, 11, 99, 100, 101, 999, 1000, 1001, 1023, 1024] {
        for m in [1, 9, 10, 11, 99, 100, 101, 511, 512] {
            let mut checks = vec![vec![]; m];
            checks[m - 1] = (0..n.min(64)).map(|i| n - n.min(64) + i).collect();
            checks[0] = vec![n - 1];
            round_trip(rng, &Table { n, s: 1, checks })?;
        }
    }
    Ok(())
}

fn write_cases(run: &mut Run) {
    for (name, words, len, refusal) in write_orders() {
        run.fixed(&format!("writing, {name}"), write_refused(&words, len, refusal));
    }
    if !bare() {
        run.fixed("digits written", digits_written());
        // A place in every check, so that all lists of columns are 512 wide.
        let check = |i: usize| {
            let mut check: Vec<usize> = (0..11).map(|k| 1 + (2 * i + k) % 1023).collect();
            check.push(0);
            check.sort();
            check
        };
        let widest = Table { n: 1024, s: 1, checks: (0..512).map(check).collect() };
        run.fixed("the widest lists", round_trip(&mut Rng::new(0, 8), &widest));
    }
}

// ------------------------------------------------------------ large texts

/// Rows of a hundred ones each, so that n 5,000 and m 4,000 make 4 MB.
fn large() -> Lists {
    let rng = &mut Rng::new(0, 9);
    let checks: Vec<Vec<usize>> = (0..4000).map(|_| rng.some_below(5000, 100)).collect();
    let mut lists = Lists::of(5000, &checks);
    lists.shuffle(rng);
    lists
}

/// How many times as long as one plain pass over the numbers the library may
/// take for a large text.
const MOST_TIMES: u32 = 20;

/// The answer to a large text, soon: by the shortest of three calls, and the
/// shortest of three passes in turn with them.
fn soon(text: &[u8], refusal: u32) -> Result<(), String> {
    refused(text, 64, TABLE_BUFFER, refusal)?;
    let mut table = vec![0; TABLE_BUFFER];
    let [mut library, mut pass] = [Duration::MAX; 2];
    for _ in 0..3 {
        let start = Instant::now();
        let answer = unsafe {
            bs_alist_read(text.as_ptr(), text.len(), 64, table.as_mut_ptr(), table.len())
        };
        library = library.min(start.elapsed());
        same("again", &answer, &Made::refused(refusal))?;
        let start = Instant::now();
        _ = black_box(model::numbers_of(text));
        pass = pass.min(start.elapsed());
    }
    let name = format!("{library:?} at most {MOST_TIMES} times {pass:?}");
    holds(&name, library <= MOST_TIMES * pass)
}

fn large_cases(run: &mut Run) {
    if bare() {
        return;
    }
    let agree = large();
    let text = agree.text();
    run.fixed("large", soon(&text, 2));
    let mut l = agree.clone();
    let row = &mut l.rows[3999];
    row[99] = (1..).find(|column| !row.contains(column)).unwrap();
    run.fixed("large, the last entry moved", soon(&l.text(), 13));
    l.rows[3999][99] = l.rows[3999][0];
    run.fixed("large, an entry repeated", soon(&l.text(), 12));
    let mut lines = Lines::of(&agree);
    *lines.list_where(COLUMNS, |weight, greatest| weight < greatest).last_mut().unwrap() = 7;
    run.fixed("large, padding", soon(&lines.text(), 12));
    let last = text.iter().rposition(|byte| *byte == b' ').unwrap();
    run.fixed("large, a number less", soon(&text[..last], 12));
    let mut tab = text;
    tab.push(b'\t');
    run.fixed("large, a tab at the end", soon(&tab, 12));
}

/// Short texts first: with a failure there the longer ones are left out.
pub fn fixed_cases(run: &mut Run) {
    for part in [small_cases, order_cases, write_cases, limit_cases, block_cases, large_cases] {
        if run.clean() {
            part(run);
        }
    }
}
