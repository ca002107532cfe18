//! Program planlist against the model. PLANLIST names the program.

mod gen;
mod harness;
mod model;

use gen::Rng;
use harness::{same, Met, Run};
use std::io::Write;
use std::process::{Command, Stdio};

/// The program prints for a file what the model says.
fn listed(program: &str, file: &[u8]) -> Result<(), String> {
    let mut child = Command::new(program)
        .stdin(Stdio::piped())
        .stdout(Stdio::piped())
        .spawn()
        .map_err(|e| format!("{program}: {e}"))?;
    let mut input = child.stdin.take().unwrap();
    let bytes = file.to_vec();
    // A program that refuses need not read to the end.
    let feeding = std::thread::spawn(move || {
        let _ = input.write_all(&bytes);
    });
    let output = child.wait_with_output().map_err(|e| e.to_string())?;
    feeding.join().unwrap();
    let text = String::from_utf8_lossy(&output.stdout).into_owned();
    let expected = model::planlist(file);
    if text == expected {
        return Ok(());
    }
    let mut lines = text.split('\n').zip(expected.split('\n')).enumerate();
    match lines.find(|(_, (got, wanted))| got != wanted) {
        Some((i, (got, wanted))) => Err(format!("line {}: {got:?}, expected {wanted:?}", i + 1)),
        None => same("length of the text", &text.len(), &expected.len()),
    }
}

fn bytes(words: &[u16]) -> Vec<u8> {
    words.iter().flat_map(|w| w.to_le_bytes()).collect()
}

static MOST: Met = Met::new("as many set aside as are taken");
static ONE_MORE: Met = Met::new("one more set aside");

fn random_case(program: &str, rng: &mut Rng) -> Result<(), String> {
    let t = match rng.below(6) {
        0 | 1 => gen::gap_table(rng),
        2 => gen::limit_table(rng),
        _ => gen::table(rng),
    };
    let mut words = gen::words(&t);
    if rng.once_in(3) {
        for _ in 0..rng.range(1, 2) {
            let which = rng.below(gen::TABLE_DAMAGES);
            gen::damage_table(rng, &mut words, which);
        }
    }
    let mut file = bytes(&words);
    match rng.below(12) {
        0 => file.push(0),
        1 => {
            file.pop();
        }
        _ => {}
    }
    if file == bytes(&gen::words(&t)) {
        let gap = model::gap(&t);
        MOST.count_if(gap == model::MAX_GAP);
        ONE_MORE.count_if(gap == model::MAX_GAP + 1);
    }
    listed(program, &file)
}

fn main() {
    let mut run = Run::from_arguments(400);
    let program = std::env::var("PLANLIST").expect("PLANLIST names the program");
    let table_of = |(n, checks): (usize, Vec<Vec<usize>>)| model::table_words(n, 1, &checks);
    let b = table_of(gen::table_b());
    let copies_of_b = |many| bytes(&table_of(gen::side_by_side(&vec![gen::table_b(); many])));
    // The size that is printed is the table's.
    let b_with = |s: u16| bytes(&[&b[..2], &[s], &b[3..]].concat());
    let largest = model::table_words(1024, 1024, &vec![(7..19).collect::<Vec<_>>(); 512]);
    assert_eq!(bytes(&largest).len(), model::MAX_TABLE_FILE);
    let mut longer = bytes(&largest);
    longer.extend([0, 0]);
    let fixed: Vec<(&str, Vec<u8>)> = vec![
        ("B", bytes(&b)),
        ("B, size 64", b_with(64)),
        ("B, size 256", b_with(256)),
        ("B, size 1,024", b_with(1024)),
        ("B, size 0", b_with(0)),
        ("B, size 1,025", b_with(1025)),
        ("A", bytes(&[2, 7, 1, 3, 4, 4, 4, 12, 0, 2, 4, 6, 1, 2, 5, 6, 3, 4, 5, 6])),
        ("P9, no information", bytes(&[2, 1, 1, 1, 1, 1, 0])),
        ("P10, no step", bytes(&[2, 3, 1, 0, 0])),
        ("empty file", vec![]),
        ("one byte", vec![2]),
        ("odd and not a table", vec![9; 21]),
        ("four words", bytes(&[2, 3, 1, 0])),
        ("the longest file", bytes(&largest)),
        ("two bytes more", longer.clone()),
        ("two bytes more, first word wrong", [vec![9], longer[1..].to_vec()].concat()),
        ("odd and too long", vec![2; 13_323]),
        ("far too long", vec![0; 1 << 20]),
        ("n 1,025", bytes(&[2, 1025, 1, 0, 0])),
        ("a place not below n", bytes(&[2, 2, 1, 1, 2, 2, 0, 2])),
        ("19 copies of B", copies_of_b(19)),
        ("20 copies of B", copies_of_b(20)),
        ("21 copies of B", copies_of_b(21)),
        ("32 copies of B", copies_of_b(32)),
        ("33 copies of B", copies_of_b(33)),
        ("a plan of many steps", bytes(&gen::words(&gen::filled(20)))),
        ("the heaviest check frees none", bytes(&table_of(gen::heaviest_frees_none()))),
        ("a check of weight 1 set aside", bytes(&table_of(gen::weight_one_first()))),
    ];
    for (name, file) in &fixed {
        run.fixed(name, listed(&program, file));
    }
    run.random(|rng, _| random_case(&program, rng));
    run.met(&[&MOST, &ONE_MORE]);
    run.end()
}
