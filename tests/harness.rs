//! Lent buffers between guards, and the count of passed and failed cases.

#![allow(dead_code)]

use crate::gen::Rng;
use std::fmt::Debug;
use std::sync::atomic::{AtomicBool, AtomicI64, AtomicU64, Ordering};

static BARE: AtomicBool = AtomicBool::new(false);
static SEED: AtomicU64 = AtomicU64::new(0);
static CASE: AtomicI64 = AtomicI64::new(-1);

/// Whether buffers are bare, as under valgrind.
pub fn bare() -> bool {
    BARE.load(Ordering::Relaxed)
}

// ----------------------------------------------------------- lent buffers

/// Kinds of numbers that buffers hold.
pub trait Word: Copy + PartialEq + Debug {
    fn of(bits: u64) -> Self;
}
impl Word for u8 {
    fn of(bits: u64) -> Self {
        bits as u8
    }
}
impl Word for u16 {
    fn of(bits: u64) -> Self {
        bits as u16
    }
}
impl Word for u32 {
    fn of(bits: u64) -> Self {
        bits as u32
    }
}
impl Word for u64 {
    fn of(bits: u64) -> Self {
        bits
    }
}

/// A buffer lent to a call. Guards lie on both sides, and it starts at any
/// distance from them, so that its bytes are aligned in any way. Bare buffers
/// have no guards: valgrind then sees reads and writes outside.
pub struct Lent<T> {
    all: Vec<T>,
    before: Vec<T>,
    from: usize,
    len: usize,
}

impl<T: Word> Lent<T> {
    pub fn new(rng: &mut Rng, content: &[T]) -> Self {
        let bare = bare();
        let from = if bare { 0 } else { 16 + rng.below(17) };
        let behind = if bare { 0 } else { 32 };
        let mut all = Vec::with_capacity(from + content.len() + behind);
        all.extend((0..from).map(|_| T::of(rng.next())));
        all.extend_from_slice(content);
        all.extend((0..behind).map(|_| T::of(rng.next())));
        Lent { before: all.clone(), all, from, len: content.len() }
    }
    pub fn ptr(&self) -> *const T {
        self.all[self.from..].as_ptr()
    }
    pub fn mut_ptr(&mut self) -> *mut T {
        self.all[self.from..].as_mut_ptr()
    }
    pub fn len(&self) -> usize {
        self.len
    }
    pub fn content(&self) -> &[T] {
        &self.all[self.from..self.from + self.len]
    }
    /// The guards are as they were.
    pub fn guarded(&self, name: &str) -> Result<(), String> {
        let end = self.from + self.len;
        if self.all[..self.from] != self.before[..self.from] || self.all[end..] != self.before[end..]
        {
            return Err(format!("{name}: written outside"));
        }
        Ok(())
    }
    /// The content is what it should be, and the guards are as they were.
    pub fn holds(&self, name: &str, expected: &[T]) -> Result<(), String> {
        self.guarded(name)?;
        equal(name, self.content(), expected)
    }
    /// Nothing was written at all.
    pub fn kept(&self, name: &str) -> Result<(), String> {
        self.holds(name, &self.before[self.from..self.from + self.len])
    }
}

/// Number by number the same.
pub fn equal<T: Word>(name: &str, got: &[T], expected: &[T]) -> Result<(), String> {
    if got == expected {
        return Ok(());
    }
    let len = got.len();
    same(&format!("{name}, length"), &len, &expected.len())?;
    let i = (0..len).find(|i| got[*i] != expected[*i]).unwrap();
    Err(format!("{name} of {len}: at {i} is {:?}, expected {:?}", got[i], expected[i]))
}

pub fn same<T: PartialEq + Debug>(name: &str, got: &T, expected: &T) -> Result<(), String> {
    if got == expected {
        Ok(())
    } else {
        Err(format!("{name}: is {got:?}, expected {expected:?}"))
    }
}

pub fn holds(name: &str, true_there: bool) -> Result<(), String> {
    if true_there {
        Ok(())
    } else {
        Err(format!("{name}: doesn't hold"))
    }
}

// -------------------------------------------------------------------- run

/// Something that random cases must come upon, and how often they did.
pub struct Met {
    name: &'static str,
    times: AtomicU64,
}

impl Met {
    pub const fn new(name: &'static str) -> Self {
        Met { name, times: AtomicU64::new(0) }
    }
    /// Fixed cases don't count.
    pub fn count_if(&self, met: bool) {
        if met && CASE.load(Ordering::Relaxed) >= 0 {
            self.times.fetch_add(1, Ordering::Relaxed);
        }
    }
}

pub struct Run {
    pub seed: u64,
    pub count: u64,
    pub first: u64,
    usual: u64,
    passed: u64,
    failed: u64,
}

impl Run {
    /// Arguments: seed, count of random cases, number of the first one. With
    /// "bare" after them the buffers have no guards.
    pub fn from_arguments(default_count: u64) -> Self {
        let mut numbers = Vec::new();
        for argument in std::env::args().skip(1) {
            if argument == "bare" {
                BARE.store(true, Ordering::Relaxed);
            } else {
                numbers.push(argument.parse().expect("seed, count and first case are numbers"));
            }
        }
        let get = |i: usize, default: u64| numbers.get(i).copied().unwrap_or(default);
        let run = Run {
            seed: get(0, 1),
            count: get(1, default_count),
            first: get(2, 0),
            usual: default_count,
            passed: 0,
            failed: 0,
        };
        SEED.store(run.seed, Ordering::Relaxed);
        tell_on_crash();
        run
    }

    /// A fixed case, by name.
    pub fn fixed(&mut self, name: &str, result: Result<(), String>) {
        match result {
            Ok(()) => self.passed += 1,
            Err(what) => {
                self.failed += 1;
                println!("failed: {name}: {what}");
            }
        }
    }

    /// The random cases.
    pub fn random(&mut self, case: impl Fn(&mut Rng, u64) -> Result<(), String>) {
        for number in self.first..self.first + self.count {
            CASE.store(number as i64, Ordering::Relaxed);
            let mut rng = Rng::new(self.seed, number);
            match case(&mut rng, number) {
                Ok(()) => self.passed += 1,
                Err(what) => {
                    self.failed += 1;
                    if self.failed <= 20 {
                        println!("failed: seed {} case {number}: {what}", self.seed);
                    }
                }
            }
        }
        CASE.store(-1, Ordering::Relaxed);
    }

    /// Fails for what none of the random cases came upon, if they are as many as usual.
    pub fn met(&mut self, all: &[&Met]) {
        if self.count < self.usual {
            return;
        }
        for met in all {
            let times = met.times.load(Ordering::Relaxed);
            self.fixed(met.name, holds("met by a random case", times > 0));
        }
    }

    /// Whether no case has failed so far.
    pub fn clean(&self) -> bool {
        self.failed == 0
    }

    /// The last line, and the exit status.
    pub fn end(self) -> ! {
        println!("{} passed, {} failed", self.passed, self.failed);
        std::process::exit((self.failed > 0) as i32)
    }
}

// A call that crashes, or that doesn't end, still tells its case.

extern "C" {
    fn signal(number: i32, handler: extern "C" fn(i32)) -> usize;
    fn write(file: i32, bytes: *const u8, len: usize) -> isize;
    fn _exit(status: i32) -> !;
}

extern "C" fn on_signal(number: i32) {
    let mut text = [0u8; 96];
    let mut len = 0;
    let mut put = |part: &[u8]| {
        for b in part {
            text[len] = *b;
            len += 1;
        }
    };
    fn decimal(mut value: u64, digits: &mut [u8; 20]) -> &[u8] {
        let mut i = 20;
        loop {
            i -= 1;
            digits[i] = b'0' + (value % 10) as u8;
            value /= 10;
            if value == 0 {
                return &digits[i..];
            }
        }
    }
    let mut digits = [0u8; 20];
    put(b"failed: signal ");
    put(decimal(number as u64, &mut digits));
    put(b", seed ");
    put(decimal(SEED.load(Ordering::Relaxed), &mut digits));
    let case = CASE.load(Ordering::Relaxed);
    if case >= 0 {
        put(b" case ");
        put(decimal(case as u64, &mut digits));
    } else {
        put(b", a fixed case");
    }
    put(b"\n");
    unsafe {
        write(1, text.as_ptr(), len);
        _exit(1)
    }
}

fn tell_on_crash() {
    // Illegal instruction, abort, bus, arithmetic, segment, end.
    for number in [4, 6, 7, 8, 11, 15] {
        unsafe { signal(number, on_signal) };
    }
}
