//! Repairs a block that lost three packets, then verifies it. Then repairs one
//! where no check has a single lost place. Then one with a wrong packet, and one
//! with two. Then finds where two packets differ that should be equal. Then
//! merges what two receivers heard. Then tells why places are restored, lost or
//! received. Then goes on under a longer table in the middle of a pass.

#[repr(C)]
struct Repaired {
    refusal: u32,
    restored: u32,
    lost: u32,
    additions: u32,
    check: u32,
    byte: u32,
}

#[repr(C)]
struct FullyRepaired {
    refusal: u32,
    restored: u32,
    lost: u32,
    check: u32,
    byte: u32,
}

#[repr(C)]
#[derive(Debug, PartialEq)]
struct Merged {
    refusal: u32,
    agreed: u32,
    single: u32,
    silent: u32,
    clash: u32,
    restored: u32,
    lost: u32,
    additions: u32,
    check: u32,
    byte: u32,
}

#[repr(C)]
struct Reason {
    refusal: u32,
    kind: u32,
    length: u32,
    restored: u32,
    lost: u32,
    check: u32,
    byte: u32,
}

#[repr(C)]
struct Verified {
    refusal: u32,
    codeword: u32,
    check: u32,
    byte: u32,
}

#[repr(C)]
struct Part {
    refusal: u32,
    start: usize,
    length: usize,
}

#[link(name = "receiver", kind = "static")]
extern "C" {
    fn bs_repair(
        table: *const u16,
        table_len: usize,
        block: *mut u8,
        block_len: usize,
        map: *mut u8,
        map_len: usize,
    ) -> Repaired;
    fn bs_full_repair(
        table: *const u16,
        table_len: usize,
        block: *mut u8,
        block_len: usize,
        map: *mut u8,
        map_len: usize,
        work: *mut u64,
        work_len: usize,
    ) -> FullyRepaired;
    fn bs_merge(
        table: *const u16,
        table_len: usize,
        block1: *const u8,
        block1_len: usize,
        map1: *const u8,
        map1_len: usize,
        block2: *const u8,
        block2_len: usize,
        map2: *const u8,
        map2_len: usize,
        block3: *mut u8,
        block3_len: usize,
        map3: *mut u8,
        map3_len: usize,
    ) -> Merged;
    fn bs_why(
        table: *const u16,
        table_len: usize,
        block: *mut u8,
        block_len: usize,
        map: *mut u8,
        map_len: usize,
        work: *mut u64,
        work_len: usize,
        place: usize,
        reason: *mut u16,
        reason_len: usize,
    ) -> Reason;
    fn bs_lengthen(
        old_table: *const u16,
        old_table_len: usize,
        new_table: *const u16,
        new_table_len: usize,
        block: *mut u8,
        block_len: usize,
        map: *mut u8,
        map_len: usize,
        arrivals: *const u8,
        arrivals_len: usize,
        arrivals_map: *const u8,
        arrivals_map_len: usize,
    ) -> Repaired;
    fn bs_verify(table: *const u16, table_len: usize, block: *const u8, block_len: usize)
        -> Verified;
    fn bs_packet(n: usize, s: usize, place: usize, block: *const u8, block_len: usize) -> Part;
}

/// Why a block isn't repaired.
#[derive(Debug, PartialEq)]
enum Unrepaired {
    Refused(u32),
    /// Refusal 8: the lowest check that fails, and the lowest byte where it does.
    Contradicts { check: u32, byte: u32 },
}

impl Repaired {
    /// The numbers of restored and still lost places and of additions.
    fn outcome(self) -> Result<(u32, u32, u32), Unrepaired> {
        match self.refusal {
            0 => Ok((self.restored, self.lost, self.additions)),
            8 => Err(Unrepaired::Contradicts { check: self.check, byte: self.byte }),
            refusal => Err(Unrepaired::Refused(refusal)),
        }
    }
}

/// Restores lost packets; the numbers of restored and still lost places and
/// of additions. A map byte of 3 says that packets contradicted and that this
/// place was blamed, which may have been right.
fn repair(
    table: &[u16],
    block: &mut [u8],
    map: &mut [u8],
) -> Result<(u32, u32, u32), Unrepaired> {
    let r = unsafe {
        bs_repair(
            table.as_ptr(),
            table.len(),
            block.as_mut_ptr(),
            block.len(),
            map.as_mut_ptr(),
            map.len(),
        )
    };
    r.outcome()
}

/// Restores every lost packet that the received ones decide; the numbers of
/// restored and still lost places, or the refusal.
fn full_repair(table: &[u16], block: &mut [u8], map: &mut [u8]) -> Result<(u32, u32), u32> {
    let mut work = vec![0u64; 8192];
    let r = unsafe {
        bs_full_repair(
            table.as_ptr(),
            table.len(),
            block.as_mut_ptr(),
            block.len(),
            map.as_mut_ptr(),
            map.len(),
            work.as_mut_ptr(),
            work.len(),
        )
    };
    match (r.refusal, r.check, r.byte) {
        (0, 0, 0) => Ok((r.restored, r.lost)),
        (refusal, ..) => Err(refusal),
    }
}

/// What a receiver heard: its block, and its map of 0 and 1.
struct Heard {
    block: [u8; 7],
    map: [u8; 7],
}

/// A pass up to its middle, in buffers with room for two new places; or what has
/// arrived since.
#[derive(Clone, Copy, Debug, PartialEq)]
struct Pass {
    block: [u8; 9],
    map: [u8; 9],
}

/// Merges what two receivers heard into one block and map, and restores what
/// can be restored of them.
fn merge(table: &[u16], first: &Heard, second: &Heard) -> (Merged, [u8; 7], [u8; 7]) {
    let (mut block, mut map) = ([0; 7], [0; 7]);
    let merged = unsafe {
        bs_merge(
            table.as_ptr(),
            table.len(),
            first.block.as_ptr(),
            first.block.len(),
            first.map.as_ptr(),
            first.map.len(),
            second.block.as_ptr(),
            second.block.len(),
            second.map.as_ptr(),
            second.map.len(),
            block.as_mut_ptr(),
            block.len(),
            map.as_mut_ptr(),
            map.len(),
        )
    };
    (merged, block, map)
}

/// Why a place is as it is after full repair.
#[derive(Debug, PartialEq)]
enum Why {
    Received,
    /// By the sum of these checks.
    Restored(Vec<u16>),
    /// With these places, itself among them: no check tells if all are off by
    /// the same.
    Lost(Vec<u16>),
}

/// Restores as full repair does, and says why a place is then as it is; or the
/// refusal.
fn why(table: &[u16], block: &mut [u8], map: &mut [u8], place: usize) -> Result<Why, u32> {
    let mut work = vec![0u64; 8192];
    let mut reason = vec![0u16; 1024];
    let told = unsafe {
        bs_why(
            table.as_ptr(),
            table.len(),
            block.as_mut_ptr(),
            block.len(),
            map.as_mut_ptr(),
            map.len(),
            work.as_mut_ptr(),
            work.len(),
            place,
            reason.as_mut_ptr(),
            reason.len(),
        )
    };
    reason.truncate(told.length as usize);
    match (told.refusal, told.kind) {
        (0, 1) => Ok(Why::Received),
        (0, 2) => Ok(Why::Restored(reason)),
        (0, _) => Ok(Why::Lost(reason)),
        (refusal, _) => Err(refusal),
    }
}

/// Enters what has arrived and goes on under a longer table; the numbers of this
/// call alone. A map with a 3 is refused: set it back to 1 first.
fn lengthen(
    old: &[u16],
    new: &[u16],
    half: &mut Pass,
    arrivals: &Pass,
) -> Result<(u32, u32, u32), Unrepaired> {
    let r = unsafe {
        bs_lengthen(
            old.as_ptr(),
            old.len(),
            new.as_ptr(),
            new.len(),
            half.block.as_mut_ptr(),
            half.block.len(),
            half.map.as_mut_ptr(),
            half.map.len(),
            arrivals.block.as_ptr(),
            arrivals.block.len(),
            arrivals.map.as_ptr(),
            arrivals.map.len(),
        )
    };
    r.outcome()
}

/// None for a codeword, else the lowest check that fails and the lowest byte
/// where it does; or the refusal.
fn verify(table: &[u16], block: &[u8]) -> Result<Option<(u32, u32)>, u32> {
    let v = unsafe { bs_verify(table.as_ptr(), table.len(), block.as_ptr(), block.len()) };
    match (v.refusal, v.codeword) {
        (0, 1) => Ok(None),
        (0, _) => Ok(Some((v.check, v.byte))),
        (refusal, _) => Err(refusal),
    }
}

/// The packet of one place, or the refusal.
fn packet(n: usize, s: usize, place: usize, block: &[u8]) -> Result<&[u8], u32> {
    let part = unsafe { bs_packet(n, s, place, block.as_ptr(), block.len()) };
    if part.refusal == 0 {
        Ok(&block[part.start..part.start + part.length])
    } else {
        Err(part.refusal)
    }
}

fn wrong(what: String) -> ! {
    println!("receiver.rs: wrong: {what}");
    std::process::exit(1)
}

/// Seven packets of one byte, three checks of four places each.
const TABLE: [u16; 20] = [2, 7, 1, 3, 4, 4, 4, 12, 0, 2, 4, 6, 1, 2, 5, 6, 3, 4, 5, 6];
const SENT: [u8; 7] = [0x01, 0x02, 0x04, 0x0e, 0x08, 0x0b, 0x0d];

fn repair_and_verify() {
    // Places 3, 5 and 6 didn't arrive.
    let mut block = [0x01, 0x02, 0x04, 0, 0x08, 0, 0];
    let mut map = [0, 0, 0, 1, 0, 1, 1];

    let repaired = repair(&TABLE, &mut block, &mut map);
    let verified = verify(&TABLE, &block);
    let fifth = packet(7, 1, 5, &block);
    if repaired != Ok((3, 0, 9)) || block != SENT || verified != Ok(None) || fifth != Ok(&[0x0b]) {
        wrong(format!("{repaired:?}, {block:02x?}, {verified:?}, {fifth:?}"));
    }
    println!("receiver.rs: 3 restored, 0 lost, 9 additions; packet 5 is {:02x}", block[5]);
}

fn repair_fully() {
    // Places 2, 4 and 6 didn't arrive. Each check has lost two places or more.
    let mut block = [0x01, 0x02, 0, 0x0e, 0, 0x0b, 0];
    let mut map = [0, 0, 1, 0, 1, 0, 1];

    let repaired = repair(&TABLE, &mut block, &mut map);
    let full = full_repair(&TABLE, &mut block, &mut map);
    if repaired != Ok((0, 3, 0)) || full != Ok((3, 0)) || block != SENT {
        wrong(format!("{repaired:?}, {full:?}, {block:02x?}"));
    }
    println!(
        "receiver.rs: fully repaired: 3 restored, 0 lost; packets 2, 4, 6 are {:02x} {:02x} {:02x}",
        block[2], block[4], block[6]
    );
}

fn blame_a_place() {
    // All seven arrived, but place 0 has 11 where 01 was sent. Without it no
    // packets contradict, and the others restore it; of no other place is that
    // true. So it is marked 3.
    let mut block = [0x11, 0x02, 0x04, 0x0e, 0x08, 0x0b, 0x0d];
    let mut map = [0; 7];

    let repaired = repair(&TABLE, &mut block, &mut map);
    let blamed = map.iter().position(|mark| *mark == 3);
    if repaired != Ok((1, 0, 3)) || block != SENT || blamed != Some(0) {
        wrong(format!("{repaired:?}, {block:02x?}, {map:?}"));
    }
    println!("receiver.rs: packets contradicted: place 0 blamed, and restored as {:02x}", block[0]);
}

fn refuse_two_wrong() {
    // Place 3 is wrong too: no single place can be blamed.
    let received = [0x11, 0x02, 0x04, 0x0f, 0x08, 0x0b, 0x0d];
    let mut block = received;
    let mut map = [0; 7];

    let repaired = repair(&TABLE, &mut block, &mut map);
    let contradicts = Unrepaired::Contradicts { check: 0, byte: 0 };
    if repaired != Err(contradicts) || block != received || map != [0; 7] {
        wrong(format!("{repaired:?}, {block:02x?}, {map:?}"));
    }
    println!("receiver.rs: two wrong packets: check 0 fails at byte 0");
}

fn find_the_byte() {
    // Two packets of eight bytes, each sent twice: a check for each pair.
    let pairs = [2, 4, 8, 2, 2, 2, 4, 0, 1, 2, 3];

    // All four arrived, but the copies of the second packet differ. Either may
    // be the wrong one, so that none is blamed.
    let mut block = *b"54 11 N 54 11 N 007 53 E007 58 E";

    let verified = verify(&pairs, &block);
    let repaired = repair(&pairs, &mut block, &mut [0; 4]);
    let contradicts = Unrepaired::Contradicts { check: 1, byte: 5 };
    if verified != Ok(Some((1, 5))) || repaired != Err(contradicts) {
        wrong(format!("{verified:?}, {repaired:?}"));
    }
    println!("receiver.rs: packets contradict: check 1 fails at byte 5");
}

fn merge_two() {
    let first = Heard {
        block: [0x01, 0x02, 0, 0x0e, 0, 0, 0x0d],
        map: [0, 0, 1, 0, 1, 1, 0],
    };
    let mut second = Heard {
        block: [0, 0, 0x04, 0x0e, 0, 0x0b, 0],
        map: [1, 1, 0, 0, 1, 0, 1],
    };

    // Alone neither restores a place: each check has lost two or more.
    let alone = [&first, &second].map(|h| repair(&TABLE, &mut h.block.clone(), &mut h.map.clone()));
    if alone != [Ok((0, 3, 0)), Ok((0, 4, 0))] {
        wrong(format!("{alone:?}"));
    }
    let (merged, block, _) = merge(&TABLE, &first, &second);
    let counts = (merged.agreed, merged.single, merged.silent, merged.clash);
    if merged.refusal != 0 || counts != (1, 5, 1, 0) || block != SENT {
        wrong(format!("{merged:?}, {block:02x?}"));
    }
    println!(
        "receiver.rs: merged: 1 agreed, 5 single, 1 silent, 0 clash; {} restored, {} lost",
        merged.restored, merged.lost
    );

    // One bit of place 3 is wrong at the second. Both heard that place, so that
    // neither is believed, and it is restored from the others.
    second.block[3] ^= 0x80;
    let (merged, block, map) = merge(&TABLE, &first, &second);
    if merged.refusal != 0 || merged.clash != 1 || map[3] != 2 || block != SENT {
        wrong(format!("{merged:?}, {block:02x?}, {map:?}"));
    }
    println!("receiver.rs: place 3 in clash, and restored as {:02x}", block[3]);
}

/// The numbers of a list, with spaces between them.
fn numbers(list: &[u16]) -> String {
    list.iter().map(u16::to_string).collect::<Vec<_>>().join(" ")
}

/// Why a place of the sent block is as it is, where these places didn't arrive.
fn why_lost(lost: [u8; 7], place: usize) -> Result<Why, u32> {
    let mut block = std::array::from_fn::<u8, 7, _>(|p| SENT[p] * (1 - lost[p]));
    let mut map = lost;
    why(&TABLE, &mut block, &mut map, place)
}

fn ask_why() {
    // Places 2, 4 and 6 didn't arrive, and are restored. Checks 0 and 1 both hold
    // 2 and 6, so that these cancel, and place 4 is left.
    let three = [0, 0, 1, 0, 1, 0, 1];
    let checks = vec![0, 1];
    let restored = format!("place 4 is restored by checks {}", numbers(&checks));

    // Places 2, 4 and 5 didn't arrive. Each check holds two of them, so that
    // nothing tells if the three are off by the same.
    let others = [0, 0, 1, 0, 1, 1, 0];
    let together = vec![2, 4, 5];
    let lost = format!("place 4 stays lost with {}", numbers(&together));

    let asked = [
        (three, 4, Ok(Why::Restored(checks)), restored),
        (three, 3, Ok(Why::Received), "place 3 is received".to_string()),
        (others, 4, Ok(Why::Lost(together)), lost),
        // There is no place 7.
        (others, 7, Err(14), "place 7 is refused with 14".to_string()),
    ];
    for (map, place, expected, text) in asked {
        let told = why_lost(map, place);
        if told != expected {
            wrong(format!("place {place}: {told:?}"));
        }
        println!("receiver.rs: {text}");
    }
}

/// The table with two checks more, and a new place in each.
const LONGER: [u16; 28] = [
    2, 9, 1, 5, 4, 4, 4, 3, 3, 18, 0, 2, 4, 6, 1, 2, 5, 6, 3, 4, 5, 6, 1, 4, 7, 0, 2, 8,
];
/// The same, but the new checks come first.
const MIXED: [u16; 28] = [
    2, 9, 1, 5, 3, 3, 4, 4, 4, 18, 1, 4, 7, 0, 2, 8, 0, 2, 4, 6, 1, 2, 5, 6, 3, 4, 5, 6,
];
const SENT_LONGER: [u8; 9] = [0x01, 0x02, 0x04, 0x0e, 0x08, 0x0b, 0x0d, 0x0a, 0x05];

/// Places 0, 1, 3 and 4 didn't arrive. Place 1 is restored; then checks 0 and 2
/// have two lost places each. What stands at places 7 and 8 never counts.
fn first_half() -> Pass {
    let mut half = Pass {
        block: [0, 0, 0x04, 0, 0, 0x0b, 0x0d, 0xee, 0xee],
        map: [1, 1, 0, 1, 1, 0, 0, 0xee, 0xee],
    };
    let repaired = repair(&TABLE, &mut half.block[..7], &mut half.map[..7]);
    if repaired != Ok((1, 3, 3)) {
        wrong(format!("{repaired:?}, {half:02x?}"));
    }
    half
}

fn lengthen_the_table() {
    let mut half = first_half();
    println!("receiver.rs: half a pass: 1 restored, 3 lost");

    // Place 7 arrives, and gives back place 4, from which the others follow. Place
    // 1 arrives too, but is known: it is ignored, and stays marked as restored.
    let arrivals = Pass {
        block: [0, 0x02, 0, 0, 0, 0, 0, 0x0a, 0],
        map: [1, 0, 1, 1, 1, 1, 1, 0, 1],
    };
    let repaired = lengthen(&TABLE, &LONGER, &mut half, &arrivals);
    let all = Pass { block: SENT_LONGER, map: [2, 2, 0, 2, 2, 0, 0, 0, 2] };
    if repaired != Ok((4, 0, 10)) || half != all {
        wrong(format!("{repaired:?}, {half:02x?}"));
    }
    println!(
        "receiver.rs: longer table: 4 restored, 0 lost, 10 additions; packet 8 is {:02x}",
        half.block[8]
    );
}

fn refuse_an_arrival() {
    // Places 7 and 8 arrive, but one bit of place 7 is wrong. No place is blamed.
    // Both stay in the block, and the map says so.
    let arrivals = Pass {
        block: [0, 0, 0, 0, 0, 0, 0, 0x8a, 0x05],
        map: [1, 1, 1, 1, 1, 1, 1, 0, 0],
    };
    let entered = Pass {
        block: [0, 0x02, 0x04, 0, 0, 0x0b, 0x0d, 0x8a, 0x05],
        map: [1, 2, 0, 1, 1, 0, 0, 0, 0],
    };
    let mut half = first_half();
    let repaired = lengthen(&TABLE, &LONGER, &mut half, &arrivals);
    if repaired != Err(Unrepaired::Contradicts { check: 4, byte: 0 }) || half != entered {
        wrong(format!("{repaired:?}, {half:02x?}"));
    }
    println!("receiver.rs: an arrival contradicts: check 4 fails at byte 0");
}

fn refuse_another_table() {
    // The checks are those of the longer table, but the old ones aren't first.
    let none = Pass { block: [0; 9], map: [1; 9] };
    let before = first_half();
    let mut half = before;
    let repaired = lengthen(&TABLE, &MIXED, &mut half, &none);
    if repaired != Err(Unrepaired::Refused(15)) || half != before {
        wrong(format!("{repaired:?}, {half:02x?}"));
    }
    println!("receiver.rs: a table with the new checks first is refused with 15");
}

fn main() {
    repair_and_verify();
    repair_fully();
    blame_a_place();
    refuse_two_wrong();
    find_the_byte();
    merge_two();
    ask_why();
    lengthen_the_table();
    refuse_an_arrival();
    refuse_another_table();
}
