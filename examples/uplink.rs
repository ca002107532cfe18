//! Plans a table once, then encodes blocks of it with packets of 64, 256 and
//! 1,024 bytes.

#[repr(C)]
struct Planned {
    refusal: u32,
    length: u32,
    kept: u32,
    ones: u32,
    gap: u32,
    additions: u32,
}

#[repr(C)]
struct Encoded {
    refusal: u32,
    additions: u32,
}

#[link(name = "uplink", kind = "static")]
extern "C" {
    fn bs_plan(
        table: *const u16,
        table_len: usize,
        plan: *mut u32,
        plan_len: usize,
        work: *mut u64,
        work_len: usize,
    ) -> Planned;
    fn bs_encode(
        plan: *const u32,
        plan_len: usize,
        size: usize,
        information: *const u8,
        information_len: usize,
        block: *mut u8,
        block_len: usize,
        scratch: *mut u8,
        scratch_len: usize,
        limit: usize,
    ) -> Encoded;
}

/// The plan of a table with its counts, or the refusal.
fn plan(table: &[u16]) -> Result<(Vec<u32>, Planned), u32> {
    let mut plan = vec![0u32; 15_360];
    let mut work = vec![0u64; 8_192];
    let planned = unsafe {
        bs_plan(
            table.as_ptr(),
            table.len(),
            plan.as_mut_ptr(),
            plan.len(),
            work.as_mut_ptr(),
            work.len(),
        )
    };
    if planned.refusal != 0 {
        return Err(planned.refusal);
    }
    plan.truncate(planned.length as usize);
    Ok((plan, planned))
}

/// The block of some information packets of so many bytes, with the number of
/// additions, or the refusal.
fn encode(plan: &[u32], size: usize, information: &[u8]) -> Result<(Vec<u8>, u32), u32> {
    // A plan starts with 3, n, g.
    let (n, g) = (plan[1] as usize, plan[2] as usize);
    let mut block = vec![0u8; n * size];
    let mut scratch = vec![0u8; g * size];
    let encoded = unsafe {
        bs_encode(
            plan.as_ptr(),
            plan.len(),
            size,
            information.as_ptr(),
            information.len(),
            block.as_mut_ptr(),
            block.len(),
            scratch.as_mut_ptr(),
            scratch.len(),
            usize::MAX,
        )
    };
    if encoded.refusal == 0 {
        Ok((block, encoded.additions))
    } else {
        Err(encoded.refusal)
    }
}

fn main() {
    // Four packets; three checks of three places each, of which one is set
    // aside. The table has a size, its plan has none.
    let table = [2, 4, 64, 3, 3, 3, 3, 9, 0, 1, 2, 0, 1, 3, 0, 2, 3];
    let (plan, planned) = plan(&table).unwrap_or_else(|refusal| {
        println!("uplink.rs: planning refused with {refusal}");
        std::process::exit(1);
    });
    let counts = (planned.kept, planned.ones, planned.gap, planned.additions);
    if counts != (3, 9, 1, 9) {
        println!("uplink.rs: wrong: {counts:?}");
        std::process::exit(1);
    }

    for size in [64, 256, 1024] {
        // One information packet, at place 1; its block has it at places 2
        // and 3 too, and zeros at place 0.
        let information: Vec<u8> = (0..size).map(|j| (j % 251) as u8).collect();
        let block = [&vec![0; size][..], &information, &information, &information].concat();
        if encode(&plan, size, &information) != Ok((block, planned.additions)) {
            println!("uplink.rs: packets of {size} bytes: wrong");
            std::process::exit(1);
        }
    }

    // A packet has 1 to 1,024 bytes.
    let refused = encode(&plan, 1025, &[0; 1025]);
    if refused != Err(2) {
        println!("uplink.rs: packets of 1025 bytes: {refused:?}");
        std::process::exit(1);
    }
    println!(
        "uplink.rs: {} checks kept, gap {}; {} additions with packets of 64, 256 and 1024 bytes; 1025 bytes refused with 2",
        planned.kept, planned.gap, planned.additions
    );
}
