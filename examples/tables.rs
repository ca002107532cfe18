//! Makes a staircase table, asks for one that can't be made, and takes the table through alist text and back.

#[repr(C)]
struct Made {
    refusal: u32,
    length: u32,
}

#[link(name = "tables", kind = "static")]
extern "C" {
    fn bs_staircase(
        sources: usize,
        packets: usize,
        ones: usize,
        seed: usize,
        size: usize,
        table: *mut u16,
        table_len: usize,
    ) -> Made;
    fn bs_alist_read(
        text: *const u8,
        text_len: usize,
        size: usize,
        table: *mut u16,
        table_len: usize,
    ) -> Made;
    fn bs_alist_write(table: *const u16, table_len: usize, text: *mut u8, text_len: usize) -> Made;
}

/// The table of some parameters, or the refusal.
fn staircase(
    sources: usize,
    packets: usize,
    ones: usize,
    seed: usize,
    size: usize,
) -> Result<Vec<u16>, u32> {
    let mut table = vec![0u16; 6_661];
    let made = unsafe {
        bs_staircase(sources, packets, ones, seed, size, table.as_mut_ptr(), table.len())
    };
    if made.refusal != 0 {
        return Err(made.refusal);
    }
    table.truncate(made.length as usize);
    Ok(table)
}

/// The table of an alist text, or the refusal.
fn alist_read(text: &[u8], size: usize) -> Result<Vec<u16>, u32> {
    let mut table = vec![0u16; 6_661];
    let made = unsafe {
        bs_alist_read(text.as_ptr(), text.len(), size, table.as_mut_ptr(), table.len())
    };
    if made.refusal != 0 {
        return Err(made.refusal);
    }
    table.truncate(made.length as usize);
    Ok(table)
}

/// A table as alist text, or the refusal.
fn alist_write(table: &[u16]) -> Result<Vec<u8>, u32> {
    let mut text = vec![0u8; 1_200_000];
    let made =
        unsafe { bs_alist_write(table.as_ptr(), table.len(), text.as_mut_ptr(), text.len()) };
    if made.refusal != 0 {
        return Err(made.refusal);
    }
    text.truncate(made.length as usize);
    Ok(text)
}

fn main() {
    // Two source packets of five, of one byte; three ones a source column.
    let table = staircase(2, 5, 3, 1, 1);
    let known = vec![2, 5, 1, 3, 3, 4, 4, 11, 0, 1, 2, 0, 1, 2, 3, 0, 1, 3, 4];
    // One source never makes a table: each check needs two.
    let refused = staircase(1, 5, 3, 1, 1);
    if table != Ok(known.clone()) || refused != Err(11) {
        println!("tables.rs: wrong: {table:?}, {refused:?}");
        std::process::exit(1);
    }

    let text = alist_write(&known);
    let lines = "5 3\n3 4\n3 3 2 2 1\n3 4 4\n1 2 3\n1 2 3\n1 2 0\n2 3 0\n3 0 0\n1 2 3 0\n1 2 3 4\n1 2 4 5\n";
    // The lists may come unsorted, and anyhow cut into lines.
    let unsorted = lines.replacen("1 2 3\n", "3 1 2 ", 1);
    // The last check has place 4 by its row and not by its column.
    let one_sided = lines.replacen("3 0 0\n", "2 0 0\n", 1);
    let read = (alist_read(unsorted.as_bytes(), 1), alist_read(one_sided.as_bytes(), 1));
    if text != Ok(lines.into()) || read != (Ok(known), Err(13)) {
        println!("tables.rs: wrong: {text:?}, {read:?}");
        std::process::exit(1);
    }
    println!("tables.rs: 5 packets, 3 checks, 11 ones; one source refused with 11; the same table from its text, one-sided lists refused with 13");
}
