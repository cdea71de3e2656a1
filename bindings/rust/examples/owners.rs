//! A table of owners says which product line has which separators; one that leaves a number out, or has it twice, is refused.

use std::error::Error;
use tuilarder::Owners;

fn print_refused(name: &str, table: &[u8]) {
    let fault = Owners::new(table).unwrap_err();
    println!("{name} is refused with {}: {fault}", fault.refusal().number());
}

fn main() -> Result<(), Box<dyn Error>> {
    let rows = [
        [0x00, 0x00, 0x00, 0x00, 0x6f, 0xff, 0xff, 0xff, 0x00, 0x01],
        [0x70, 0x00, 0x00, 0x00, 0x7f, 0xff, 0xff, 0xff, 0x00, 0x02],
        [0x80, 0x00, 0x00, 0x00, 0xff, 0xff, 0xff, 0xff, 0x00, 0x03],
    ];
    let table = rows.as_flattened();
    let owners = Owners::new(table)?;
    for separator in [b"house/p", b"house/r", b"payment", b"\xff\xff\xff\xff/p1"] {
        let line = owners.owner(separator)?;
        println!("{} is of product line {line}", separator.escape_ascii());
    }
    let refusal = owners.owner(b"pay").unwrap_err();
    println!("pay is refused with {}: {refusal}", refusal.number());

    let mut shared = rows;
    shared[1][..4].copy_from_slice(&[0x6f, 0xff, 0xff, 0xff]);
    print_refused("a second row from 6fffffff", shared.as_flattened());
    print_refused("the table without its last byte", &table[..29]);
    print_refused("the table without its last row", &table[..20]);
    print_refused("the empty table", &[]);
    Ok(())
}
