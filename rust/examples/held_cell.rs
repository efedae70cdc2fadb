//! A held cell in a released batch: the batch's rule releases its 32 cells, one of them is on hold and
//! has a rule of its own. The cell's own rule wins; lifted, the batch's counts again.
//!
//! Run it with `cargo run --offline --example held_cell` in `rust/`.

use hestrovik::{Prefix, PrefixMap, Refusal};

const RELEASED: u32 = 1;
const ON_HOLD: u32 = 2;

const BATCH: Prefix = Prefix::new(0x0A00_0100, 27);
const HELD: Prefix = Prefix::new(0x0A00_0113, 32);
const NEIGHBOUR: Prefix = Prefix::new(0x0A00_0112, 32);
const ELSEWHERE: Prefix = Prefix::new(0x0B00_0000, 32);

fn main() -> Result<(), Refusal> {
    let mut map = PrefixMap::new(64, 64)?;

    println!("The batch {BATCH} is released, its cell {HELD} is put on hold.");
    map.insert(BATCH, RELEASED)?;
    map.insert(HELD, ON_HOLD)?;
    for cell in [HELD, NEIGHBOUR, ELSEWHERE] {
        say(&map, cell)?;
    }

    println!("The hold is lifted.");
    map.remove(HELD)?;
    say(&map, HELD)?;

    println!("A rule of 33 bits is asked for.");
    match map.insert((0x0A00_0113, 33), ON_HOLD) {
        Ok(_) => println!("  it was taken"),
        Err(refusal) => println!("  refused, number {}: {refusal}", refusal.number()),
    }
    Ok(())
}

/// Which rule counts for a cell.
fn say(map: &PrefixMap, cell: Prefix) -> Result<(), Refusal> {
    match map.get_lpm(cell)? {
        Some((rule, ON_HOLD)) => println!("  {cell} is on hold by rule {rule}"),
        Some((rule, RELEASED)) => println!("  {cell} is released by rule {rule}"),
        Some((rule, value)) => println!("  {cell} has value {value} by rule {rule}"),
        None => println!("  {cell} has no rule"),
    }
    Ok(())
}
