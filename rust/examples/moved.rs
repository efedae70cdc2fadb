//! The program of docs/MOVING.md after the move: the one of beside/examples/before_moving.rs, over this
//! map.

use hestrovik::{PrefixMap, Refusal};

fn main() -> Result<(), Refusal> {
    let mut rules = PrefixMap::new(1024, 2048)?; // nodes and cells
    rules.insert((0x0A000100, 27), 1)?; // the batch is released
    rules.insert((0x0A000113, 32), 2)?; // one cell of it is on hold

    for cell in [0x0A000113, 0x0A000112, 0x0B000000] {
        match rules.get_lpm((cell, 32))? {
            Some((rule, value)) => println!("{cell:08X} has {value} by {rule}"),
            None => println!("{cell:08X} has no rule"),
        }
    }

    println!("lifted: {:?}", rules.remove((0x0A000113, 32))?);
    println!("{} rule, {:?}", rules.len(), rules.get((0x0A000100, 27))?);
    Ok(())
}
