//! The program of docs/MOVING.md before the move, over prefix-trie.

use prefix_trie::PrefixMap;

fn main() {
    let mut rules: PrefixMap<(u32, u8), u32> = PrefixMap::new();
    rules.insert((0x0A000100, 27), 1); // the batch is released
    rules.insert((0x0A000113, 32), 2); // one cell of it is on hold

    for cell in [0x0A000113, 0x0A000112, 0x0B000000] {
        match rules.get_lpm(&(cell, 32)) {
            Some(((key, len), value)) => println!("{cell:08X} has {value} by {key:08X}/{len}"),
            None => println!("{cell:08X} has no rule"),
        }
    }

    println!("lifted: {:?}", rules.remove(&(0x0A000113, 32)));
    println!("{} rule, {:?}", rules.len(), rules.get(&(0x0A000100, 27)));
}
