//! Answers as text, and after every edit the whole live memory.
//!
//! One line a thing, words parted by one space. Positions, indices, lengths, counts and tiers are
//! decimal, bitmaps, keys and values eight hexadecimal digits; `-` is an empty index.
//!
//! ```text
//! answer RECORD NUMBER LENGTH COUNT KEY VALUE
//! ```
//!
//! for every record, counted from 0. Behind that of an insert or a removal in good form, accepted
//! or not, stands the image:
//!
//! ```text
//! marks NODES CELLS
//! rules RULES
//! node POSITION DATA_BITMAP CHILD_BITMAP CHILDREN_IDX DATA_IDX
//! cell POSITION KEY LENGTH VALUE
//! free node TIER START ...
//! free cell TIER START ...
//! ```
//!
//! Nodes come before their children, children by rising bit; cells node by node in that order, by
//! rising bit. There are seven `free` lines a pool, tier 0 first, the last returned block last.

use std::io::{self, Read, Write};

use prefix_trie::image::{Books, Image};

use crate::desk::Desk;
use crate::play::{run, unwritable};
use crate::record::Answer;

/// Writes the trace of a whole input.
pub fn trace(desk: &mut Desk, input: impl Read, mut output: impl Write) -> Result<(), String> {
    let mut count = 0u64;
    run(desk, input, |desk, record, answer| {
        write_answer(&mut output, count, answer)?;
        count += 1;
        match record {
            Some(record) if record.operation.is_edit() => write_image(&mut output, &desk.image()),
            _ => Ok(()),
        }
    })?;
    output.flush().map_err(unwritable)
}

fn write_answer(output: &mut impl Write, count: u64, answer: Answer) -> io::Result<()> {
    writeln!(
        output,
        "answer {count} {} {} {} {:08x} {:08x}",
        answer.number, answer.length, answer.count, answer.key, answer.value
    )
}

fn write_image(output: &mut impl Write, image: &Image) -> io::Result<()> {
    writeln!(
        output,
        "marks {} {}",
        image.node_books.mark, image.cell_books.mark
    )?;
    writeln!(output, "rules {}", image.rules)?;
    for node in &image.nodes {
        writeln!(
            output,
            "node {} {:08x} {:08x} {} {}",
            node.position,
            node.data_bitmap,
            node.child_bitmap,
            index(node.children_idx),
            index(node.data_idx)
        )?;
    }
    for cell in &image.cells {
        writeln!(
            output,
            "cell {} {:08x} {} {:08x}",
            cell.position, cell.key, cell.length, cell.value
        )?;
    }
    write_free(output, "node", &image.node_books)?;
    write_free(output, "cell", &image.cell_books)
}

fn write_free(output: &mut impl Write, pool: &str, books: &Books) -> io::Result<()> {
    for (tier, starts) in books.free.iter().enumerate() {
        write!(output, "free {pool} {tier}")?;
        for start in starts {
            write!(output, " {start}")?;
        }
        writeln!(output)?;
    }
    Ok(())
}

fn index(idx: Option<u32>) -> String {
    idx.map_or_else(|| "-".to_string(), |start| start.to_string())
}
