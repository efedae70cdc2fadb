//! Runs a whole input, record by record, however the bytes arrive.

use std::io::{self, Read, Write};

use crate::desk::Desk;
use crate::record::{number, Answer, Record, RECORD};

/// Writes the answer to every record.
pub fn play(desk: &mut Desk, input: impl Read, mut output: impl Write) -> Result<(), String> {
    run(desk, input, |_, _, answer| {
        output.write_all(&answer.encode())
    })?;
    output.flush().map_err(unwritable)
}

/// Answers every record in turn and hands each answer on, with the desk and the record itself where
/// it is in good form. One to eleven bytes at the end get one answer, number 7.
pub fn run(
    desk: &mut Desk,
    mut input: impl Read,
    mut each: impl FnMut(&mut Desk, Option<Record>, Answer) -> io::Result<()>,
) -> Result<(), String> {
    let mut bytes = [0; RECORD];
    loop {
        let got = fill(&mut input, &mut bytes)
            .map_err(|e| format!("cannot read the records from standard input: {e}"))?;
        let (record, answer) = match got {
            0 => return Ok(()),
            RECORD => (Record::decode(&bytes), desk.answer(&bytes)),
            _ => (None, Answer::bare(number::CUT_SHORT)),
        };
        each(desk, record, answer).map_err(unwritable)?;
        if got < RECORD {
            return Ok(());
        }
    }
}

/// The one line for an output that can't be written.
pub fn unwritable(e: io::Error) -> String {
    format!("cannot write to standard output: {e}")
}

/// Reads until the record is whole or the input ends: a short read is no tail.
fn fill(input: &mut impl Read, bytes: &mut [u8; RECORD]) -> io::Result<usize> {
    let mut got = 0;
    while got < RECORD {
        match input.read(&mut bytes[got..]) {
            Ok(0) => break,
            Ok(more) => got += more,
            Err(e) if e.kind() == io::ErrorKind::Interrupted => {}
            Err(e) => return Err(e),
        }
    }
    Ok(got)
}
