//! Times every row on both sides, or plays it for callgrind to count.

use std::time::Duration;

use crate::ground::Ground;
use crate::rules::{Set, SIZES};

/// How much is played.
pub struct Plan {
    /// Queries of a lookup's row and edits of an edit's row, in one round.
    pub calls: usize,
    /// Calls that are timed together; they divide `calls`.
    pub piece: usize,
    pub rounds: usize,
}

/// The times of one side of a row: of each piece, one a round.
type Times = Vec<Vec<Duration>>;

/// Times every row: a line a row, nanoseconds a call, minimum and median of each side.
///
/// A round goes through all rows piece by piece. Each piece is played on both sides, one right behind the
/// other, and the side that begins changes. The minimum is that of each piece over the rounds, summed over
/// the pieces, and so is the median: what else the machine does then spoils a piece of one round and not
/// the round.
pub fn time(plan: &Plan) -> Result<(), String> {
    for set in Set::ALL {
        for (count, pools) in SIZES {
            eprintln!(
                "speed: {}, {count} rules: {} rounds",
                set.word(),
                plan.rounds
            );
            let mut ground = Ground::new(set, count, pools, plan.calls);
            ground.compare()?;
            let pieces = plan.calls.div_ceil(plan.piece);
            let mut times =
                vec![[vec![Vec::new(); pieces], vec![Vec::new(); pieces]]; ground.rows.len()];
            for round in 0..plan.rounds {
                for (at, [ours, theirs]) in times.iter_mut().enumerate() {
                    for (piece, times) in ours.iter_mut().zip(theirs).enumerate() {
                        let first = (round * plan.calls + piece * plan.piece) as u32;
                        let ours_first = (round + piece) % 2 == 0;
                        let [ours, theirs] =
                            ground.play(at, piece, plan.piece, first, ours_first)?;
                        times.0.push(ours.time);
                        times.1.push(theirs.time);
                    }
                }
            }
            for ((row, work), [ours, theirs]) in ground.rows.iter().zip(&mut times) {
                let calls = work.calls(plan.piece) * pieces;
                let (ours, theirs) = (
                    least_and_middle(ours, calls),
                    least_and_middle(theirs, calls),
                );
                println!(
                    "{} {:.2} {:.2} {:.2} {:.2}",
                    row.words(),
                    ours.0,
                    theirs.0,
                    ours.1,
                    theirs.1
                );
            }
        }
    }
    Ok(())
}

/// Nanoseconds a call: from the minima of the pieces, and from their medians.
fn least_and_middle(times: &mut Times, calls: usize) -> (f64, f64) {
    let (mut least, mut middle) = (Duration::ZERO, Duration::ZERO);
    for piece in times {
        piece.sort();
        least += piece[0];
        middle += piece[(piece.len() - 1) / 2];
    }
    let each = |sum: Duration| sum.as_nanos() as f64 / calls as f64;
    (each(least), each(middle))
}

/// Plays every row once for callgrind, our side first: a line a row, with the calls of each side.
pub fn count(plan: &Plan) -> Result<(), String> {
    for set in Set::ALL {
        for (count, pools) in SIZES {
            let mut ground = Ground::new(set, count, pools, plan.calls);
            for at in 0..ground.rows.len() {
                let [ours, _] = ground.play(at, 0, plan.calls, 0, true)?;
                println!("{} {}", ground.rows[at].0.words(), ours.calls);
            }
        }
    }
    Ok(())
}
