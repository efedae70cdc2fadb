//! Calls on memory that somebody else wrote to: any word of any slice or of the state, slices of
//! another length, any key and length. Whatever was done, the outcome is one of the numbers, no word
//! outside the slices is written, a refusal changes no word, and the same call on the same memory has
//! the same outcome.

use hestrovik::boundary::{number, Answer, State};
use judge::desk::{Desk, Pools};
use judge::record::Operation;
use judge::seed::Seed;

use crate::compare::History;
use crate::counts::Counts;
use crate::harm::{any_call, any_damage, other_length};
use crate::memory::{state_of, state_words, Words, SLICES};
use crate::outcomes::{allowed_outcome, fits};
use crate::subject::Subject;

/// Cases from one history, and how many of them share its length.
const CASES: usize = 48;
const CASES_ALIKE: usize = 8;

/// The most calls that follow on the damage.
const MOST_CALLS: u32 = 8;

/// The place of the state among the areas, behind the four slices.
pub const STATE: usize = SLICES.len();

#[derive(Clone, Copy, Debug, PartialEq, Eq)]
pub enum Damage {
    /// A word of a slice, or of the state, gets another value.
    Word { area: usize, at: usize, value: u32 },
    /// A slice is lent with another length.
    Length { slice: usize, length: usize },
}

/// A call with any numbers.
#[derive(Clone, Copy, Debug, PartialEq, Eq)]
pub struct Call {
    pub operation: Operation,
    pub key: u32,
    pub length: u32,
    pub value: u32,
}

/// A history, what is done to its memory, and the calls that follow, each on what the one before left.
#[derive(Clone, Debug, PartialEq, Eq)]
pub struct Case {
    pub history: History,
    pub damage: Vec<Damage>,
    pub calls: Vec<Call>,
}

/// Plays cases from one history. The first that goes wrong is handed back with what went wrong.
pub fn play<S: Subject>(
    history: &History,
    seed: u64,
    guards: usize,
    counts: &mut Counts,
) -> Result<(), (Case, String)> {
    let mut by = Seed::new(!seed);
    let whole = history.records.len() as u32;
    for _ in 0..CASES / CASES_ALIKE {
        let cut = by.below(whole + 1).max(by.below(whole + 1));
        let history = History {
            pools: history.pools,
            records: history.records[..cut as usize].to_vec(),
        };
        let subject = played::<S>(&history);
        let words = subject.words();
        let stored = stored(subject, &history);
        for _ in 0..CASES_ALIKE {
            let count = 1 + by.below(MOST_CALLS).min(by.below(MOST_CALLS));
            let calls = (0..count).map(|_| any_call(&mut by, &history, &stored));
            let calls: Vec<Call> = calls.collect();
            let damage = any_damage(&mut by, &words);
            match check::<S>(&words, &damage, &calls, guards) {
                Ok(answers) => calls
                    .iter()
                    .zip(&answers)
                    .for_each(|(call, answer)| counts.damaged_call(call.operation, answer)),
                Err(what) => {
                    let case = Case {
                        history,
                        damage,
                        calls,
                    };
                    return Err((case, what));
                }
            }
        }
    }
    Ok(())
}

/// Plays a whole case.
pub fn replay<S: Subject>(case: &Case, guards: usize) -> Result<Vec<Answer>, String> {
    let words = played::<S>(&case.history).words();
    check::<S>(&words, &case.damage, &case.calls, guards)
}

/// The map after a history.
fn played<S: Subject>(history: &History) -> S {
    let pools = history.pools;
    let mut subject = S::over(&Words::unused(pools), 0);
    subject.fresh(pools.nodes as u32, pools.cells as u32);
    for record in &history.records {
        subject.call(*record);
    }
    subject
}

/// The prefixes of a history that are stored at its end.
fn stored(mut subject: impl Subject, history: &History) -> Vec<(u32, u32)> {
    let places = history.records.iter();
    let places = places.map(|record| (record.key, record.length.into()));
    let mut found = |(key, length)| {
        let answer = subject.ask(Operation::Exact, key, length, 0);
        answer.number == number::DONE
    };
    places.filter(|place| found(*place)).collect()
}

/// Damages the words, makes each call twice and tests both outcomes.
fn check<S: Subject>(
    words: &Words,
    damage: &[Damage],
    calls: &[Call],
    guards: usize,
) -> Result<Vec<Answer>, String> {
    let mut before = words.clone();
    damage.iter().for_each(|damage| damage.to(&mut before));
    let mut answers = Vec::new();
    for (at, call) in calls.iter().enumerate() {
        let placed = |what: String| format!("call {at}: {what}");
        let (answer, after) = outcome::<S>(&before, *call, guards).map_err(placed)?;
        allowed_outcome(&before, *call, &answer, &after).map_err(placed)?;
        let again = outcome::<S>(&before, *call, guards).map_err(placed)?;
        if again != (answer, after.clone()) {
            let again = again.0;
            return Err(placed(format!(
                "the same call had another outcome: {again:?}"
            )));
        }
        answers.push(answer);
        before = after;
    }
    Ok(answers)
}

fn outcome<S: Subject>(
    before: &Words,
    call: Call,
    guards: usize,
) -> Result<(Answer, Words), String> {
    let mut subject = S::over(before, guards);
    let answer = subject.ask(call.operation, call.key, call.length, call.value);
    match subject.lent().stray_write() {
        Some(stray) => Err(stray),
        None => Ok((answer, subject.words())),
    }
}

impl Damage {
    /// Does it.
    pub fn to(&self, words: &mut Words) {
        match *self {
            Damage::Word { area, at, value } if area == STATE => {
                let mut state = state_words(words.state);
                if let Some(word) = state.get_mut(at) {
                    *word = value;
                }
                words.state = state_of(state);
            }
            Damage::Word { area, at, value } => {
                if let Some(word) = words.slices[area].get_mut(at) {
                    *word = value;
                }
            }
            Damage::Length { slice, length } => words.slices[slice].resize(length, 0),
        }
    }
}

/// Fresh starts over whatever stands in memory: with the right lengths every word is written, with
/// another nothing is and the state is all zeros.
pub fn starts<S: Subject>(seed: u64, guards: usize, counts: &mut Counts) -> Result<(), String> {
    let mut by = Seed::new(seed.rotate_left(32));
    let pools = Pools {
        nodes: 1 + by.below(100) as usize,
        cells: 1 + by.below(100) as usize,
    };
    let mut words = Words::unused(pools);
    for word in words.slices.iter_mut().flatten() {
        *word = by.next_u32();
    }
    let (mut nodes, mut cells) = (pools.nodes as u32, pools.cells as u32);
    if by.chance(50) {
        match by.below(3) {
            0 => other_length(&mut by, &words).to(&mut words),
            1 => nodes = by.pick(&[0, nodes + 1, 65_537, u32::MAX]),
            _ => cells = by.pick(&[0, cells + 1, 65_537, u32::MAX]),
        }
    }
    let sized = State {
        node_size: nodes,
        cell_size: cells,
        ..State::default()
    };
    let asked = Words {
        state: sized,
        ..words.clone()
    };
    let mut subject = S::over(&words, guards);
    let answer = subject.fresh(nodes, cells);
    let (number, expected) = if fits(&asked, true) {
        (number::DONE, Words::of(&Desk::new(pools).image(), pools))
    } else {
        (number::WRONG_SLICE, words)
    };
    let bare = Answer {
        number,
        ..Answer::default()
    };
    let place = format!("a fresh start over {nodes} nodes and {cells} cells, seed {seed}");
    if answer != bare {
        return Err(format!("{place}: {answer:?}, expected {bare:?}"));
    }
    if let Some(stray) = subject.lent().stray_write() {
        return Err(format!("{place}: {stray}"));
    }
    if let Some(what) = subject.words().first_difference(&expected) {
        return Err(format!("{place}: {what}"));
    }
    counts.starts[usize::from(number != number::DONE)] += 1;
    Ok(())
}
