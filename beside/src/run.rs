//! A run over seeds, and one case again: what is played, what is said, and what is written down where
//! the sides part.

use std::fs;
use std::path::{Path, PathBuf};

use crate::case::{self, File};
use crate::compare::{compare, Difference, History};
use crate::counts::Counts;
use crate::damage::{self, Case};
use crate::histories::history_of;
use crate::shrink;
use crate::subject::Subject;

/// A run over seeds.
pub struct Run {
    pub first: u64,
    pub seeds: u64,
    /// Where a case is written.
    pub out: PathBuf,
    /// Guard words around each slice that is damaged.
    pub guards: usize,
    /// Whether everything that can be met has to be.
    pub demanding: bool,
}

/// How a run ends: with a report, or at a difference with what there is to say.
#[derive(Clone, Debug, PartialEq, Eq)]
pub enum End {
    Same(String),
    Differs(String),
}

impl Run {
    /// Plays all seeds; `progress` hears of each. An error is a file that can't be written.
    pub fn go<S: Subject>(&self, mut progress: impl FnMut(u64, &Counts)) -> Result<End, String> {
        let mut counts = Counts::default();
        for turn in 0..self.seeds {
            let seed = self.first.wrapping_add(turn);
            let history = history_of(seed);
            if let Some(difference) = compare::<S>(&history, &mut counts) {
                return self.differs::<S>(seed, &history, &difference);
            }
            if let Err((case, what)) = damage::play::<S>(&history, seed, self.guards, &mut counts) {
                return self.damaged::<S>(seed, &case, &what);
            }
            if let Err(what) = damage::starts::<S>(seed, self.guards, &mut counts) {
                let again = format!("see it again: tests/beside --from {seed} --seeds 1");
                return Ok(End::Differs(format!("{what}\n{again}")));
            }
            progress(turn + 1, &counts);
        }
        let report = counts.report();
        let missing = counts.not_met();
        if missing.is_empty() {
            return Ok(End::Same(format!(
                "{report}\neverything that can be met was met, and no difference was found"
            )));
        }
        let missing = missing.join("; ");
        if self.demanding {
            return Ok(End::Differs(format!(
                "{report}\nno difference was found, but the run didn't meet: {missing}"
            )));
        }
        Ok(End::Same(format!(
            "{report}\nnot met: {missing}\nno difference was found"
        )))
    }

    /// Shrinks a history, writes it down and says how to see the difference again.
    fn differs<S: Subject>(
        &self,
        seed: u64,
        history: &History,
        difference: &Difference,
    ) -> Result<End, String> {
        let first = told_at(difference);
        let differs = |history: &History| compare::<S>(history, &mut Counts::default());
        let mut short = history.clone();
        if let Some(at) = difference.at {
            short.records.truncate(at + 1);
        }
        let short = shrink::history(&short, |history| differs(history).is_some());
        let what = differs(&short).map_or(first.clone(), |difference| told_at(&difference));
        let text = case::history_text(&short);
        let case = self.write(seed, "case", text.as_bytes())?;
        let bytes: Vec<u8> = short.records.iter().flat_map(|r| r.encode()).collect();
        let records = self.write(seed, "records", &bytes)?;
        let (nodes, cells) = (short.pools.nodes, short.pools.cells);
        Ok(End::Differs(format!(
            "seed {seed} differs {first}\n\
             the shortest history that still differs:\n{text}\
             it differs {what}\n\
             see it again: tests/beside --replay {case}\n\
             the judge's side: oracle/target/release/judge trace --nodes {nodes} --cells {cells} < {records}"
        )))
    }

    /// The same for a call on damaged memory.
    fn damaged<S: Subject>(&self, seed: u64, case: &Case, first: &str) -> Result<End, String> {
        let play = |case: &Case| damage::replay::<S>(case, self.guards);
        let short = shorter(case, |case| play(case).is_err());
        let what = play(&short).err().unwrap_or(first.to_string());
        let text = case::case_text(&short);
        let case = self.write(seed, "case", text.as_bytes())?;
        Ok(End::Differs(format!(
            "seed {seed}, damaged memory: {first}\n\
             the shortest case that still goes wrong:\n{text}\
             {what}\n\
             see it again: tests/beside --replay {case}"
        )))
    }

    /// Writes a file of the seed's name and hands back where it is.
    fn write(&self, seed: u64, ending: &str, bytes: &[u8]) -> Result<String, String> {
        let file = self.out.join(format!("beside-{seed}.{ending}"));
        let shown = file.display().to_string();
        fs::write(&file, bytes)
            .map_err(|e| format!("{shown} can't be written ({e}): name a folder with --out"))?;
        Ok(shown)
    }
}

/// Fewer calls, fewer damaged words, then a shorter history.
fn shorter(case: &Case, fails: impl Fn(&Case) -> bool) -> Case {
    let mut short = case.clone();
    short.calls = shrink::fewer(case.calls.clone(), |calls| {
        let calls = calls.to_vec();
        let case = case.clone();
        fails(&Case { calls, ..case })
    });
    let case = &short.clone();
    short.damage = shrink::fewer(case.damage.clone(), |damage| {
        let damage = damage.to_vec();
        let case = case.clone();
        fails(&Case { damage, ..case })
    });
    let history = shrink::history(&short.history, |history| {
        let history = history.clone();
        let short = short.clone();
        fails(&Case { history, ..short })
    });
    short.history = history;
    short
}

/// Plays the case in a file. An error is a file that can't be read.
pub fn replay<S: Subject>(file: &Path, guards: usize) -> Result<End, String> {
    let shown = file.display();
    let text = fs::read_to_string(file)
        .map_err(|e| format!("{shown} can't be read ({e}): give a case file"))?;
    Ok(
        match case::read(&text).map_err(|what| format!("{shown}: {what}"))? {
            File::History(history) => match compare::<S>(&history, &mut Counts::default()) {
                Some(difference) => End::Differs(format!("differs {}", told_at(&difference))),
                None => End::Same(format!("{} records: no difference", history.records.len())),
            },
            File::Damaged(case) => match damage::replay::<S>(&case, guards) {
                Err(what) => End::Differs(format!("damaged memory: {what}")),
                Ok(answers) => End::Same(format!("every outcome is right: {answers:?}")),
            },
        },
    )
}

fn told_at(difference: &Difference) -> String {
    let what = &difference.what;
    match difference.at {
        Some(at) => format!("at record {at}: {what}"),
        None => format!("at the fresh start: {what}"),
    }
}
