//! The shortest case that still fails: fewer parts first, then simpler ones.

use judge::desk::Pools;
use judge::ground::behind;
use judge::record::Record;

use crate::compare::History;

/// Drops parts of a list as long as what is left still fails: chunks of half the list, of a quarter
/// and so on down to single parts, until no part can be dropped.
pub fn fewer<T: Clone>(mut list: Vec<T>, mut fails: impl FnMut(&[T]) -> bool) -> Vec<T> {
    let mut chunk = list.len().div_ceil(2);
    while chunk > 0 {
        let mut dropped = false;
        let mut at = 0;
        while at < list.len() {
            let end = (at + chunk).min(list.len());
            let rest = [&list[..at], &list[end..]].concat();
            if fails(&rest) {
                list = rest;
                dropped = true;
            } else {
                at = end;
            }
        }
        // Single parts are tried again until none can go: one may have needed another.
        if chunk > 1 || !dropped {
            chunk /= 2;
        }
    }
    list
}

/// A short history that still fails, made from one that does.
pub fn history(history: &History, mut fails: impl FnMut(&History) -> bool) -> History {
    let mut short = history.clone();
    loop {
        let pools = short.pools;
        let records = fewer(short.records.clone(), |records| {
            let records = records.to_vec();
            fails(&History { pools, records })
        });
        short.records = records;
        let simpler = simplify(&short, &mut fails);
        if simpler == short {
            return short;
        }
        short = simpler;
    }
}

/// Simplifies the pools and each record.
fn simplify(history: &History, fails: &mut impl FnMut(&History) -> bool) -> History {
    let mut best = history.clone();
    while let Some(pools) = simpler_pools(best.pools).into_iter().find(|pools| {
        let mut tried = best.clone();
        tried.pools = *pools;
        fails(&tried)
    }) {
        best.pools = pools;
    }
    for at in 0..best.records.len() {
        // Each change may open the way for another.
        while let Some(record) = simpler(best.records[at]).into_iter().find(|record| {
            let mut tried = best.clone();
            tried.records[at] = *record;
            fails(&tried)
        }) {
            best.records[at] = record;
        }
    }
    best
}

/// The bench program's pools, which are the simplest, or smaller ones, which fill with fewer records.
fn simpler_pools(Pools { nodes, cells }: Pools) -> Vec<Pools> {
    if (Pools { nodes, cells }) == Pools::BENCH {
        return Vec::new();
    }
    let mut list = vec![Pools::BENCH];
    for fewer in [nodes / 2, nodes - nodes / 8, nodes - 1] {
        list.push(Pools {
            nodes: fewer,
            cells,
        });
    }
    for fewer in [cells / 2, cells - cells / 8, cells - 1] {
        list.push(Pools {
            nodes,
            cells: fewer,
        });
    }
    list.retain(|pools| {
        let less = pools.nodes + pools.cells < nodes + cells;
        pools.nodes > 0 && pools.cells > 0 && (less || *pools == Pools::BENCH)
    });
    list
}

/// Records that are simpler than one, the simplest first. Each has fewer set bits or a smaller number,
/// so that simplifying ends.
fn simpler(record: Record) -> Vec<Record> {
    let mut list = Vec::new();
    let keys = [0, record.key & !behind(record.length)];
    let bits = (0..32).map(|bit| record.key & !(1 << bit));
    for key in keys.into_iter().chain(bits) {
        list.push(Record { key, ..record });
    }
    for value in [0, 1, record.value / 2] {
        if value < record.value {
            list.push(Record { value, ..record });
        }
    }
    for length in [0, record.length / 2, record.length.saturating_sub(5)] {
        if length < record.length {
            list.push(Record { length, ..record });
        }
    }
    list.retain(|simpler| *simpler != record);
    list
}

#[cfg(test)]
mod tests {
    use super::*;
    use judge::record::Operation;

    #[test]
    fn only_what_is_needed_stays() {
        let list: Vec<u32> = (0..1000).collect();
        let needed = [3, 500, 501, 999];
        let mut tries = 0;
        let short = fewer(list, |rest| {
            tries += 1;
            needed.iter().all(|part| rest.contains(part))
        });
        assert_eq!(short, needed);
        assert!(tries < 400, "{tries}");
    }

    #[test]
    fn parts_that_go_only_together_or_one_by_one() {
        // An even count fails, and 7 must be there: pairs go together.
        let even = fewer((0..64).collect(), |rest: &[u32]| {
            rest.contains(&7) && rest.len() % 2 == 0
        });
        assert_eq!(even.len(), 2);
        // A part can go only when the next one has gone.
        let stairs = fewer((0..40).collect(), |rest: &[u32]| {
            rest.iter().enumerate().all(|(at, part)| at as u32 == *part)
        });
        assert!(stairs.is_empty());
    }

    #[test]
    fn nothing_to_drop() {
        assert!(fewer(Vec::<u32>::new(), |_| true).is_empty());
        assert_eq!(fewer(vec![1], |rest| !rest.is_empty()), [1]);
    }

    /// Fails where a rule above the fourth bit is stored before it is looked up, with a value not 0.
    #[test]
    fn records_become_simple() {
        let record = |operation, key, length, value| Record {
            operation,
            length,
            key,
            value,
        };
        let mut records = Vec::new();
        for step in 0..60u32 {
            let key = step.wrapping_mul(0x9E37_79B9);
            records.push(record(Operation::Insert, key, (step % 33) as u8, step));
            records.push(record(Operation::Longest, !key, 32, 0));
        }
        let long = History {
            pools: Pools { nodes: 3, cells: 5 },
            records,
        };
        let fails = |history: &History| {
            let stored = history.records.iter().position(|record| {
                let Record {
                    operation,
                    length,
                    value,
                    ..
                } = *record;
                operation == Operation::Insert && length > 4 && value != 0
            });
            let looked = |at: usize| {
                let later = &history.records[at..];
                later
                    .iter()
                    .any(|record| record.operation == Operation::Longest)
            };
            stored.is_some_and(looked)
        };
        let short = super::history(&long, fails);
        assert_eq!(short.pools, Pools::BENCH);
        let [stored, looked] = short.records[..] else {
            panic!("{short:?}");
        };
        assert_eq!(
            (stored.operation, stored.key, stored.value),
            (Operation::Insert, 0, 1)
        );
        assert!(stored.length <= 9);
        assert_eq!(looked, record(Operation::Longest, 0, 0, 0));
        assert!(fails(&short));
    }
}
