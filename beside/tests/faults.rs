//! Wrong maps, which the comparison must notice, and wrong outcomes, which the damage test must. A
//! comparison that notices nothing fails here.

use std::marker::PhantomData;
use std::path::Path;
use std::{env, fs, process};

use beside::case::{self, File};
use beside::compare::{compare, History};
use beside::counts::Counts;
use beside::damage::Call;
use beside::histories::history_of;
use beside::memory::{both_sections, state_of, state_words, Lent, Words, GUARDS, STATE_WORDS};
use beside::outcomes::allowed_outcome;
use beside::run::{replay, End, Run};
use beside::shrink;
use beside::subject::{Port, Subject};
use hestrovik::boundary::{number, Answer, State};
use judge::desk::{Desk, Pools};
use judge::record::Operation;

/// A fault: it may make the call itself, or spoil what the map made of it.
trait Fault {
    fn call(port: &mut Port, record: Wide) -> Answer;
}

/// A call whose length may be any number.
#[derive(Clone, Copy)]
struct Wide {
    operation: Operation,
    key: u32,
    length: u32,
    value: u32,
}

/// The map's own answer.
fn right(port: &mut Port, call: Wide) -> Answer {
    port.ask(call.operation, call.key, call.length, call.value)
}

/// A map with a fault.
struct Faulty<F> {
    port: Port,
    fault: PhantomData<F>,
}

impl<F: Fault> Subject for Faulty<F> {
    fn over(words: &Words, guards: usize) -> Self {
        let port = Port::over(words, guards);
        let fault = PhantomData;
        Faulty { port, fault }
    }

    fn fresh(&mut self, nodes: u32, cells: u32) -> Answer {
        self.port.fresh(nodes, cells)
    }

    fn ask(&mut self, operation: Operation, key: u32, length: u32, value: u32) -> Answer {
        let call = Wide {
            operation,
            key,
            length,
            value,
        };
        F::call(&mut self.port, call)
    }

    fn state(&self) -> State {
        self.port.state
    }

    fn lent(&self) -> &Lent {
        &self.port.lent
    }
}

macro_rules! faults {
    ($($(#[$doc:meta])* $name:ident = $call:expr;)*) => {
        $(
            $(#[$doc])*
            struct $name;
            impl Fault for $name {
                fn call(port: &mut Port, record: Wide) -> Answer {
                    let call: fn(&mut Port, Wide) -> Answer = $call;
                    call(port, record)
                }
            }
        )*
    };
}

fn accepted(answer: &Answer) -> bool {
    matches!(answer.number, number::DONE | number::REPLACED)
}

faults! {
    /// The batch's rule for the held cell.
    ShortestForLongest = |port, mut record| {
        if record.operation == Operation::Longest {
            let nodes = right(port, record).nodes;
            record.operation = Operation::Shortest;
            return Answer { nodes, ..right(port, record) };
        }
        right(port, record)
    };
    /// The deepest node alone is asked: a shallow one may hold the answer.
    MissesShallowRules = |port, record| {
        let answer = right(port, record);
        if record.operation == Operation::Longest && answer.nodes > answer.len / 5 + 1 {
            let nodes = answer.nodes;
            return Answer { number: number::NOTHING, nodes, ..Answer::default() };
        }
        answer
    };
    InventsANodeCount = |port, record| {
        let answer = right(port, record);
        Answer { nodes: answer.nodes.min(6), ..answer }
    };
    CountsNodesOfAnEdit = |port, record| {
        let answer = right(port, record);
        let edit = record.operation.is_edit() && answer.number == number::REPLACED;
        Answer { nodes: answer.nodes + u32::from(edit), ..answer }
    };
    LeavesTheKeyUntidy = |port, record| {
        let answer = right(port, record);
        let key = if accepted(&answer) && answer.len > 30 { record.key } else { answer.key };
        Answer { key, ..answer }
    };
    TakesLength33 = |port, mut record| {
        record.length = record.length.min(32);
        right(port, record)
    };
    RefusesEverything = |_, _| Answer { number: number::NO_ROOM, ..Answer::default() };
    RefusesWhenTheEndIsUsedUp = |port, record| {
        if record.operation == Operation::Insert && port.state.cell_mark == port.state.cell_size {
            return Answer { number: number::NO_ROOM, ..Answer::default() };
        }
        right(port, record)
    };
    RefusesNoRemoval = |port, record| {
        let answer = right(port, record);
        if record.operation == Operation::Remove && answer.number == number::NO_ROOM {
            return Answer { number: number::NOTHING, ..answer };
        }
        answer
    };
    StoresNothing = |port, record| {
        let before = port.clone();
        let answer = right(port, record);
        if record.operation == Operation::Insert {
            *port = before;
        }
        answer
    };
    TakesZeroForNoValue = |port, mut record| {
        if record.operation == Operation::Insert && record.value == 0 {
            record.value = 1;
        }
        right(port, record)
    };
    GivesTheNewValueAtAReplacement = |port, record| {
        let answer = right(port, record);
        let value = if answer.number == number::REPLACED { record.value } else { answer.value };
        Answer { value, ..answer }
    };
    LeavesAVacatedCell = |port, record| {
        let before = port.words();
        let answer = right(port, record);
        if record.operation == Operation::Remove && accepted(&answer) {
            let cells = &mut port.lent.slices_mut()[1];
            let vacated = cells.iter().zip(&before.slices[1]).rposition(|(new, old)| *new == 0 && *old != 0);
            if let Some(at) = vacated {
                cells[at] = before.slices[1][at];
            }
        }
        answer
    };
    LeavesAVacatedNode = |port, record| {
        let before = port.words();
        let answer = right(port, record);
        if record.operation == Operation::Remove && accepted(&answer) {
            let nodes = &mut port.lent.slices_mut()[0];
            let empty = [0, 0, u32::MAX, u32::MAX];
            let vacated = nodes.chunks(4).zip(before.slices[0].chunks(4))
                .rposition(|(new, old)| new == empty && old != empty);
            if let Some(at) = vacated {
                nodes[4 * at..4 * at + 4].copy_from_slice(&before.slices[0][4 * at..4 * at + 4]);
            }
        }
        answer
    };
    LeavesAPoppedEntry = |port, record| {
        let before = port.words();
        let answer = right(port, record);
        let list = &mut port.lent.slices_mut()[3];
        let popped = list.iter().zip(&before.slices[3]).position(|(new, old)| *new == 0 && *old != 0);
        if let Some(at) = popped {
            list[at] = before.slices[3][at];
        }
        answer
    };
    /// The first returned block is taken first.
    ReordersAFreeList = |port, record| {
        let answer = right(port, record);
        let state = port.state;
        let sections = both_sections(&state)[0];
        let mut start = 0;
        for (tier, section) in sections.into_iter().enumerate() {
            let count = state.node_free[tier] as usize;
            if record.operation == Operation::Remove && accepted(&answer) && count > 1 {
                port.lent.slices_mut()[2][start..start + count].reverse();
            }
            start += section;
        }
        answer
    };
    ForgetsToCountARemoval = |port, record| {
        let rules = port.state.rules;
        let answer = right(port, record);
        if record.operation == Operation::Remove && accepted(&answer) {
            port.state.rules = rules;
        }
        answer
    };
    IssuesOneTooMany = |port, record| {
        let mark = port.state.node_mark;
        let answer = right(port, record);
        if port.state.node_mark > mark + 1 && port.state.node_mark < port.state.node_size {
            port.state.node_mark += 1;
        }
        answer
    };
    WritesBeforeItRefuses = |port, record| {
        let answer = right(port, record);
        if answer.number == number::NO_ROOM {
            port.lent.slices_mut()[1][0] ^= 1;
        }
        answer
    };
    WritesAtALookup = |port, record| {
        let answer = right(port, record);
        if record.operation == Operation::Shortest {
            port.lent.slices_mut()[0][1] ^= 1;
        }
        answer
    };
    WritesPastTheCells = |port, record| {
        let answer = right(port, record);
        if answer.number == number::NO_ROOM {
            if let Some(word) = port.lent.area_mut(1).last_mut() {
                *word = 0;
            }
        }
        answer
    };
    WritesBeforeTheNodes = |port, record| {
        let answer = right(port, record);
        if answer.number == number::REPLACED {
            port.lent.area_mut(0)[GUARDS - 1] = 7;
        }
        answer
    };
}

faults! {
    /// On damaged memory alone: from a fresh start these are the map.
    CallsBrokenMemoryNothing = |port, call| {
        let answer = right(port, call);
        match answer.number {
            number::BROKEN => Answer { number: number::NOTHING, ..answer },
            _ => answer,
        }
    };
    LetsNoRoomGoBeforeBroken = |port, call| {
        let answer = right(port, call);
        match answer.number {
            number::BROKEN if call.operation == Operation::Insert => Answer { number: number::NO_ROOM, ..answer },
            _ => answer,
        }
    };
    CallsWrongSlicesBroken = |port, call| {
        let answer = right(port, call);
        match answer.number {
            number::WRONG_SLICE => Answer { number: number::BROKEN, ..answer },
            _ => answer,
        }
    };
    WritesBeforeItFindsBroken = |port, call| {
        let answer = right(port, call);
        if answer.number == number::BROKEN {
            port.lent.slices_mut()[0][0] ^= 1;
        }
        answer
    };
    WritesOutsideWhenBroken = |port, call| {
        let answer = right(port, call);
        if answer.number == number::BROKEN {
            if let Some(word) = port.lent.area_mut(3).last_mut() {
                *word ^= 1;
            }
        }
        answer
    };
    CutsLengthsToAByte = |port, mut call| {
        call.length %= 256;
        right(port, call)
    };
    TrustsAFreeEntry = |port, call| {
        let before = port.clone();
        let answer = right(port, call);
        if answer.number == number::BROKEN && call.operation == Operation::Insert {
            let mut sound = before;
            sound.lent.slices_mut()[3].fill(0);
            let trusted = right(&mut sound, call);
            if accepted(&trusted) {
                *port = sound;
                return trusted;
            }
        }
        answer
    };
}

/// Seeds within which every fault must show.
const SEEDS: u64 = 120;

/// The comparison notices the fault, the shrunk history has at most so many records, still shows the
/// fault after a way through its text, and shows nothing on the map itself.
fn noticed<F: Fault>(most: usize) {
    let differs = |history: &History| compare::<Faulty<F>>(history, &mut Counts::default());
    let found = (0..SEEDS).map(history_of).find_map(|history| {
        let at = differs(&history)?.at;
        Some((history, at))
    });
    let name = std::any::type_name::<F>();
    let (mut history, at) = found.unwrap_or_else(|| panic!("{name} isn't noticed"));
    let at = at.unwrap_or_else(|| panic!("{name} differs at the fresh start"));
    history.records.truncate(at + 1);
    let short = shrink::history(&history, |history| differs(history).is_some());
    assert!(short.records.len() <= most, "{name}: {short:#?}");
    assert!(differs(&short).is_some(), "{name}");
    let text = case::history_text(&short);
    assert_eq!(
        case::read(&text),
        Ok(File::History(short.clone())),
        "{name}"
    );
    assert_eq!(compare::<Port>(&short, &mut Counts::default()), None);
}

#[test]
fn wrong_answers_are_noticed() {
    noticed::<ShortestForLongest>(3);
    noticed::<MissesShallowRules>(3);
    noticed::<InventsANodeCount>(2);
    noticed::<CountsNodesOfAnEdit>(2);
    noticed::<LeavesTheKeyUntidy>(2);
    noticed::<TakesLength33>(1);
    noticed::<RefusesEverything>(1);
    noticed::<StoresNothing>(1);
    noticed::<TakesZeroForNoValue>(1);
    noticed::<GivesTheNewValueAtAReplacement>(2);
}

#[test]
fn wrong_room_is_noticed() {
    noticed::<RefusesWhenTheEndIsUsedUp>(4);
    noticed::<RefusesNoRemoval>(8);
}

#[test]
fn wrong_memory_is_noticed() {
    noticed::<LeavesAVacatedCell>(3);
    noticed::<LeavesAVacatedNode>(3);
    noticed::<LeavesAPoppedEntry>(5);
    noticed::<ReordersAFreeList>(4);
    noticed::<ForgetsToCountARemoval>(2);
    noticed::<IssuesOneTooMany>(2);
    noticed::<WritesBeforeItRefuses>(4);
    noticed::<WritesAtALookup>(1);
    noticed::<WritesPastTheCells>(4);
    noticed::<WritesBeforeTheNodes>(2);
}

/// A whole run ends at the fault, writes a case, and the case shows it again, but not with the map.
fn run_ends_at<F: Fault>(part: &str) -> String {
    let name = std::any::type_name::<F>();
    let name = name.rsplit(':').next().unwrap_or(name);
    let out = env::temp_dir().join(format!("beside-{}-{name}", process::id()));
    fs::create_dir_all(&out).unwrap();
    let run = Run {
        first: 0,
        seeds: 400,
        out: out.clone(),
        guards: GUARDS,
        demanding: false,
    };
    let End::Differs(said) = run.go::<Faulty<F>>(|_, _| ()).unwrap() else {
        panic!("{name} isn't noticed");
    };
    assert!(said.contains(part), "{name}: {said}");
    let line = said
        .lines()
        .find_map(|line| line.strip_prefix("see it again: tests/beside --replay "));
    let case = Path::new(line.unwrap_or_else(|| panic!("{name}: {said}")));
    let again = replay::<Faulty<F>>(case, GUARDS).unwrap();
    assert!(matches!(again, End::Differs(_)), "{name}: {said}");
    let right = replay::<Port>(case, GUARDS).unwrap();
    assert!(matches!(right, End::Same(_)), "{name}: {right:?}");
    fs::remove_dir_all(&out).unwrap();
    said
}

#[test]
fn wrong_maps_on_damaged_memory_are_noticed() {
    run_ends_at::<CallsBrokenMemoryNothing>("damaged memory: ");
    run_ends_at::<LetsNoRoomGoBeforeBroken>("damaged memory: ");
    run_ends_at::<CallsWrongSlicesBroken>("number 3 is for slices and sizes that don't fit");
    run_ends_at::<WritesBeforeItFindsBroken>("a refusal or a lookup changed a word");
    run_ends_at::<WritesOutsideWhenBroken>("a word outside cell_free was written");
    run_ends_at::<CutsLengthsToAByte>("number 1 is for lengths above 32");
    run_ends_at::<TrustsAFreeEntry>("damaged memory: ");
}

#[test]
fn a_whole_run_says_where_it_differs() {
    let said = run_ends_at::<ShortestForLongest>(
        "the shortest history that still differs:\npools 1024 2048\n",
    );
    assert!(
        said.contains("judge trace --nodes 1024 --cells 2048 < "),
        "{said}"
    );
    assert_eq!(said.matches("\nrecord ").count(), 3, "{said}");
    run_ends_at::<ReordersAFreeList>("node_free word ");
    run_ends_at::<ForgetsToCountARemoval>("the state's rule count");
}

/// The map itself shows nothing on the same seeds.
#[test]
fn the_map_itself_is_not_noticed() {
    for history in (0..SEEDS).map(history_of) {
        assert_eq!(compare::<Port>(&history, &mut Counts::default()), None);
    }
}

/// A map whose memory has one word changed at its end, whichever word that is.
#[test]
fn every_word_counts() {
    let history = history_of(7);
    let pools = history.pools;
    let mut desk = Desk::new(pools);
    let mut port = Port::start(pools).unwrap();
    for record in &history.records {
        desk.call(*record);
        port.call(*record);
    }
    let expected = Words::of(&desk.image(), pools);
    let words = port.words();
    assert_eq!(words.first_difference(&expected), None);
    for slice in 0..4 {
        for at in 0..words.slices[slice].len() {
            let mut other = words.clone();
            other.slices[slice][at] ^= 1;
            assert!(other.first_difference(&expected).is_some());
        }
        let mut longer = words.clone();
        longer.slices[slice].push(0);
        assert!(longer.first_difference(&expected).is_some());
    }
    for at in 0..STATE_WORDS {
        let mut state = state_words(words.state);
        state[at] ^= 1;
        let mut other = words.clone();
        other.state = state_of(state);
        assert_ne!(other.state, words.state);
        assert!(other.first_difference(&expected).is_some());
    }
}

/// The words of a small map, and outcomes on them that document 01 doesn't allow.
#[test]
fn wrong_outcomes_are_noticed() {
    let mut port = Port::start(Pools { nodes: 8, cells: 8 }).unwrap();
    let held = 0x0A00_0113;
    assert_eq!(
        port.ask(Operation::Insert, held, 27, 5),
        Answer {
            len: 27,
            key: 0x0A00_0100,
            ..Answer::default()
        }
    );
    let before = port.words();
    let call = |operation, length| Call {
        operation,
        key: held,
        length,
        value: 6,
    };
    let outcome = |before: &Words, call: Call| {
        let mut port = Port::over(before, GUARDS);
        let answer = port.ask(call.operation, call.key, call.length, call.value);
        (answer, port.words())
    };
    let calls = Operation::ALL.map(|operation| call(operation, 27));
    let calls = calls
        .into_iter()
        .chain([call(Operation::Longest, 32), call(Operation::Insert, 20)]);
    for call in calls.chain([call(Operation::Exact, 33), call(Operation::Remove, 32)]) {
        let (answer, after) = outcome(&before, call);
        let right = |answer: &Answer, after: &Words| allowed_outcome(&before, call, answer, after);
        assert_eq!(right(&answer, &after), Ok(()), "{call:?}");
        // Another field of the answer.
        for other in [
            Answer {
                number: number::WRONG_SLICE,
                ..Answer::default()
            },
            Answer {
                number: 6,
                ..Answer::default()
            },
            Answer {
                number: 9,
                ..answer
            },
            Answer {
                len: answer.len + 1,
                ..answer
            },
            Answer {
                key: answer.key ^ 0x8000_0000,
                ..answer
            },
            Answer {
                nodes: answer.nodes + 8,
                ..answer
            },
        ] {
            assert!(right(&other, &after).is_err(), "{call:?} {other:?}");
        }
        // A refusal that leaves another word, or an edit that leaves another state.
        let mut spoilt = after.clone();
        if call.operation.is_edit() && accepted(&answer) {
            spoilt.state.rules += 2;
        } else {
            spoilt.slices[1][0] ^= 1;
        }
        assert!(right(&answer, &spoilt).is_err(), "{call:?}");
        let refused = Answer {
            number: number::BROKEN,
            ..Answer::default()
        };
        if after != before {
            assert!(right(&refused, &after).is_err(), "{call:?}");
        }
    }
    // A state past its limits is number 5, slices that don't fit are 3.
    let mut over = before.clone();
    over.state.cell_free[6] = 1;
    let (answer, after) = outcome(&over, call(Operation::Exact, 27));
    assert_eq!(answer.number, number::BROKEN);
    let found = Answer {
        nodes: 6,
        len: 27,
        key: 0x0A00_0100,
        ..Answer::default()
    };
    assert!(allowed_outcome(&over, call(Operation::Exact, 27), &found, &after).is_err());
    let mut short = before.clone();
    short.slices[0].pop();
    let (answer, _) = outcome(&short, call(Operation::Exact, 27));
    assert_eq!(answer.number, number::WRONG_SLICE);
    assert!(allowed_outcome(&short, call(Operation::Exact, 27), &found, &short).is_err());
}
