//! What a call may give on any memory: the tests that come before the steps, what every number leaves
//! behind, and what `reading` says of the steps.

use hestrovik::boundary::{number, Answer, State};
use hestrovik::lengths::allowed;
use judge::ground::behind;
use judge::record::{Operation, LENGTH_MAX};

use crate::counts::numbers;
use crate::damage::Call;
use crate::memory::{both_sections, right_lengths, Words};
use crate::reading;

/// Whether an outcome is allowed; if not, what is wrong with it.
pub fn allowed_outcome(
    before: &Words,
    call: Call,
    answer: &Answer,
    after: &Words,
) -> Result<(), String> {
    let wrong = |what: &str| Err(format!("{what}: {answer:?}"));
    let edit = call.operation.is_edit();
    let accepted = matches!(answer.number, number::DONE | number::REPLACED);
    let damaged = [number::WRONG_SLICE, number::BROKEN];
    if !numbers(call.operation).contains(&answer.number) && !damaged.contains(&answer.number) {
        return wrong("no number of this call");
    }
    if (answer.number == number::WRONG_SLICE) == fits(before, edit) {
        return wrong("number 3 is for slices and sizes that don't fit, and for nothing else");
    }
    if fits(before, edit) && (answer.number == number::TOO_LONG) != too_long(call) {
        return wrong("number 1 is for lengths above 32, and for nothing else");
    }
    if fits(before, edit)
        && !too_long(call)
        && past_limits(&before.state)
        && answer.number != number::BROKEN
    {
        return wrong("a mark, free count or rule count past its limit is number 5");
    }
    if !(edit && accepted) && before != after {
        return wrong("a refusal or a lookup changed a word");
    }
    if !accepted {
        let nodes = answer.nodes;
        let bare = Answer {
            number: answer.number,
            nodes,
            ..Answer::default()
        };
        if *answer != bare {
            return wrong("a refusal gives zeros");
        }
        let counted = !edit && answer.number == number::NOTHING;
        if !counted && nodes != 0 {
            return wrong("only a lookup that ends has a node count");
        }
    }
    if !edit && matches!(answer.number, number::DONE | number::NOTHING) {
        let most = call.length / 5 + 1;
        if answer.nodes == 0 || answer.nodes > most {
            return wrong("the node count is past the path");
        }
    }
    if accepted {
        accepted_outcome(before, call, answer, after)?;
    }
    if fits(before, edit) && !settled_first(before, call) {
        as_read(before, call, answer, after)?;
    }
    Ok(())
}

/// Whether the steps give this answer, state and these free lists.
fn as_read(before: &Words, call: Call, answer: &Answer, after: &Words) -> Result<(), String> {
    let told = reading::steps(before, call);
    if *answer != told.answer {
        return Err(format!("the steps give {:?}: {answer:?}", told.answer));
    }
    if after.state != told.state {
        let (state, told) = (after.state, told.state);
        return Err(format!("the steps leave the state {told:?}: {state:?}"));
    }
    if call.operation.is_edit() && after.slices[2..] != told.lists {
        return Err(format!("the steps leave other free lists: {answer:?}"));
    }
    Ok(())
}

/// The rule and the state of a call that wasn't refused. Its length is at most 32.
fn accepted_outcome(
    before: &Words,
    call: Call,
    answer: &Answer,
    after: &Words,
) -> Result<(), String> {
    let wrong = |what: &str| Err(format!("{what}: {answer:?}"));
    if answer.len > call.length {
        return wrong("the rule is longer than the query");
    }
    if answer.key != call.key & !behind(answer.len as u8) {
        return wrong("the rule doesn't cover the query");
    }
    let own = answer.len == call.length;
    if !own && !matches!(call.operation, Operation::Longest | Operation::Shortest) {
        return wrong("the rule isn't the one that was asked for");
    }
    if !call.operation.is_edit() {
        return Ok(());
    }
    if answer.nodes != 0 {
        return wrong("an edit reports no nodes");
    }
    let (old, new) = (&before.state, &after.state);
    if (old.node_size, old.cell_size) != (new.node_size, new.cell_size) {
        return wrong("a pool changed its size");
    }
    let rules = match (call.operation, answer.number) {
        (Operation::Insert, number::DONE) => old.rules.checked_add(1),
        (Operation::Insert, _) => Some(old.rules),
        _ => old.rules.checked_sub(1),
    };
    if rules != Some(new.rules) {
        return wrong("the rule count doesn't follow the edit");
    }
    if new.node_mark < old.node_mark || new.cell_mark < old.cell_mark {
        return wrong("a mark fell");
    }
    let counted = State {
        rules: new.rules.min(new.cell_size),
        ..*new
    };
    if past_limits(&counted) {
        return wrong("an accepted edit left a mark or free count past its limit");
    }
    if answer.number == number::REPLACED {
        let parted = |slice: usize| {
            let pairs = before.slices[slice].iter().zip(&after.slices[slice]);
            pairs.filter(|(a, b)| a != b).count()
        };
        if old != new || parted(0) + parted(2) + parted(3) > 0 || parted(1) > 1 {
            return wrong("a replacement writes its cell alone");
        }
    }
    Ok(())
}

/// Whether the length or the state's limits decide, before the steps.
pub fn settled_first(words: &Words, call: Call) -> bool {
    too_long(call) || past_limits(&words.state)
}

fn too_long(call: Call) -> bool {
    call.length > u32::from(LENGTH_MAX)
}

/// Whether the slices that a call is lent have the lengths that the state's sizes ask for.
pub fn fits(words: &Words, edit: bool) -> bool {
    let (nodes, cells) = (words.state.node_size, words.state.cell_size);
    let lent = if edit { 4 } else { 2 };
    allowed(nodes)
        && allowed(cells)
        && words.slices[..lent]
            .iter()
            .zip(right_lengths(nodes, cells))
            .all(|(slice, right)| slice.len() == right)
}

/// The first step of every call.
fn past_limits(state: &State) -> bool {
    let [node_sections, cell_sections] = both_sections(state);
    let over = |counts: [u32; 7], sections: [usize; 7]| {
        let mut pairs = counts.into_iter().zip(sections);
        pairs.any(|(count, section)| count as usize > section)
    };
    state.node_mark > state.node_size
        || state.cell_mark > state.cell_size
        || over(state.node_free, node_sections)
        || over(state.cell_free, cell_sections)
        || state.rules > state.cell_size
}
