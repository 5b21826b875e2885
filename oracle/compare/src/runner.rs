//! Document 01's runner, read plainly: where a row leads is sought among the
//! rows. It is asked only on well-formed bodies without faults.

use oracle::{branch, kind, Body};

/// A row, stopped, or the closing brace.
#[derive(Clone, Copy, Debug, PartialEq, Eq)]
pub enum State {
    Row(usize),
    Stopped,
    Brace,
}

/// The kinds that a continue goes on with, and those that a break leaves.
pub const LOOPS: [u32; 2] = [kind::FOR, kind::RANGE];
pub const BREAKABLE: [u32; 5] =
    [kind::SWITCH, kind::TYPE_SWITCH, kind::SELECT, kind::FOR, kind::RANGE];

/// How many choices there are at a fork; none at other rows.
pub fn ways(body: &Body, row: usize) -> Option<usize> {
    let clauses = clauses(body, row);
    match body.rows[row] {
        [kind::IF | kind::RANGE, ..] | [kind::FOR, 1, ..] => Some(2),
        [kind::SWITCH | kind::TYPE_SWITCH, ..] => {
            let default = clauses.iter().any(|&case| body.rows[case][1] == 1);
            Some(if default { clauses.len() } else { clauses.len() + 1 })
        }
        [kind::SELECT, ..] if !clauses.is_empty() => Some(clauses.len()),
        _ => None,
    }
}

/// The state after a row, by a choice where there is one; none where the
/// runner is stuck.
pub fn step(body: &Body, row: usize, choice: usize) -> Option<State> {
    let parts: Vec<usize> = body.children(row).collect();
    Some(match body.rows[row] {
        // Return and panic stop.
        [kind::RETURN, ..] | [kind::EXPR, 1, ..] => State::Stopped,
        // Labeled enters its statement; For without a condition takes the body.
        [kind::LABELED, ..] | [kind::FOR, 0, ..] => State::Row(parts[0]),
        // Block, Case and Comm go to their first item, or past the list's end.
        [kind::BLOCK | kind::CASE | kind::COMM, ..] => match parts.first() {
            Some(&item) => State::Row(item),
            None => past_end(body, row),
        },
        // If takes its body, or its else, or without one goes on; For with a
        // condition and Range take the body or go on.
        [kind::IF | kind::FOR | kind::RANGE, ..] => match (choice, parts.get(1)) {
            (1, _) => State::Row(parts[0]),
            (_, Some(&other)) => State::Row(other),
            (_, None) => going_on(body, row),
        },
        // A switch takes any Case, or goes on.
        [kind::SWITCH | kind::TYPE_SWITCH, ..] => match clauses(body, row).get(choice) {
            Some(&case) => State::Row(case),
            None => going_on(body, row),
        },
        // Select takes any Comm; empty, it stops.
        [kind::SELECT, ..] => match clauses(body, row).get(choice) {
            Some(&comm) => State::Row(comm),
            None => State::Stopped,
        },
        [kind::BRANCH, ..] => return branch_to(body, row),
        // Plain rows go on.
        _ => going_on(body, row),
    })
}

/// The clauses of a switch or Select: what its Block holds.
fn clauses(body: &Body, row: usize) -> Vec<usize> {
    match body.rows[row][0] {
        kind::SWITCH | kind::TYPE_SWITCH | kind::SELECT => {
            body.children(row).flat_map(|block| body.children(block)).collect()
        }
        _ => vec![],
    }
}

/// Where going on from a row leads. No clause goes on itself, but its list.
fn going_on(body: &Body, row: usize) -> State {
    let Some(above) = parent(body, row) else {
        return State::Brace;
    };
    match body.rows[above][0] {
        kind::FOR | kind::RANGE => State::Row(above),
        kind::IF | kind::LABELED => going_on(body, above),
        _ => match body.children(above).find(|&item| item > row) {
            Some(next) => State::Row(next),
            None => past_end(body, above),
        },
    }
}

/// Past a list's end: after its Block, or after the switch or Select for a
/// clause.
fn past_end(body: &Body, list: usize) -> State {
    match body.rows[list][0] {
        kind::BLOCK => going_on(body, list),
        _ => {
            let block = parent(body, list).expect("a clause stands in a Block");
            going_on(body, parent(body, block).expect("whose switch or Select is above it"))
        }
    }
}

/// Where a branch goes.
fn branch_to(body: &Body, row: usize) -> Option<State> {
    match body.rows[row][1] {
        branch::BREAK => referred(body, row, &BREAKABLE).map(|left| going_on(body, left)),
        branch::CONTINUE => referred(body, row, &LOOPS).map(State::Row),
        branch::GOTO => labelled(body, row).map(State::Row),
        _ => next_case(body, row).map(State::Row),
    }
}

/// The statement of these kinds that a break or continue refers to: the
/// innermost around it; with a label, the one that the label is directly on.
fn referred(body: &Body, row: usize, kinds: &[u32]) -> Option<usize> {
    let name = body.rows[row][3];
    let around = |above: &usize| row < end(body, *above) && kinds.contains(&body.rows[*above][0]);
    let meant = |above: &usize| match parent(body, *above) {
        _ if name == 0 => true,
        Some(label) => body.rows[label][0] == kind::LABELED && same_name(body, label, row),
        None => false,
    };
    (0..row).rev().filter(around).find(meant)
}

/// The labelled row of a goto's name: without faults there is one.
fn labelled(body: &Body, goto: usize) -> Option<usize> {
    let label = |row: &usize| body.rows[*row][0] == kind::LABELED;
    (0..body.rows.len()).filter(label).find(|&row| same_name(body, row, goto))
}

/// The Case after the one whose list a fallthrough, its labels included, is in.
fn next_case(body: &Body, row: usize) -> Option<usize> {
    let above = parent(body, row)?;
    match body.rows[above][0] {
        kind::LABELED => next_case(body, above),
        kind::CASE => body.children(parent(body, above)?).find(|&case| case > above),
        _ => None,
    }
}

/// The row directly above a row.
fn parent(body: &Body, row: usize) -> Option<usize> {
    (0..row).rev().find(|&above| row < end(body, above))
}

/// The first row after a row and the rows below it.
fn end(body: &Body, row: usize) -> usize {
    row + body.rows[row][4] as usize
}

fn same_name(body: &Body, row: usize, other: usize) -> bool {
    body.name(body.rows[row][3]) == body.name(body.rows[other][3])
}

#[cfg(test)]
mod tests {
    use super::*;
    use oracle::bodies::rows::{
        block, body, break_to, continue_to, goto, label, leaf, over, row, Rows,
    };

    fn next(body: &Body, row: usize, choice: usize) -> State {
        step(body, row, choice).unwrap()
    }

    /// `L: for c { switch { case a: fallthrough; default: break } }; goto L`.
    fn loop_and_switch() -> Body {
        let case = |detail: u32, items: &[Rows]| row(kind::CASE, detail, 0, items);
        let falls = leaf(kind::BRANCH, branch::FALLTHROUGH);
        let switch = over(kind::SWITCH, &[case(0, &[falls]), case(1, &[break_to(0)])]);
        body(&[label(1, row(kind::FOR, 1, 0, &[block(&[switch])])), goto(1)], &["L"])
    }

    #[test]
    fn steps_of_each_sort() {
        let body = loop_and_switch();
        let from = [0, 1, 2, 3, 4, 6, 7, 8, 9, 10];
        let to = [1, 2, 10, 4, 6, 7, 8, 9, 2, 1];
        assert_eq!(from.map(|from| next(&body, from, 0)), to.map(State::Row));
        assert_eq!([2, 4].map(|from| next(&body, from, 1)), [3, 8].map(State::Row));
        let forks = [0, 2, 4, 7].map(|row| ways(&body, row));
        assert_eq!(forks, [None, Some(2), Some(2), None]);
    }

    #[test]
    fn past_the_last_item() {
        let nothing = body(&[], &[""; 0]);
        assert_eq!(next(&nothing, 0, 0), State::Brace);
        let switch = body(&[over(kind::SWITCH, &[])], &[""; 0]);
        assert_eq!((ways(&switch, 1), next(&switch, 1, 0)), (Some(1), State::Brace));
        let select = body(&[over(kind::SELECT, &[])], &[""; 0]);
        assert_eq!((ways(&select, 1), next(&select, 1, 0)), (None, State::Stopped));
    }

    #[test]
    fn stuck_without_a_place() {
        for branch in [break_to(0), break_to(1), continue_to(0), continue_to(1), goto(1)] {
            assert_eq!(step(&body(&[branch], &["L"]), 1, 0), None);
        }
        assert_eq!(step(&body(&[leaf(kind::BRANCH, branch::FALLTHROUGH)], &[""; 0]), 1, 0), None);
    }
}
