//! The walk call. Routes are written from document 01's runner as text: the states in order, a row by
//! its number, with a star where a choice is taken.

mod common;

use common::*;
use zesthull::{Place, Refusal, Walk};

const EXPR: u32 = 4;
const CASE: u32 = 14;
const SWITCH: u32 = 15;
const TYPE_SWITCH: u32 = 16;
const COMM: u32 = 17;
const SELECT: u32 = 18;
const FOR: u32 = 19;
const RANGE: u32 = 20;

const BREAK: u32 = 0;
const CONTINUE: u32 = 1;
const GOTO: u32 = 2;
const FALLTHROUGH: u32 = 3;

/// A body of rows given by kind, detail, name and size, with the names L and M.
fn rows(rows: &[[u32; 4]]) -> Words {
    let row = |&[kind, detail, name, size]: &[u32; 4]| [kind, detail, 1, name, size];
    let rows: Vec<[u32; 5]> = rows.iter().map(row).collect();
    Words::new(&rows, &["L", "M"])
}

/// A Block of one statement over a Block without items.
fn lone(kind: u32, detail: u32) -> Words {
    rows(&[[BLOCK, 0, 0, 3], [kind, detail, 0, 2], [BLOCK, 0, 0, 1]])
}

/// A state of a route.
#[derive(Clone, Copy)]
struct State {
    place: Place,
    /// Whether a choice is taken there.
    is_fork: bool,
}

/// The states of a route, given as "0 1* 2 brace".
fn states(route: &str) -> Vec<State> {
    let place = |text: &str| match text {
        "stopped" => Place::Stopped,
        "brace" => Place::Brace,
        row => Place::Row(row.parse().unwrap()),
    };
    let state = |text: &str| match text.strip_suffix('*') {
        Some(row) => State { place: place(row), is_fork: true },
        None => State { place: place(text), is_fork: false },
    };
    route.split_whitespace().map(state).collect()
}

/// How far a walk is that has come to the state of this number.
fn walk_to(states: &[State], number: usize) -> Walk {
    let used = states[..number].iter().filter(|state| state.is_fork).count();
    Walk { place: states[number].place, steps: number, used }
}

fn out_of_range(index: usize) -> Result<Walk, Refusal> {
    Err(Refusal { number: 9, index })
}

#[track_caller]
fn expect(words: &Words, choices: &[u32], limit: usize, due: Result<Walk, Refusal>) {
    let walk = zesthull::walk(words.body(), choices, limit);
    assert_eq!(walk, due, "by {choices:?}, limit {limit}");
}

/// The walk ends there, whatever is left of the limit.
#[track_caller]
fn expect_end(words: &Words, choices: &[u32], due: Walk) {
    for limit in [due.steps, due.steps + 1, due.steps + 2, 1_000_000, usize::MAX] {
        expect(words, choices, limit, Ok(due));
    }
}

/// A choice out of range is refused when the fork would take it, and not before.
#[track_caller]
fn expect_spoilt(words: &Words, choices: &[u32], index: usize, due: Walk) {
    let mut spoilt = choices.to_vec();
    spoilt[index] = u32::MAX;
    for choices in [&spoilt[..], &spoilt[..=index]] {
        expect(words, choices, due.steps, Ok(due));
        for limit in [due.steps + 1, due.steps + 2, usize::MAX] {
            expect(words, choices, limit, out_of_range(index));
        }
    }
}

/// The walk by these choices goes along the route, with each limit. With fewer choices it ends at the
/// fork that lacks one; choices past the end of the route are never looked at. A route that ends at a
/// fork has no choice left there; one that ends at another row is told only so far.
#[track_caller]
fn expect_route(words: &Words, choices: &[u32], route: &str) {
    let states = states(route);
    let last = states.len() - 1;
    for limit in 0..=last {
        expect(words, choices, limit, Ok(walk_to(&states, limit)));
    }
    let forks: Vec<usize> = (0..last).filter(|&number| states[number].is_fork).collect();
    assert_eq!(forks.len(), choices.len(), "choices of {route}");
    for (index, &fork) in forks.iter().enumerate() {
        expect_end(words, &choices[..index], walk_to(&states, fork));
        expect_spoilt(words, choices, index, walk_to(&states, fork));
    }
    let end = walk_to(&states, last);
    let is_over = !matches!(end.place, Place::Row(_));
    if is_over || states[last].is_fork {
        expect_end(words, choices, end);
    }
    if is_over {
        expect_end(words, &[choices, &[u32::MAX, 0]].concat(), end);
    }
}

/// The first fork has these ways, of choice 0, 1, .., and no others.
#[track_caller]
fn expect_ways(words: &Words, ways: &[&str]) {
    for (choice, way) in (0..).zip(ways) {
        expect_route(words, &[choice], way);
    }
    let past = ways.len() as u32;
    for choice in [past, past + 1, 255, 256, 65_536, 1 << 31, u32::MAX] {
        expect(words, &[choice], 1_000, out_of_range(0));
    }
}

#[test]
fn no_forks() {
    expect_route(&rows(&[[BLOCK, 0, 0, 1]]), &[], "0 brace");
    expect_route(&rows(&[[BLOCK, 0, 0, 2], [RETURN, 0, 0, 1]]), &[], "0 1 stopped");
    expect_route(&rows(&[[BLOCK, 0, 0, 3], [EXPR, 1, 0, 1], [EMPTY, 0, 0, 1]]), &[], "0 1 stopped");
    // {}; { {} }
    let blocks = rows(&[[BLOCK, 0, 0, 4], [BLOCK, 0, 0, 1], [BLOCK, 0, 0, 2], [BLOCK, 0, 0, 1]]);
    expect_route(&blocks, &[], "0 1 2 3 brace");
}

/// Rows that go on, of each kind.
#[test]
fn plain_rows() {
    let plain =
        [[0, 0], [1, 0], [1, 1], [2, 0], [4, 0], [5, 0], [6, 0], [7, 0], [7, 1], [8, 0], [9, 0]];
    for [kind, detail] in plain {
        let row = [kind, detail, 0, 1];
        expect_route(&rows(&[[BLOCK, 0, 0, 4], row, [BLOCK, 0, 0, 2], row]), &[], "0 1 2 3 brace");
    }
}

/// A step is one move to the next state, however far going on climbs.
#[test]
fn far_climbs() {
    let words = Words::new(&nested(100), &[]);
    for limit in 0..100 {
        expect(&words, &[], limit, Ok(Walk { place: Place::Row(limit), steps: limit, used: 0 }));
    }
    expect_end(&words, &[], Walk { place: Place::Brace, steps: 100, used: 0 });
}

#[test]
fn if_without_else() {
    expect_ways(&lone(IF, 0), &["0 1* brace", "0 1* 2 brace"]);
    // if c { return }; f()
    let words =
        rows(&[[BLOCK, 0, 0, 5], [IF, 0, 0, 3], [BLOCK, 0, 0, 2], [RETURN, 0, 0, 1], [EXPR, 0, 0, 1]]);
    expect_ways(&words, &["0 1* 4 brace", "0 1* 2 3 stopped"]);
}

#[test]
fn if_with_else() {
    // if c { f() } else { return }; f()
    let words = rows(&[
        [BLOCK, 0, 0, 7], [IF, 1, 0, 5], [BLOCK, 0, 0, 2], [EXPR, 0, 0, 1], [BLOCK, 0, 0, 2],
        [RETURN, 0, 0, 1], [EXPR, 0, 0, 1],
    ]);
    expect_ways(&words, &["0 1* 4 5 stopped", "0 1* 2 3 6 brace"]);
    // if c {} else if d {} else {}
    let words = rows(&[
        [BLOCK, 0, 0, 6], [IF, 1, 0, 5], [BLOCK, 0, 0, 1], [IF, 1, 0, 3], [BLOCK, 0, 0, 1],
        [BLOCK, 0, 0, 1],
    ]);
    expect_ways(&words, &["0 1* 3*", "0 1* 2 brace"]);
    expect_route(&words, &[0, 0], "0 1* 3* 5 brace");
    expect_route(&words, &[0, 1], "0 1* 3* 4 brace");
    // if c {} else if d {}
    let words =
        rows(&[[BLOCK, 0, 0, 5], [IF, 1, 0, 4], [BLOCK, 0, 0, 1], [IF, 0, 0, 2], [BLOCK, 0, 0, 1]]);
    expect_route(&words, &[0, 0], "0 1* 3* brace");
    expect_route(&words, &[0, 1], "0 1* 3* 4 brace");
}

#[test]
fn loops_with_a_way_out() {
    for [kind, detail] in [[FOR, 1], [RANGE, 0]] {
        expect_ways(&lone(kind, detail), &["0 1* brace", "0 1* 2 1*"]);
        // for c { f() }; f()
        let words = rows(&[
            [BLOCK, 0, 0, 5], [kind, detail, 0, 3], [BLOCK, 0, 0, 2], [EXPR, 0, 0, 1],
            [EXPR, 0, 0, 1],
        ]);
        expect_ways(&words, &["0 1* 4 brace", "0 1* 2 3 1*"]);
        expect_route(&words, &[1, 1, 0], "0 1* 2 3 1* 2 3 1* 4 brace");
    }
}

/// A For without a condition takes no choice, whatever is given.
#[test]
fn endless_loops() {
    expect_route(&lone(FOR, 0), &[], "0 1 2 1 2 1 2 1 2 1");
    let words = lone(FOR, 0);
    for choices in [&[][..], &[0], &[1], &[2], &[u32::MAX, 1]] {
        for limit in [0, 9, 10, 1_000_000, 1_000_001] {
            let row = if limit == 0 { 0 } else { 2 - limit % 2 };
            let walk = Walk { place: Place::Row(row), steps: limit, used: 0 };
            expect(&words, choices, limit, Ok(walk));
        }
    }
    // for { if c { break } }
    let words = rows(&[
        [BLOCK, 0, 0, 6], [FOR, 0, 0, 5], [BLOCK, 0, 0, 4], [IF, 0, 0, 3], [BLOCK, 0, 0, 2],
        [BRANCH, BREAK, 0, 1],
    ]);
    expect_ways(&words, &["0 1 2 3* 1 2 3*", "0 1 2 3* 4 5 brace"]);
    expect_route(&words, &[0, 0, 1], "0 1 2 3* 1 2 3* 1 2 3* 4 5 brace");
}

/// Two clauses, f() in the first, and a return after the statement.
fn two_clauses(kind: u32, clause: u32, defaults: [u32; 2]) -> Words {
    rows(&[
        [BLOCK, 0, 0, 7], [kind, 0, 0, 5], [BLOCK, 0, 0, 4], [clause, defaults[0], 0, 2],
        [EXPR, 0, 0, 1], [clause, defaults[1], 0, 1], [RETURN, 0, 0, 1],
    ])
}

#[test]
fn switches() {
    for kind in [SWITCH, TYPE_SWITCH] {
        let ways = ["0 1* 3 4 6 stopped", "0 1* 5 6 stopped", "0 1* 6 stopped"];
        expect_ways(&two_clauses(kind, CASE, [0, 0]), &ways);
        expect_ways(&two_clauses(kind, CASE, [0, 1]), &ways[..2]);
        expect_ways(&two_clauses(kind, CASE, [1, 0]), &ways[..2]);
        let one = |detail| {
            rows(&[[BLOCK, 0, 0, 4], [kind, 0, 0, 3], [BLOCK, 0, 0, 2], [CASE, detail, 0, 1]])
        };
        expect_ways(&one(0), &["0 1* 3 brace", "0 1* brace"]);
        expect_ways(&one(1), &["0 1* 3 brace"]);
    }
}

#[test]
fn selects() {
    let ways = ["0 1* 3 4 6 stopped", "0 1* 5 6 stopped"];
    for defaults in [[0, 0], [0, 1], [1, 0]] {
        expect_ways(&two_clauses(SELECT, COMM, defaults), &ways);
    }
    for detail in [0, 1] {
        let one =
            rows(&[[BLOCK, 0, 0, 4], [SELECT, 0, 0, 3], [BLOCK, 0, 0, 2], [COMM, detail, 0, 1]]);
        expect_ways(&one, &["0 1* 3 brace"]);
    }
}

/// An empty switch takes the choice 0, an empty Select none.
#[test]
fn no_clauses() {
    expect_ways(&lone(SWITCH, 0), &["0 1* brace"]);
    expect_ways(&lone(TYPE_SWITCH, 0), &["0 1* brace"]);
    expect_route(&lone(SELECT, 0), &[], "0 1 stopped");
}

#[test]
fn many_clauses() {
    for count in [100, 1_997] {
        let size = count as u32;
        let head = [[BLOCK, 0, 0, size + 3], [SWITCH, 0, 0, size + 2], [BLOCK, 0, 0, size + 1]];
        let words = rows(&[&head[..], &vec![[CASE, 0, 0, 1]; count]].concat());
        for choice in 0..count {
            let walk = Walk { place: Place::Row(3 + choice), steps: 2, used: 1 };
            expect(&words, &[choice as u32], 2, Ok(walk));
        }
        expect_end(&words, &[size], Walk { place: Place::Brace, steps: 2, used: 1 });
        expect(&words, &[size + 1], 9, out_of_range(0));
    }
}

/// Into the next Case, its labels and the Empty items after it left out.
#[test]
fn fallthroughs() {
    // switch { case a: goto L; L: fallthrough; ; case b: f(); default: }
    let words = rows(&[
        [BLOCK, 0, 0, 11], [SWITCH, 0, 0, 10], [BLOCK, 0, 0, 9], [CASE, 0, 0, 5],
        [BRANCH, GOTO, 1, 1], [LABELED, 0, 1, 2], [BRANCH, FALLTHROUGH, 0, 1], [EMPTY, 0, 0, 1],
        [CASE, 0, 0, 2], [EXPR, 0, 0, 1], [CASE, 1, 0, 1],
    ]);
    let ways = ["0 1* 3 4 5 6 8 9 brace", "0 1* 8 9 brace", "0 1* 10 brace"];
    expect_ways(&words, &ways);
    // for c { switch { case a: fallthrough; case b: fallthrough; case c: } }
    let words = rows(&[
        [BLOCK, 0, 0, 10], [FOR, 1, 0, 9], [BLOCK, 0, 0, 8], [SWITCH, 0, 0, 7], [BLOCK, 0, 0, 6],
        [CASE, 0, 0, 2], [BRANCH, FALLTHROUGH, 0, 1], [CASE, 0, 0, 2],
        [BRANCH, FALLTHROUGH, 0, 1], [CASE, 0, 0, 1],
    ]);
    expect_route(&words, &[1, 0, 0], "0 1* 2 3* 5 6 7 8 9 1* brace");
    expect_route(&words, &[1, 3, 1, 1], "0 1* 2 3* 1* 2 3* 7 8 9 1*");
}

/// An unlabelled break leaves the innermost statement that it can leave, an unlabelled continue goes on
/// with the innermost loop.
#[test]
fn unlabelled_branches() {
    for [kind, clause] in [[SWITCH, CASE], [TYPE_SWITCH, CASE], [SELECT, COMM]] {
        // for { switch { case a: break; case b: continue }; return }
        let words = rows(&[
            [BLOCK, 0, 0, 10], [FOR, 0, 0, 9], [BLOCK, 0, 0, 8], [kind, 0, 0, 6], [BLOCK, 0, 0, 5],
            [clause, 0, 0, 2], [BRANCH, BREAK, 0, 1], [clause, 0, 0, 2], [BRANCH, CONTINUE, 0, 1],
            [RETURN, 0, 0, 1],
        ]);
        expect_route(&words, &[0], "0 1 2 3* 5 6 9 stopped");
        expect_route(&words, &[1, 1, 0], "0 1 2 3* 7 8 1 2 3* 7 8 1 2 3* 5 6 9 stopped");
    }
    for [kind, detail] in [[FOR, 1], [RANGE, 0]] {
        // for c { for c { if d { break } else { continue } }; f() }
        let words = rows(&[
            [BLOCK, 0, 0, 11], [kind, detail, 0, 10], [BLOCK, 0, 0, 9], [kind, detail, 0, 7],
            [BLOCK, 0, 0, 6], [IF, 1, 0, 5], [BLOCK, 0, 0, 2], [BRANCH, BREAK, 0, 1],
            [BLOCK, 0, 0, 2], [BRANCH, CONTINUE, 0, 1], [EXPR, 0, 0, 1],
        ]);
        let route = "0 1* 2 3* 4 5* 8 9 3* 4 5* 6 7 10 1* brace";
        expect_route(&words, &[1, 1, 0, 1, 1, 0], route);
    }
}

#[test]
fn labelled_break_and_continue() {
    for [kind, detail] in [[FOR, 1], [RANGE, 0]] {
        // L: for c {
        //     M: switch { case a: for { break L }; case b: for { break M }; default: for { continue L } }
        // }; f()
        let words = rows(&[
            [BLOCK, 0, 0, 20], [LABELED, 0, 1, 18], [kind, detail, 0, 17], [BLOCK, 0, 0, 16],
            [LABELED, 0, 2, 15], [SWITCH, 0, 0, 14], [BLOCK, 0, 0, 13], [CASE, 0, 0, 4],
            [FOR, 0, 0, 3], [BLOCK, 0, 0, 2], [BRANCH, BREAK, 1, 1], [CASE, 0, 0, 4],
            [FOR, 0, 0, 3], [BLOCK, 0, 0, 2], [BRANCH, BREAK, 2, 1], [CASE, 1, 0, 4],
            [FOR, 0, 0, 3], [BLOCK, 0, 0, 2], [BRANCH, CONTINUE, 1, 1], [EXPR, 0, 0, 1],
        ]);
        expect_route(&words, &[1, 0], "0 1 2* 3 4 5* 7 8 9 10 19 brace");
        expect_route(&words, &[1, 1, 0], "0 1 2* 3 4 5* 11 12 13 14 2* 19 brace");
        expect_route(&words, &[1, 2, 0], "0 1 2* 3 4 5* 15 16 17 18 2* 19 brace");
    }
    // for c { L: select { case a: { break L } }; f() }
    let words = rows(&[
        [BLOCK, 0, 0, 10], [FOR, 1, 0, 9], [BLOCK, 0, 0, 8], [LABELED, 0, 1, 6], [SELECT, 0, 0, 5],
        [BLOCK, 0, 0, 4], [COMM, 0, 0, 3], [BLOCK, 0, 0, 2], [BRANCH, BREAK, 1, 1],
        [EXPR, 0, 0, 1],
    ]);
    expect_route(&words, &[1, 0, 0], "0 1* 2 3 4* 6 7 8 9 1* brace");
}

/// A goto goes to the labelled row, forward, back, and out of statements around it.
#[test]
fn gotos() {
    // goto M; L: select { case a: goto M; case b: break L }; return; M: goto L
    let words = rows(&[
        [BLOCK, 0, 0, 12], [BRANCH, GOTO, 2, 1], [LABELED, 0, 1, 7], [SELECT, 0, 0, 6],
        [BLOCK, 0, 0, 5], [COMM, 0, 0, 2], [BRANCH, GOTO, 2, 1], [COMM, 0, 0, 2],
        [BRANCH, BREAK, 1, 1], [RETURN, 0, 0, 1], [LABELED, 0, 2, 2], [BRANCH, GOTO, 1, 1],
    ]);
    expect_ways(&words, &["0 1 10 11 2 3* 5 6 10 11 2 3*", "0 1 10 11 2 3* 7 8 9 stopped"]);
    expect_route(&words, &[0, 1], "0 1 10 11 2 3* 5 6 10 11 2 3* 7 8 9 stopped");
    // L: for c { if d { goto L }; { goto M } }; f(); M: ;
    let words = rows(&[
        [BLOCK, 0, 0, 12], [LABELED, 0, 1, 8], [FOR, 1, 0, 7], [BLOCK, 0, 0, 6], [IF, 0, 0, 3],
        [BLOCK, 0, 0, 2], [BRANCH, GOTO, 1, 1], [BLOCK, 0, 0, 2], [BRANCH, GOTO, 2, 1],
        [EXPR, 0, 0, 1], [LABELED, 0, 2, 2], [EMPTY, 0, 0, 1],
    ]);
    expect_route(&words, &[0], "0 1 2* 9 10 11 brace");
    expect_route(&words, &[1, 0], "0 1 2* 3 4* 7 8 10 11 brace");
    expect_route(&words, &[1, 1, 1, 1, 0], "0 1 2* 3 4* 5 6 1 2* 3 4* 5 6 1 2* 9 10 11 brace");
    // L: goto L
    let words = rows(&[[BLOCK, 0, 0, 3], [LABELED, 0, 1, 2], [BRANCH, GOTO, 1, 1]]);
    expect_route(&words, &[], "0 1 2 1 2 1 2 1");
    // goto L; { return }; L: M: goto M
    let words = rows(&[
        [BLOCK, 0, 0, 7], [BRANCH, GOTO, 1, 1], [BLOCK, 0, 0, 2], [RETURN, 0, 0, 1],
        [LABELED, 0, 1, 3], [LABELED, 0, 2, 2], [BRANCH, GOTO, 2, 1],
    ]);
    expect_route(&words, &[], "0 1 4 5 6 5 6 5");
}

/// A label _ stands for nothing: it may be there twice, and is entered like another.
#[test]
fn blank_labels() {
    let mut words = rows(&[
        [BLOCK, 0, 0, 5], [LABELED, 0, 1, 2], [EMPTY, 0, 0, 1], [LABELED, 0, 1, 2], [RETURN, 0, 0, 1],
    ]);
    words.bytes[0] = b'_';
    expect_route(&words, &[], "0 1 2 3 4 stopped");
}

/// Past a list's end in one step: out of clauses, loops, ifs and labels.
#[test]
fn going_on_past_several() {
    // for c { L: if d { switch { case a: { f() } } } else {} ; if e { goto L } }
    let words = rows(&[
        [BLOCK, 0, 0, 15], [FOR, 1, 0, 14], [BLOCK, 0, 0, 13], [LABELED, 0, 1, 9], [IF, 1, 0, 8],
        [BLOCK, 0, 0, 6], [SWITCH, 0, 0, 5], [BLOCK, 0, 0, 4], [CASE, 0, 0, 3], [BLOCK, 0, 0, 2],
        [EXPR, 0, 0, 1], [BLOCK, 0, 0, 1], [IF, 0, 0, 3], [BLOCK, 0, 0, 2], [BRANCH, GOTO, 1, 1],
    ]);
    expect_route(&words, &[1, 1, 0, 0, 0], "0 1* 2 3 4* 5 6* 8 9 10 12* 1* brace");
    expect_route(&words, &[1, 1, 1, 1, 0, 0], "0 1* 2 3 4* 5 6* 12* 13 14 3 4* 11 12* 1*");
}

/// Limits 0 and 1, just enough and one short, of a walk of some length.
#[test]
fn limits() {
    let words = lone(RANGE, 0);
    let choices = [vec![1; 100_000], vec![0]].concat();
    let walk = |limit: usize| zesthull::walk(words.body(), &choices, limit);
    let at = |place: Place, steps: usize, used: usize| Ok(Walk { place, steps, used });
    assert_eq!(walk(0), at(Place::Row(0), 0, 0));
    assert_eq!(walk(1), at(Place::Row(1), 1, 0));
    assert_eq!(walk(2), at(Place::Row(2), 2, 1));
    assert_eq!(walk(200_001), at(Place::Row(1), 200_001, 100_000));
    for limit in [200_002, 200_003, 1 << 32, usize::MAX - 1, usize::MAX] {
        assert_eq!(walk(limit), at(Place::Brace, 200_002, 100_001));
    }
}

/// The choices as a part of the caller's own memory, with others on both sides.
#[test]
fn choices_inside_others() {
    let words = lone(RANGE, 0);
    for start in 1..=4 {
        for count in 0..=3 {
            let choices = [pattern(start), vec![1; count], pattern(3)].concat();
            let walk = Walk { place: Place::Row(1), steps: 1 + 2 * count, used: count };
            expect_end(&words, &choices[start..start + count], walk);
        }
    }
}

/// At 2,000 rows and 100 deep.
#[test]
fn at_the_limits() {
    let words = Words::new(&flat(2_000), &[]);
    expect_end(&words, &[], Walk { place: Place::Brace, steps: 2_000, used: 0 });
    // for range x { for range x { .. } }
    let nest = |row: u32| [if row % 2 == 1 { RANGE } else { BLOCK }, 0, 0, 99 - row];
    let words = rows(&(0..99).map(nest).collect::<Vec<_>>());
    expect_end(&words, &[1; 49], Walk { place: Place::Row(97), steps: 99, used: 49 });
    let choices = [[1; 49], [0; 49]].concat();
    expect_end(&words, &choices, Walk { place: Place::Brace, steps: 148, used: 98 });
}

/// 8: a fault on the sheet or a row badly placed, be it on the way or not, whatever is chosen.
#[test]
fn faulty_bodies() {
    // switch x.(type) { case a: fallthrough; default: }
    let in_type_switch = [
        [TYPE_SWITCH, 0, 0, 5], [BLOCK, 0, 0, 4], [CASE, 0, 0, 2], [BRANCH, FALLTHROUGH, 0, 1],
        [CASE, 1, 0, 1],
    ];
    let faulty: [(&str, &[[u32; 4]]); 8] = [
        ("L: return", &[[LABELED, 0, 1, 2], [RETURN, 0, 0, 1]]),
        ("goto L", &[[BRANCH, GOTO, 1, 1]]),
        ("break L", &[[BRANCH, BREAK, 1, 1]]),
        ("return; break", &[[RETURN, 0, 0, 1], [BRANCH, BREAK, 0, 1]]),
        ("continue", &[[BRANCH, CONTINUE, 0, 1]]),
        ("fallthrough", &[[BRANCH, FALLTHROUGH, 0, 1]]),
        ("fallthrough in a type switch", &in_type_switch),
        ("goto L; break", &[[BRANCH, GOTO, 1, 1], [BRANCH, BREAK, 0, 1]]),
    ];
    for (text, items) in faulty {
        let size = 3 + items.len() as u32;
        let head = [[BLOCK, 0, 0, size], [IF, 0, 0, 2], [BLOCK, 0, 0, 1]];
        let words = rows(&[&head, items].concat());
        for choices in [&[][..], &[0], &[1], &[9]] {
            for limit in [0, 1, 2, usize::MAX] {
                let walk = zesthull::walk(words.body(), choices, limit);
                assert_eq!(walk, Err(Refusal { number: 8, index: 0 }), "if c {{}}; {text}");
            }
        }
    }
}

/// A body that isn't well-formed is refused before its faults and before any choice; order.rs has the
/// other sets of faults.
#[test]
fn malformed_bodies() {
    let mut words = lone(IF, 0);
    words.rows[10] = BRANCH;
    for choices in [&[][..], &[9]] {
        expect(&words, choices, 9, Err(Refusal { number: 5, index: 1 }));
    }
    words.rows[7] = 0;
    expect(&words, &[9], 9, Err(Refusal { number: 4, index: 1 }));
}

/// A call keeps nothing, and the same words get the same walk.
#[test]
fn walks_keep_nothing() {
    let (first, second) = (lone(RANGE, 0), two_clauses(SWITCH, CASE, [0, 1]));
    for _ in 0..3 {
        expect_route(&first, &[1, 0], "0 1* 2 1* brace");
        expect_route(&second, &[0], "0 1* 3 4 6 stopped");
    }
}
