//! Steps of a walk: the port's call beside a walk over a tree of nodes.

use crate::batch::{lend, Call};
use crate::measure::{figure, measure_call, Effort, Figure};
use crate::tree::{self, Node};
use crate::POOL;
use oracle::bodies::rows::{block, body, break_to, continue_to, label, leaf, over, row, Rows};
use oracle::bodies::{people, Rng};
use oracle::{branch, kind, Body};
use std::hint::black_box;
use std::time::{Duration, Instant};

/// How many steps a walk has.
pub const STEPS: usize = 4_000_000;

/// Choices enough for them: forks are at least two steps apart.
const CHOICES: usize = STEPS / 2;

pub struct WalkLine {
    pub choices: &'static str,
    pub tree: Figure,
    pub port: Figure,
}

/// Nanoseconds a step, by choices in a cycle and by random ones.
pub fn measure(effort: &Effort) -> [WalkLine; 2] {
    [("in a cycle", in_a_cycle()), ("at random", at_random())]
        .map(|(name, choices)| measure_one(name, &choices, effort))
}

fn measure_one(name: &'static str, choices: &[u32], effort: &Effort) -> WalkLine {
    let body = nested_loops();
    let tree = Node::of(&body);
    let port = || zesthull::walk(lend(&body), black_box(choices), STEPS).ok();
    let beside = || tree::walk(&tree, black_box(choices), STEPS);
    let walk = port().expect("a body without faults");
    assert_eq!((Some(walk), walk.steps), (beside(), STEPS));
    let (mut times, started) = ([vec![], vec![]], Instant::now());
    while times[0].len() < effort.rounds || started.elapsed() < effort.time {
        times[0].push(time(beside));
        times[1].push(time(port));
    }
    let [tree, port] = times.map(|times| figure(times, STEPS));
    WalkLine { choices: name, tree, port }
}

/// What the call takes before the first step, on bodies as people write them.
pub fn measure_start(rows: usize, effort: &Effort) -> Figure {
    let mut rng = Rng::new(1);
    let pool: Vec<Body> = (0..POOL).map(|_| people(&mut rng, rows)).collect();
    assert!(pool.iter().all(|body| zesthull::walk(lend(body), &[], 0).is_ok()));
    let call: Call = |body, _, _| _ = black_box(zesthull::walk(body, &[], 0));
    measure_call(&pool, call, effort)
}

fn time<T>(walk: impl Fn() -> T) -> Duration {
    let start = Instant::now();
    black_box(walk());
    start.elapsed()
}

/// Two loops, in the inner one an If and a switch:
///
/// ```text
/// outer: for range x {
///     for c {
///         x = y
///         if c { f(); x++ } else { f() }
///         switch { case c: f(); case c: continue outer; case c: f(); fallthrough; default: break }
///         x++
///     }
///     f()
/// }
/// return
/// ```
fn nested_loops() -> Body {
    let call = || leaf(kind::EXPR, 0);
    let step = || leaf(kind::INC_DEC, 0);
    let case = |detail: u32, items: &[Rows]| row(kind::CASE, detail, 0, items);
    let if_else = row(kind::IF, 1, 0, &[block(&[call(), step()]), block(&[call()])]);
    let switch = over(
        kind::SWITCH,
        &[
            case(0, &[call()]),
            case(0, &[continue_to(1)]),
            case(0, &[call(), leaf(kind::BRANCH, branch::FALLTHROUGH)]),
            case(1, &[break_to(0)]),
        ],
    );
    let inner = block(&[leaf(kind::ASSIGN, 0), if_else, switch, step()]);
    let outer = over(kind::RANGE, &[row(kind::FOR, 1, 0, &[inner]), call()]);
    body(&[label(1, outer), leaf(kind::RETURN, 0)], &["outer"])
}

/// Two turns of the outer loop again and again: one left by `continue outer`,
/// one by the end of the inner loop.
fn in_a_cycle() -> Vec<u32> {
    const TURNS: [u32; 21] = [1, 1, 1, 0, 1, 0, 2, 1, 1, 3, 1, 0, 1, 1, 1, 0, 0, 1, 1, 2, 0];
    TURNS.into_iter().cycle().take(CHOICES).collect()
}

/// Turns of any length, each fork by any way.
fn at_random() -> Vec<u32> {
    let (mut rng, mut choices) = (Rng::new(1), vec![]);
    while choices.len() < CHOICES {
        choices.push(1);
        let mut clause = 0;
        while clause != 1 {
            if rng.one_in(8) {
                choices.push(0);
                break;
            }
            clause = rng.below(4) as u32;
            choices.extend([1, rng.below(2) as u32, clause]);
        }
    }
    choices
}

#[test]
fn choices_are_in_range_and_enough() {
    let body = nested_loops();
    assert_eq!(oracle::refusals::refusal_of(&body), None);
    for choices in [in_a_cycle(), at_random()] {
        let walk = tree::walk(&Node::of(&body), &choices, STEPS);
        assert_eq!(walk.map(|walk| walk.steps), Some(STEPS));
    }
}
