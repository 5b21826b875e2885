//! Refusal 10: two defaults in one switch, type switch or select. The row told is that of the first
//! clause that is a second default.

mod common;

use common::*;

const CASE: u32 = 14;
const COMM: u32 = 17;

/// The statements that hold clauses, and the clauses that they hold.
const STATEMENTS: [[u32; 2]; 3] = [[15, CASE], [16, CASE], [18, COMM]];

/// A statement, or several in order, by kind, detail and size.
type Rows = Vec<[u32; 3]>;

/// A row over others.
fn over(kind: u32, detail: u32, below: &[Rows]) -> Rows {
    let below = below.concat();
    [&[[kind, detail, 1 + below.len() as u32]], &below[..]].concat()
}

/// A switch or select with a clause for each detail, around the items given with it.
fn clauses([kind, clause]: [u32; 2], of: &[(u32, Rows)]) -> Rows {
    let clauses: Vec<Rows> =
        of.iter().map(|(detail, items)| over(clause, *detail, &[items.clone()])).collect();
    over(kind, 0, &[over(BLOCK, 0, &clauses)])
}

/// A switch or select whose clauses have these details and no items.
fn plain(statement: [u32; 2], details: &[u32]) -> Rows {
    let of: Vec<(u32, Rows)> = details.iter().map(|&detail| (detail, vec![])).collect();
    clauses(statement, &of)
}

/// The body of these items.
fn body(items: &[Rows]) -> Words {
    let row = |[kind, detail, size]: [u32; 3]| [kind, detail, 1, 0, size];
    let rows: Vec<[u32; 5]> = over(BLOCK, 0, items).into_iter().map(row).collect();
    Words::new(&rows, &[])
}

/// So many Blocks, each inside the one before, around a statement.
fn inside(blocks: usize, statement: Rows) -> Rows {
    (0..blocks).fold(statement, |inner, _| over(BLOCK, 0, &[inner]))
}

#[track_caller]
fn expect_well_formed(what: &str, items: &[Rows]) {
    assert_eq!(zesthull::refusal(body(items).body()), Ok(()), "{what}");
}

/// Every way to give details to up to five clauses: they are the rows 3, 4, ..
#[test]
fn clauses_of_one_statement() {
    for statement in STATEMENTS {
        for count in 0..=5 {
            for ways in 0..1 << count {
                let details: Vec<u32> = (0..count).map(|at| ways >> at & 1).collect();
                let second = (0..count).filter(|&at| details[at] == 1).nth(1);
                let what = format!("kind {} with {details:?}", statement[0]);
                let items = [plain(statement, &details)];
                match second {
                    Some(second) => expect_refusal(&what, &body(&items), 10, 3 + second),
                    None => expect_well_formed(&what, &items),
                }
            }
        }
    }
}

/// The first and the last of as many clauses as a body has room for.
#[test]
fn far_apart() {
    for statement in STATEMENTS {
        let mut details = vec![0; 1997];
        details[1996] = 1;
        expect_well_formed("the last a default", &[plain(statement, &details)]);
        details[0] = 1;
        expect_refusal("first and last", &body(&[plain(statement, &details)]), 10, 1999);
    }
}

/// A statement inside a clause of another doesn't count for the outer one; of two that have a second
/// default the lower row is told.
#[test]
fn statements_inside_each_other() {
    for outer in STATEMENTS {
        for inner in STATEMENTS {
            let (one, two) = (plain(inner, &[1, 0]), plain(inner, &[1, 1]));
            let around = |first: u32, items: &Rows, second: u32| {
                [clauses(outer, &[(first, items.clone()), (second, vec![])])]
            };
            expect_well_formed("one in each", &around(1, &one, 0));
            expect_well_formed("one in each, the outer one last", &around(0, &one, 1));
            expect_refusal("two in the outer one", &body(&around(1, &one, 1)), 10, 8);
            expect_refusal("two in the inner one", &body(&around(1, &two, 0)), 10, 7);
            expect_refusal("two in each", &body(&around(1, &two, 1)), 10, 7);
            let second = clauses(outer, &[(1, vec![]), (1, two)]);
            expect_refusal("two in each, the outer ones first", &body(&[second]), 10, 4);
        }
    }
}

#[test]
fn statements_after_each_other() {
    for first in STATEMENTS {
        for second in STATEMENTS {
            let (one, two) = ([1, 0], [1, 1]);
            let after = |first_of: &[u32], second_of: &[u32]| {
                [plain(first, first_of), plain(second, second_of)]
            };
            expect_well_formed("one in each", &after(&one, &one));
            expect_refusal("two in the second", &body(&after(&one, &two)), 10, 8);
            expect_refusal("two in each", &body(&after(&two, &two)), 10, 4);
        }
    }
}

/// Over all rows 4 and 5 come first and 6 comes after, wherever their rows are.
#[test]
fn between_shape_and_depth() {
    for statement in STATEMENTS {
        let (two, empty) = (plain(statement, &[1, 1]), vec![[EMPTY, 0, 1]]);
        let deep = inside(100, empty.clone());
        let broken = over(EMPTY, 0, &[empty.clone()]);
        expect_refusal("101 deep", &body(&[deep.clone()]), 6, 100);
        expect_refusal("101 deep, then two", &body(&[deep.clone(), two.clone()]), 10, 105);
        expect_refusal("two, then 101 deep", &body(&[two.clone(), deep.clone()]), 10, 4);
        expect_refusal("both 101 deep", &body(&[inside(97, two.clone())]), 10, 101);
        let all = [two.clone(), deep, broken];
        expect_refusal("two, 101 deep, an Empty of size 2", &body(&all), 5, 106);
        let mut words = body(&all);
        words.rows[5 * 107 + 2] = 0;
        expect_refusal("the same and a position 0", &words, 4, 107);
        let mut words = body(&[two, empty]);
        words.rows[5 * 5 + 2] = 0;
        expect_refusal("two, then a position 0", &words, 4, 5);
    }
}
