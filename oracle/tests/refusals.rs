//! The refusals of document 01's table and 10 of document 02, one by one.

use oracle::bodies::rows::{block, body, leaf, over, row, Rows};
use oracle::refusals::{refusal, refusal_of};
use oracle::{kind, Body};

fn words(rows: &[[u32; 5]]) -> Vec<u32> {
    rows.concat()
}

fn of(rows: &[[u32; 5]]) -> Option<(u32, u32)> {
    refusal(&words(rows), &[0, 1], b"L")
}

#[test]
fn lengths_and_pairs() {
    let rows = [12, 0, 1, 0, 1];
    assert_eq!(refusal(&rows, &[], &[]), None);
    assert_eq!(refusal(&[], &[], &[]), Some((1, 0)));
    assert_eq!(refusal(&rows[..4], &[], &[]), Some((1, 0)));
    assert_eq!(refusal(&[0; 10_005], &[0], &[]), Some((1, 0)));
    assert_eq!(refusal(&rows, &[0], &[]), Some((2, 0)));
    assert_eq!(refusal(&rows, &[0; 1_002], &[]), Some((2, 0)));
    assert_eq!(refusal(&rows, &[], &[0; 8_001]), Some((2, 0)));
    assert_eq!(refusal(&rows, &[], &[0; 8_000]), None);
    assert_eq!(refusal(&rows, &[0, 1, 1, 0], b"LM"), Some((3, 1)));
    assert_eq!(refusal(&rows, &[0, 2, 1, 1], b"LM"), Some((3, 1)));
    assert_eq!(refusal(&rows, &[0, 1, 1, u32::MAX], b"LM"), Some((3, 1)));
    assert_eq!(refusal(&rows, &[u32::MAX, 1], b"LM"), Some((3, 0)));
}

#[test]
fn words_of_a_row() {
    let wrong = [
        [21, 0, 1, 0, 1],
        [u32::MAX, 0, 1, 0, 1],
        [2, 1, 1, 0, 1],
        [11, 4, 1, 0, 1],
        [2, 0, 0, 0, 1],
        [2, 0, 1, 1, 1],
        [11, 2, 1, 0, 1],
        [11, 0, 1, 2, 1],
        [3, 0, 1, 0, 2],
    ];
    for row in wrong {
        // Sizes are wrong too, but that is a later cause.
        assert_eq!(of(&[[12, 0, 1, 0, 0], row]), Some((4, 1)), "{row:?}");
    }
}

#[test]
fn shapes() {
    let block = |size| [12, 0, 1, 0, size];
    let empty = [2, 0, 1, 0, 1];
    let row = |kind, detail, size| [kind, detail, 1, 0, size];
    assert_eq!(of(&[empty]), Some((5, 0)));
    assert_eq!(of(&[block(1), empty]), Some((5, 0)));
    assert_eq!(of(&[block(1), row(2, 0, 0)]), Some((5, 1)));
    assert_eq!(of(&[block(1), row(2, 0, u32::MAX)]), Some((5, 1)));
    assert_eq!(of(&[block(2), row(2, 0, 2)]), Some((5, 1)));
    assert_eq!(of(&[block(3), row(2, 0, 2), empty]), Some((5, 1)));
    assert_eq!(of(&[block(2), row(14, 0, 1)]), Some((5, 0)));
    assert_eq!(of(&[block(3), row(13, 0, 2), empty]), Some((5, 1)));
    assert_eq!(of(&[block(3), row(13, 1, 2), block(1)]), Some((5, 1)));
    assert_eq!(of(&[block(4), row(15, 0, 3), block(2), empty]), Some((5, 2)));
    assert_eq!(of(&[block(4), row(18, 0, 3), block(2), row(17, 1, 1)]), None);
    assert_eq!(of(&[block(4), row(19, 0, 2), block(2), empty]), Some((5, 1)));
    assert_eq!(of(&[block(2), [3, 0, 1, 1, 1]]), Some((5, 1)));
}

#[test]
fn depths() {
    let nested =
        |count: u32| -> Vec<[u32; 5]> { (0..count).map(|i| [12, 0, 1, 0, count - i]).collect() };
    assert_eq!(of(&nested(100)), None);
    assert_eq!(of(&nested(101)), Some((6, 100)));
}

/// A switch, type switch or Select with clauses of these details and items.
fn clauses(kind: u32, clauses: &[(u32, &[Rows])]) -> Rows {
    let clause = if kind == kind::SELECT { kind::COMM } else { kind::CASE };
    let clauses = clauses.iter().map(|&(detail, items)| row(clause, detail, 0, items));
    over(kind, &clauses.collect::<Vec<Rows>>())
}

fn body_of(items: &[Rows]) -> Body {
    body(items, &[""; 0])
}

/// The refusal of one such statement whose clauses have one item each: they
/// are the rows 3, 5, ..
fn of_details(kind: u32, details: &[u32]) -> Option<(u32, u32)> {
    let item = [leaf(kind::RETURN, 0)];
    let of: Vec<(u32, &[Rows])> = details.iter().map(|&detail| (detail, &item[..])).collect();
    refusal_of(&body_of(&[clauses(kind, &of)]))
}

const CLAUSED: [u32; 3] = [kind::SWITCH, kind::TYPE_SWITCH, kind::SELECT];

#[test]
fn defaults_of_one_statement() {
    for kind in CLAUSED {
        for one in [&[][..], &[0], &[1], &[0, 0], &[0, 1], &[1, 0], &[0, 1, 0]] {
            assert_eq!(of_details(kind, one), None, "{kind} {one:?}");
        }
        for (two, row) in [
            (&[1, 1][..], 5),
            (&[1, 0, 0, 1], 9),
            (&[0, 1, 1, 0], 7),
            (&[0, 1, 0, 1, 0], 9),
            (&[1, 1, 1], 5),
            (&[0, 1, 0, 1, 1], 9),
        ] {
            assert_eq!(of_details(kind, two), Some((10, row)), "{kind} {two:?}");
        }
    }
}

#[test]
fn defaults_of_statements_inside_and_after_each_other() {
    for (outer, inner) in CLAUSED.iter().flat_map(|outer| CLAUSED.map(|inner| (*outer, inner))) {
        let one = || clauses(inner, &[(1, &[]), (0, &[])]);
        let two = || clauses(inner, &[(1, &[]), (1, &[])]);
        // One in each, inside and after each other.
        let around = |items: &[Rows]| clauses(outer, &[(1, items), (0, &[])]);
        assert_eq!(refusal_of(&body_of(&[around(&[one(), one()]), one()])), None);
        let around = |items: &[Rows]| clauses(outer, &[(0, items), (1, &[])]);
        assert_eq!(refusal_of(&body_of(&[around(&[block(&[one()])])])), None);
        // The inner statement has the lower row, in the first default and
        // before the second.
        let around = |items: &[Rows]| clauses(outer, &[(1, items), (1, &[])]);
        assert_eq!(refusal_of(&body_of(&[around(&[two()])])), Some((10, 7)));
        assert_eq!(refusal_of(&body_of(&[around(&[one()])])), Some((10, 8)));
        // In the second default it has the higher one.
        let around = |items: &[Rows]| clauses(outer, &[(1, &[]), (1, items)]);
        assert_eq!(refusal_of(&body_of(&[around(&[two()])])), Some((10, 4)));
        // Two statements: the one with two is told, or the first of both.
        assert_eq!(refusal_of(&body_of(&[one(), two()])), Some((10, 8)));
        assert_eq!(refusal_of(&body_of(&[two(), two()])), Some((10, 4)));
    }
}

/// 4 and 5 come before 10, which comes before 6, wherever their rows are.
#[test]
fn defaults_among_other_causes() {
    for kind in CLAUSED {
        let two = || clauses(kind, &[(1, &[]), (1, &[])]);
        let deep = || (0..100).fold(leaf(kind::EMPTY, 0), |inner, _| block(&[inner]));
        let empty = || leaf(kind::EMPTY, 0);
        let with_position_0 = |mut body: Body, row: usize| {
            body.rows[row][2] = 0;
            body
        };
        // 10 alone, in row 4; then a later row with position 0 or size 2.
        let broken = || row(kind::EMPTY, 0, 0, &[empty()]);
        assert_eq!(refusal_of(&body_of(&[two(), empty()])), Some((10, 4)));
        assert_eq!(refusal_of(&with_position_0(body_of(&[two(), empty()]), 5)), Some((4, 5)));
        assert_eq!(refusal_of(&body_of(&[two(), broken()])), Some((5, 5)));
        let both = with_position_0(body_of(&[two(), broken()]), 6);
        assert_eq!(refusal_of(&both), Some((4, 6)));
        // A row 101 deep before the defaults and after them.
        assert_eq!(refusal_of(&body_of(&[deep()])), Some((6, 100)));
        assert_eq!(refusal_of(&body_of(&[deep(), two()])), Some((10, 105)));
        assert_eq!(refusal_of(&body_of(&[two(), deep()])), Some((10, 4)));
        // The second default itself 101 deep.
        let inside = (0..97).fold(two(), |inner, _| block(&[inner]));
        assert_eq!(refusal_of(&body_of(&[inside])), Some((10, 101)));
        assert_eq!(refusal_of(&body_of(&[two(), deep(), broken()])), Some((5, 106)));
    }
}
