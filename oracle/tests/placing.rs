//! The plain reading of placing: where a fallthrough may stand.

use oracle::bodies::fallthroughs;
use oracle::bodies::rows::{block, body, label, leaf, over, row, Rows};
use oracle::placing::placing;
use oracle::refusals::refusal_of;
use oracle::{branch, kind};

#[test]
fn every_way_to_fall_through() {
    let (mut well, mut badly) = (0, 0);
    for body in fallthroughs() {
        assert_eq!(refusal_of(&body), None, "{body:?}");
        match placing(&body) {
            None => well += 1,
            Some(_) => badly += 1,
        }
    }
    // Of ten lists five end in a fallthrough. It is well placed in two of a
    // switch's three clauses, and in the first of a switch's two: inside each
    // of 3 statements, and after each. In a sixth list it has a label, so
    // placing isn't asked.
    let [lists, ways] = [10, 3 * 3 + 9 * 4];
    assert_eq!((well, well + badly), (5 * (2 + 3 + 3) + ways, lists * ways));
}

fn falls() -> Rows {
    leaf(kind::BRANCH, branch::FALLTHROUGH)
}

/// A switch of a kind: these items in the first Case, none in the second.
fn switch(kind: u32, items: &[Rows]) -> Rows {
    over(kind, &[row(kind::CASE, 0, 0, items), row(kind::CASE, 1, 0, &[])])
}

/// The row that is told of a switch as the one statement.
fn told(statement: Rows) -> Option<u32> {
    placing(&body(&[statement], &["L"]))
}

#[test]
fn in_a_type_switch() {
    let [expression, types] = [kind::SWITCH, kind::TYPE_SWITCH];
    let lists = [
        (vec![falls()], 4),
        (vec![falls(), leaf(kind::EMPTY, 0)], 4),
        (vec![leaf(kind::SEND, 0), falls()], 5),
        (vec![label(1, label(1, falls()))], 6),
    ];
    for (items, row) in lists {
        assert_eq!(told(switch(expression, &items)), None);
        assert_eq!(told(switch(types, &items)), Some(row));
    }
    let last = over(types, &[row(kind::CASE, 1, 0, &[falls()])]);
    assert_eq!(told(last), Some(4));
}

/// The switch of the fallthrough's own Case decides, not one around or beside it.
#[test]
fn in_a_switch_of_the_other_kind() {
    let [expression, types] = [kind::SWITCH, kind::TYPE_SWITCH];
    let inside = |outer, inner| told(switch(outer, &[switch(inner, &[falls()])]));
    assert_eq!((inside(types, expression), inside(expression, types)), (None, Some(7)));
    let deeper = |outer, inner| told(switch(outer, &[block(&[switch(inner, &[falls()])])]));
    assert_eq!((deeper(types, expression), deeper(expression, types)), (None, Some(8)));
    let after = |outer, inner| told(switch(outer, &[switch(inner, &[]), falls()]));
    assert_eq!((after(expression, types), after(types, expression)), (None, Some(8)));
    let comm =
        || over(kind::SELECT, &[row(kind::COMM, 0, 0, &[falls()]), row(kind::COMM, 1, 0, &[])]);
    assert_eq!([expression, types].map(|kind| told(switch(kind, &[comm()]))), [Some(7); 2]);
}
