//! The placing call of document 01, with request U5 of document 02, read
//! plainly: a walk over the tree that knows the rows around each row.

use crate::{branch, kind, Body};

/// The first row badly placed, of a well-formed body.
pub fn placing(body: &Body) -> Option<u32> {
    first_bad(body, 0, &mut vec![]).map(|row| row as u32)
}

/// The first row badly placed among a row and the rows below it; `around`
/// holds the rows around it, the outermost first.
fn first_bad(body: &Body, row: usize, around: &mut Vec<usize>) -> Option<usize> {
    if !well_placed(body, row, around) {
        return Some(row);
    }
    around.push(row);
    let found = body.children(row).find_map(|child| first_bad(body, child, around));
    around.pop();
    found
}

fn well_placed(body: &Body, row: usize, around: &[usize]) -> bool {
    let [kind, detail, _, name, _] = body.rows[row];
    if kind != kind::BRANCH || name != 0 {
        return true;
    }
    let inside = |kinds: &[u32]| around.iter().any(|&row| kinds.contains(&body.rows[row][0]));
    let loops = [kind::FOR, kind::RANGE];
    let others = [kind::SWITCH, kind::TYPE_SWITCH, kind::SELECT];
    match detail {
        branch::BREAK => inside(&loops) || inside(&others),
        branch::CONTINUE => inside(&loops),
        _ => ends_a_case(body, row, around),
    }
}

/// Whether a row, its labels included, is the last non-Empty item of a Case
/// that isn't the last of its switch, which is no type switch.
fn ends_a_case(body: &Body, row: usize, around: &[usize]) -> bool {
    let (mut item, mut around) = (row, around);
    while let [outer @ .., label] = around {
        if body.rows[*label][0] != kind::LABELED {
            break;
        }
        (item, around) = (*label, outer);
    }
    match *around {
        [.., switch, block, case] if body.rows[case][0] == kind::CASE => {
            let empty = |row: usize| body.rows[row][0] == kind::EMPTY;
            let last_item = body.children(case).filter(|&row| !empty(row)).last();
            let last_case = body.children(block).last();
            let expression = body.rows[switch][0] == kind::SWITCH;
            last_item == Some(item) && last_case != Some(case) && expression
        }
        _ => false,
    }
}
