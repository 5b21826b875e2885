//! Makes a body smaller while it still fails.

use crate::refusals::refusal_of;
use crate::{kind, Body};

/// A body that fails and of which no part can be taken away. The body given
/// is well-formed and fails; so is every body tried.
pub fn smallest(body: Body, fails: &dyn Fn(&Body) -> bool) -> Body {
    shrunk(body, &|body| refusal_of(body).is_none() && fails(body))
}

/// The same for a body of right shape, which may be too deep or have two
/// defaults in one switch; so may every body tried.
pub fn smallest_tree(body: Body, fails: &dyn Fn(&Body) -> bool) -> Body {
    let is_tree = |body: &Body| matches!(refusal_of(body), None | Some((6 | 10, _)));
    shrunk(body, &|body| is_tree(body) && fails(body))
}

fn shrunk(mut body: Body, holds: &dyn Fn(&Body) -> bool) -> Body {
    while let Some(less) = smaller(&body, holds) {
        body = less;
    }
    tidy(body, holds)
}

fn smaller(body: &Body, holds: &dyn Fn(&Body) -> bool) -> Option<Body> {
    for row in 1..body.rows.len() {
        let size = body.rows[row][4] as usize;
        let tries = [
            without(body, row, size),
            without(body, row, 1),
            // A switch, its Block and its clause, from around their items.
            without(body, row, size.min(3)),
            without(&changed(body, row, |row| row[0] = kind::EMPTY), row + 1, size - 1),
            without_else(body, row),
        ];
        let found = tries.into_iter().find(|less| less.rows.len() < body.rows.len() && holds(less));
        if found.is_some() {
            return found;
        }
    }
    None
}

/// The body without `count` rows from `first` on; the rows around them shrink.
fn without(body: &Body, first: usize, count: usize) -> Body {
    let mut less = body.clone();
    for around in 0..first {
        let end = around + body.rows[around][4] as usize;
        if first < end {
            less.rows[around][4] -= count as u32;
        }
    }
    less.rows.drain(first..first + count);
    less
}

fn without_else(body: &Body, row: usize) -> Body {
    match (body.rows[row], body.children(row).nth(1)) {
        ([kind::IF, 1, ..], Some(other)) => {
            let size = body.rows[other][4] as usize;
            without(&changed(body, row, |row| row[1] = 0), other, size)
        }
        _ => body.clone(),
    }
}

fn changed(body: &Body, row: usize, change: impl Fn(&mut [u32; 5])) -> Body {
    let mut copy = body.clone();
    change(&mut copy.rows[row]);
    if copy.rows[row][0] == kind::EMPTY {
        (copy.rows[row][1], copy.rows[row][3]) = (0, 0);
    }
    copy
}

/// 1 + row as position, Empty for other rows and fewer names, where the body
/// still fails.
fn tidy(mut body: Body, holds: &dyn Fn(&Body) -> bool) -> Body {
    for row in 0..body.rows.len() {
        let placed = changed(&body, row, |words| words[2] = row as u32 + 1);
        let empty = changed(&placed, row, |words| words[0] = kind::EMPTY);
        let plainer = [empty, placed].into_iter().find(|plainer| holds(plainer));
        body = plainer.unwrap_or(body);
    }
    for number in (1..=body.pairs.len() as u32).rev() {
        let fewer = without_name(&body, number);
        if body.rows.iter().all(|row| row[3] != number) && holds(&fewer) {
            body = fewer;
        }
    }
    body
}

/// The body without a pair; its bytes stay, later numbers move down.
fn without_name(body: &Body, number: u32) -> Body {
    let mut fewer = body.clone();
    fewer.pairs.remove(number as usize - 1);
    for row in &mut fewer.rows {
        if row[3] > number {
            row[3] -= 1;
        }
    }
    fewer
}
