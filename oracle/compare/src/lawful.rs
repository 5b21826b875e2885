//! Bodies without faults, made from any: branches are aimed at labels near
//! them, and what is at fault is taken away.

use crate::runner::{BREAKABLE, LOOPS};
use oracle::bodies::rows::body;
use oracle::bodies::Rng;
use oracle::placing::placing;
use oracle::{branch, kind, Answer, Body, Marks};

/// Names at most; one more is for `_`.
const NAMES: usize = 499;

/// A body of the same shape with an empty sheet and good placing. Each label
/// has a name of its own, and most of what stops a walk is gone.
pub fn lawful(rng: &mut Rng, from: &Body) -> Body {
    let labels: Vec<usize> = rows_of(from, kind::LABELED).collect();
    let names: Vec<String> = (0..labels.len().clamp(1, NAMES)).map(|i| format!("L{i}")).collect();
    let mut body = Body { rows: from.rows.clone(), ..body(&[], &names) };
    for (i, &label) in labels.iter().enumerate() {
        body.rows[label][3] = 1 + (i % names.len()) as u32;
    }
    for row in 1..body.rows.len() {
        match body.rows[row] {
            [kind::BRANCH, ..] => aim(rng, &mut body, row, &labels),
            [kind::RETURN, ..] | [kind::EXPR, 1, ..] if !rng.one_in(4) => empty(&mut body, row),
            [kind::CASE, ..] if rng.one_in(2) => fall_through(&mut body, row),
            _ => {}
        }
    }
    without_faults(body)
}

/// Aims a goto at one of the labels next to it, a break or continue at one of
/// those around it that it may name or, like a fallthrough, at none.
fn aim(rng: &mut Rng, body: &mut Body, row: usize, labels: &[usize]) {
    let after = labels.partition_point(|&label| label < row);
    let around = |kinds: &[u32]| {
        let labels = labels[..after].iter().copied();
        let may_name = |&label: &usize| kinds.contains(&body.rows[label + 1][0]);
        labels.filter(|&label| row < end(body, label)).filter(may_name).collect()
    };
    let labels: Vec<usize> = match body.rows[row][1] {
        branch::BREAK => around(&BREAKABLE),
        branch::CONTINUE => around(&LOOPS),
        branch::GOTO => labels[after.saturating_sub(2)..labels.len().min(after + 3)].to_vec(),
        _ => vec![],
    };
    body.rows[row][3] = match labels.is_empty() || rng.one_in(4) {
        true => (body.rows[row][1] == branch::GOTO) as u32,
        false => body.rows[rng.pick(&labels)][3],
    };
}

/// Makes the last item of a Case that has another after it a fallthrough, if
/// nothing is below the item.
fn fall_through(body: &mut Body, case: usize) {
    let next = body.rows.get(end(body, case));
    let last = body.children(case).last().filter(|&item| body.rows[item][4] == 1);
    if let (Some([kind::CASE, ..]), Some(item)) = (next, last) {
        body.rows[item] = [kind::BRANCH, branch::FALLTHROUGH, body.rows[item][2], 0, 1];
    }
}

/// The first row after a row and the rows below it.
fn end(body: &Body, row: usize) -> usize {
    row + body.rows[row][4] as usize
}

fn rows_of(body: &Body, kind: u32) -> impl Iterator<Item = usize> + '_ {
    (0..body.rows.len()).filter(move |&row| body.rows[row][0] == kind)
}

/// The body without what is at fault: branches become Empty, labels that are
/// repeated or that nothing uses are named `_`, and where a goto jumps over a
/// declaration no row declares anything.
fn without_faults(mut body: Body) -> Body {
    while let Some(row) = placing(&body) {
        empty(&mut body, row as usize);
    }
    let blank = add_blank(&mut body);
    loop {
        let answer = Marks::of(&body).answer;
        if answer.sheet.is_empty() {
            return body;
        }
        for row in at_fault(&body, &answer) {
            match body.rows[row][0] {
                kind::LABELED => body.rows[row][3] = blank,
                kind::BRANCH => empty(&mut body, row),
                _ => body.rows[row][1] = 0,
            }
        }
    }
}

fn empty(body: &mut Body, row: usize) {
    body.rows[row] = [kind::EMPTY, 0, body.rows[row][2], 0, 1];
}

/// Adds a name `_` and gives its number.
fn add_blank(body: &mut Body) -> u32 {
    body.pairs.push([body.bytes.len() as u32, 1]);
    body.bytes.push(b'_');
    body.pairs.len() as u32
}

/// Labels that are not the declared one or that no branch is bound to,
/// labelled branches that are bound to nothing, and declarations if a goto
/// jumps over one.
fn at_fault(body: &Body, answer: &Answer) -> Vec<usize> {
    let jumps_over = answer.sheet.iter().any(|row| row[0] == 3);
    let binds = |row: usize, label: usize| answer.bindings[row] as usize == label + 1;
    let used = |label: usize| rows_of(body, kind::BRANCH).any(|row| binds(row, label));
    let at_fault = |row: &usize| match body.rows[*row] {
        [kind::LABELED, ..] => !(binds(*row, *row) && used(*row)),
        [kind::BRANCH, _, _, name, _] => name != 0 && answer.bindings[*row] == 0,
        [kind::DECL | kind::ASSIGN, 1, ..] => jumps_over,
        _ => false,
    };
    (0..body.rows.len()).filter(at_fault).collect()
}

#[cfg(test)]
mod tests {
    use super::*;
    use oracle::bodies::rows::{block, break_to, goto, label, leaf, over, Rows};
    use oracle::bodies::{random, Shape};

    /// What is left of some items with the names L and M: kinds and names.
    fn left(items: &[Rows]) -> Vec<[u32; 2]> {
        let body = without_faults(body(items, &["L", "M"]));
        assert_eq!(body.name(3), b"_");
        body.rows.iter().map(|row| [row[0], row[3]]).collect()
    }

    #[test]
    fn branches_become_empty_and_labels_blank() {
        // L: for { break L; break M; break }; M: empty; break
        let loops = over(kind::FOR, &[break_to(1), break_to(2), break_to(0)]);
        let items = [label(1, loops), label(2, leaf(kind::EMPTY, 0)), break_to(0)];
        let kept = [[12, 0], [3, 1], [19, 0], [12, 0], [11, 1], [2, 0], [11, 0]];
        assert_eq!(left(&items), [&kept[..], &[[3, 3], [2, 0], [2, 0]]].concat());
    }

    #[test]
    fn a_repeated_label_that_a_goto_is_bound_to() {
        // goto L; { L: goto L }; L: empty
        let items = [goto(1), block(&[label(1, goto(1))]), label(1, leaf(kind::EMPTY, 0))];
        assert_eq!(left(&items), [[12, 0], [2, 0], [12, 0], [3, 1], [11, 1], [3, 3], [2, 0]]);
    }

    #[test]
    fn nothing_is_declared_where_a_goto_jumps_over_it() {
        // goto L; x := 1; L: empty
        let items = [goto(1), leaf(kind::ASSIGN, 1), label(1, leaf(kind::EMPTY, 0))];
        assert_eq!(left(&items), [[12, 0], [11, 1], [7, 0], [3, 1], [2, 0]]);
    }

    #[test]
    fn random_bodies() {
        let mut rng = Rng::new(1);
        for _ in 0..300 {
            let shape = Shape::any(&mut rng, 60);
            let from = random(&mut rng, shape);
            let body = lawful(&mut rng, &from);
            assert_eq!(oracle::refusals::refusal_of(&body), None);
            let Marks { answer, badly_placed } = Marks::of(&body);
            assert_eq!((answer.sheet, badly_placed), (vec![], None));
        }
    }
}
