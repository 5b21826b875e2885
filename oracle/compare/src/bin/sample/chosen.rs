//! The bodies of the list, in order.

use crate::headers;
use crate::list::List;
use oracle::bodies::rows::{block, body, goto, leaf};
use oracle::bodies::{at_limits, damage, defaults, every, example, fallthroughs, people};
use oracle::bodies::{random, table, two_defaults, with_any_bytes, Rng, Shape};
use oracle::file::file;
use oracle::placing::placing;
use oracle::{kind, Body};

/// The bodies of `at_limits` that are taken.
const LIMITS: [&str; 8] = [
    "gotos and labels by turns",
    "gotos of 250 names, then 500 labels",
    "gotos over declarations",
    "labels within labels, breaks inside",
    "stacked labels",
    "gotos out of nested Blocks",
    "nested Selects",
    "a chain of If",
];

pub fn all(list: &mut List) {
    let mut rng = Rng::new(1);
    list.add(&example().words());
    table().iter().for_each(|body| list.add(&body.words()));
    headers::add(list, &example());
    every(3, &mut |body| list.add(&body.words()));
    for _ in 0..1_500 {
        list.add(&small(&mut rng).words());
    }
    for _ in 0..250 {
        let body = small(&mut rng);
        list.add(&with_any_bytes(&mut rng, body).words());
    }
    for rows in (1..=20).chain([100, 300, 1_000]) {
        list.add(&people(&mut rng, rows).words());
    }
    add_limits(list);
    add_damaged(list, &mut rng);
    add_defaults(list, &mut rng);
    add_fallthroughs(list);
}

fn small(rng: &mut Rng) -> Body {
    let most = rng.pick(&[6, 10, 16, 24]);
    let mut shape = Shape::any(rng, most);
    shape.names = shape.names.min(rng.between(1, 4));
    shape.named = shape.named.min(shape.names);
    random(rng, shape)
}

/// Some of the limit bodies, and the other side of each limit.
fn add_limits(list: &mut List) {
    let limits = at_limits();
    for wanted in LIMITS {
        let (_, body) = limits.iter().find(|(name, _)| *name == wanted).expect(wanted);
        list.add(&body.words());
    }
    let deep = |levels: usize| (1..levels).fold(vec![], |inner, _| block(&[inner]));
    list.add(&body(&[deep(100)], &[""; 0]).words());
    list.add(&body(&[deep(101)], &[""; 0]).words());
    list.add(&body(&vec![leaf(kind::EMPTY, 0); 2_000], &[""; 0]).words());
    list.add(&body(&[], &["L"; 500]).words());
    list.add(&body(&[], &["L"; 501]).words());
    list.add(&body(&[goto(1)], &[vec![b'x'; 8_000]]).words());
    list.add(&body(&[goto(1)], &[vec![b'x'; 8_001]]).words());
}

/// Damaged bodies in small files, and some with many rows around them.
fn add_damaged(list: &mut List, rng: &mut Rng) {
    let (mut small_files, mut deep) = (0, 0);
    while small_files < 900 || deep < 25 {
        let body = small(rng);
        let file = file(&damage(rng, &body));
        let (wanted, taken) = match file.len() {
            ..700 => (900, &mut small_files),
            2_000..3_000 => (25, &mut deep),
            _ => continue,
        };
        if *taken < wanted {
            *taken += 1;
            list.add_file(file);
        }
    }
}

/// Switches and Selects with and without a second default, some of them over
/// 100 deep; then random bodies with one, as they are and damaged, in files
/// that aren't large.
fn add_defaults(list: &mut List, rng: &mut Rng) {
    let bodies = defaults();
    bodies.iter().for_each(|body| list.add(&body.words()));
    for shallow in bodies.iter().step_by(20) {
        let deep = (0..97).fold(shallow.rows.clone(), |inner, _| block(&[inner]));
        list.add(&body(&[deep], &[""; 0]).words());
    }
    for _ in 0..60 {
        let body = small(rng);
        let two = two_defaults(rng, &body);
        list.add(&two.words());
        let damaged = file(&damage(rng, &two));
        if damaged.len() < 3_000 {
            list.add_file(damaged);
        }
    }
}

/// The fallthroughs whose placing hangs on which switch they are in.
fn add_fallthroughs(list: &mut List) {
    let hangs = |body: &Body| placing(body) != placing(&with_other_switches(body.clone()));
    fallthroughs().into_iter().filter(hangs).for_each(|body| list.add(&body.words()));
}

/// The body with type switches for switches, and the other way round.
fn with_other_switches(mut body: Body) -> Body {
    for row in &mut body.rows {
        row[0] = match row[0] {
            kind::SWITCH => kind::TYPE_SWITCH,
            kind::TYPE_SWITCH => kind::SWITCH,
            other => other,
        };
    }
    body
}
