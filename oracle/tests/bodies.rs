//! The generators: well-formed bodies, every code, every refusal.

use oracle::bodies::*;
use oracle::refusals::{refusal, refusal_of};
use oracle::{kind, mended, Body};

fn depth(body: &Body, row: usize) -> usize {
    1 + body.children(row).map(|child| depth(body, child)).max().unwrap_or(0)
}

#[test]
fn every_is_well_formed_and_without_repeats() {
    let mut seen = std::collections::HashSet::new();
    every(4, &mut |body| {
        assert_eq!(refusal_of(body), None);
        assert!(seen.insert(body.rows.clone()));
    });
    let counts = (1..=6).map(|rows| {
        let mut count = 0;
        every(rows, &mut |_| count += 1);
        count
    });
    println!("bodies of up to 1, 2, .. rows: {:?}", counts.collect::<Vec<usize>>());
}

#[test]
fn random_bodies_are_well_formed_and_have_every_code() {
    let mut codes = [0; 10];
    let mut kinds = [0; 21];
    let mut rng = Rng::new(2);
    for round in 0..3_000 {
        let shape = Shape::any(&mut rng, if round % 20 == 0 { 2_000 } else { 100 });
        let rows = shape.rows;
        let body = random(&mut rng, shape);
        assert_eq!(refusal_of(&body), None);
        assert_eq!(body.rows.len(), rows);
        body.rows.iter().for_each(|row| kinds[row[0] as usize] += 1);
        for row in mended::Prepared::new(&body).answer().sheet {
            codes[row[0] as usize] += 1;
        }
    }
    println!("sheet rows of each code: {codes:?}\nrows of each kind: {kinds:?}");
    assert!(codes[1..].iter().all(|&count| count > 0));
    assert!(kinds.iter().all(|&count| count > 0));
}

#[test]
fn people_write_well_formed_bodies() {
    let mut rng = Rng::new(3);
    let mut named = 0;
    for rows in (1..=2_000).chain([1_876; 40]) {
        let body = people(&mut rng, rows);
        assert_eq!(refusal_of(&body), None);
        assert_eq!(body.rows.len(), rows);
        assert!(depth(&body, 0) <= 8);
        named += !body.pairs.is_empty() as usize;
    }
    assert!(named > 50);
}

#[test]
fn bodies_at_the_limits() {
    for (name, body) in at_limits() {
        assert_eq!(refusal_of(&body), None, "{name}");
        let (rows, depth) = (body.rows.len(), depth(&body, 0));
        let answer = mended::Prepared::new(&body).answer();
        let (sheet, terminating) = (answer.sheet.len(), answer.terminating);
        println!("{name}: {rows} rows, {depth} deep, sheet {sheet}, verdict {terminating}");
    }
}

#[test]
fn damaged_bodies_have_every_refusal() {
    let mut counts = [0; 11];
    let mut rng = Rng::new(4);
    for round in 0..30_000 {
        let shape = Shape::any(&mut rng, 40);
        let mut body = random(&mut rng, shape);
        if round % 10 == 0 {
            body = two_defaults(&mut rng, &body);
        }
        let (rows, pairs, bytes) = damage(&mut rng, &body);
        counts[refusal(&rows, &pairs, &bytes).map_or(0, |(cause, _)| cause as usize)] += 1;
    }
    println!("not refused, then of each cause: {counts:?}");
    assert!([0, 1, 2, 3, 4, 5, 6, 10].iter().all(|&cause| counts[cause] > 0));
    assert_eq!(counts[7..10], [0; 3]);
}

#[test]
fn two_defaults_are_refused() {
    let (mut rng, mut own) = (Rng::new(6), 0);
    for _ in 0..10_000 {
        let shape = Shape::any(&mut rng, 60);
        let body = random(&mut rng, shape);
        let spoilt = two_defaults(&mut rng, &body);
        let refusal = refusal_of(&spoilt);
        assert!(matches!(refusal, Some((10, _))), "{spoilt:?} {refusal:?}");
        own += (spoilt.rows.len() == body.rows.len()) as usize;
    }
    println!("in a switch or Select of the body's own: {own} of 10,000");
    assert!(own > 1_000 && own < 9_000);
}

#[test]
fn every_way_to_have_defaults() {
    let (mut well_formed, mut refused) = (0, 0);
    for body in defaults() {
        match refusal_of(&body) {
            None => well_formed += 1,
            Some((cause, _)) => {
                assert_eq!(cause, 10, "{body:?}");
                refused += 1;
            }
        }
    }
    // Of 0 to 4 clauses 1, 2, 3, 4 and 5 ways have no second default, of two
    // and two inside 3 * 3; each for 3 statements, or 3 inside 3.
    assert_eq!((well_formed, refused), (3 * 15 + 9 * 9, 3 * 16 + 9 * 7));
}

#[test]
fn smallest_keeps_the_failure_only() {
    let mut rng = Rng::new(5);
    let fails = |body: &Body| {
        let sheet = mended::Prepared::new(body).answer().sheet;
        sheet.iter().any(|row| row[0] == 3)
    };
    let found = (0..).find_map(|_| {
        let shape = Shape::any(&mut rng, 300);
        Some(random(&mut rng, shape)).filter(|body| fails(body))
    });
    let body = smallest(found.unwrap(), &fails);
    // goto, declaration, label and its statement, in row 0.
    assert_eq!(body.rows.len(), 5, "{body:?}");
    assert_eq!(body.rows[4][0], kind::EMPTY);
}

#[test]
fn smallest_tree_keeps_two_defaults() {
    let mut rng = Rng::new(7);
    let fails = |body: &Body| matches!(refusal_of(body), Some((10, _)));
    for _ in 0..20 {
        let shape = Shape::any(&mut rng, 200);
        let body = random(&mut rng, shape);
        let body = smallest_tree(two_defaults(&mut rng, &body), &fails);
        // Row 0, a switch or Select, its Block, two clauses.
        assert_eq!(body.rows.len(), 5, "{body:?}");
    }
}
