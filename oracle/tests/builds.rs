//! Where document 01 says that stock and mended are equal, they are.

use oracle::bodies::{every, random, Rng, Shape};
use oracle::domains::{same_labels, same_verdict};
use oracle::{mended, stock, Body};

#[derive(Default)]
struct Counts {
    bodies: usize,
    same_labels: usize,
    same_verdict: usize,
    differ: usize,
}

fn compare(body: &Body, counts: &mut Counts) {
    let stock = stock::Prepared::new(body).answer();
    let mended = mended::Prepared::new(body).answer();
    counts.bodies += 1;
    counts.differ += (stock != mended) as usize;
    if same_labels(body) {
        counts.same_labels += 1;
        assert_eq!(stock.sheet, mended.sheet, "{body:?}");
        assert_eq!(stock.bindings, mended.bindings, "{body:?}");
    }
    if same_verdict(body) {
        counts.same_verdict += 1;
        assert_eq!(stock.terminating, mended.terminating, "{body:?}");
    }
}

fn show(name: &str, counts: &Counts) {
    let Counts { bodies, same_labels, same_verdict, differ } = counts;
    println!("{name}: {bodies} bodies, {same_labels} to have the same sheet and bindings,");
    println!("  {same_verdict} the same verdict; stock and mended differ on {differ}");
    assert!(*differ > 0);
}

#[test]
fn every_small_body() {
    let mut counts = Counts::default();
    every(5, &mut |body| compare(body, &mut counts));
    show("every body of up to 5 rows", &counts);
}

#[test]
fn random_bodies() {
    let mut counts = Counts::default();
    let mut rng = Rng::new(1);
    for _ in 0..20_000 {
        let shape = Shape::any(&mut rng, 60);
        compare(&random(&mut rng, shape), &mut counts);
    }
    show("random", &counts);
}
