//! The bodies, each with the answers of both builds.

use oracle::bodies::{every, example, people, random, table, with_any_bytes, Rng, Shape};
use oracle::{mended, stock, with_utf8_names, Answer, Body};

/// A body with the answers of both builds.
pub struct Case {
    pub body: Body,
    pub stock: Answer,
    pub mended: Answer,
}

/// As many random bodies as these, alike and of each sort of difference.
const ALIKE: usize = 300;
const DIFFERENT: usize = 120;

pub fn all() -> Vec<Case> {
    let mut list = vec![Case::of(example())];
    list.extend(table().map(Case::of));
    every(3, &mut |body| list.push(Case::of(body.clone())));
    let mut rng = Rng::new(9);
    add_random(&mut list, &mut rng);
    list.push(Case::of(people(&mut rng, 100)));
    list
}

fn add_random(list: &mut Vec<Case>, rng: &mut Rng) {
    let (mut alike, mut labels, mut verdicts) = (0, 0, 0);
    while alike < ALIKE || labels < DIFFERENT || verdicts < DIFFERENT {
        let case = Case::of(small(rng));
        let taken = if case.stock.sheet != case.mended.sheet {
            (&mut labels, DIFFERENT)
        } else if case.stock.terminating != case.mended.terminating {
            (&mut verdicts, DIFFERENT)
        } else {
            (&mut alike, ALIKE)
        };
        if *taken.0 < taken.1 {
            *taken.0 += 1;
            list.push(case);
        }
    }
}

fn small(rng: &mut Rng) -> Body {
    let most = rng.pick(&[8, 12, 18, 24, 40]);
    let mut shape = Shape::any(rng, most);
    shape.names = shape.names.min(rng.between(1, 3));
    shape.named = shape.named.min(shape.names);
    let body = random(rng, shape);
    if rng.one_in(4) {
        with_utf8_names(&with_any_bytes(rng, body)).into_owned()
    } else {
        body
    }
}

impl Case {
    fn of(body: Body) -> Case {
        let stock = stock::Prepared::new(&body).answer();
        let mended = mended::Prepared::new(&body).answer();
        Case { body, stock, mended }
    }
}
