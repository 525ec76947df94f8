// The caption box: one box that takes points in turn and is made new now and then, and foreign boxes.

use crate::box_oracle::{self, Caption};
use crate::calls::Inverse;
use crate::common::fields::whole;
use crate::common::generator::Generator;
use crate::common::values::{moved, specials};
use crate::counts::{Asked, Counts, Where, BOX_NEW, BOX_TAKE};
use crate::draw::Draw;
use crate::library::Library;
use crate::outcome::Outcome;
use crate::raw;
use crate::set::Set;

// So many points, more or less, and the box is made new.
const A_BOX: i64 = 50;

// A box as it is lent, between two numbers that no call may touch.
#[repr(C)]
struct Lent {
    before: f64,
    caption: raw::Caption,
    behind: f64,
}

const AROUND: [f64; 2] = [3.25, -3.25];

fn lent(b: Caption) -> Lent {
    let [least_x, greatest_x, least_y, greatest_y] = b.sides;
    Lent {
        before: AROUND[0],
        caption: raw::Caption {
            least_x,
            greatest_x,
            least_y,
            greatest_y,
            empty: b.empty,
        },
        behind: AROUND[1],
    }
}

// What stands around the box, its bool as the byte that it is, and the four sides.
fn numbers(around: [f64; 2], empty: u8, sides: [f64; 4]) -> Vec<f64> {
    [&around[..], &[whole(empty as usize)], &sides].concat()
}

fn in_lent(lent: &Lent) -> Vec<f64> {
    let c = &lent.caption;
    // the byte itself, so that one that is no bool shows
    let empty = unsafe { *(&raw const c.empty).cast::<u8>() };
    let sides = [c.least_x, c.greatest_x, c.least_y, c.greatest_y];
    numbers([lent.before, lent.behind], empty, sides)
}

fn expected(refusal: Option<u8>, after: Caption) -> Outcome {
    Outcome {
        status: refusal.unwrap_or(0),
        numbers: numbers(AROUND, after.empty as u8, after.sides),
    }
}

// What the functions are owed is a pointer to a box that nothing else uses meanwhile, which the local is.
impl Library {
    fn box_new(&mut self, b: Caption) -> Outcome {
        let mut lent = lent(b);
        unsafe { raw::a5_box_new(&mut lent.caption) };
        self.ended(BOX_NEW, 0, in_lent(&lent), None)
    }

    fn box_take(&mut self, b: Caption, point: [f64; 2]) -> Outcome {
        let mut lent = lent(b);
        let status = unsafe { raw::a5_box_take(&mut lent.caption, point[0], point[1]) };
        self.ended(BOX_TAKE, status, in_lent(&lent), None)
    }
}

// Half from the points that inverse is asked at, refused ones too, and half of few numbers, so that many are equal.
fn point(draw: &mut Draw, set: &Set) -> [f64; 2] {
    if draw.g.whole(0, 2) == 0 {
        let x = draw.arguments(Inverse, set);
        return [x[0], x[1]];
    }
    let few = [-4.0, -1.0, -0.0, 0.0, 1.0, 4.0];
    [(); 2].map(|()| few[draw.g.whole(0, 6) as usize])
}

// Sides that no points make: the point's own coordinate and its neighbours, the other zero, NaN and infinity, anything.
fn foreign(g: &mut Generator, specials: &[f64], point: [f64; 2]) -> Caption {
    let mut side = |k: usize| match g.whole(0, 5) {
        0 => moved(point[k / 2], g.whole(-1, 2)),
        1 => -point[k / 2],
        2 => specials[g.whole(0, specials.len() as i64) as usize],
        3 => g.any(),
        _ => g.between(-4.0, 4.0),
    };
    let sides = [side(0), side(1), side(2), side(3)];
    let empty = g.whole(0, 4) == 0;
    Caption { sides, empty }
}

pub struct Boxes {
    alone: Library,
    lent: Library,
    specials: Vec<f64>,
    kept: Caption,
    // those that the kept box was asked to take in since it was new
    points: Vec<[f64; 2]>,
    pub counts: Counts,
}

impl Boxes {
    pub fn new(alone: Library, lent: Library) -> Boxes {
        Boxes {
            alone,
            lent,
            specials: specials(),
            kept: box_oracle::NEW,
            points: Vec::new(),
            counts: Counts::default(),
        }
    }

    fn compare(&mut self, call: usize, place: Where, x: &[f64], ours: Outcome, rust: Outcome) {
        let asked = Asked {
            call,
            place,
            arguments: x,
            lent: None,
        };
        self.counts.compare(asked, &ours, &rust);
    }

    fn take(&mut self, place: Where, before: Caption, point: [f64; 2]) -> Caption {
        let (refusal, after) = box_oracle::taken(before, point);
        let library = match place {
            Where::Alone => &mut self.alone,
            _ => &mut self.lent,
        };
        let ours = library.box_take(before, point);
        let asked = [&before.sides[..], &[whole(before.empty as usize)], &point].concat();
        self.compare(BOX_TAKE, place, &asked, ours, expected(refusal, after));
        after
    }

    // The sides are those that the list of points alone tells.
    fn check_list(&self) {
        let sides = (!self.kept.empty).then_some(self.kept.sides);
        let bits = |s: Option<[f64; 4]>| s.map(|s| s.map(f64::to_bits));
        assert_eq!(bits(sides), bits(box_oracle::sides_of(&self.points)));
    }

    pub fn turn(&mut self, draw: &mut Draw, set: &Set) {
        if draw.g.whole(0, A_BOX) == 0 {
            self.check_list();
            self.kept = box_oracle::NEW;
            self.points.clear();
        }
        let x = point(draw, set);
        self.points.push(x);
        self.kept = self.take(Where::Alone, self.kept, x);

        let x = point(draw, set);
        let before = foreign(&mut draw.g, &self.specials, x);
        self.take(Where::Foreign, before, x);
        let ours = self.lent.box_new(before);
        let new = expected(None, box_oracle::NEW);
        self.compare(BOX_NEW, Where::Foreign, &before.sides, ours, new);
    }
}
