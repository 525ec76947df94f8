// Paper 7: "Refusal 19: no corner is returned and that angle is finite and beyond ±64, tried after 8 and before 9." Points just
// within and just beyond, on sets that only calls have written and on those of foreign hands.

use crate::angle::{shifted, Angle};
use crate::border::{self, Border, Exact};
use crate::common::generator::Generator;
use crate::common::places::rows;
use crate::common::sizes::RIGHT;
use crate::foreign::{contents, put, Slot, Target};
use crate::inputs::{inverse, unplace};
use crate::script::Script;
use crate::set::Set;
use a5::steps::outside;

fn target(id: usize, index: usize, reflected: bool) -> Target {
    Target {
        id,
        index,
        reflected,
        point: [0.0; 2],
    }
}

// Inverse and unplace, each of which must give this.
fn both(script: &mut Script, p: [f64; 2], id: usize, expected: Result<(), u8>) {
    for (call, x) in [inverse(p, id), unplace(p, id)] {
        let outcome = script.call(call, &x);
        assert_eq!(outcome.map(|_| ()), expected, "{call:?} of {x:?}");
    }
}

// Beyond on both sides of an answer within, which fills the slots.
fn at_border(script: &mut Script, border: Border, id: usize) {
    both(script, border.beyond, id, Err(19));
    both(script, border.within, id, Ok(()));
    both(script, border.beyond, id, Err(19));
}

// Every origin and index on an opened set. Only reflected triangles reach so far, and only with an angle above 0: within the
// face the share is at most 1, and beyond it the line on which u is 1 lies on one side of the first corner.
fn opened(script: &mut Script, g: &mut Generator, defined: &Set) {
    for turn in 0..20 {
        let target = target(turn * 7 % 12, turn % 10, true);
        script.open(RIGHT);
        let angle = Angle::on(&script.set, defined, &target);
        let exact = [Exact::Within, Exact::Beyond][turn / 10];
        let border = border::find(g, &angle, exact, 1.0);
        at_border(script, border, target.id);
    }
    script.open(RIGHT);
    for (p, id) in KNOWN {
        both(script, p, id, Err(19));
    }
}

// Three points of the strike program's units.
pub const KNOWN: [([f64; 2], usize); 3] = [
    ([1.235847662, -0.125812592], 7),
    ([1.235734985, 0.265693756], 4),
    ([-1.134423674, 0.541134446], 3),
];

// A point of the triangle that returns a corner, at which the angle would be finite and beyond.
fn would_be(g: &mut Generator, angle: &Angle, corner: usize) -> [f64; 2] {
    let (axis, sign) = angle.across();
    // a is returned where u is nearly 1 or more, b and c from one side on
    let (sides, most) = if corner == 0 {
        (0.98, 1e-14)
    } else {
        (1.9, 1e-3)
    };
    for _ in 0..1_000_000 {
        let p = angle.on_line(g.between(-sides, sides));
        let p = shifted(p, axis, sign * g.between(0.0, most));
        let is_far = outside(angle.at(p));
        if is_far && angle.corner(p) == Some(corner) && angle.is_used(p) {
            return p;
        }
    }
    panic!("no point of {:?} at corner {corner}", angle.target);
}

// "No corner is returned": where one is, nobody looks at the angle. In a reflected triangle of an even index b is the face's
// corner, and the line passes it; in one of an odd index c is.
fn corners(script: &mut Script, g: &mut Generator, defined: &Set) {
    script.open(RIGHT);
    for (index, corner) in [(0, 0), (3, 0), (2, 1), (8, 1), (5, 2), (7, 2)] {
        let target = target(index + 2, index, true);
        let angle = Angle::on(&script.set, defined, &target);
        for _ in 0..2 {
            let p = would_be(g, &angle, corner);
            both(script, p, target.id, Ok(()));
        }
    }
}

// Amid the points that use a target's face slot.
fn amid(x: &[f64], target: &Target) -> [f64; 2] {
    let out = if target.reflected { 1.5 } else { 0.5 };
    std::array::from_fn(|i| out * (x[2 + i] + x[4 + i]) / 2.0)
}

// The defined triangle with its first corner there: the line on which u is 1 goes on both sides of it through those points.
fn moved_corner(x: &[f64], target: &Target) -> Vec<f64> {
    [&amid(x, target)[..], &x[2..]].concat()
}

// A triangle whose line is parallel to an axis and goes through there, the first corner being so far away, on one side or the
// other, that a unit in the last place of the number along the line is one of the angle too.
fn level(x: &[f64], target: &Target, side: f64) -> Vec<f64> {
    let mut a = amid(x, target);
    let along = if a[0].abs() < a[1].abs() { 0 } else { 1 };
    a[along] += 0.9 * side;
    let [b, c] = [-0.625, 0.625].map(|end| {
        let mut p = a.map(|x| x - 0.25);
        p[along] = a[along] + end;
        p
    });
    [a, b, c].concat()
}

// With a foreign face triangle in the slot. Where the sphere slot is empty too, an unreflected call has no vertex for the foreign
// corners: 8 before 19.
fn on_face(
    script: &mut Script,
    g: &mut Generator,
    defined: &Set,
    target: &Target,
    (numbers, exact, sign): (Vec<f64>, Exact, f64),
) {
    let sphere = Slot::Sphere(target.sphere());
    script.open(RIGHT);
    put(script, target.slots()[0], 1.0, &numbers);
    let angle = Angle::on(&script.set, defined, target);
    let border = border::find(g, &angle, exact, sign);
    if !target.reflected {
        both(script, border.beyond, target.id, Err(8));
        put(script, sphere, 1.0, &contents(defined, sphere));
    }
    at_border(script, border, target.id);
}

// Foreign face triangles: reflected or not, of an even or an odd index, with an angle of either sign. In an even triangle the
// share is w, 1 less the sum of u and v: where w is below 0 the sum is above 1, and its units are too coarse for both angles to
// be exact.
fn faces(script: &mut Script, g: &mut Generator, defined: &Set) {
    for turn in 0..8 {
        let target = target(turn, 2 * (turn % 5) + turn / 2 % 2, turn % 2 == 1);
        let x = contents(defined, target.slots()[0]);
        let sign = [1.0, -1.0][turn / 4];
        for exact in [Exact::Within, Exact::Beyond] {
            let kind = (moved_corner(&x, &target), exact, sign);
            on_face(script, g, defined, &target, kind);
        }
        let is_odd = (target.index % 2 == 1) != target.reflected;
        let (side, sign) = if is_odd { (sign, sign) } else { (-1.0, 1.0) };
        let kind = (level(&x, &target, side), Exact::Both, sign);
        on_face(script, g, defined, &target, kind);
    }
}

// Foreign sphere triangles. With b and c exchanged an odd triangle is even, and the angle changes its sign; with a number in it
// that is not finite the answer would be 9, and 19 comes first.
fn spheres(script: &mut Script, g: &mut Generator, defined: &Set) {
    for index in 0..4 {
        let target = target(2 * index + 1, index, true);
        let slot = Slot::Sphere(target.sphere());
        let x = contents(defined, slot);
        script.open(RIGHT);
        let exchanged = [&x[..3], &x[6..9], &x[3..6], &x[9..]].concat();
        put(script, slot, 1.0, &exchanged);
        let angle = Angle::on(&script.set, defined, &target);
        let exact = [Exact::Within, Exact::Beyond][index % 2];
        let border = border::find(g, &angle, exact, -1.0);
        at_border(script, border, target.id);

        let mut broken = x;
        broken[g.whole(0, 3) as usize] = [f64::NAN, f64::INFINITY][index / 2];
        put(script, slot, 1.0, &broken);
        let angle = Angle::on(&script.set, defined, &target);
        // a NaN is not odd, and an infinity is neither
        let sign = if index % 2 == 0 { -1.0 } else { 1.0 };
        let border = border::find(g, &angle, exact, sign);
        both(script, border.beyond, target.id, Err(19));
        both(script, border.within, target.id, Err(9));
    }
}

// "Constants come from frame rows 0, 32, 12 at each call": another area, also below 0. And a row without which a triangle can't
// be built: 8 before 19.
fn frames(script: &mut Script, g: &mut Generator, defined: &Set) {
    let rows = rows();
    let twice = rows[0].map(|x| 2.0 * x);
    let changes = [
        vec![(0, twice)],
        vec![(12, [0.0, 0.6, 0.8])],
        vec![(32, rows[12]), (12, rows[32])],
        vec![(32, [0.0, 0.8, 0.6]), (0, [0.0, 0.0, -1.0])],
    ];
    for (turn, change) in changes.into_iter().enumerate() {
        for index in [2 * turn, 2 * turn + 1] {
            let target = target((5 * index + 2) % 12, index, true);
            script.open(RIGHT);
            for (row, numbers) in &change {
                script.put_row(*row, *numbers);
            }
            let slot = Slot::Sphere(target.sphere());
            put(script, slot, 1.0, &contents(defined, slot));
            let angle = Angle::on(&script.set, defined, &target);
            let exact = [Exact::Within, Exact::Beyond][index % 2];
            let border = border::find_either(g, &angle, exact);
            at_border(script, border, target.id);
        }
    }
    for corner in 0..3 {
        let target = target(4 * corner, 3 * corner, true);
        script.open(RIGHT);
        let angle = Angle::on(&script.set, defined, &target);
        let border = border::find(g, &angle, Exact::Within, 1.0);
        let row = target.rows(defined)[corner];
        script.put_row(row, rows[row].map(|x| x + 1.0));
        both(script, border.beyond, target.id, Err(8));
        both(script, border.within, target.id, Err(8));
    }
}

// An angle that is NaN is not outside: 9, by a row or by the face triangle. It is never infinite: where no corner is returned, u,
// v and w are at most 1 and come to 1, so none is below -1, and u is 1e-14 below 1.
fn not_a_number(script: &mut Script, g: &mut Generator, defined: &Set) {
    let target = target(6, g.whole(0, 10) as usize, true);
    script.open(RIGHT);
    let angle = Angle::on(&script.set, defined, &target);
    let border = border::find(g, &angle, Exact::Beyond, 1.0);
    both(script, border.beyond, target.id, Err(19));
    let (face, sphere) = (target.slots()[0], Slot::Sphere(target.sphere()));
    for row in [0, 32, 12] {
        for number in [f64::NAN, f64::INFINITY] {
            script.open(RIGHT);
            script.put_row(row, [number; 3]);
            put(script, sphere, 1.0, &contents(defined, sphere));
            both(script, border.beyond, target.id, Err(9));
        }
    }
    for number in [0.0, f64::NAN, f64::INFINITY] {
        script.open(RIGHT);
        put(script, face, 1.0, &[number; 6]);
        both(script, border.beyond, target.id, Err(9));
    }
}

pub fn all(script: &mut Script, g: &mut Generator) {
    let defined = Set::defined();
    opened(script, g, &defined);
    corners(script, g, &defined);
    faces(script, g, &defined);
    spheres(script, g, &defined);
    frames(script, g, &defined);
    not_a_number(script, g, &defined);
}
