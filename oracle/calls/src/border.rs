// Neighbouring points between which the angle from the area share passes ±64, found by search.

use crate::angle::{shifted, Angle};
use crate::common::generator::Generator;
use crate::common::values::moved;
use a5::steps::outside;

// One number of the two points differs by a unit in the last place.
#[derive(Clone, Copy)]
pub struct Border {
    pub within: [f64; 2],
    pub beyond: [f64; 2],
}

// Which of the two angles is exact: that within is ±64 itself, that beyond is the next double, or both.
#[derive(Clone, Copy, PartialEq)]
pub enum Exact {
    Within,
    Beyond,
    Both,
}

// How many sides from a there is a point beside the line that uses this triangle.
fn sides(g: &mut Generator, angle: &Angle) -> f64 {
    let (axis, sign) = angle.across();
    for _ in 0..10_000 {
        let sides = g.between(-0.98, 0.98);
        if angle.is_used(shifted(angle.on_line(sides), axis, 1e-3 * sign)) {
            return sides;
        }
    }
    panic!("{:?} has nothing beside its line", angle.target);
}

// The sign of the angle at such a point.
fn sign(g: &mut Generator, angle: &Angle) -> f64 {
    let (axis, sign) = angle.across();
    let p = angle.on_line(sides(g, angle));
    angle.at(shifted(p, axis, 1e-3 * sign)).signum()
}

// About where the angle passes ±64 on the way across the line. It is nearly a number over the way: each round divides what the
// way misses by some hundreds.
fn crossing(angle: &Angle, sides: f64) -> [f64; 2] {
    let p = angle.on_line(sides);
    let (axis, sign) = angle.across();
    let mut way = 1e-3 * sign;
    for _ in 0..6 {
        way *= angle.at(shifted(p, axis, way)).abs() / 64.0;
    }
    shifted(p, axis, way)
}

// Within and beyond, and no number changes its sign between.
fn is_border(angle: &Angle, border: Border, sign: f64) -> bool {
    let Border { within, beyond } = border;
    let [near, far] = [within, beyond].map(|p| angle.at(p));
    (0..2).all(|i| within[i] * beyond[i] > 0.0)
        && near * sign > 0.0
        && !outside(near)
        && outside(far)
}

// Between two points that differ in one number, of which one is within and one beyond: two neighbours.
fn bisected(angle: &Angle, mut border: Border, axis: usize) -> Border {
    loop {
        let [within, beyond] = [border.within, border.beyond].map(|p| p[axis].to_bits() as i64);
        if (beyond - within).abs() <= 1 {
            return border;
        }
        let mut middle = border.within;
        middle[axis] = f64::from_bits((within + (beyond - within) / 2) as u64);
        if outside(angle.at(middle)) {
            border.beyond = middle;
        } else {
            border.within = middle;
        }
    }
}

fn is_exact(angle: &Angle, border: Border, exact: Exact, sign: f64) -> bool {
    let within = angle.at(border.within) == sign * 64.0;
    let beyond = angle.at(border.beyond) == sign * moved(64.0, 1);
    match exact {
        Exact::Within => within,
        Exact::Beyond => beyond,
        Exact::Both => within && beyond,
    }
}

// Whether calls at both use this triangle and return no corner.
fn is_met(angle: &Angle, border: Border) -> bool {
    let is_met = |p: &[f64; 2]| angle.corner(*p).is_none() && angle.is_used(*p);
    [border.within, border.beyond].iter().all(is_met)
}

// Two neighbours with an angle of this sign, of which one is exact; none where a million tries find none. Across the line a unit in the
// last place changes the angle by some hundreds of its own units, so that many places are tried; where both must be exact the two are
// neighbours along the line, which has to be parallel to an axis.
fn search(g: &mut Generator, angle: &Angle, exact: Exact, sign: f64) -> Option<Border> {
    let (across, _) = angle.across();
    let is_along = exact == Exact::Both;
    let axis = if is_along { 1 - across } else { across };
    let mut at = 0.0;
    for turn in 0..1_000_000 {
        if turn % 1000 == 0 {
            at = sides(g, angle);
        }
        let p = crossing(angle, at + g.between(-1e-3, 1e-3));
        let [q, r] = [-1e-11, 1e-11].map(|way| shifted(p, axis, way));
        for (within, beyond) in [(q, r), (r, q)] {
            let border = Border { within, beyond };
            if !is_border(angle, border, sign) {
                continue;
            }
            let border = bisected(angle, border, axis);
            if is_exact(angle, border, exact, sign) && is_met(angle, border) {
                return Some(border);
            }
        }
    }
    None
}

// The same, where there are such neighbours.
pub fn find(g: &mut Generator, angle: &Angle, exact: Exact, sign: f64) -> Border {
    search(g, angle, exact, sign).unwrap_or_else(|| panic!("no border of the sign {sign} in {:?}", angle.target))
}

// Two neighbours with an angle of the sign that it has beside the line. At one place in some hundreds that is not the sign which it has
// at ±64: then the other is tried.
pub fn find_either(g: &mut Generator, angle: &Angle, exact: Exact) -> Border {
    let sign = sign(g, angle);
    search(g, angle, exact, sign).unwrap_or_else(|| find(g, angle, exact, -sign))
}
