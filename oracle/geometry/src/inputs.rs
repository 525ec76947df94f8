// The arguments that each function is asked at.

use crate::common::arguments::{
    all_lengths, few, join, limits, pairs, spherical_ends, spoilt, wild, within, SMALLEST,
};
use crate::common::fields::{of_spherical, spherical, whole};
use crate::common::generator::Generator;
use crate::common::places::{borders, meridians, rows};
use crate::common::values::{both_signs, moved, near, specials};
use a5::core::constants::{DISTANCE_TO_EDGE, DISTANCE_TO_VERTEX, PI_OVER_5, TWO_PI_OVER_5};
use a5::core::coordinate_transforms::to_cartesian;
use a5::core::origin::get_origins;
use a5::steps::cos;
use std::f64::consts::PI;

pub fn range(count: usize) -> Vec<[f64; 1]> {
    (0..count).map(|n| [whole(n)]).collect()
}

// All pairs of whole numbers below two counts.
pub fn grid(rows: usize, columns: usize) -> Vec<[f64; 2]> {
    let numbers = |count| (0..count).map(whole).collect::<Vec<f64>>();
    pairs(&numbers(rows), &numbers(columns))
}

pub fn lengths() -> Vec<[f64; 3]> {
    let wholes = |lent: [usize; 3]| lent.map(whole);
    all_lengths().into_iter().map(wholes).collect()
}

// Theta and phi: their ends; the poles; ties; borders; the sphere.
pub fn nearest(g: &mut Generator) -> Vec<[f64; 2]> {
    let mut list = spherical_ends();
    for k in -10..=10 {
        let theta = k as f64 * PI / 5.0;
        list.extend([0.0, moved(PI, -1), PI, moved(PI, 1), -PI].map(|phi| [theta, phi]));
    }
    list.extend(meridians());
    list.extend(borders());
    list.extend(get_origins().iter().map(|o| of_spherical(o.axis)));
    for _ in 0..150 {
        list.push([g.between(-PI, PI), g.between(0.0, PI)]);
        list.push(within(g, 8.0));
    }
    list.extend(wild(g));
    list
}

// Two points of the sphere: one and each axis, the same twice, opposite; then one number special.
pub fn two_points(g: &mut Generator) -> Vec<[f64; 4]> {
    let mut list = Vec::new();
    for origin in get_origins() {
        let axis = of_spherical(origin.axis);
        let opposite = [axis[0] + PI, PI - axis[1]];
        list.extend([axis, opposite, [0.0, 0.0]].map(|point| join(point, axis)));
        for _ in 0..8 {
            list.push(join([g.between(-PI, PI), g.between(0.0, PI)], axis));
        }
    }
    for _ in 0..60 {
        list.push(within(g, 8.0));
        list.push(within(g, 1e6));
    }
    list.extend(spoilt(within::<4>(g, 3.0)));
    list.extend(wild(g));
    list
}

// The same about ±64: each number at the limit and beside it, phis with phis and, within it, thetas with thetas; and to ±66,
// the thetas to ±64. Theta beyond has no record: the library's haversine is not for it, also where half the difference is less.
pub fn two_far_points(g: &mut Generator) -> Vec<[f64; 4]> {
    let mut list = Vec::new();
    for [phi, phi2] in pairs(&limits(64.0), &limits(64.0)) {
        list.push([1.0, phi, 0.5, phi2]);
    }
    for phi in limits(64.0) {
        list.extend([[1.0, phi, -2.0, 0.5], [1.0, -0.5, 0.25, phi]]);
    }
    let thetas = both_signs(&[moved(64.0, -1), 64.0]);
    for [theta, theta2] in pairs(&thetas, &thetas) {
        list.push([theta, 1.0, theta2, 0.5]);
    }
    for _ in 0..60 {
        let [theta, theta2] = within(g, 64.0);
        let [phi, phi2] = within(g, 66.0);
        list.push([theta, phi, theta2, phi2]);
    }
    list
}

// A vector and a quaternion: each origin's and its inverse on the axes, the rows and unit vectors; any; one number special.
pub fn turns(g: &mut Generator) -> Vec<[f64; 7]> {
    let rows = rows();
    let mut list = Vec::new();
    for origin in get_origins() {
        for q in [origin.quat, origin.inverse_quat] {
            let axes = [[1.0, 0.0, 0.0], [0.0, 1.0, 0.0], [0.0, 0.0, 1.0]];
            list.extend(axes.map(|v| join(v, q)));
            for _ in 0..2 {
                let at = [g.between(-PI, PI), g.between(0.0, PI)];
                list.push(join(to_cartesian(spherical(at)).into(), q));
            }
            list.push(join(rows[g.whole(0, 62) as usize], q));
        }
    }
    for _ in 0..60 {
        list.push(within(g, 1.0));
        list.push(within(g, 1e3));
    }
    list.extend(spoilt(within::<7>(g, 1.0)));
    list.extend(wild(g));
    list
}

// Every tenth of a turn and every twentieth, with neighbours.
fn tenths() -> Vec<f64> {
    let mut list = Vec::new();
    for k in -25..=25 {
        list.extend(near(k as f64 * PI_OVER_5.get()));
        list.extend(near((k as f64 + 0.5) * PI_OVER_5.get()));
    }
    list
}

// Polar points for the index: the borders of the triangles, zeros, subnormals and a NaN, within two turns, and far. Beyond
// 2^31 tenths of a turn the Rust's 32-bit number is full, and the index here is not the Rust's.
pub fn index_points(g: &mut Generator) -> Vec<[f64; 2]> {
    let mut gammas = tenths();
    gammas.extend(both_signs(&[0.0, SMALLEST, f64::MIN_POSITIVE, f64::NAN]));
    for size in [4.0, 13.0, 1e3, 1e9] {
        for _ in 0..40 {
            gammas.push(g.between(-size, size));
        }
    }
    gammas.into_iter().map(|gamma| [g.unit(), gamma]).collect()
}

pub fn gammas(g: &mut Generator) -> Vec<[f64; 1]> {
    let mut list = [tenths(), specials()].concat();
    for size in [4.0, 13.0, 1e3] {
        for _ in 0..40 {
            list.push(g.between(-size, size));
        }
    }
    let mut list: Vec<[f64; 1]> = list.into_iter().map(|x| [x]).collect();
    list.extend(wild(g));
    list
}

// Polar points about the edge of the face: at its midpoints, at the corners, and elsewhere on it; special pairs; any.
pub fn edge_points(g: &mut Generator) -> Vec<[f64; 2]> {
    let mut list = pairs(&few(), &few());
    for k in -6..=6 {
        let middle = k as f64 * TWO_PI_OVER_5.get();
        let corner = middle + PI_OVER_5.get();
        list.extend(pairs(&near(DISTANCE_TO_EDGE), &[middle, moved(middle, 1)]));
        list.extend(pairs(&near(DISTANCE_TO_VERTEX), &near(corner)));
    }
    for _ in 0..60 {
        let turn = g.whole(-3, 4) as f64 * TWO_PI_OVER_5.get();
        let beta = g.between(-PI / 5.0, PI / 5.0);
        let rho = DISTANCE_TO_EDGE / cos(beta);
        list.extend(near(rho).map(|rho| [rho, turn + beta]));
        list.push([g.between(0.0, 1.0), g.between(-PI, PI)]);
        list.push([g.between(-20.0, 20.0), g.between(-8.0, 8.0)]);
    }
    list.extend(wild(g));
    list
}
