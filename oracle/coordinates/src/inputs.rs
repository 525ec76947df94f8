// The arguments that each function is asked at.

use crate::common::arguments::{
    few, join, limits, pairs, spherical_ends, spoilt, wild, within, BROKEN, SMALLEST,
};
use crate::common::fields::of_spherical;
use crate::common::generator::Generator;
use crate::common::values::{both_signs, moved, near, specials};
use crate::steps;
use a5::core::origin::get_origins;
use a5::core::tiling::get_quintant_vertices;
use std::f64::consts::{FRAC_PI_2, FRAC_PI_4, PI};

fn alone(list: Vec<f64>) -> Vec<[f64; 1]> {
    list.into_iter().map(|x| [x]).collect()
}

// For degrees: the multiples of 45 to 540 with their neighbours, and 93.
pub fn degrees(g: &mut Generator) -> Vec<[f64; 1]> {
    let mut list = specials();
    for k in 1..=12 {
        list.extend(both_signs(&near(45.0 * k as f64)));
    }
    list.extend(both_signs(&near(93.0)));
    for _ in 0..60 {
        list.push(g.between(-720.0, 720.0));
    }
    let mut list = alone(list);
    list.extend(wild(g));
    list
}

// For radians: the multiples of a quarter of π with their neighbours, latitudes, and the whole range.
pub fn radians(g: &mut Generator) -> Vec<[f64; 1]> {
    let mut list = specials();
    for k in 1..=10 {
        list.extend(both_signs(&near(FRAC_PI_4 * k as f64)));
    }
    list.extend(both_signs(&near(8.0)));
    for _ in 0..60 {
        list.push(g.between(-FRAC_PI_2, FRAC_PI_2));
        list.push(g.between(-8.0, 8.0));
    }
    let mut list = alone(list);
    list.extend(wild(g));
    list
}

// A quintant's triangle: centre and two corners.
fn quintant(number: usize) -> [f64; 6] {
    let [a, b, c, ..] = get_quintant_vertices(number).get_vertices();
    [a.x(), a.y(), b.x(), b.y(), c.x(), c.y()]
}

// Points of a face: special pairs, corners, both axes, both diagonals, within the face and beyond it.
pub fn faces(g: &mut Generator) -> Vec<[f64; 2]> {
    let mut list = pairs(&few(), &few());
    for number in 0..5 {
        let [_, _, bx, by, cx, cy] = quintant(number);
        list.extend([[bx, by], [cx, cy], [(bx + cx) / 2.0, (by + cy) / 2.0]]);
    }
    for size in [0.5, 1.0, 4.0] {
        for _ in 0..25 {
            let x = g.between(-size, size);
            list.extend([within(g, size), [x, 0.0], [x, x], [x, -x]]);
        }
    }
    list.extend(wild(g));
    list
}

// Polar points: special pairs, every tenth of a turn with its neighbours, within the face and beyond it.
pub fn polars(g: &mut Generator) -> Vec<[f64; 2]> {
    let mut list = pairs(&few(), &few());
    for k in -10..=10 {
        let gamma = k as f64 * (PI / 5.0);
        list.extend(near(gamma).map(|gamma| [0.6180339887498949, gamma]));
    }
    for _ in 0..60 {
        list.push([g.between(0.0, 1.0), g.between(-PI, PI)]);
        list.push([g.between(0.0, 20.0), g.between(-8.0, 8.0)]);
    }
    list.extend(wild(g));
    list
}

// Points of the sphere: special pairs, the poles and the quarters with their neighbours, and the whole range.
pub fn sphericals(g: &mut Generator) -> Vec<[f64; 2]> {
    let mut list = pairs(&few(), &few());
    for phi in [0.0, FRAC_PI_4, FRAC_PI_2, PI] {
        for k in -4..=4 {
            list.push([k as f64 * FRAC_PI_2, phi]);
            list.push([k as f64 * FRAC_PI_4, moved(phi, 1)]);
        }
    }
    list.extend(get_origins().iter().map(|o| of_spherical(o.axis)));
    for _ in 0..60 {
        list.push([g.between(-PI, PI), g.between(0.0, PI)]);
        list.push(within(g, 8.0));
    }
    list.extend(wild(g));
    list
}

// For those that take an angle's sine: ±64 with neighbours, and ±10 to ±66.
pub fn angles(g: &mut Generator) -> Vec<[f64; 1]> {
    let mut list = limits(64.0);
    for _ in 0..40 {
        let x = g.between(10.0, 66.0);
        list.extend([x, -x]);
    }
    alone(list)
}

// The same for either of two numbers, and both at the limit.
pub fn angle_pairs(g: &mut Generator) -> Vec<[f64; 2]> {
    let mut list = pairs(&limits(64.0), &limits(64.0));
    for [x] in angles(g) {
        list.extend([[x, 0.5], [0.5, x]]);
    }
    list
}

fn unit(g: &mut Generator) -> [f64; 3] {
    let at = [g.between(-PI, PI), g.between(0.0, PI)];
    steps::to_cartesian(at).expect("angles within a turn")
}

// The twelve centres.
fn centres() -> Vec<[f64; 3]> {
    get_origins()
        .iter()
        .map(|o| steps::to_cartesian(of_spherical(o.axis)).expect("angles within a turn"))
        .collect()
}

// Vectors: all of six special numbers, the centres, unit vectors, near the poles.
pub fn vectors(g: &mut Generator) -> Vec<[f64; 3]> {
    let six = [0.0, -0.0, 1.0, -1.0, f64::INFINITY, f64::NAN];
    let mut list = Vec::new();
    for xy in pairs(&six, &six) {
        list.extend(six.map(|z| join(xy, [z])));
    }
    list.extend(centres());
    for _ in 0..40 {
        list.push(unit(g));
        list.push(within(g, 10.0));
    }
    for exponent in 1..=20 {
        let small = 10f64.powi(-exponent);
        list.extend([[small, -small, 1.0], [-small, small, -1.0]]);
    }
    list.extend(wild(g));
    list
}

// Two vectors: centres, the same twice, neighbours, opposite, one of them special.
pub fn two_vectors(g: &mut Generator) -> Vec<[f64; 6]> {
    let mut list = Vec::new();
    for (a, b) in centres().into_iter().zip(centres().into_iter().skip(1)) {
        list.extend([join(a, a), join(a, b), join(b, a.map(|x| -x))]);
    }
    for _ in 0..40 {
        let (a, b) = (unit(g), unit(g));
        list.extend([join(a, b), join(a, a.map(|x| moved(x, 1)))]);
        list.push(join(a, a.map(|x| x + g.between(-2e-5, 2e-5))));
    }
    list.extend(spoilt(join(unit(g), unit(g))));
    list.extend(wild(g));
    list
}

// Three vectors: axes, centres, unit vectors; without volume, by two that are the same or by three in a plane.
pub fn three_vectors(g: &mut Generator) -> Vec<[f64; 9]> {
    let axes = [[1.0, 0.0, 0.0], [0.0, 1.0, 0.0], [0.0, 0.0, 1.0]];
    let mut list: Vec<[f64; 9]> = Vec::new();
    for order in [[0, 1, 2], [1, 2, 0], [2, 1, 0], [0, 0, 1], [2, 2, 2]] {
        list.push(order.map(|i| axes[i]).concat().try_into().expect("nine"));
    }
    let centres = centres();
    for i in 0..10 {
        let three = join::<3, 3, 6>(centres[i], centres[i + 1]);
        list.push(join(three, centres[i + 2]));
    }
    for _ in 0..40 {
        let (a, b, c) = (unit(g), unit(g), unit(g));
        let two: [f64; 6] = join(a, b);
        let s = g.between(-2.0, 2.0);
        let plane: [f64; 3] = std::array::from_fn(|i| a[i] + s * b[i]);
        list.extend([join(two, c), join(two, a), join(two, plane)]);
    }
    list.extend(spoilt(join(join::<3, 3, 6>(unit(g), unit(g)), unit(g))));
    list.extend(wild(g));
    list
}

// Triangles: both halves of a quintant, at random, and of no area: three in a line, two that are the same, all the same.
fn triangles(g: &mut Generator) -> Vec<[f64; 6]> {
    let mut list = Vec::new();
    for number in 0..5 {
        let [ax, ay, bx, by, cx, cy] = quintant(number);
        let (mx, my) = ((bx + cx) / 2.0, (by + cy) / 2.0);
        list.extend([[ax, ay, mx, my, bx, by], [ax, ay, cx, cy, mx, my]]);
        list.push(within(g, 1.0));
        list.push(within(g, 1e3));
    }
    let [ax, ay, bx, by, ..]: [f64; 4] = within(g, 1.0);
    list.push([ax, ay, bx, by, ax, ay]);
    list.push([ax, ay, ax, ay, ax, ay]);
    list.push([0.0, 0.0, 1.0, 2.0, 2.0, 4.0]);
    list.push([0.0, 0.0, SMALLEST, 0.0, 0.0, SMALLEST]);
    list
}

// A point with each triangle: each corner, the middle, at random; then one number special.
pub fn face_and_triangle(g: &mut Generator) -> Vec<[f64; 8]> {
    let mut list = Vec::new();
    for t in triangles(g) {
        let middle = [(t[0] + t[2] + t[4]) / 3.0, (t[1] + t[3] + t[5]) / 3.0];
        let corners = [[t[0], t[1]], [t[2], t[3]], [t[4], t[5]], middle];
        list.extend(corners.map(|p| join(p, t)));
        for size in [0.1, 1.0, 4.0] {
            list.push(join(within::<2>(g, size), t));
        }
    }
    list.extend(spoilt(join([0.25, 0.125], quintant(0))));
    list.extend(wild(g));
    list
}

// Weights with each triangle: each corner and just beside it, at random; then one number special.
pub fn weights_and_triangle(g: &mut Generator) -> Vec<[f64; 9]> {
    let corners = [[1.0, 0.0, 0.0], [0.0, 1.0, 0.0], [0.0, 0.0, 1.0]];
    let mut list = Vec::new();
    for t in triangles(g) {
        let rest = 1e-14;
        list.extend(corners.map(|w| join(w, t)));
        list.push(join([1.0 - rest, rest, 0.0], t));
        let (rho, alpha) = (g.unit(), g.unit());
        list.push(join([1.0 - rho, rho * (1.0 - alpha), rho * alpha], t));
        list.push(join(within::<3>(g, 2.0), t));
    }
    list.extend(spoilt(join([0.5, 0.25, 0.25], quintant(0))));
    list.extend(wild(g));
    list
}

// Longitude and latitude: the limits and their neighbours, and what is not finite, each with each; then the globe.
pub fn lon_lat_calls(g: &mut Generator) -> Vec<[f64; 2]> {
    let longitudes = [
        &limits(360.0)[..],
        &BROKEN,
        &[0.0, -0.0, 180.0, -180.0, -93.0],
    ]
    .concat();
    let latitudes = [&limits(90.0)[..], &BROKEN, &[0.0, -0.0, 45.0, 90.5]].concat();
    let mut list = pairs(&longitudes, &latitudes);
    for longitude in [87.0, -273.0, 267.0, 179.99999999999997, -93.00000000000001] {
        list.extend(near(longitude).map(|x| [x, 30.0]));
    }
    for _ in 0..100 {
        list.push([g.between(-180.0, 180.0), g.between(-90.0, 90.0)]);
        list.push([g.between(-400.0, 400.0), g.between(-100.0, 100.0)]);
    }
    list.extend(wild(g));
    list
}

// Theta and phi: their ends; then the sphere.
pub fn spherical_calls(g: &mut Generator) -> Vec<[f64; 2]> {
    let mut list = spherical_ends();
    for turn in [-1, 0, 1] {
        // longitudes about -180, -93 and 0
        for degrees in [-87.0, 0.0, 93.0] {
            let theta: f64 = (degrees + 360.0 * turn as f64) * (PI / 180.0);
            list.extend(near(theta).map(|theta| [theta, 1.0]));
        }
    }
    for _ in 0..100 {
        list.push([g.between(-PI, PI), g.between(0.0, PI)]);
        list.push(within(g, 8.5));
    }
    list.extend(wild(g));
    list
}
