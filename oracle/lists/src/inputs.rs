// Positions for lists.

use crate::calls::Place;
use crate::common::fields::{cartesian, of_lon_lat, of_whole, spherical};
use crate::common::generator::Generator;
use crate::common::places::{borders, meridians};
use crate::common::sizes::RIGHT;
use crate::common::values::moved;
use crate::set::Set;
use a5::core::coordinate_transforms::{to_lon_lat, to_spherical};
use a5::steps::{atan, sqrt};
use std::f64::consts::PI;

pub type Position = [f64; 2];

pub fn lon_lat_of(p: [f64; 2]) -> Position {
    of_lon_lat(to_lon_lat(spherical(p)))
}

// Evenly over the globe.
pub fn globe(g: &mut Generator) -> Position {
    let z = g.between(-1.0, 1.0);
    [
        g.between(-180.0, 180.0),
        atan(z / sqrt(1.0 - z * z)) / PI * 180.0,
    ]
}

// 5 and 6 of either number, both, and the ends of the ranges, which are placed.
pub const EDGES: [Position; 10] = [
    [f64::NAN, 0.0],
    [0.0, f64::INFINITY],
    [f64::NEG_INFINITY, 91.0],
    [361.0, f64::NAN],
    [-360.00000000000006, 45.0],
    [12.5, 90.00000000000001],
    [1e300, -1e300],
    [360.0, -90.0],
    [-360.0, 90.0],
    [-0.0, -0.0],
];

// One of several kinds: the globe, where faces meet, where origins tie, the ends and what is refused.
pub fn any(g: &mut Generator, borders: &[Position], ties: &[Position]) -> Position {
    let pick = |g: &mut Generator, list: &[Position]| list[g.whole(0, list.len() as i64) as usize];
    match g.whole(0, 8) {
        0 => pick(g, &EDGES),
        1 => pick(g, borders),
        2 => pick(g, ties),
        3 => {
            let p = pick(g, borders);
            [p[0], moved(p[1], g.whole(-3, 4))]
        }
        _ => globe(g),
    }
}

pub fn several(g: &mut Generator, count: usize) -> Vec<Position> {
    let borders: Vec<Position> = borders().into_iter().map(lon_lat_of).collect();
    let ties: Vec<Position> = meridians().into_iter().map(lon_lat_of).collect();
    (0..count).map(|_| any(g, &borders, &ties)).collect()
}

// A position in the middle of each of the 120 triangles of the faces, by origin and index: the mean of the sphere triangle's corners,
// drawn a little to one of them.
pub fn in_triangle(g: &mut Generator, defined: &Set, slot: usize) -> Position {
    let t = defined.sphere_slot(slot).expect("all are filled");
    let weights: [f64; 3] = std::array::from_fn(|_| g.between(0.5, 1.5));
    let middle: Vec<f64> = (0..3)
        .map(|i| (0..3).map(|k| weights[k] * t[3 * k + i]).sum::<f64>())
        .collect();
    let length = sqrt(middle.iter().map(|x| x * x).sum());
    let unit: Vec<f64> = middle.iter().map(|x| x / length).collect();
    let spherical = to_spherical(cartesian(&unit));
    let position = of_lon_lat(to_lon_lat(spherical));
    let placed = crate::calls::call(Place, &mut Set::opened(), RIGHT, &position);
    assert_eq!(of_whole(placed.expect("an answer")[0]), slot / 10);
    position
}
