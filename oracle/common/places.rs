// Points of the sphere and rows of the frame that more than one oracle asks at.

use super::fields::{cartesian, lon_lat, of_spherical};
use super::values::{moved, near};
use a5::core::constants::{DISTANCE_TO_VERTEX, INTERHEDRAL_ANGLE};
use a5::core::coordinate_transforms::{from_lon_lat, to_spherical};
use a5::projections::crs::CRS;
use a5::steps::atan;
use std::f64::consts::{FRAC_PI_2, PI};
use std::sync::OnceLock;

// The point itself, and with either number moved by one unit and by two.
pub fn around(p: [f64; 2]) -> Vec<[f64; 2]> {
    let mut list: Vec<[f64; 2]> = near(p[0]).map(|theta| [theta, p[1]]).into();
    list.extend([-2, -1, 1, 2].map(|steps| [p[0], moved(p[1], steps)]));
    list
}

// The meridians from -93 degrees on, every 18: on them origins tie.
pub fn meridians() -> Vec<[f64; 2]> {
    // the two rings of axes, the north face's corners, the equator
    let ring = INTERHEDRAL_ANGLE.get();
    let circles = [ring, PI - ring, atan(DISTANCE_TO_VERTEX), FRAC_PI_2];
    let mut list = Vec::new();
    for k in 0..20 {
        for latitude in -6..=6 {
            let place = [-93.0 + 18.0 * k as f64, 15.0 * latitude as f64];
            list.push(of_spherical(from_lon_lat(lon_lat(place))));
        }
        let theta = k as f64 * PI / 10.0;
        list.extend(circles.map(|phi| [theta, phi]));
    }
    list
}

// The Rust's frame, which it makes from nothing: once is enough.
pub fn rows() -> Vec<[f64; 3]> {
    static ROWS: OnceLock<Vec<[f64; 3]>> = OnceLock::new();
    let made = || {
        let crs = CRS::new().expect("the frame has 62 rows");
        crs.oracle_rows().iter().map(|row| (*row).into()).collect()
    };
    ROWS.get_or_init(made).clone()
}

// On the borders between faces: the dodecahedron's vertices and midpoints of edges, and halfway between the two.
pub fn borders() -> Vec<[f64; 2]> {
    let rows = rows();
    let mut list: Vec<[f64; 2]> = Vec::new();
    for p in &rows[12..] {
        list.extend(around(of_spherical(to_spherical(cartesian(p)))));
    }
    for p in &rows[12..32] {
        for q in &rows[32..] {
            let half: [f64; 3] = std::array::from_fn(|i| (p[i] + q[i]) / 2.0);
            if half.map(|x| x * x).iter().sum::<f64>() > 0.95 {
                let at = of_spherical(to_spherical(cartesian(&half)));
                list.extend([at, [at[0], moved(at[1], 1)], [moved(at[0], 1), at[1]]]);
            }
        }
    }
    list
}
