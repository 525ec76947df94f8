// The Rust's functions as functions from numbers to numbers.

use crate::common::angles::inside;
use crate::common::fields::{cartesian, of_spherical, of_whole, polar, spherical, whole};
use crate::common::places::rows;
use a5::coordinate_systems::Radians;
use a5::core::origin::{self, get_origins};
use a5::projections::crs;
use a5::projections::dodecahedron::{self, DodecahedronProjection};

fn projection() -> &'static mut DodecahedronProjection {
    DodecahedronProjection::get_thread_local()
}

// Of the origin with a number, the number at a place: axis theta, phi, quaternion x, y, z, w, angle.
pub fn origin(x: [f64; 2]) -> [f64; 1] {
    let [id, place] = x.map(of_whole);
    let origin = &get_origins()[id];
    assert_eq!(origin.id as usize, id);
    let all = [
        &of_spherical(origin.axis)[..],
        &origin.quat,
        &[origin.angle.get()],
    ]
    .concat();
    [all[place]]
}

// Of the triangle of a face slot, a corner.
pub fn face_triangle(x: [f64; 2]) -> [f64; 2] {
    let [slot, corner] = x.map(of_whole);
    let t = projection().oracle_face_triangle(slot);
    [t.a, t.b, t.c][corner].into()
}

pub fn frame(x: [f64; 1]) -> [f64; 3] {
    rows()[of_whole(x[0])]
}

// It takes the sines of both phis and of half of either difference.
pub fn haversine(x: [f64; 4]) -> Result<[f64; 1], u8> {
    let [theta, phi, theta2, phi2] = x;
    inside(&[phi, phi2, (phi2 - phi) / 2.0, (theta2 - theta) / 2.0])?;
    let (point, axis) = (spherical([theta, phi]), spherical([theta2, phi2]));
    Ok([origin::haversine(point, axis)])
}

fn bits(x: [f64; 3]) -> [u64; 3] {
    x.map(|x| if x.is_nan() { 0 } else { x.to_bits() })
}

// The Rust has it twice; both must give the same.
pub fn transform_quat(x: [f64; 7]) -> [f64; 3] {
    let (v, q) = (cartesian(&x[0..3]), [x[3], x[4], x[5], x[6]]);
    let answer: [f64; 3] = crs::oracle_transform_quat(v, q).into();
    let other: [f64; 3] = dodecahedron::oracle_transform_quat(v, q).into();
    assert_eq!(bits(answer), bits(other), "transform_quat of {x:?}");
    answer
}

pub fn triangle_index(x: [f64; 2]) -> [f64; 1] {
    [whole(projection().oracle_triangle_index(polar(x)))]
}

pub fn normalize_gamma(x: [f64; 1]) -> [f64; 1] {
    [projection()
        .oracle_normalize_gamma(Radians::new_unchecked(x[0]))
        .get()]
}

// 1 for reflected, 0 for not.
pub fn should_reflect(x: [f64; 2]) -> [f64; 1] {
    [whole(projection().oracle_should_reflect(polar(x)) as usize)]
}
