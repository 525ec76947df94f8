// The Rust's functions as functions from numbers to numbers. Those that have a sine, a cosine or a tangent in them may have no
// answer.

use crate::common::angles::inside;
use crate::common::fields::{cartesian, face, of_polar, of_spherical, polar, spherical, triangle};
use a5::coordinate_systems::{Barycentric, Degrees, Radians};
use a5::core::coordinate_transforms;
use a5::projections::authalic::AuthalicProjection;
use a5::projections::gnomonic::GnomonicProjection;
use a5::utils::vector;

pub fn deg_to_rad(x: [f64; 1]) -> [f64; 1] {
    [coordinate_transforms::deg_to_rad(Degrees::new_unchecked(x[0])).get()]
}

pub fn rad_to_deg(x: [f64; 1]) -> [f64; 1] {
    [coordinate_transforms::rad_to_deg(Radians::new_unchecked(x[0])).get()]
}

pub fn to_polar(x: [f64; 2]) -> [f64; 2] {
    of_polar(coordinate_transforms::to_polar(face(&x)))
}

// Gamma's sine and cosine.
pub fn to_face(x: [f64; 2]) -> Result<[f64; 2], u8> {
    inside(&x[1..])?;
    Ok(coordinate_transforms::to_face(polar(x)).into())
}

pub fn face_to_barycentric(x: [f64; 8]) -> [f64; 3] {
    coordinate_transforms::face_to_barycentric(face(&x[0..2]), triangle(&x[2..8])).into()
}

pub fn barycentric_to_face(x: [f64; 9]) -> [f64; 2] {
    let weights = Barycentric::new(x[0], x[1], x[2]);
    coordinate_transforms::barycentric_to_face(weights, triangle(&x[3..9])).into()
}

pub fn to_spherical(x: [f64; 3]) -> [f64; 2] {
    of_spherical(coordinate_transforms::to_spherical(cartesian(&x)))
}

// Theta's and phi's.
pub fn to_cartesian(x: [f64; 2]) -> Result<[f64; 3], u8> {
    inside(&x)?;
    Ok(coordinate_transforms::to_cartesian(spherical(x)).into())
}

pub fn normalize_longitude(x: [f64; 1]) -> [f64; 1] {
    [coordinate_transforms::normalize_longitude(x[0])]
}

// The latitude's.
pub fn authalic_forward(x: [f64; 1]) -> Result<[f64; 1], u8> {
    inside(&x)?;
    Ok([AuthalicProjection
        .forward(Radians::new_unchecked(x[0]))
        .get()])
}

pub fn authalic_inverse(x: [f64; 1]) -> Result<[f64; 1], u8> {
    inside(&x)?;
    Ok([AuthalicProjection
        .inverse(Radians::new_unchecked(x[0]))
        .get()])
}

// Phi's tangent.
pub fn gnomonic_forward(x: [f64; 2]) -> Result<[f64; 2], u8> {
    inside(&x[1..])?;
    Ok(of_polar(GnomonicProjection.forward(spherical(x))))
}

pub fn gnomonic_inverse(x: [f64; 2]) -> [f64; 2] {
    of_spherical(GnomonicProjection.inverse(polar(x)))
}

pub fn triple_product(x: [f64; 9]) -> [f64; 1] {
    let [a, b, c] = [&x[0..3], &x[3..6], &x[6..9]].map(cartesian);
    [vector::triple_product(a, b, c)]
}

pub fn length(x: [f64; 3]) -> [f64; 1] {
    [vector::length(cartesian(&x))]
}

pub fn vec3_distance(x: [f64; 6]) -> [f64; 1] {
    [vector::vec3_distance(
        &cartesian(&x[0..3]),
        &cartesian(&x[3..6]),
    )]
}
