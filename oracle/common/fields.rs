// The Rust's values from numbers and back, in the order of its fields. A whole number stands as it is, not as a float.

use a5::coordinate_systems::{Cartesian, Face, FaceTriangle, LonLat, Polar, Radians, Spherical};

// The float with the bits of a whole number, as a list has it, and back.
pub fn whole(n: usize) -> f64 {
    f64::from_bits(n as u64)
}

pub fn of_whole(x: f64) -> usize {
    x.to_bits() as usize
}

pub fn bits(x: &[f64]) -> Vec<u64> {
    x.iter().map(|x| x.to_bits()).collect()
}

pub fn face(x: &[f64]) -> Face {
    Face::new(x[0], x[1])
}

pub fn triangle(x: &[f64]) -> FaceTriangle {
    FaceTriangle::new(face(&x[0..2]), face(&x[2..4]), face(&x[4..6]))
}

pub fn cartesian(x: &[f64]) -> Cartesian {
    Cartesian::new(x[0], x[1], x[2])
}

pub fn polar(x: [f64; 2]) -> Polar {
    Polar::new(x[0], Radians::new_unchecked(x[1]))
}

pub fn lon_lat(x: [f64; 2]) -> LonLat {
    LonLat::new(x[0], x[1])
}

pub fn spherical(x: [f64; 2]) -> Spherical {
    Spherical::new(Radians::new_unchecked(x[0]), Radians::new_unchecked(x[1]))
}

pub fn of_spherical(s: Spherical) -> [f64; 2] {
    [s.theta().get(), s.phi().get()]
}

pub fn of_polar(p: Polar) -> [f64; 2] {
    [p.rho(), p.gamma().get()]
}

pub fn of_triangle(t: FaceTriangle) -> Vec<f64> {
    [t.a, t.b, t.c].map(<[f64; 2]>::from).concat()
}

pub fn of_face(f: Face) -> [f64; 2] {
    [f.x(), f.y()]
}

pub fn of_lon_lat(l: LonLat) -> [f64; 2] {
    [l.longitude(), l.latitude()]
}
