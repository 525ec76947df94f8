// Writes the answers of the given Rust, with document 01's elementary steps in it, to standard output; or with the word
// `test` tries it on what document 01 says of single points.

mod calls;
#[path = "../../common/mod.rs"]
mod common;
mod inputs;
mod selftest;
mod steps;

use common::fields;
use common::generator::Generator;
use common::list::{self, List};

fn from_lon_lat(x: [f64; 2]) -> Result<[f64; 2], u8> {
    calls::from_lon_lat(fields::lon_lat(x)).map(fields::of_spherical)
}

fn to_lon_lat(x: [f64; 2]) -> Result<[f64; 2], u8> {
    calls::to_lon_lat(fields::spherical(x)).map(fields::of_lon_lat)
}

fn answers() -> List {
    let mut g = Generator::new(3);
    let far = &mut Generator::new(10);
    let mut list = List::new();
    let l = &mut list;
    l.step(1, steps::deg_to_rad, &inputs::degrees(&mut g));
    l.step(2, steps::rad_to_deg, &inputs::radians(&mut g));
    l.step(3, steps::to_polar, &inputs::faces(&mut g));
    l.call(4, steps::to_face, &inputs::polars(&mut g));
    l.call(4, steps::to_face, &inputs::angle_pairs(far));
    l.step(
        5,
        steps::face_to_barycentric,
        &inputs::face_and_triangle(&mut g),
    );
    l.step(
        6,
        steps::barycentric_to_face,
        &inputs::weights_and_triangle(&mut g),
    );
    l.step(7, steps::to_spherical, &inputs::vectors(&mut g));
    l.call(8, steps::to_cartesian, &inputs::sphericals(&mut g));
    l.call(8, steps::to_cartesian, &inputs::angle_pairs(far));
    l.step(9, steps::normalize_longitude, &inputs::degrees(&mut g));
    l.call(10, steps::authalic_forward, &inputs::radians(&mut g));
    l.call(10, steps::authalic_forward, &inputs::angles(far));
    l.call(11, steps::authalic_inverse, &inputs::radians(&mut g));
    l.call(11, steps::authalic_inverse, &inputs::angles(far));
    l.call(12, steps::gnomonic_forward, &inputs::sphericals(&mut g));
    l.call(12, steps::gnomonic_forward, &inputs::angle_pairs(far));
    l.step(13, steps::gnomonic_inverse, &inputs::polars(&mut g));
    l.step(14, steps::triple_product, &inputs::three_vectors(&mut g));
    l.step(15, steps::length, &inputs::vectors(&mut g));
    l.step(16, steps::vec3_distance, &inputs::two_vectors(&mut g));
    l.call(17, from_lon_lat, &inputs::lon_lat_calls(&mut g));
    l.call(18, to_lon_lat, &inputs::spherical_calls(&mut g));
    list
}

fn main() {
    list::run(selftest::run, answers);
}
