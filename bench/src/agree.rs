// Before anything is timed: the library's answers on the inputs are the stepped Rust's, bit for bit.

use crate::forms::{Form, Ours, Stepped};
use crate::{FAR, TIMES};
use a5_faces::{Face, LonLat, Place, PlaceResult};
use a5_stepped::coordinate_systems::Cartesian;
use a5_stepped::projections::crs::CRS;

fn same(what: &str, ours: &[f64], rust: &[f64]) {
    let bits = |list: &[f64]| list.iter().map(|x| x.to_bits()).collect::<Vec<u64>>();
    assert_eq!(
        bits(ours),
        bits(rust),
        "{what}: {ours:?}, the Rust {rust:?}"
    );
}

// The Rust keeps its rows to itself. It hands back the row near a point, and rows 0, 32 and 12 as a triangle: so each of
// the 62 rows is one of the Rust's 62, and those three stand in their places.
fn frames(ours: &Ours) {
    let mut crs = CRS::new().expect("the Rust has 62 rows");
    let rows: Vec<[f64; 3]> = ours.set.buffers()[0]
        .chunks(3)
        .map(|r| [r[0], r[1], r[2]])
        .collect();
    for row in &rows {
        let point = Cartesian::new(row[0], row[1], row[2]);
        let vertex = crs.get_vertex(point).expect("the Rust has the row");
        same(
            "a row of the frame",
            row,
            &[vertex.x(), vertex.y(), vertex.z()],
        );
    }
    let triangle = crs.get_canonical_triangle();
    for (k, vertex) in [(0, triangle.a), (32, triangle.b), (12, triangle.c)] {
        same(
            "a row in its place",
            &rows[k],
            &[vertex.x(), vertex.y(), vertex.z()],
        );
    }
}

pub fn check(degrees: &[[f64; 2]], radians: &[[f64; 2]]) {
    check_form(Ours::new(), degrees, radians);
    check_form(Ours::with_table(), degrees, radians);
}

fn check_form(mut ours: Ours, degrees: &[[f64; 2]], radians: &[[f64; 2]]) {
    let mut rust = Stepped::new();
    frames(&ours);
    for &[longitude, latitude] in degrees {
        let to = ours.from_lon_lat(longitude, latitude);
        same("from_lon_lat", &to, &rust.from_lon_lat(longitude, latitude));
        let (place, theirs) = (
            ours.place(longitude, latitude),
            rust.place(longitude, latitude),
        );
        assert_eq!(
            place.origin, theirs.origin,
            "place of {longitude}, {latitude}"
        );
        let point = |place: Place| [place.face.x, place.face.y];
        same("place", &point(place), &point(theirs));
        let [theta, phi] = to;
        let face = ours.forward(theta, phi, place.origin);
        same("forward", &face, &rust.forward(theta, phi, place.origin));
        same("unplace", &ours.unplace(place), &rust.unplace(place));
        let x = longitude * TIMES;
        same(
            "remainder",
            &[ours.remainder(x, 360.0)],
            &[rust.remainder(x, 360.0)],
        );
    }
    for &[theta, phi] in radians {
        let id = ours.nearest(theta, phi);
        assert_eq!(id, rust.nearest(theta, phi), "nearest of {theta}, {phi}");
        let to = ours.to_lon_lat(theta, phi);
        same("to_lon_lat", &to, &rust.to_lon_lat(theta, phi));
        for x in [theta, theta + FAR] {
            same("sine", &[ours.sine(x)], &[rust.sine(x)]);
        }
    }
}

// A list in one call, with and without a table, and one position after another.
pub fn check_list(positions: &[LonLat]) {
    let mut theirs = vec![PlaceResult::default(); positions.len()];
    Stepped::new().place_each(positions, &mut theirs);
    for mut form in [Ours::new(), Ours::with_table()] {
        let mut results = vec![PlaceResult::default(); positions.len()];
        form.place_list(positions, &mut results);
        for (ours, rust) in results.iter().zip(&theirs) {
            assert_eq!((ours.refusal, ours.origin), (0, rust.origin), "a list");
            same("a list", &[ours.x, ours.y], &[rust.x, rust.y]);
        }
    }
}

// An outline in one call, with and without a table, and one position after another.
pub fn check_region(positions: &[LonLat]) {
    let mut theirs = vec![Face { x: 0.0, y: 0.0 }; positions.len()];
    let mut points = theirs.clone();
    let rust = Stepped::new().region_each(positions, &mut theirs);
    for mut form in [Ours::new(), Ours::with_table()] {
        assert_eq!(form.region(positions, &mut points), rust, "a region");
        for (ours, rust) in points.iter().zip(&theirs) {
            same("a region", &[ours.x, ours.y], &[rust.x, rust.y]);
        }
    }
}
