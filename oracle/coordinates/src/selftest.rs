// What document 01 says of single points, tried on the given Rust with the steps in it.

use crate::calls;
use crate::common::fields::{lon_lat, spherical};
use crate::steps::normalize_longitude;
use a5::coordinate_systems::Face;
use a5::core::coordinate_transforms::{from_lon_lat, to_lon_lat};
use a5::core::origin::find_nearest_origin;
use a5::projections::dodecahedron::DodecahedronProjection;

fn marked_points() {
    for (x, expected) in [
        (180.0, -180.0),
        (-180.0, -180.0),
        (540.0, -180.0),
        (-93.0, -93.0),
    ] {
        assert_eq!(
            normalize_longitude([x]),
            [expected],
            "normalize_longitude of {x}"
        );
    }
}

// The session of "The strike program", without its bytes.
fn session() {
    let mut projection = DodecahedronProjection::new().expect("the frame has 62 rows");
    let pole = from_lon_lat(lon_lat([-93.0, 90.0]));
    let origin = find_nearest_origin(pole).id;
    assert_eq!(origin, 0);
    let placed = projection.forward(pole, origin).expect("an answer");
    assert_eq!([placed.x(), placed.y()].map(f64::to_bits), [0, 0]);
    let back = projection
        .inverse(Face::new(0.0, 0.0), 0)
        .expect("an answer");
    let back = to_lon_lat(back);
    let bits = [back.longitude(), back.latitude()].map(f64::to_bits);
    assert_eq!(bits, [0xc057400000000000, 0x4056800000000000]);
}

// The examples of 5, 6 and 9 in the table, and the limits that "Known points" names.
fn refusals() {
    let mut projection = DodecahedronProjection::new().expect("the frame has 62 rows");
    let far = projection
        .forward(spherical([0.0, std::f64::consts::PI]), 0)
        .expect("an answer");
    assert!(!far.x().is_finite() || !far.y().is_finite());
    let refused = |x| calls::from_lon_lat(lon_lat(x)).err();
    assert_eq!(refused([0.0, f64::NAN]), Some(5));
    assert_eq!(refused([0.0, 90.5]), Some(6));
    assert_eq!(refused([0.0, 90.0]), None);
    assert_eq!(refused([0.0, f64::from_bits(90f64.to_bits() + 1)]), Some(6));
    assert_eq!(refused([361.0, f64::NAN]), Some(6));
}

pub fn run() {
    marked_points();
    session();
    refusals();
}
