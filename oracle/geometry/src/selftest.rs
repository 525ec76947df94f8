// What document 01 says of single points, tried on the given Rust with the steps in it.

use crate::calls;
use crate::common::fields::{lon_lat, of_spherical, of_whole, whole};
use crate::steps::triangle_index;
use a5::core::coordinate_transforms::from_lon_lat;
use a5::core::origin::{get_origins, haversine};
use std::f64::consts::PI;

// "Gamma -π/5 gives index 9, gamma 0 gives 0"; "the quotient -0.5 then gives index 0, not 9".
fn marked_points() {
    for (gamma, expected) in [(-PI / 5.0, 9), (0.0, 0), (-PI / 10.0, 9)] {
        let index = of_whole(triangle_index([1.0, gamma])[0]);
        assert_eq!(index, expected, "index of {gamma}");
    }
}

// "Nearest is the lowest-numbered origin with the least computed haversine."
fn tie() {
    let point = from_lon_lat(lon_lat([-75.0, 0.0]));
    let to = |id: usize| haversine(point, get_origins()[id].axis);
    assert_eq!(to(1).to_bits(), to(2).to_bits());
    assert_eq!(calls::nearest(of_spherical(point)), Ok([whole(1)]));
}

// The examples of 1, 2 and 3 in the table, the sphere store as Paper 6 has it; 5 and 6, theta before phi.
fn refusals() {
    let open = |lengths: [usize; 3]| calls::open(lengths.map(whole));
    assert_eq!(open([186, 210, 3120]), Ok(()));
    assert_eq!(open([185, 210, 3120]), Err(1));
    assert_eq!(open([186, 0, 3120]), Err(2));
    for other in [2400, 2401, 3119, 3121] {
        assert_eq!(open([186, 210, other]), Err(3));
    }
    assert_eq!(open([186, 0, 2400]), Err(2));
    assert_eq!(calls::nearest([9.0, f64::NAN]), Err(6));
    assert_eq!(calls::nearest([f64::NAN, 9.0]), Err(5));
    assert_eq!(calls::nearest([8.0, f64::INFINITY]), Err(5));
}

pub fn run() {
    marked_points();
    tie();
    refusals();
}
