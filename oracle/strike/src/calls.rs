// Place and unplace as calls on an opened set. The Rust refuses nothing: the refusals are document 01's, under its words.

use crate::fields::{lon_lat, of_face, of_lon_lat};
use crate::refusals::{self, check, finite, of_error, FACE_LIMITS, LON_LAT_LIMITS};
use a5::coordinate_systems::Face;
use a5::core::coordinate_transforms::{from_lon_lat, to_lon_lat};
use a5::core::origin::find_nearest_origin;
use a5::projections::dodecahedron::DodecahedronProjection;

// "Place is from_lon_lat, find_nearest_origin, forward."
pub fn place(set: &mut DodecahedronProjection, x: [f64; 2]) -> Result<(u8, [f64; 2]), u8> {
    check(x, LON_LAT_LIMITS)?;
    let point = from_lon_lat(lon_lat(x));
    let origin = find_nearest_origin(point).id;
    let face = of_face(set.forward(point, origin).map_err(of_error)?);
    finite(face)?;
    Ok((origin, face))
}

// "Unplace is inverse, to_lon_lat."
pub fn unplace(set: &mut DodecahedronProjection, x: [f64; 2], origin: u8) -> Result<[f64; 2], u8> {
    refusals::origin(origin as usize)?;
    check(x, FACE_LIMITS)?;
    let point = set
        .inverse(Face::new(x[0], x[1]), origin)
        .map_err(of_error)?;
    let answer = of_lon_lat(to_lon_lat(point));
    finite(answer)?;
    Ok(answer)
}
