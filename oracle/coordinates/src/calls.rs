// The two conversions as calls. The Rust refuses nothing: the refusals are document 01's, under its words.

use crate::common::fields::{of_lon_lat, of_spherical};
use crate::common::refusals::{check, finite, LON_LAT_LIMITS, SPHERICAL_LIMITS};
use a5::coordinate_systems::{LonLat, Spherical};
use a5::core::coordinate_transforms;

pub fn from_lon_lat(l: LonLat) -> Result<Spherical, u8> {
    check(of_lon_lat(l), LON_LAT_LIMITS)?;
    let answer = coordinate_transforms::from_lon_lat(l);
    finite(of_spherical(answer))?;
    Ok(answer)
}

pub fn to_lon_lat(s: Spherical) -> Result<LonLat, u8> {
    check(of_spherical(s), SPHERICAL_LIMITS)?;
    let answer = coordinate_transforms::to_lon_lat(s);
    finite(of_lon_lat(answer))?;
    Ok(answer)
}
