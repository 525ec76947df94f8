// Nearest and open as calls. The Rust refuses nothing and has no lent buffers: these are document 01's, under its words.

use crate::common::fields::{of_whole, spherical, whole};
use crate::common::refusals::{check, lengths, SPHERICAL_LIMITS};
use crate::common::sizes::RIGHT;
use a5::core::origin::find_nearest_origin;

pub fn nearest(x: [f64; 2]) -> Result<[f64; 1], u8> {
    check(x, SPHERICAL_LIMITS)?;
    Ok([whole(find_nearest_origin(spherical(x)).id as usize)])
}

pub fn open(given: [f64; 3]) -> Result<(), u8> {
    lengths(given.map(of_whole))
}

// How many numbers of each buffer open changes, if all are foreign. "A refusal leaves every lent buffer bit for bit
// unchanged."
pub fn changed(given: [f64; 3]) -> [usize; 3] {
    match open(given) {
        Ok(()) => RIGHT,
        Err(_) => [0; 3],
    }
}
