// The refusals that look at the lent buffers' lengths, at a call's numbers and at its answer. The Rust has none of them: these
// are document 01's, under its words. And the numbers of what the Rust can fail by.

use super::sizes::RIGHT;

// "Ranges, ends included: longitude ±360, latitude ±90, theta and phi ±8, face x and y ±4."
pub const LON_LAT_LIMITS: [f64; 2] = [360.0, 90.0];
pub const SPHERICAL_LIMITS: [f64; 2] = [8.0, 8.0];
pub const FACE_LIMITS: [f64; 2] = [4.0, 4.0];

// "1: frame isn't 186 long. 2: face store isn't 210 long." Paper 6: the sphere store "is 3,120 numbers, and refusal 3 is for every
// other length." "Tried in table order."
pub fn lengths(given: [usize; 3]) -> Result<(), u8> {
    match (0..3).find(|i| given[*i] != RIGHT[*i]) {
        Some(i) => Err(i as u8 + 1),
        None => Ok(()),
    }
}

// Paper 10: "A table reaches a call as exactly 84 numbers": another length is 20 at the C functions, tried first.
pub fn table_length(given: usize) -> Result<(), u8> {
    match given {
        84 => Ok(()),
        _ => Err(20),
    }
}

// "Theta, phi and angle lie in ±8, quaternion numbers in ±1. All 84 numbers are finite. Each row's quaternion squares, summed left
// to right, must differ from 1 by at most 1e-12." "Rows from first to last for each."
pub fn table(rows: &[f64]) -> Result<(), u8> {
    let limits = [8.0, 8.0, 1.0, 1.0, 1.0, 1.0, 8.0];
    for row in rows.chunks(7) {
        for (x, limit) in row.iter().zip(limits) {
            if !x.is_finite() || *x < -limit || *x > limit {
                return Err(21);
            }
        }
    }
    for row in rows.chunks(7) {
        let [x, y, z, w] = [row[2], row[3], row[4], row[5]];
        let off = x * x + y * y + z * z + w * w - 1.0;
        if off < -1e-12 || off > 1e-12 {
            return Err(22);
        }
    }
    Ok(())
}

// "4: origin id above 11."
pub fn origin(id: usize) -> Result<u8, u8> {
    match id {
        0..=11 => Ok(id as u8),
        _ => Err(4),
    }
}

// "5: a number is infinite or NaN. 6: a number is outside its range." "Each number is tried for 5 and then 6 before the
// next one."
pub fn check(numbers: [f64; 2], limits: [f64; 2]) -> Result<(), u8> {
    for (x, limit) in numbers.into_iter().zip(limits) {
        if !x.is_finite() {
            return Err(5);
        }
        if x < -limit || x > limit {
            return Err(6);
        }
    }
    Ok(())
}

// "8: a triangle that must be built has no frame vertex." Paper 7: "Refusal 19: no corner is returned and that angle is finite
// and beyond ±64, tried after 8": the Rust's inverse then gives an error of its own (assemble).
pub fn of_error(error: String) -> u8 {
    match error.as_str() {
        "outside" => 19,
        _ => 8,
    }
}

// "9: the answer would have a number that isn't finite."
pub fn finite(numbers: [f64; 2]) -> Result<(), u8> {
    if numbers.into_iter().all(f64::is_finite) {
        Ok(())
    } else {
        Err(9)
    }
}
