// Document 02's Paper 1, under its words. Place is the caller's: the one on a set, or that of a projection which the Rust keeps.

use crate::common::fields::of_whole;
use crate::common::refusals::{lengths, table, table_length};

// "A result is a refusal number (0 if answered), origin, x and y".
#[derive(Clone, Copy)]
pub struct Placed {
    pub refusal: u8,
    pub origin: u8,
    pub x: f64,
    pub y: f64,
}

fn placed(given: Result<Vec<f64>, u8>) -> Placed {
    match given {
        Ok(answer) => Placed {
            refusal: 0,
            origin: of_whole(answer[0]) as u8,
            x: answer[1],
            y: answer[2],
        },
        // "a refused one has origin 0 and +0 twice"
        Err(refusal) => Placed {
            refusal,
            origin: 0,
            x: 0.0,
            y: 0.0,
        },
    }
}

// "One call takes a lent slice of positions and a lent slice of results, and fills every result with its place answer or its
// refusal. The results and the set must equal those of placing the positions singly from first to last." "A refused position
// doesn't stop the list. (Refusal 14: the two slices differ in length, tried after 3.)"
pub fn place_list(
    lent: [usize; 3],
    positions: &[[f64; 2]],
    results: &mut [Placed],
    place: impl FnMut(&[f64; 2]) -> Result<Vec<f64>, u8>,
) -> Result<(), u8> {
    lengths(lent)?;
    fill(positions, results, place)
}

// Paper 10: a table of another length gets 20 before anything else is tried, and 21 and 22 are tried "right after 3". Place is the
// one with the table.
pub fn place_list_with(
    rows: &[f64],
    lent: [usize; 3],
    positions: &[[f64; 2]],
    results: &mut [Placed],
    place: impl FnMut(&[f64; 2]) -> Result<Vec<f64>, u8>,
) -> Result<(), u8> {
    table_length(rows.len())?;
    lengths(lent)?;
    table(rows)?;
    fill(positions, results, place)
}

fn fill(
    positions: &[[f64; 2]],
    results: &mut [Placed],
    mut place: impl FnMut(&[f64; 2]) -> Result<Vec<f64>, u8>,
) -> Result<(), u8> {
    if positions.len() != results.len() {
        return Err(14);
    }
    for (position, result) in positions.iter().zip(results) {
        *result = placed(place(position));
    }
    Ok(())
}
