// Document 02's Paper 4, under its words. The given Rust has no such call: this is the paper, sentence by sentence. Place and the
// set are the caller's.

use crate::box_oracle::{grown, Caption, NEW};
use crate::common::fields::of_whole;

// "the call then gives that face, every face point and the outline's box"
pub struct Region {
    pub origin: u8,
    pub points: Vec<[f64; 2]>,
    pub caption: Caption,
}

// "A channel's outline is a list of 1 to 256 positions." "(Refusal 15: no positions or more than 256, tried after 3; then 14, if the
// lent point places differ in number from the positions.)"
fn counts(positions: usize, places: usize) -> Result<(), u8> {
    if positions < 1 || positions > 256 {
        return Err(15);
    }
    if places != positions {
        return Err(14);
    }
    Ok(())
}

// "The set is then as after placing the positions in turn. Otherwise nothing is written and the set is unchanged." What stands
// before 15 in the table of refusals, the lengths and a table, is `before`.
pub fn region<S: Clone>(
    set: &mut S,
    before: Result<(), u8>,
    positions: &[[f64; 2]],
    places: usize,
    place: impl Fn(&mut S, &[f64; 2]) -> Result<Vec<f64>, u8>,
) -> Result<Region, u8> {
    before?;
    counts(positions.len(), places)?;
    let mut afterwards = set.clone();
    // "Each position must pass place's own checks, and the first failing one gives its number."
    let mut answers = Vec::new();
    for position in positions {
        answers.push(place(&mut afterwards, position)?);
    }
    // "(Refusal 16: two positions have different nearest origins, tried after all positions pass place.)"
    let origin = of_whole(answers[0][0]) as u8;
    if answers.iter().any(|a| of_whole(a[0]) as u8 != origin) {
        return Err(16);
    }
    let points: Vec<[f64; 2]> = answers.iter().map(|a| [a[1], a[2]]).collect();
    // "here without the ±4 limit"
    let caption = points.iter().fold(NEW, |box_, p| grown(box_, *p));
    *set = afterwards;
    Ok(Region {
        origin,
        points,
        caption,
    })
}
