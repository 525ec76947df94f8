// What a program that replays calls on a set has beside the set: notes of what the set should hold, and behind that what is copied
// there by its number. A place is counted over the three buffers, each with one number more than a set has: what lies behind is
// looked at too.

use crate::common::fields::{bits, whole};
use crate::common::list::List;
use crate::common::sizes::{
    FACE_SLOTS, FACE_STORE, FACE_WIDTH, FRAME, SPHERE_SLOTS, SPHERE_STORE, SPHERE_WIDTH,
};
use crate::set::Set;

pub const FACE_AT: usize = FRAME + 1;
pub const SPHERE_AT: usize = FACE_AT + FACE_STORE + 1;
pub const DEFINED_AT: usize = SPHERE_AT + SPHERE_STORE + 1;

// Numbers from a place on, three to a record; the last three may overlap those before.
pub fn threes(list: &mut List, number: u8, place: usize, numbers: &[f64]) {
    for start in (0..numbers.len()).step_by(3) {
        let at = start.min(numbers.len() - 3);
        let three = &numbers[at..at + 3];
        let record = [&[whole(place + at)], three].concat();
        list.answered(number, &record, &[]);
    }
}

// A sphere slot of a set, number by number.
pub fn sphere_slot(list: &mut List, number: u8, set: &Set, slot: usize) {
    let at = slot * SPHERE_WIDTH;
    let numbers = &set.sphere[at..at + SPHERE_WIDTH];
    threes(list, number, SPHERE_AT + at, numbers);
}

// The face slots and the sphere slots that are not as before.
pub fn written(before: &Set, after: &Set) -> (Vec<usize>, Vec<usize>) {
    let changed = |width: usize, count: usize, from: &[f64], to: &[f64]| -> Vec<usize> {
        let is_new = |slot: &usize| {
            let run = slot * width..(slot + 1) * width;
            bits(&from[run.clone()]) != bits(&to[run])
        };
        (0..count).filter(is_new).collect()
    };
    let faces = changed(FACE_WIDTH, FACE_SLOTS, &before.face, &after.face);
    let spheres = changed(SPHERE_WIDTH, SPHERE_SLOTS, &before.sphere, &after.sphere);
    (faces, spheres)
}
