// The list as it grows, beside the set that its calls are lent. The program that replays it has the set and notes: what the set
// should hold, and after that the Rust's set with every slot filled.

use crate::calls::{self, Call};
use crate::common::fields::{bits, whole};
use crate::common::list::List;
use crate::common::refusals::lengths;
use crate::common::sizes::{FACE_SLOTS, FACE_WIDTH, RIGHT, SPHERE_SLOTS, SPHERE_WIDTH};
use crate::notes::{self, DEFINED_AT, FACE_AT, SPHERE_AT};
use crate::set::{new_projection, Set};
use a5::projections::dodecahedron::DodecahedronProjection;

// The records' numbers, after those of the four calls. 7 is the program's count of compared buffers.
const OPEN: u8 = 5;
const LENT: u8 = 6;
const NOTE: u8 = 8;
const FILL: u8 = 9;
const PUT: u8 = 10;
const KEEP: u8 = 11;

pub struct Script {
    pub list: List,
    pub set: Set,
    defined: Set,
    // the Rust's own, with its own caches, until foreign hands write
    kept: Option<DodecahedronProjection>,
}

fn number(call: Call) -> u8 {
    call as u8 + 1
}

impl Script {
    pub fn new() -> Script {
        let mut script = Script {
            list: List::new(),
            set: Set::filled_with([0.0; 3]),
            defined: Set::defined(),
            kept: None,
        };
        let defined = script.defined.clone();
        script.threes(NOTE, DEFINED_AT, &defined.frame);
        script.threes(NOTE, DEFINED_AT + FACE_AT, &defined.face);
        script.threes(NOTE, DEFINED_AT + SPHERE_AT, &defined.sphere);
        script
    }

    fn threes(&mut self, number: u8, place: usize, numbers: &[f64]) {
        notes::threes(&mut self.list, number, place, numbers);
    }

    pub fn open(&mut self, lent: [usize; 3]) {
        match lengths(lent) {
            Ok(()) => {
                self.list.answered(OPEN, &lent.map(whole), &[]);
                self.set = Set::opened();
                self.kept = Some(new_projection());
            }
            Err(refusal) => self.list.refused(OPEN, refusal, &lent.map(whole)),
        }
    }

    // A call that is lent too few numbers of a buffer, or too many: three arguments, where it takes two with a 0, the three
    // lengths, and its number.
    pub fn call_lent(&mut self, call: Call, x: &[f64], lent: [usize; 3]) {
        let refusal = calls::call(call, &mut self.set, lent, x).expect_err("a wrong length");
        let mut arguments = x.to_vec();
        arguments.resize(3, 0.0);
        arguments.extend(lent.map(whole));
        arguments.push(whole(number(call) as usize));
        self.list.refused(LENT, refusal, &arguments);
    }

    pub fn fill(&mut self, numbers: [f64; 3]) {
        self.list.answered(FILL, &numbers, &[]);
        self.set = Set::filled_with(numbers);
        self.kept = None;
    }

    pub fn put_row(&mut self, row: usize, numbers: [f64; 3]) {
        self.set.put_row(row, numbers);
        self.threes(PUT, 3 * row, &numbers);
        self.kept = None;
    }

    pub fn put_face(&mut self, slot: usize, mark: f64, numbers: &[f64]) {
        self.set.put_face(slot, mark, numbers);
        let numbers = [&[mark], numbers].concat();
        self.threes(PUT, FACE_AT + slot * FACE_WIDTH, &numbers);
        self.kept = None;
    }

    pub fn put_sphere(&mut self, slot: usize, mark: f64, numbers: &[f64]) {
        self.set.put_sphere(slot, mark, numbers);
        let numbers = [&[mark], numbers].concat();
        self.threes(PUT, SPHERE_AT + slot * SPHERE_WIDTH, &numbers);
        self.kept = None;
    }

    // What the call has written. A slot that now holds the triangle that a newly opened set gets is told by its number.
    fn written(&mut self, before: &Set) {
        let after = self.set.clone();
        let (mut faces, spheres) = notes::written(before, &after);
        assert!(faces.len() <= 2 && spheres.len() <= 1);
        for slot in &faces {
            let defined = self.defined.face_slot(*slot).map(bits);
            assert_eq!(after.face_slot(*slot).map(bits), defined);
        }
        let mut sphere = SPHERE_SLOTS;
        for slot in spheres {
            if after.sphere_slot(slot).map(bits) == self.defined.sphere_slot(slot).map(bits) {
                sphere = slot;
            } else {
                notes::sphere_slot(&mut self.list, NOTE, &after, slot);
            }
        }
        if !faces.is_empty() || sphere < SPHERE_SLOTS {
            faces.resize(2, FACE_SLOTS);
            self.list
                .answered(KEEP, &[faces[0], faces[1], sphere].map(whole), &[]);
        }
    }

    pub fn call(&mut self, call: Call, x: &[f64]) -> Result<Vec<f64>, u8> {
        let before = self.set.clone();
        let outcome = calls::call(call, &mut self.set, RIGHT, x);
        self.written(&before);
        if let Some(rust) = &mut self.kept {
            let other = calls::of_kept(call, rust, x);
            let bits = |o: &Result<Vec<f64>, u8>| o.as_ref().map(|x| bits(x)).map_err(|n| *n);
            assert_eq!(bits(&outcome), bits(&other), "{call:?} of {x:?}");
        }
        match &outcome {
            Ok(answers) => self.list.answered(number(call), x, answers),
            Err(refusal) => self.list.refused(number(call), *refusal, x),
        }
        outcome
    }
}
