// One set on both sides: the library's buffers, and the same numbers as the Rust's side has them. After every call the
// outcomes and all numbers of the buffers must be the same. What should stand there comes from the Rust's side alone.

use crate::calls::{self, Call};
use crate::common::fields::{bits, of_triangle, whole};
use crate::common::refusals::lengths;
use crate::common::sizes::{
    FACE_COORDINATES, FACE_SLOTS, FACE_WIDTH, RIGHT, SPHERE_COORDINATES, SPHERE_SLOTS, SPHERE_WIDTH,
};
use crate::common::sphere_slot::of_spherical_triangle;
use crate::counts::{Asked, Counts, Where, FORWARD, OPEN, SHOW, SLOT_STATE};
use crate::library::{Buffers, Library};
use crate::outcome::Outcome;
use crate::set::{new_projection, Set};
use a5::projections::dodecahedron::DodecahedronProjection;

pub struct Script {
    pub library: Library,
    pub set: Set,
    pub counts: Counts,
    pub place: Where,
    pub buffers: Buffers,
    opened: Set,
    // the Rust's own, with its own caches, since open; and whether all slots are filled
    kept: Option<DodecahedronProjection>,
    full: bool,
}

// "2: face store isn't 210 long." 3: the sphere store isn't 3,120 long. "10: slot 30 or more (face), 240 or more (sphere)." The
// Rust has no show. 0 names the face store here, and every other number the sphere store.
fn slot_given(set: &Set, kind: u8, slot: usize, lent: [usize; 3]) -> Result<bool, u8> {
    lengths([RIGHT[0], lent[1], lent[2]])?;
    match kind {
        0 if slot >= FACE_SLOTS => Err(10),
        1.. if slot >= SPHERE_SLOTS => Err(10),
        0 => Ok(set.face_slot(slot).is_some()),
        _ => Ok(set.sphere_slot(slot).is_some()),
    }
}

// "It hands back the coordinates as a part of whichever store was named, or an empty part at the face store's start." Paper 6:
// "Show still gives the nine coordinates."
fn part(kind: u8, slot: usize, filled: bool) -> Vec<f64> {
    let (width, coordinates) = match kind {
        0 => (FACE_WIDTH, FACE_COORDINATES),
        _ => (SPHERE_WIDTH, SPHERE_COORDINATES),
    };
    let numbers = if filled {
        [slot * width + 1, coordinates]
    } else {
        [0, 0]
    };
    numbers.map(whole).to_vec()
}

impl Script {
    pub fn new(place: Where, library: Library) -> Script {
        let opened = Set::opened();
        Script {
            library,
            set: opened.clone(),
            counts: Counts::default(),
            place,
            buffers: Buffers::of(&opened),
            opened,
            kept: None,
            full: false,
        }
    }

    pub fn asked<'a>(&self, call: usize, arguments: &'a [f64], lent: [usize; 3]) -> Asked<'a> {
        Asked {
            call,
            place: self.place,
            arguments,
            lent: Some(lent),
        }
    }

    pub fn compare(&mut self, asked: Asked, ours: &Outcome, rust: &Outcome) {
        self.counts.compare(asked, ours, rust);
        self.counts
            .compare_buffers(asked, self.buffers.differing(&self.set));
    }

    pub fn open(&mut self, lent: [usize; 3]) {
        let ours = self.library.open(&mut self.buffers, lent);
        let given = lengths(lent).map(|()| vec![]);
        if given.is_ok() {
            self.set = self.opened.clone();
            self.foreign_hands();
        }
        self.compare(self.asked(OPEN, &[], lent), &ours, &Outcome::of(&given, 0));
    }

    // Open, and from here on the Rust's own projection beside it.
    pub fn open_and_keep(&mut self) {
        self.open(RIGHT);
        self.kept = Some(new_projection());
    }

    // The set as open leaves it, without calling open: the library knows a set by its buffers alone.
    pub fn renew(&mut self) {
        self.lend(&self.opened.clone());
    }

    pub fn lend(&mut self, set: &Set) {
        self.set.clone_from(set);
        self.buffers.take(set);
        self.foreign_hands();
    }

    fn foreign_hands(&mut self) {
        (self.kept, self.full) = (None, false);
    }

    pub fn fill(&mut self, numbers: [f64; 3]) {
        self.lend(&Set::filled_with(numbers));
    }

    pub fn put_row(&mut self, row: usize, numbers: [f64; 3]) {
        self.set.put_row(row, numbers);
        self.lend(&self.set.clone());
    }

    pub fn put_face(&mut self, slot: usize, mark: f64, numbers: &[f64]) {
        self.set.put_face(slot, mark, numbers);
        self.lend(&self.set.clone());
    }

    pub fn put_sphere(&mut self, slot: usize, mark: f64, numbers: &[f64]) {
        self.set.put_sphere(slot, mark, numbers);
        self.lend(&self.set.clone());
    }

    // The Rust's answer. Where all slots are filled nothing is left to be written: its own projection, which has these very
    // triangles in its caches, is enough. Until then it must give the same.
    pub fn rust(&mut self, call: Call, lent: [usize; 3], x: &[f64]) -> Result<Vec<f64>, u8> {
        let Some(kept) = &mut self.kept else {
            return calls::call(call, &mut self.set, lent, x);
        };
        if lent != RIGHT {
            return calls::call(call, &mut self.set, lent, x);
        }
        let of_kept = calls::of_kept(call, kept, x);
        if !self.full {
            let given = calls::call(call, &mut self.set, lent, x);
            let [a, b] = [&given, &of_kept].map(|given| Outcome::of(given, 0));
            assert!(a.same(&b), "the Rust's own projection, {call:?} of {x:?}");
            self.full = self.set.is_full();
            if self.full {
                self.check_kept();
            }
        }
        of_kept
    }

    // The caches of the Rust's own projection are the filled slots.
    pub fn check_kept(&self) {
        let rust = self.kept.as_ref().expect("a set that is kept");
        assert!(self.full, "every slot has been used");
        for (slot, t) in rust.oracle_face_triangles().iter().enumerate() {
            let own = of_triangle(t.expect("all are filled"));
            assert_eq!(Some(bits(&own)), self.set.face_slot(slot).map(bits));
        }
        for (slot, t) in rust.oracle_spherical_triangles().iter().enumerate() {
            let own = of_spherical_triangle(t.expect("all are filled"));
            assert_eq!(Some(bits(&own)), self.set.sphere_slot(slot).map(bits));
        }
    }

    pub fn is_full(&self) -> bool {
        self.full
    }

    fn call_on(&mut self, call: Call, x: &[f64], lent: [usize; 3]) -> Result<Vec<f64>, u8> {
        let ours = self.library.call(&mut self.buffers, call, lent, x);
        let given = self.rust(call, lent, x);
        let rust = Outcome::of(&given, ours.numbers.len());
        self.compare(self.asked(FORWARD + call as usize, x, lent), &ours, &rust);
        given
    }

    pub fn call(&mut self, call: Call, x: &[f64]) -> Result<Vec<f64>, u8> {
        self.call_on(call, x, RIGHT)
    }

    pub fn call_lent(&mut self, call: Call, x: &[f64], lent: [usize; 3]) {
        let _ = self.call_on(call, x, lent);
    }

    // Show and its companion.
    pub fn show(&mut self, kind: u8, slot: usize, lent: [usize; 3]) {
        let given = slot_given(&self.set, kind, slot, lent);
        let arguments = [whole(kind as usize), whole(slot)];
        let ours = self.library.show(&mut self.buffers, kind, slot, lent);
        let rust = Outcome::of(&given.map(|filled| part(kind, slot, filled)), 2);
        self.compare(self.asked(SHOW, &arguments, lent), &ours, &rust);
        let ours = self.library.slot_state(&mut self.buffers, kind, slot, lent);
        let rust = Outcome::of(&given.map(|filled| vec![whole(filled as usize)]), 1);
        self.compare(self.asked(SLOT_STATE, &arguments, lent), &ours, &rust);
    }
}
