// The list as it grows, beside the set that its calls are lent. The program that replays it has the set and notes: what the set should
// hold; then a set of which the face slots alone are noted, as the Rust has them; then the frames of the tables that open a set, and
// all tables.

use crate::calls::{self, Call};
use crate::common::fields::{bits, spherical, whole};
use crate::common::list::List;
use crate::common::refusals::{self, check, lengths, SPHERICAL_LIMITS};
use crate::common::sizes::{FACE_SLOTS, FACE_WIDTH, FRAME, RIGHT, SPHERE_WIDTH};
use crate::notes::{self, DEFINED_AT, FACE_AT, SPHERE_AT};
use crate::set::{new_projection, Set};
use crate::tables::{Rows, Tables};
use a5::core::origin::{find_nearest_origin, oracle_with_table};
use a5::projections::dodecahedron::DodecahedronProjection;

// The records' numbers, after those of the four calls. 8 is the program's count of compared buffers.
const OPEN: u8 = 5;
const LENT: u8 = 6;
const NEAREST: u8 = 7;
const NOTE: u8 = 9;
const FILL: u8 = 10;
const PUT: u8 = 11;
const KEEP: u8 = 12;

const FRAMES_AT: usize = DEFINED_AT + SPHERE_AT;

// The tables begin behind the frames of so many.
const TABLES_AT: usize = FRAMES_AT + OPENING * FRAME;
const OPENING: usize = 11;

pub type Outcome = Result<Vec<f64>, u8>;

pub struct Script {
    pub list: List,
    pub set: Set,
    pub tables: Tables,
    defined: Set,
    // the Rust's own, with its own caches, and the table that it was made with, until something else has written in the set
    kept: Option<(usize, DodecahedronProjection)>,
}

fn number(call: Call) -> u8 {
    call as u8 + 1
}

fn of_bits(outcome: &Outcome) -> Result<Vec<u64>, u8> {
    outcome.as_ref().map(|x| bits(x)).map_err(|n| *n)
}

// "Open then takes the table, and so do the calls; each tests it by 21 and 22 right after 3."
fn open(table: &Rows, lent: [usize; 3]) -> Result<Set, u8> {
    lengths(lent)?;
    refusals::table(table)?;
    Set::opened_with(table)
}

// "Nearest takes it too and tests it first."
fn nearest(table: &Rows, x: [f64; 2]) -> Outcome {
    refusals::table(table)?;
    check(x, SPHERICAL_LIMITS)?;
    let id = oracle_with_table(table, || find_nearest_origin(spherical(x)).id);
    Ok(vec![whole(id as usize)])
}

impl Script {
    pub fn new(tables: Tables) -> Script {
        assert_eq!(tables.open, OPENING);
        let mut list = List::new();
        let defined = Set::defined();
        notes::threes(&mut list, NOTE, DEFINED_AT + FACE_AT, &defined.face);
        for (k, table) in tables.all.iter().enumerate() {
            notes::threes(&mut list, NOTE, TABLES_AT + 84 * k, table);
            let opened = open(table, RIGHT);
            assert_eq!(opened.is_ok(), k < tables.open, "table {k}");
            if let Ok(set) = opened {
                notes::threes(&mut list, NOTE, FRAMES_AT + FRAME * k, &set.frame);
            }
        }
        Script {
            list,
            set: Set::filled_with([0.0; 3]),
            tables,
            defined,
            kept: None,
        }
    }

    fn rows(&self, table: usize) -> Rows {
        self.tables.all[table].clone()
    }

    fn record(&mut self, number: u8, arguments: &[f64], outcome: &Outcome) {
        match outcome {
            Ok(answers) => self.list.answered(number, arguments, answers),
            Err(refusal) => self.list.refused(number, *refusal, arguments),
        }
    }

    pub fn open(&mut self, table: usize, lent: [usize; 3]) -> Outcome {
        let rows = self.rows(table);
        let opened = open(&rows, lent);
        let arguments = [&lent.map(whole)[..], &[whole(table)]].concat();
        let outcome = opened.as_ref().map(|_| vec![]).map_err(|n| *n);
        self.record(OPEN, &arguments, &outcome);
        if let Ok(set) = opened {
            self.set = set;
            self.kept = Some((table, oracle_with_table(&rows, new_projection)));
        }
        outcome
    }

    pub fn nearest(&mut self, table: usize, x: [f64; 2]) -> Outcome {
        let outcome = nearest(&self.tables.all[table], x);
        self.record(NEAREST, &[x[0], x[1], whole(table)], &outcome);
        outcome
    }

    // A call that is lent too few numbers of a buffer, or too many: three arguments, where it takes two with a 0, the three
    // lengths, its number, and the table.
    pub fn call_lent(&mut self, table: usize, call: Call, x: &[f64], lent: [usize; 3]) -> u8 {
        let rows = self.rows(table);
        let given = calls::call_with(&rows, call, &mut self.set, lent, x);
        let refusal = given.expect_err("a wrong length");
        let mut arguments = x.to_vec();
        arguments.resize(3, 0.0);
        arguments.extend(lent.map(whole));
        arguments.extend([number(call) as usize, table].map(whole));
        self.list.refused(LENT, refusal, &arguments);
        refusal
    }

    pub fn fill(&mut self, numbers: [f64; 3]) {
        self.list.answered(FILL, &numbers, &[]);
        self.set = Set::filled_with(numbers);
        self.kept = None;
    }

    pub fn put_row(&mut self, row: usize, numbers: [f64; 3]) {
        self.set.put_row(row, numbers);
        notes::threes(&mut self.list, PUT, 3 * row, &numbers);
        self.kept = None;
    }

    pub fn put_face(&mut self, slot: usize, mark: f64, numbers: &[f64]) {
        self.set.put_face(slot, mark, numbers);
        let numbers = [&[mark], numbers].concat();
        let at = FACE_AT + slot * FACE_WIDTH;
        notes::threes(&mut self.list, PUT, at, &numbers);
        self.kept = None;
    }

    pub fn put_sphere(&mut self, slot: usize, mark: f64, numbers: &[f64]) {
        self.set.put_sphere(slot, mark, numbers);
        let numbers = [&[mark], numbers].concat();
        let at = SPHERE_AT + slot * SPHERE_WIDTH;
        notes::threes(&mut self.list, PUT, at, &numbers);
        self.kept = None;
    }

    // What the call has written: face slots by their numbers, since they are the same with every table, a sphere slot number by number.
    fn written(&mut self, before: &Set) {
        let (mut faces, spheres) = notes::written(before, &self.set);
        assert!(faces.len() <= 2 && spheres.len() <= 1);
        for slot in &faces {
            let defined = self.defined.face_slot(*slot).map(bits);
            assert_eq!(self.set.face_slot(*slot).map(bits), defined);
        }
        for slot in spheres {
            notes::sphere_slot(&mut self.list, NOTE, &self.set, slot);
        }
        if !faces.is_empty() {
            faces.resize(2, FACE_SLOTS);
            let faces = [faces[0], faces[1]].map(whole);
            self.list.answered(KEEP, &faces, &[]);
        }
    }

    pub fn call(&mut self, table: usize, call: Call, x: &[f64]) -> Outcome {
        let (rows, before) = (self.rows(table), self.set.clone());
        let outcome = calls::call_with(&rows, call, &mut self.set, RIGHT, x);
        self.written(&before);
        match &mut self.kept {
            Some((own, rust)) if *own == table => {
                let other = oracle_with_table(&rows, || calls::of_kept(call, rust, x));
                assert_eq!(of_bits(&outcome), of_bits(&other), "{call:?} of {x:?}");
            }
            _ if outcome.is_ok() => self.kept = None,
            _ => {}
        }
        let arguments = [x, &[whole(table)]].concat();
        self.record(number(call), &arguments, &outcome);
        outcome
    }
}
