// What the lists of calls on several positions share: the list as it grows, beside the set that its calls are lent. The program that replays
// it has the set, notes of what it should hold, then the Rust's set with every slot filled and the tables, and the positions.

use crate::common::fields::{bits, whole};
use crate::common::list::List;
use crate::common::sizes::{FACE_SLOTS, FACE_WIDTH, RIGHT, SPHERE_SLOTS, SPHERE_WIDTH};
use crate::notes::{self, DEFINED_AT, FACE_AT, SPHERE_AT};
use crate::set::{new_projection, Set};
use crate::tables::Tables;
use a5::core::origin::oracle_with_table;
use a5::projections::dodecahedron::DodecahedronProjection;

// The number of open's records.
const OPEN: u8 = 2;

const TABLES_AT: usize = 2 * DEFINED_AT;

// The number of the table that calls without one take.
pub const BUILT_IN: usize = 0;

// The numbers of the records that are no calls.
#[derive(Clone, Copy)]
struct Numbers {
    position: u8,
    note: u8,
    fill: u8,
    put: u8,
    keep: u8,
}

pub struct Stage {
    pub list: List,
    pub set: Set,
    pub defined: Set,
    pub tables: Tables,
    // the Rust's own, with its own caches, and the table that it was made with, until something else has written in the set
    pub kept: Option<(usize, DodecahedronProjection)>,
    numbers: Numbers,
    // the positions that the program has by now
    positions: Vec<[f64; 2]>,
}

impl Stage {
    // With so many positions; the records that are no calls are numbered from a number on.
    pub fn new(tables: Tables, most: usize, from: u8) -> Stage {
        let mut list = List::new();
        let defined = Set::defined();
        let numbers = Numbers {
            position: from,
            note: from + 1,
            fill: from + 2,
            put: from + 3,
            keep: from + 4,
        };
        let note = numbers.note;
        notes::threes(&mut list, note, DEFINED_AT, &defined.frame);
        notes::threes(&mut list, note, DEFINED_AT + FACE_AT, &defined.face);
        notes::threes(&mut list, note, DEFINED_AT + SPHERE_AT, &defined.sphere);
        for (k, table) in tables.all.iter().enumerate() {
            notes::threes(&mut list, note, TABLES_AT + 84 * k, table);
        }
        Stage {
            list,
            set: Set::filled_with([0.0; 3]),
            defined,
            tables,
            kept: None,
            numbers,
            positions: vec![[0.0; 2]; most],
        }
    }

    // Without a table.
    pub fn open(&mut self) {
        self.list.answered(OPEN, &RIGHT.map(whole), &[]);
        self.set = Set::opened();
        self.kept = Some((BUILT_IN, new_projection()));
    }

    // What open leaves with a table, as foreign hands make it of an opened set: the rows that differ are written.
    pub fn open_with(&mut self, table: usize) {
        let rows = &self.tables.all[table];
        let opened = Set::opened_with(rows).expect("a table that opens a set");
        let kept = oracle_with_table(rows, new_projection);
        self.open();
        for (row, numbers) in opened.frame.chunks(3).enumerate() {
            if bits(&self.set.frame[3 * row..][..3]) != bits(numbers) {
                self.put_row(row, [numbers[0], numbers[1], numbers[2]]);
            }
        }
        self.kept = Some((table, kept));
    }

    // One number for each of the three buffers.
    pub fn fill(&mut self, numbers: [f64; 3]) {
        self.list.answered(self.numbers.fill, &numbers, &[]);
        self.set = Set::filled_with(numbers);
        self.kept = None;
    }

    // What foreign hands write, from a place on.
    fn put(&mut self, place: usize, numbers: &[f64]) {
        notes::threes(&mut self.list, self.numbers.put, place, numbers);
        self.kept = None;
    }

    pub fn put_row(&mut self, row: usize, numbers: [f64; 3]) {
        self.set.put_row(row, numbers);
        self.put(3 * row, &numbers);
    }

    pub fn put_face(&mut self, slot: usize, mark: f64, numbers: &[f64]) {
        self.set.put_face(slot, mark, numbers);
        self.put(FACE_AT + slot * FACE_WIDTH, &[&[mark], numbers].concat());
    }

    pub fn put_sphere(&mut self, slot: usize, mark: f64, numbers: &[f64]) {
        self.set.put_sphere(slot, mark, numbers);
        self.put(
            SPHERE_AT + slot * SPHERE_WIDTH,
            &[&[mark], numbers].concat(),
        );
    }

    // The positions of the next call; those that stand there already have no record.
    pub fn stand(&mut self, positions: &[[f64; 2]]) {
        for (k, position) in positions.iter().enumerate() {
            if bits(&self.positions[k]) != bits(position) {
                self.positions[k] = *position;
                let record = [whole(k), position[0], position[1]];
                self.list.answered(self.numbers.position, &record, &[]);
            }
        }
    }

    // What the call has written: slots as defined by their numbers, two face slots and a sphere slot to a record, other sphere slots
    // number by number.
    pub fn written(&mut self, before: &Set) {
        let (mut faces, spheres) = notes::written(before, &self.set);
        let is_defined = |slot: &usize| {
            let found = self.set.sphere_slot(*slot).map(bits);
            found == self.defined.sphere_slot(*slot).map(bits)
        };
        let (mut defined, others): (Vec<usize>, Vec<usize>) =
            spheres.into_iter().partition(is_defined);
        for slot in others {
            notes::sphere_slot(&mut self.list, self.numbers.note, &self.set, slot);
        }
        let records = defined.len().max(faces.len().div_ceil(2));
        faces.resize(2 * records, FACE_SLOTS);
        defined.resize(records, SPHERE_SLOTS);
        for (face, sphere) in faces.chunks(2).zip(defined) {
            let slots = [face[0], face[1], sphere].map(whole);
            self.list.answered(self.numbers.keep, &slots, &[]);
        }
    }
}
