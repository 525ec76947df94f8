// The calls with a table: on sets opened with it, with another table than the set was opened with, on foreign contents. After every
// call the outcomes and all numbers of the buffers must be the same.

use crate::calls::{self, Call, Forward, Inverse, Place, Unplace};
use crate::common::fields::{spherical, whole};
use crate::common::refusals::{self, check, lengths, SPHERICAL_LIMITS};
use crate::common::sizes::RIGHT;
use crate::counts::{
    Asked, Counts, Where, FORWARD_WITH, NEAREST_WITH, OPEN_WITH, PANEL_STEP_WITH, PLACE_LIST_WITH,
    TABLE_LOAD,
    TABLE_SAVE,
};
use crate::differential::back;
use crate::draw::Draw;
use crate::foreign_sets;
use crate::library::{of_bytes, Buffers, Library};
use crate::list_oracle::place_list_with;
use crate::lists;
use crate::outcome::Outcome;
use crate::panels::Block;
use crate::set::Set;
use crate::table_draw::{self, Rows};
use a5::core::origin::{find_nearest_origin, oracle_with_table};

// "The file is 677 bytes."
const FILE: usize = 677;

// A set on both sides, and the library that is asked on it.
struct Side {
    place: Where,
    library: Library,
    set: Set,
    buffers: Buffers,
}

pub struct Tables {
    pub counts: Counts,
    opened: Side,
    kept: Side,
    foreign: Side,
    alone: Library,
    // the last one drawn, which the set may or may not have been opened with; and that of the kept set
    drawn: Rows,
    own: Rows,
    // the kept set as open left it
    newly: Set,
    block: Block,
}

// "Open then takes the table": 20, 1, 2, 3, 21, 22, 7.
fn open(table: &[f64], lent: [usize; 3]) -> Result<Set, u8> {
    refusals::table_length(table.len())?;
    lengths(lent)?;
    refusals::table(table)?;
    Set::opened_with(table)
}

// "Nearest takes it too and tests it first."
fn nearest(table: &[f64], x: [f64; 2]) -> Result<Vec<f64>, u8> {
    refusals::table_length(table.len())?;
    refusals::table(table)?;
    check(x, SPHERICAL_LIMITS)?;
    let id = oracle_with_table(table, || find_nearest_origin(spherical(x)).id);
    Ok(vec![whole(id as usize)])
}

// "EAT", 16-bit version 1 and twelve rows of seven doubles, all big-endian.
fn file_of(table: &[f64]) -> Vec<u8> {
    let numbers = table.iter().flat_map(|x| x.to_bits().to_be_bytes());
    b"EAT\0\x01".iter().copied().chain(numbers).collect()
}

// "Refusal 20: wrong length, mark or version. .. They are tried in that order on loading."
fn load(file: &[u8]) -> Result<Vec<f64>, u8> {
    if file.len() != FILE || file[..5] != *b"EAT\0\x01" {
        return Err(20);
    }
    let number = |bytes: &[u8]| f64::from_be_bytes(bytes.try_into().expect("eight"));
    let table: Vec<f64> = file[5..].chunks(8).map(number).collect();
    refusals::table(&table)?;
    Ok(table)
}

// Into room for so many bytes: 20 where that isn't the file's length, and what loading would refuse.
fn save(table: &[f64], room: usize) -> Result<Vec<u8>, u8> {
    refusals::table_length(table.len())?;
    if room != FILE {
        return Err(20);
    }
    refusals::table(table)?;
    Ok(file_of(table))
}

impl Side {
    fn new(place: Where, library: Library) -> Side {
        let set = Set::opened();
        Side {
            place,
            library,
            buffers: Buffers::of(&set),
            set,
        }
    }

    fn lend(&mut self, set: &Set) {
        self.set.clone_from(set);
        self.buffers.take(set);
    }

    fn compare(
        &self,
        counts: &mut Counts,
        call: usize,
        (x, table, lent): (&[f64], &[f64], [usize; 3]),
        ours: &Outcome,
        rust: &Outcome,
    ) {
        let arguments = [x, table].concat();
        let asked = Asked {
            call,
            place: self.place,
            arguments: &arguments,
            lent: Some(lent),
        };
        counts.compare(asked, ours, rust);
        counts.compare_buffers(asked, self.buffers.differing(&self.set));
    }

    fn open(&mut self, counts: &mut Counts, table: &[f64], lent: [usize; 3]) -> bool {
        let ours = self.library.open_with(&mut self.buffers, table, lent);
        let given = open(table, lent);
        let rust = Outcome::of(&given.as_ref().map(|_| vec![]).map_err(|n| *n), 0);
        let opened = given.is_ok();
        if let Ok(set) = given {
            self.set = set;
        }
        self.compare(counts, OPEN_WITH, (&[], table, lent), &ours, &rust);
        opened
    }

    fn call(
        &mut self,
        counts: &mut Counts,
        table: &[f64],
        (call, x): (Call, &[f64]),
        lent: [usize; 3],
    ) -> Result<Vec<f64>, u8> {
        let buffers = &mut self.buffers;
        let ours = self.library.call_with(buffers, table, call, lent, x);
        let given = calls::call_with(table, call, &mut self.set, lent, x);
        let rust = Outcome::of(&given, ours.numbers.len());
        let number = FORWARD_WITH + call as usize;
        self.compare(counts, number, (x, table, lent), &ours, &rust);
        given
    }

    // 20 comes before 23, and 1, 2, 3, 21 and 22 after it.
    fn step(&mut self, counts: &mut Counts, table: &[f64], block: &mut Block, lent: [usize; 3]) {
        let (mut own, arguments) = (block.clone(), block.arguments());
        let buffers = &mut self.buffers;
        let ours = self
            .library
            .panel_step(buffers, Some(table), lent, &mut own);
        let set = &mut self.set;
        let rust = match refusals::table_length(table.len()) {
            Err(refusal) => block.outcome(refusal),
            Ok(()) => {
                let lent = lengths(lent).and_then(|()| refusals::table(table));
                block.stepped(lent, |call, x| calls::call_with(table, call, set, RIGHT, x))
            }
        };
        let asked = (&arguments[..], table, lent);
        self.compare(counts, PANEL_STEP_WITH, asked, &ours, &rust);
    }
}

// A list of positions with so many results.
type List = (Vec<[f64; 2]>, usize);

impl Side {
    fn place_list(
        &mut self,
        counts: &mut Counts,
        table: &[f64],
        (positions, results): &List,
        lent: [usize; 3],
    ) {
        let (buffers, results) = (&mut self.buffers, *results);
        let ours = self
            .library
            .place_list(buffers, Some(table), lent, positions, results);
        let mut expected = vec![lists::LENT; results];
        let set = &mut self.set;
        let given = place_list_with(table, lent, positions, &mut expected, |x| {
            calls::call_with(table, Place, set, RIGHT, x)
        });
        let rust = Outcome {
            status: given.err().unwrap_or(0),
            numbers: lists::numbers(lists::LENT, &expected),
        };
        let x = [&[whole(results)], positions.concat().as_slice()].concat();
        self.compare(counts, PLACE_LIST_WITH, (&x, table, lent), &ours, &rust);
    }
}

impl Tables {
    pub fn new(library: impl Fn(Where) -> Library) -> Tables {
        let side = |place| Side::new(place, library(place));
        Tables {
            counts: Counts::default(),
            opened: side(Where::Opened),
            kept: side(Where::Kept),
            foreign: side(Where::Foreign),
            alone: library(Where::Alone),
            drawn: table_draw::built_in(),
            own: table_draw::built_in(),
            newly: Set::opened(),
            block: Block::new(),
        }
    }

    // Another table, with which a set of any contents is opened. If it opens, the kept set is opened with it too.
    fn renew(&mut self, draw: &mut Draw) {
        self.drawn = table_draw::any(&mut draw.g);
        let table = table_draw::lent(&mut draw.g, &self.drawn);
        let contents = Set::filled_with([draw.g.any(), draw.g.any(), draw.g.any()]);
        self.opened.lend(&contents);
        let lent = draw.lengths(4);
        if self.opened.open(&mut self.counts, &table, lent) {
            self.own.clone_from(&table);
            self.newly.clone_from(&self.opened.set);
            self.kept.lend(&self.newly);
        }
    }

    // Mostly the set's own; else the last one drawn, any other one, or of another length.
    fn table(&self, draw: &mut Draw) -> Rows {
        match draw.g.whole(0, 12) {
            0 => self.drawn.clone(),
            1 => table_draw::any(&mut draw.g),
            2 => table_draw::built_in(),
            _ => table_draw::lent(&mut draw.g, &self.own),
        }
    }

    // A list on the three sets in turn: newly opened with its own table, else with any.
    fn list(&mut self, draw: &mut Draw, turn: u64) {
        let table = match turn % 3 {
            0 => self.own.clone(),
            _ => self.table(draw),
        };
        let side = match turn % 3 {
            0 => &mut self.opened,
            1 => &mut self.kept,
            _ => &mut self.foreign,
        };
        if turn % 3 == 0 {
            side.lend(&self.newly);
        }
        let list = lists::any(draw, &side.set);
        side.place_list(&mut self.counts, &table, &list, draw.lengths(10));
    }

    fn alone(&mut self, draw: &mut Draw) {
        let x = draw.radians();
        let table = self.table(draw);
        let ours = self.alone.nearest_with(&table, x);
        let arguments = [&x[..], &table].concat();
        let asked = Asked {
            call: NEAREST_WITH,
            place: Where::Alone,
            arguments: &arguments,
            lent: None,
        };
        let rust = Outcome::of(&nearest(&table, x), 1);
        self.counts.compare(asked, &ours, &rust);
    }

    fn compare_alone(&mut self, call: usize, table: &[f64], ours: &Outcome, rust: &Outcome) {
        let asked = Asked {
            call,
            place: Where::Alone,
            arguments: table,
            lent: None,
        };
        self.counts.compare(asked, ours, rust);
    }

    // A table's file, read and written. Of a header's bytes one is changed at times, and so are the lengths.
    fn files(&mut self, draw: &mut Draw) {
        let table = table_draw::any(&mut draw.g);
        let mut file = file_of(&table);
        match draw.g.whole(0, 12) {
            0 => file[draw.g.whole(0, 5) as usize] ^= 1 << draw.g.whole(0, 8),
            1 => file.resize(draw.g.whole(0, 700) as usize, 0),
            2 => file.resize(FILE + draw.g.whole(0, 3) as usize - 1, 0),
            _ => {}
        }
        let ours = self.alone.table_load(&file);
        self.compare_alone(TABLE_LOAD, &table, &ours, &Outcome::of(&load(&file), 84));

        let table = table_draw::lent(&mut draw.g, &table);
        let mut bytes = vec![0xa5; FILE + 3];
        let room = match draw.g.whole(0, 12) {
            0 => draw.g.whole(0, FILE as i64 + 4) as usize,
            1 => FILE + draw.g.whole(0, 3) as usize - 1,
            _ => FILE,
        };
        let mut rust = Outcome::of(&save(&table, room).map(|_| vec![]), 0);
        rust.numbers = of_bytes(&bytes, room);
        if let Ok(file) = save(&table, room) {
            rust.numbers.truncate(3);
            rust.numbers.extend(of_bytes(&file, FILE));
        }
        let ours = self.alone.table_save(&table, &mut bytes, room);
        self.compare_alone(TABLE_SAVE, &table, &ours, &rust);
    }

    // A step of the panel, on the three in turn; on a newly opened set with its own table.
    fn steps(&mut self, draw: &mut Draw, turn: u64) {
        let (table, lent) = (self.table(draw), draw.lengths(20));
        if turn % 3 == 0 {
            self.opened.lend(&self.newly);
        }
        let (side, table) = match turn % 3 {
            0 => (&mut self.opened, &self.own),
            1 => (&mut self.kept, &table),
            _ => (&mut self.foreign, &table),
        };
        self.block.host_writes(draw, &side.set);
        side.step(&mut self.counts, table, &mut self.block, lent);
    }

    pub fn turn(&mut self, draw: &mut Draw, turn: u64) {
        if turn % 8 == 0 {
            self.renew(draw);
        }
        if turn % 4 == 0 {
            let set = foreign_sets::any(&mut draw.g, &draw.defined);
            self.foreign.lend(&set);
        }
        for call in [Forward, Inverse, Place, Unplace] {
            let x = draw.arguments(call, &self.kept.set);
            let (table, lent) = (self.table(draw), draw.lengths(60));
            let asked = (call, &x[..]);
            let given = self.kept.call(&mut self.counts, &table, asked, lent);
            if let Ok(answer) = given {
                let (call, x) = back(call, &x, &answer);
                let _ = self.kept.call(&mut self.counts, &table, (call, &x), RIGHT);
            }
            let x = draw.arguments(call, &self.foreign.set);
            let (table, lent) = (self.table(draw), draw.lengths(60));
            let asked = (call, &x[..]);
            let _ = self.foreign.call(&mut self.counts, &table, asked, lent);
            // newly opened with its own table
            let x = draw.arguments(call, &self.newly);
            self.opened.lend(&self.newly);
            let (counts, asked) = (&mut self.counts, (call, &x[..]));
            let _ = self.opened.call(counts, &self.own, asked, RIGHT);
        }
        self.list(draw, turn);
        self.steps(draw, turn);
        self.alone(draw);
        self.files(draw);
    }
}
