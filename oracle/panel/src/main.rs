// Writes the oracle's steps of the caption panel to standard output, or with the word `test` tries what Paper 11 says.
//
// The list begins with the tables, 84 doubles each. All steps are on one set, newly opened before the first. A record is five
// bytes: what is asked (0 a step, 1 a step with a table, 2 that the set is opened with a table), the table's number, which buffers
// are lent without their last number (1 the frame, 2 the face store, 4 the sphere store, or a sum of these), how many bytes of the
// block are lent, and the status, 0 for carried out and otherwise the refusal's number; then two runs of 34 bytes, the block and two
// behind it: as the step before left it and a host then wrote to it, and as it must stand after the step.

#[path = "../../calls/src/calls.rs"]
#[allow(dead_code)]
mod calls;
#[path = "../../common/mod.rs"]
mod common;
mod inputs;
mod panel;
mod selftest;
#[path = "../../calls/src/set.rs"]
#[allow(dead_code)]
mod set;
mod table_inputs;
#[path = "../../table_calls/src/tables.rs"]
mod tables;

use a5::projections::dodecahedron::DodecahedronProjection;
use common::generator::Generator;
use common::refusals::{self, lengths};
use common::sizes::RIGHT;
use inputs::{Asked, Turn, ROOM};
use set::{new_projection, Set};
use std::io::Write;
use tables::{Rows, Tables};

pub type Block = [u8; ROOM];

// A step with the projection that is kept.
pub fn step(rust: &mut DodecahedronProjection, block: &mut [u8]) -> u8 {
    let call = |call, x: &[f64]| calls::of_kept(call, rust, x);
    panel::step(block, Ok(()), call).err().unwrap_or(0)
}

// A step with a table on a set of which so many numbers are lent.
pub fn step_with(table: &Rows, set: &mut Set, lent: [usize; 3], block: &mut [u8]) -> u8 {
    let checks = lengths(lent).and_then(|_| refusals::table(table));
    let call = |call, x: &[f64]| calls::call_with(table, call, set, lent, x);
    panel::step(block, checks, call).err().unwrap_or(0)
}

// "Open then takes the table": a refused one leaves the set.
fn open_with(table: &Rows, set: &mut Set, lent: [usize; 3]) -> u8 {
    let opened = lengths(lent)
        .and_then(|_| refusals::table(table))
        .and_then(|_| Set::opened_with(table));
    match opened {
        Ok(opened) => {
            *set = opened;
            0
        }
        Err(refusal) => refusal,
    }
}

// The steps without a table come first: the projection is kept for them alone, and the set for those with one.
struct Desk {
    rust: DodecahedronProjection,
    set: Set,
    tables: Tables,
}

impl Desk {
    fn ask(&mut self, turn: &Turn, block: &mut [u8]) -> u8 {
        let mut lent = RIGHT;
        (0..3).for_each(|i| lent[i] -= usize::from(turn.short >> i & 1));
        match turn.asked {
            Asked::Step => step(&mut self.rust, block),
            Asked::StepWith(k) => step_with(&self.tables.all[k], &mut self.set, lent, block),
            Asked::OpenWith(k) => open_with(&self.tables.all[k], &mut self.set, lent),
        }
    }
}

fn head(turn: &Turn, status: u8) -> [u8; 5] {
    let (asked, table) = match turn.asked {
        Asked::Step => (0, 0),
        Asked::StepWith(table) => (1, table),
        Asked::OpenWith(table) => (2, table),
    };
    [asked, table as u8, turn.short, turn.lent as u8, status]
}

fn list() -> Vec<u8> {
    let g = &mut Generator::new(10);
    let mut desk = Desk {
        rust: new_projection(),
        set: Set::opened(),
        tables: tables::tables(g),
    };
    let numbers = desk.tables.all.concat().into_iter();
    let mut list: Vec<u8> = numbers.flat_map(f64::to_be_bytes).collect();
    let mut turns = inputs::turns();
    turns.extend(table_inputs::turns(g, &desk.tables));
    let mut block: Block = [0; ROOM];
    for turn in turns {
        for (at, byte) in &turn.writes {
            block[*at] = *byte;
        }
        let before = block;
        let status = desk.ask(&turn, &mut block[..turn.lent]);
        list.extend(head(&turn, status));
        list.extend(before);
        list.extend(block);
    }
    list
}

fn main() {
    if std::env::args().nth(1).as_deref() == Some("test") {
        return selftest::run();
    }
    std::io::stdout().write_all(&list()).expect("written");
}
