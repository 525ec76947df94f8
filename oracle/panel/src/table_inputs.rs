// What hosts write before steps with a table, on a set that is opened with tables.

use crate::common::generator::Generator;
use crate::inputs::{any_byte, asked, on, turn, Asked, Turn};
use crate::inputs::{NO_LATITUDE, OUTSIDE, POINT, POSITION};
use crate::tables::Tables;

fn open(table: usize) -> Turn {
    Turn {
        asked: Asked::OpenWith(table),
        ..turn(vec![])
    }
}

fn with(table: usize, writes: Vec<(usize, u8)>) -> Turn {
    Turn {
        asked: Asked::StepWith(table),
        ..turn(writes)
    }
}

// A point on the face or not far beyond its edge.
fn point(g: &mut Generator) -> [i32; 2] {
    [(); 2].map(|_| g.whole(-900000000, 900000001) as i32)
}

// Anywhere on the globe.
fn position(g: &mut Generator) -> [i32; 2] {
    let longitude = g.whole(-1800000000, 1800000001) as i32;
    [longitude, g.whole(-900000000, 900000001) as i32]
}

// On a set newly opened with a table: on each of its origins an unplace, a place anywhere, and the command 2 again, which takes the
// inputs and the origin that this one leaves; with any mask. Then a place that is refused, and points too far off the face.
fn newly_opened(g: &mut Generator, table: usize) -> Vec<Turn> {
    let mut turns = vec![open(table)];
    for origin in 0..12 {
        turns.push(with(table, on(origin, point(g))));
        let mask = vec![(2, any_byte(g))];
        turns.push(with(table, [mask, asked(1, position(g))].concat()));
        turns.push(with(table, vec![(0, 2)]));
    }
    turns.push(with(table, asked(1, NO_LATITUDE)));
    turns.extend(OUTSIDE.map(|(origin, point)| with(table, on(origin, point))));
    turns
}

// Tables that pass and open no set: 7, and then steps with them on the set that stands there.
fn not_opening(g: &mut Generator, tables: &Tables) -> Vec<Turn> {
    let mut turns = Vec::new();
    for table in tables.open..tables.pass {
        turns.push(open(table));
        turns.push(with(table, vec![(0, 0), (1, any_byte(g))]));
        for origin in 0..12 {
            turns.push(with(table, on(origin, point(g))));
            turns.push(with(table, asked(1, position(g))));
        }
    }
    turns
}

// 23, 1, 2, 3, 21 and 22 in that order, whatever the command: blocks of other lengths, every choice of buffers that are too short, a
// table that passes, every one that is refused.
fn refused(tables: &Tables) -> Vec<Turn> {
    let mut turns = Vec::new();
    for table in [1].into_iter().chain(tables.pass..tables.all.len()) {
        turns.push(open(table));
        for short in 0..8 {
            for (lent, command) in [(32, 0), (32, 1), (32, 2), (32, 255), (31, 1), (33, 0)] {
                let writes = [vec![(4, 3)], asked(command, POINT)].concat();
                turns.push(Turn {
                    lent,
                    short,
                    ..with(table, writes)
                });
            }
            turns.push(Turn {
                short,
                ..open(table)
            });
        }
    }
    turns
}

// One set, opened again and again with any table; the steps take that of the last open that answered, and now and then any other.
fn in_turn(g: &mut Generator, tables: &Tables) -> Vec<Turn> {
    let mut turns = vec![open(0), with(0, asked(1, POSITION))];
    let mut last = 0;
    for _ in 0..120 {
        let brought = g.whole(0, tables.all.len() as i64) as usize;
        turns.push(open(brought));
        if brought < tables.open {
            last = brought;
        }
        for _ in 0..g.whole(1, 6) {
            turns.push(with(last, asked(1, position(g))));
            turns.push(with(last, vec![(0, 2)]));
            turns.push(with(last, on(any_byte(g) % 13, point(g))));
        }
        let other = g.whole(0, tables.all.len() as i64) as usize;
        turns.push(with(other, vec![(0, any_byte(g) % 4), (15, any_byte(g))]));
    }
    turns
}

pub fn turns(g: &mut Generator, tables: &Tables) -> Vec<Turn> {
    let mut turns = Vec::new();
    for table in 0..tables.open {
        turns.extend(newly_opened(g, table));
    }
    turns.extend(not_opening(g, tables));
    turns.extend(refused(tables));
    turns.extend(in_turn(g, tables));
    turns
}
