// The parts of the list.

use crate::calls::{Call, Forward, Inverse, Place, Unplace};
use crate::common::arguments::{all_lengths, other_numbers, pairs};
use crate::common::fields::whole;
use crate::common::generator::Generator;
use crate::common::refusals::{FACE_LIMITS, LON_LAT_LIMITS, SPHERICAL_LIMITS};
use crate::common::sizes::{RIGHT, SPHERE_COORDINATES};
use crate::common::sphere_slot::with_cross_product;
use crate::common::values::moved;
use crate::inputs::{asked, Target, CALLS};
use crate::script::{Outcome, Script};
use std::f64::consts::PI;

// What stands in a set before it is opened.
const BEFORE: [[f64; 3]; 3] = [[7.5; 3], [1.0; 3], [f64::NAN, -0.0, 1.0]];

// A call at a target, with a table.
fn at(s: &mut Script, g: &mut Generator, table: usize, call: Call, target: &Target) -> Outcome {
    let x = target.arguments(g, call, &s.tables.all[table], &s.set);
    s.call(table, call, &x)
}

// Each on a set newly opened with the table: every origin and index, every call, reflected or not; nearest over the sphere.
pub fn newly_opened(s: &mut Script, g: &mut Generator, table: usize) {
    s.fill(BEFORE[table % 3]);
    for turn in 0..20 {
        let (id, index) = ((turn + table) % 12, (3 * turn + table) % 10);
        let target = Target::in_triangle(g, id, index, turn % 3 == 0);
        let _ = s.open(table, RIGHT);
        let _ = at(s, g, table, CALLS[(turn + turn / 12) % 4], &target);
    }
    for _ in 0..15 {
        let x = [g.between(-PI, PI), g.between(0.0, PI)];
        let _ = s.nearest(table, x);
    }
}

// One set for many calls; then the same with other tables than it was opened with, those that open no set too.
pub fn kept(s: &mut Script, g: &mut Generator, table: usize) {
    let _ = s.open(table, RIGHT);
    for turn in 0..30 {
        let target = Target::any(g);
        let _ = at(s, g, table, CALLS[turn % 4], &target);
    }
    for turn in 0..16 {
        let other = (table + 1 + g.whole(0, s.tables.pass as i64 - 1) as usize) % s.tables.pass;
        let target = Target::any(g);
        let _ = at(s, g, other, CALLS[turn % 4], &target);
    }
}

// A table that opens no set: open changes nothing, and a set that was opened with another one takes it.
pub fn not_opening(s: &mut Script, g: &mut Generator, table: usize) {
    let _ = s.open(1, RIGHT);
    assert_eq!(s.open(table, RIGHT).err(), Some(7));
    for turn in 0..8 {
        let target = Target::any(g);
        let _ = at(s, g, table, CALLS[turn % 4], &target);
    }
    let x = [g.between(-PI, PI), g.between(0.0, PI)];
    s.nearest(table, x).expect("a table that passes");
}

// 21 and 22 before what the arguments would be refused with, in every call; "open" too.
pub fn refused_tables(s: &mut Script) {
    let _ = s.open(2, RIGHT);
    for table in s.tables.pass..s.tables.all.len() {
        let _ = s.open(table, RIGHT);
        for call in CALLS {
            let _ = s.call(table, call, &asked(call, [0.25, 0.5], 3));
            let _ = s.call(table, call, &asked(call, [f64::NAN, 1e9], 12));
        }
        let _ = s.nearest(table, [0.25, 0.5]);
        let _ = s.nearest(table, [f64::INFINITY, 9.0]);
    }
}

// Lengths before the table and the arguments: a good table, one that is refused with 21, one with 22.
pub fn lengths(s: &mut Script) {
    let tables = [1, s.tables.pass, s.tables.all.len() - 3];
    let wrong = all_lengths().into_iter().filter(|lent| *lent != RIGHT);
    for (turn, lent) in wrong.enumerate() {
        let (table, call) = (tables[turn % 3], CALLS[turn % 4]);
        let x = asked(call, [[0.25, 0.5], [f64::NAN, 0.5]][turn / 3 % 2], 12);
        s.call_lent(table, call, &x, lent);
        if turn % 4 == 0 {
            let _ = s.open(table, lent);
        }
    }
}

// 4, 5 and 6 with a table that passes, number by number, and the ends of the ranges.
pub fn refused_arguments(s: &mut Script) {
    let _ = s.open(3, RIGHT);
    let limits = [SPHERICAL_LIMITS, FACE_LIMITS, LON_LAT_LIMITS, FACE_LIMITS];
    for (call, limits) in CALLS.into_iter().zip(limits) {
        let edges = |limit: f64| [limit, moved(-limit, 1), f64::NAN, f64::NEG_INFINITY];
        for (turn, p) in pairs(&edges(limits[0]), &edges(limits[1]))
            .into_iter()
            .enumerate()
        {
            let id = if turn % 8 == 7 { 12 } else { turn % 12 };
            let _ = s.call(3, call, &asked(call, p, id));
            if call == Forward {
                let _ = s.nearest(3, p);
            }
        }
    }
    for id in [11, 12, 255] {
        for call in [Forward, Inverse, Unplace] {
            let _ = s.call(3, call, &asked(call, [0.25, -0.5], id));
        }
    }
}

// Points too far off the face, 19 with every table whose triangles are found; the antipode of an axis, near which forward gives 9.
pub fn outside(s: &mut Script) {
    for table in [1, 2, 5, 8] {
        let _ = s.open(table, RIGHT);
        for (turn, p) in FAR.into_iter().enumerate() {
            for (k, call) in [Inverse, Unplace].into_iter().enumerate() {
                let id = (5 * turn + 4 * k) % 12;
                let _ = s.call(table, call, &[p[0], p[1], whole(id)]);
            }
        }
        for id in [0, 5, 9] {
            let row = &s.tables.all[table][7 * id..];
            let x = [row[0], row[1] - PI, whole(id)];
            let _ = s.call(table, Forward, &x);
        }
    }
}

// Points of the strike program's units, in three reflected triangles.
const FAR: [[f64; 2]; 3] = [
    [1.235847662, -0.125812592],
    [1.235734985, 0.265693756],
    [-1.134423674, 0.541134446],
];

// What foreign hands write into an opened set, by turns: another face slot, another sphere slot with the b × c that stood there and with
// that of its own b and c, a mark that is none with a row of the frame. The slots' own numbers are what an answered inverse leaves there.
fn write(s: &mut Script, g: &mut Generator, table: usize, target: &Target, turn: usize) {
    let (face, sphere) = target.slots();
    let _ = s.open(table, RIGHT);
    let _ = at(s, g, table, Inverse, target);
    let numbers = |slot: Option<&[f64]>, n: usize| slot.map_or(vec![0.5; n], <[f64]>::to_vec);
    let own_face = numbers(s.set.face_slot(face), 6);
    let own_sphere = numbers(s.set.sphere_slot(sphere), SPHERE_COORDINATES + 3);
    let _ = s.open(table, RIGHT);
    let kind = turn % 5;
    match turn / 5 {
        0 => s.put_face(face, 1.0, &other_numbers(g, &own_face, kind)),
        1 => s.put_sphere(sphere, 1.0, &other_numbers(g, &own_sphere, kind)),
        2 => {
            let corners = other_numbers(g, &own_sphere[..SPHERE_COORDINATES], kind);
            s.put_sphere(sphere, 1.0, &with_cross_product(&corners));
        }
        _ => {
            let mark = [2.0, f64::NAN, moved(1.0, 1), -0.0, -1.0][kind];
            s.put_sphere(sphere, mark, &other_numbers(g, &own_sphere, 2));
            let other = [0.0, f64::NAN, 0.6][turn % 3];
            s.put_row([0, 32, 12, 20, 45][kind], [other, 0.0, 0.8]);
        }
    }
}

// Foreign contents on sets that were opened with a table, called with that and with another; sets filled with one number.
pub fn foreign(s: &mut Script, g: &mut Generator, table: usize) {
    for turn in 0..20 {
        let call = CALLS[turn % 4];
        let target = Target::in_triangle(g, turn % 12, 7 * turn % 10, turn % 5 == 0);
        write(s, g, table, &target, turn);
        let _ = at(s, g, table, call, &target);
        let other = (table + turn) % s.tables.pass;
        let _ = at(s, g, other, call, &target);
    }
    for numbers in BEFORE {
        s.fill(numbers);
        for call in CALLS {
            let target = Target::any(g);
            let _ = s.call(table, call, &asked(call, target.point, target.id));
        }
    }
}

// Opened again and again with other tables, and called with that of the last open that answered: an open that is refused is between.
pub fn in_turn(s: &mut Script, g: &mut Generator) {
    let mut last = 1;
    let _ = s.open(last, RIGHT);
    for turn in 0..60 {
        if turn % 4 == 0 {
            let table = g.whole(0, s.tables.all.len() as i64) as usize;
            if s.open(table, RIGHT).is_ok() {
                last = table;
            }
        }
        let target = Target::any(g);
        let _ = at(
            s,
            g,
            last,
            [Place, Unplace, Forward, Inverse][turn % 4],
            &target,
        );
    }
}
