// The parts of the list with a table.

use crate::calls::Place;
use crate::common::arguments::{all_lengths, other_numbers};
use crate::common::generator::Generator;
use crate::common::sizes::{RIGHT, SPHERE_COORDINATES};
use crate::common::sphere_slot::with_cross_product;
use crate::inputs::{several, Position, EDGES};
use crate::script::Script;
use crate::targets::Target;

// Where a table's face has a target, on the set as it stands.
fn at(s: &Script, g: &mut Generator, table: usize, target: &Target) -> Position {
    let x = target.arguments(g, Place, &s.tables.all[table], &s.set);
    [x[0], x[1]]
}

// On faces of a table and beside them, with a few positions of any kind between them.
fn positions(s: &Script, g: &mut Generator, table: usize, count: usize) -> Vec<Position> {
    let mut list: Vec<Position> = (0..count)
        .map(|_| {
            let target = Target::any(g);
            at(s, g, table, &target)
        })
        .collect();
    for position in several(g, count.div_ceil(3)) {
        let place = g.whole(0, list.len() as i64) as usize;
        list.insert(place, position);
    }
    list
}

fn whole_list(s: &mut Script, table: usize, list: &[Position]) -> u8 {
    s.place_list_with(table, list, list.len(), RIGHT)
}

// A set opened with each of the tables that open one: lists with it, each once more on the set that it has filled; then lists with
// another table than the set was opened with, without a table, and with the set's own again.
pub fn opened(s: &mut Script, g: &mut Generator) {
    for table in 0..s.tables.open {
        s.open_with(table);
        for count in [0, 1 + table % 5, 6] {
            let list = positions(s, g, table, count);
            assert_eq!(whole_list(s, table, &list), 0);
            assert_eq!(whole_list(s, table, &list), 0);
        }
        let other = (table + 1 + g.whole(0, s.tables.pass as i64 - 1) as usize) % s.tables.pass;
        let list = positions(s, g, other, 4);
        assert_eq!(whole_list(s, other, &list), 0);
        assert_eq!(s.place_list(&list[..3], 3, RIGHT), 0);
        assert_eq!(whole_list(s, table, &list), 0);
    }
}

// A table that passes and opens no set, on one that was opened with another.
pub fn not_opening(s: &mut Script, g: &mut Generator) {
    s.open_with(1);
    for table in s.tables.open..s.tables.pass {
        let list = positions(s, g, table, 5);
        assert_eq!(whole_list(s, table, &list), 0);
    }
}

// 21 and 22 before 14 and before any position is looked at, 14 with a table that passes: nothing is written.
pub fn refused(s: &mut Script, g: &mut Generator) {
    s.open_with(2);
    let list = [&positions(s, g, 2, 4)[..], &EDGES].concat();
    assert_eq!(whole_list(s, 2, &list[..3]), 0);
    for table in s.tables.pass..s.tables.all.len() {
        for (count, results) in [(5, 5), (3, 4), (0, 0), (1, 0)] {
            let status = s.place_list_with(table, &list[..count], results, RIGHT);
            assert!([21, 22].contains(&status));
        }
    }
    for (table, count, results) in [(2, 0, 1), (2, 5, 4), (0, 1, 0), (5, 3, 4), (12, 2, 7)] {
        let status = s.place_list_with(table, &list[..count], results, RIGHT);
        assert_eq!(status, 14);
    }
    assert_eq!(whole_list(s, 2, &list), 0);
}

// 1, 2 and 3 before the table and the counts: a table that passes, one that is refused with 21, one with 22.
pub fn lengths(s: &mut Script, g: &mut Generator) {
    s.open_with(1);
    let list = positions(s, g, 1, 6);
    let tables = [1, s.tables.pass, s.tables.all.len() - 3];
    let wrong = all_lengths().into_iter().filter(|lent| *lent != RIGHT);
    for (turn, lent) in wrong.enumerate() {
        let (count, results) = [(3, 3), (0, 0), (2, 4), (5, 1)][turn % 4];
        let status = s.place_list_with(tables[turn % 3], &list[..count], results, lent);
        assert!([1, 2, 3].contains(&status));
    }
    assert_eq!(whole_list(s, 1, &list), 0);
}

// What foreign hands write into a set opened with a table, as for the lists without one: a face slot, a sphere slot with its own b × c and
// with another, a mark that is none and a row of the frame. The slots' own numbers are what an answered place leaves there.
fn write(s: &mut Script, g: &mut Generator, table: usize, target: &Target, turn: usize) {
    let (face, sphere) = target.slots();
    s.open_with(table);
    let here = at(s, g, table, target);
    assert_eq!(whole_list(s, table, &[here]), 0);
    let own_face = s.set.face_slot(face).map_or(vec![0.5; 6], <[f64]>::to_vec);
    let own_sphere = s.set.sphere_slot(sphere);
    let own_sphere = own_sphere.map_or(vec![0.5; SPHERE_COORDINATES + 3], <[f64]>::to_vec);
    let kind = turn % 5;
    match turn % 4 {
        0 => s.put_face(face, 1.0, &other_numbers(g, &own_face, kind)),
        1 => s.put_sphere(sphere, 1.0, &other_numbers(g, &own_sphere, kind)),
        2 => {
            let corners = other_numbers(g, &own_sphere[..SPHERE_COORDINATES], kind);
            s.put_sphere(sphere, 1.0, &with_cross_product(&corners));
        }
        _ => {
            let mark = [2.0, f64::NAN, 0.9999999999999999, -0.0, -1.0][kind];
            s.put_sphere(sphere, mark, &other_numbers(g, &own_sphere, 2));
            s.put_row([0, 32, 12, 20, 45][kind], [0.6, 0.0, 0.8]);
        }
    }
}

// Foreign contents, with several positions in the triangle that they concern, and the same list with another table.
pub fn foreign(s: &mut Script, g: &mut Generator) {
    for turn in 0..8 {
        let table = [1, 5, 7][turn % 3];
        let target = Target::in_triangle(g, turn % 12, 7 * turn % 10, false);
        write(s, g, table, &target, turn);
        let mut list = positions(s, g, table, 2);
        for place in [0, 2] {
            list.insert(place, at(s, g, table, &target));
        }
        assert_eq!(whole_list(s, table, &list), 0);
        assert_eq!(whole_list(s, (table + turn) % s.tables.pass, &list), 0);
    }
}

// 8 where no vertex is found, with a table.
pub fn no_frame(s: &mut Script, g: &mut Generator) {
    for (table, numbers) in [(0, [0.0; 3]), (1, [7.5; 3]), (6, [1.0; 3])] {
        s.fill(numbers);
        let list = several(g, 6);
        assert_eq!(whole_list(s, table, &list), 0);
    }
}
