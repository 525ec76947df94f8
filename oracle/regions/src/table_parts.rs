// The parts of the list with a table.

use crate::calls::Place;
use crate::common::arguments::{all_lengths, other_numbers};
use crate::common::generator::Generator;
use crate::common::sizes::{RIGHT, SPHERE_COORDINATES};
use crate::common::sphere_slot::with_cross_product;
use crate::inputs::{globe, Position};
use crate::parts::status;
use crate::script::{Script, MOST};
use crate::targets::Target;

// Where a table's face has a point of one of its triangles, on the set as it stands.
fn at(s: &Script, g: &mut Generator, table: usize, id: usize, index: usize) -> Position {
    let target = Target::in_triangle(g, id, index, false);
    let x = target.arguments(g, Place, &s.tables.all[table], &s.set);
    [x[0], x[1]]
}

// An outline on a face of a table.
fn on(s: &Script, g: &mut Generator, table: usize, id: usize, count: usize) -> Vec<Position> {
    (0..count)
        .map(|_| {
            let index = g.whole(0, 10) as usize;
            at(s, g, table, id, index)
        })
        .collect()
}

// A set opened with each of the tables that open one: outlines on two of its faces, each once more on the set that it has filled, and with
// a position of another face; then with another table than the set was opened with, and without one. On the face of an axis that is
// elsewhere no triangle is found.
pub fn opened(s: &mut Script, g: &mut Generator) {
    for table in 0..s.tables.open {
        s.open_with(table);
        for id in [(table + 4) % 12, (2 * table + 1) % 12] {
            let mut list = on(s, g, table, id, 1 + table % 4);
            let first = status(s.outline_with(table, &list));
            assert_eq!(status(s.outline_with(table, &list)), first);
            list.push(at(s, g, table, (id + 5) % 12, 3));
            let _ = s.outline_with(table, &list);
        }
        let other = (table + 1 + g.whole(0, s.tables.pass as i64 - 1) as usize) % s.tables.pass;
        let list = on(s, g, other, table, 3);
        let _ = s.outline_with(other, &list);
        let _ = s.outline(&list);
        let _ = s.outline_with(table, &list);
    }
}

// A table that passes and opens no set, on one that was opened with another.
pub fn not_opening(s: &mut Script, g: &mut Generator) {
    s.open_with(1);
    for table in s.tables.open..s.tables.pass {
        for id in [0, 7] {
            let list = on(s, g, table, id, 2);
            let _ = s.outline_with(table, &list);
            let _ = s.outline_with(table, &list[..1]);
        }
    }
}

// Which refusal is first with a table that passes: 15, then 14, then a refused position's number, then 16; and 256 positions answer.
pub fn order(s: &mut Script, g: &mut Generator) {
    s.open_with(3);
    let mut list = on(s, g, 3, 6, 257);
    let other = at(s, g, 3, 1, 5);
    for (count, places) in [(0, 0), (0, 1), (257, 257), (257, 3)] {
        let given = s.region_with(3, &list[..count], places, RIGHT);
        assert_eq!(status(given), 15);
    }
    list.truncate(256);
    assert_eq!(status(s.region_with(3, &list, 255, RIGHT)), 14);
    assert_eq!(status(s.outline_with(3, &list)), 0);
    list.truncate(3);
    list.extend([other, [f64::NAN, 0.0]]);
    assert_eq!(status(s.region_with(3, &list, 4, RIGHT)), 14);
    assert_eq!(status(s.region_with(3, &list[..1], MOST, RIGHT)), 14);
    assert_eq!(status(s.outline_with(3, &list)), 5);
    assert_eq!(status(s.outline_with(3, &list[..4])), 16);
    assert_eq!(status(s.outline_with(3, &list[..3])), 0);
}

// 21 and 22 before 15 and 14, and before any position is looked at: nothing is written.
pub fn refused(s: &mut Script, g: &mut Generator) {
    s.open_with(2);
    let mut list = on(s, g, 2, 8, 2);
    assert_eq!(status(s.outline_with(2, &list)), 0);
    list.extend([at(s, g, 2, 3, 4), [0.0, f64::INFINITY]]);
    list.resize(257, [0.0; 2]);
    for table in s.tables.pass..s.tables.all.len() {
        for (count, places) in [(2, 2), (0, 0), (257, 1), (1, 2), (4, 4)] {
            let given = s.region_with(table, &list[..count], places, RIGHT);
            assert!([21, 22].contains(&status(given)));
        }
    }
    assert_eq!(status(s.outline_with(2, &list[..2])), 0);
}

// 1, 2 and 3 before the table and the counts: a table that passes, one that is refused with 21, one with 22.
pub fn lengths(s: &mut Script, g: &mut Generator) {
    s.open_with(1);
    let list = on(s, g, 1, 10, 4);
    let tables = [1, s.tables.pass, s.tables.all.len() - 3];
    let wrong = all_lengths().into_iter().filter(|lent| *lent != RIGHT);
    for (turn, lent) in wrong.enumerate() {
        let (count, places) = [(3, 3), (0, 0), (2, 4), (4, 1)][turn % 4];
        let given = s.region_with(tables[turn % 3], &list[..count], places, lent);
        assert!([1, 2, 3].contains(&status(given)));
    }
    assert_eq!(status(s.outline_with(1, &list)), 0);
}

// What foreign hands write into a set opened with a table, as without one: a face slot, a sphere slot with its own b × c and with another,
// a mark that is none and a row of the frame. The slots' own numbers are what an answered region leaves there.
fn write(s: &mut Script, g: &mut Generator, table: usize, slot: usize, turn: usize) {
    let face = slot % 10;
    s.open_with(table);
    let here = at(s, g, table, slot / 10, face);
    assert_eq!(status(s.outline_with(table, &[here])), 0);
    let own_face = s.set.face_slot(face).expect("it is filled").to_vec();
    let own_sphere = s.set.sphere_slot(slot).expect("it is filled").to_vec();
    let kind = turn % 5;
    match turn % 4 {
        0 => s.put_face(face, 1.0, &other_numbers(g, &own_face, kind)),
        1 => s.put_sphere(slot, 1.0, &other_numbers(g, &own_sphere, kind)),
        2 => {
            let corners = other_numbers(g, &own_sphere[..SPHERE_COORDINATES], kind);
            s.put_sphere(slot, 1.0, &with_cross_product(&corners));
        }
        _ => {
            let mark = [2.0, f64::NAN, 0.9999999999999999, -0.0, -1.0][kind];
            s.put_sphere(slot, mark, &other_numbers(g, &own_sphere, 2));
            s.put_row([0, 32, 12, 20, 45][kind], [0.6, 0.0, 0.8]);
        }
    }
}

// Foreign contents, with several positions in the triangle that they concern, and the same outline with another table.
pub fn foreign(s: &mut Script, g: &mut Generator) {
    for turn in 0..8 {
        let (table, slot) = ([1, 2, 5][turn % 3], (turn * 37 + 5) % 120);
        write(s, g, table, slot, turn);
        let mut list = on(s, g, table, slot / 10, 2);
        for place in [0, 2] {
            list.insert(place, at(s, g, table, slot / 10, slot % 10));
        }
        let _ = s.outline_with(table, &list);
        let _ = s.outline_with(table, &list[..1]);
        let _ = s.outline_with((table + turn) % s.tables.pass, &list);
    }
}

// 8 where no vertex is found, with a table.
pub fn no_frame(s: &mut Script, g: &mut Generator) {
    for (table, numbers) in [(0, [0.0; 3]), (1, [7.5; 3]), (6, [1.0; 3])] {
        s.fill(numbers);
        let list = [globe(g), globe(g)];
        let _ = s.outline_with(table, &list);
        let _ = s.outline_with(table, &list[..1]);
    }
}
