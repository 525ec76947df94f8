// The parts of the list.

use crate::common::arguments::{all_lengths, other_numbers};
use crate::common::generator::Generator;
use crate::common::places::rows;
use crate::common::sizes::{RIGHT, SPHERE_COORDINATES};
use crate::common::sphere_slot::with_cross_product;
use crate::inputs::{in_triangle, several, EDGES};
use crate::script::{Script, MOST};

// On newly opened sets: none, one of each kind, two in one triangle, some, all 120 triangles, and as many as the program has.
pub fn opened(s: &mut Script, g: &mut Generator) {
    s.open();
    s.place_list(&[], 0, RIGHT);
    for position in EDGES.into_iter().chain(several(g, 20)) {
        s.open();
        s.place_list(&[position], 1, RIGHT);
    }
    for slot in [0, 37, 119] {
        let two = [
            in_triangle(g, &s.defined, slot),
            in_triangle(g, &s.defined, slot),
        ];
        s.open();
        s.place_list(&two, 2, RIGHT);
    }
    for count in [2, 3, 7, 31, 100] {
        s.open();
        s.place_list(&several(g, count), count, RIGHT);
    }
    let every: Vec<[f64; 2]> = (0..120)
        .map(|slot| in_triangle(g, &s.defined, slot))
        .collect();
    s.open();
    s.place_list(&every, 120, RIGHT);
    s.open();
    s.place_list(&several(g, MOST), MOST, RIGHT);
}

// One set for many lists, which are placed again once it is full of what they filled.
pub fn kept(s: &mut Script, g: &mut Generator) {
    s.open();
    for count in [1, 5, 0, 12, 40, 3, 80] {
        let list = several(g, count);
        s.place_list(&list, count, RIGHT);
        s.place_list(&list, count, RIGHT);
    }
}

// 1, 2 and 3 before 14, and 14 where there are more results or fewer: nothing is written, whatever the positions are.
pub fn refused(s: &mut Script, g: &mut Generator) {
    s.open();
    let list = [&several(g, 6)[..], &EDGES].concat();
    s.place_list(&list[..3], 3, RIGHT);
    for (count, results) in [(0, 1), (1, 0), (4, 3), (4, 5), (16, 0), (0, 16), (16, 15)] {
        s.place_list(&list[..count], results, RIGHT);
    }
    let wrong = all_lengths().into_iter().filter(|lent| *lent != RIGHT);
    for (turn, lent) in wrong.enumerate() {
        let (count, results) = [(3, 3), (0, 0), (2, 4), (5, 1)][turn % 4];
        s.place_list(&list[..count], results, lent);
    }
    s.place_list(&list, 16, RIGHT);
}

// Foreign contents: a face slot, from which the first position builds its sphere triangle that those after it read; a sphere slot with
// its own b × c and with another, which all of them read as it stands; marks that are none, so that the first writes what the others
// read; a row of the frame. Between them stand positions in other triangles, and refused ones.
pub fn foreign(s: &mut Script, g: &mut Generator) {
    for turn in 0..20 {
        let slot = (turn * 37 + 5) % 120;
        let (face, kind) = (slot % 10, turn % 5);
        let mut list = several(g, 3);
        for at in [0, 2, 4, 5] {
            list.insert(at, in_triangle(g, &s.defined, slot));
        }
        let own_face = s.defined.face_slot(face).expect("all are filled").to_vec();
        let own_sphere = s
            .defined
            .sphere_slot(slot)
            .expect("all are filled")
            .to_vec();
        s.open();
        match turn / 5 {
            0 => s.put_face(face, 1.0, &other_numbers(g, &own_face, kind)),
            1 => s.put_sphere(slot, 1.0, &other_numbers(g, &own_sphere, kind)),
            2 => {
                let corners = other_numbers(g, &own_sphere[..SPHERE_COORDINATES], kind);
                s.put_sphere(slot, 1.0, &with_cross_product(&corners));
            }
            _ => {
                let mark = [2.0, f64::NAN, 0.9999999999999999, -0.0, -1.0][kind];
                s.put_face(face, mark, &other_numbers(g, &own_face, 2));
                s.put_sphere(slot, mark, &other_numbers(g, &own_sphere, 2));
                let row = [0, 32, 12, slot / 10, 45][kind];
                let twice = rows()[row].map(|x| 2.0 * x);
                s.put_row(row, twice);
            }
        }
        s.place_list(&list, list.len(), RIGHT);
        s.place_list(&list, list.len(), RIGHT);
    }
}

// 8 where no vertex is found, beside what is answered by a slot that is filled already.
pub fn no_frame(s: &mut Script, g: &mut Generator) {
    for numbers in [[0.0; 3], [7.5; 3], [f64::NAN; 3], [1.0; 3]] {
        let mut list = several(g, 4);
        list.extend([44, 44, 91].map(|slot| in_triangle(g, &s.defined, slot)));
        s.fill(numbers);
        s.place_list(&list, list.len(), RIGHT);
        let own = s.defined.sphere_slot(44).expect("all are filled").to_vec();
        s.put_sphere(44, 1.0, &own);
        for row in [0, 32, 12] {
            s.put_row(row, rows()[row]);
        }
        s.place_list(&list, list.len(), RIGHT);
    }
}
