// The parts of the list.

use crate::common::arguments::{all_lengths, other_numbers};
use crate::common::places::rows;
use crate::common::sizes::{RIGHT, SPHERE_COORDINATES};
use crate::common::sphere_slot::with_cross_product;
use crate::inputs::{Position, EDGES};
use crate::outlines::Faces;
use crate::regions::Region;
use crate::script::{Script, MOST};

pub fn status(given: Result<Region, u8>) -> u8 {
    given.err().unwrap_or(0)
}

// On newly opened sets: no position, one on each face, one of each kind that is refused or at the end of a range, two in one triangle,
// and some on each face.
pub fn opened(s: &mut Script, f: &mut Faces) {
    s.open();
    assert_eq!(status(s.outline(&[])), 15);
    assert_eq!(status(s.region(&[], 1, RIGHT)), 15);
    for origin in 0..12 {
        s.open();
        assert_eq!(status(s.outline(&f.outline(origin, 1))), 0);
    }
    for position in EDGES {
        s.open();
        let _ = s.outline(&[position]);
    }
    for slot in [0, 37, 119] {
        s.open();
        assert_eq!(status(s.outline(&[f.within(slot), f.within(slot)])), 0);
    }
    for origin in 0..12 {
        s.open();
        assert_eq!(status(s.outline(&f.outline(origin, 2 + origin % 5))), 0);
    }
}

// One set for many outlines, each once more on the set that it has filled; between them such as are refused, which fill nothing.
pub fn kept(s: &mut Script, f: &mut Faces) {
    s.open();
    for (turn, count) in [1, 5, 2, 12, 3, 8, 1, 20].into_iter().enumerate() {
        let mut list = f.outline(turn % 3, count);
        assert_eq!(status(s.outline(&list)), 0);
        assert_eq!(status(s.outline(&list)), 0);
        list.push(f.within(10 * (turn + 4) + turn));
        assert_eq!(status(s.outline(&list)), 16);
    }
}

// Which refusal is first: origins that differ at the last place alone, at the first, in the middle; a refused position after a differing
// origin and before one; two refused ones.
pub fn order(s: &mut Script, f: &mut Faces) {
    for (turn, count) in [1, 2, 4, 8].into_iter().enumerate() {
        let origin = 3 * turn;
        let list = f.outline(origin, count);
        let other = f.within(10 * ((origin + 5) % 12) + turn);
        let with = |at: usize, more: &[Position]| [&list[..at], more, &list[at..]].concat();
        let [infinite, wide] = [[0.0, f64::INFINITY], [12.5, 90.00000000000001]];
        s.open();
        assert_eq!(status(s.outline(&with(count, &[other]))), 16);
        assert_eq!(status(s.outline(&with(0, &[other]))), 16);
        assert_eq!(status(s.outline(&with(count / 2, &[other]))), 16);
        assert_eq!(status(s.outline(&with(count, &[other, infinite]))), 5);
        assert_eq!(status(s.outline(&with(count, &[wide, other]))), 6);
        assert_eq!(status(s.outline(&with(count / 2, &[wide, infinite]))), 6);
        assert_eq!(status(s.outline(&list)), 0);
        assert_eq!(status(s.outline(&with(count, &[infinite, wide]))), 5);
        assert_eq!(status(s.outline(&with(count, &[other]))), 16);
    }
}

// 256 positions on a newly opened set and on one that is used; the last of them on another face; 257, and as many as the program has; and
// one point place more or less.
pub fn long(s: &mut Script, f: &mut Faces) {
    let list = f.outline(7, 257);
    s.open();
    assert_eq!(status(s.outline(&list[..256])), 0);
    assert_eq!(status(s.outline(&list)), 15);
    assert_eq!(status(s.region(&list[..256], 255, RIGHT)), 14);
    assert_eq!(status(s.region(&list[..255], 256, RIGHT)), 14);
    assert_eq!(status(s.region(&list, 0, RIGHT)), 15);
    let mut other = list[..256].to_vec();
    other[255] = f.within(21);
    s.open();
    assert_eq!(status(s.outline(&other)), 16);
    s.open();
    assert_eq!(status(s.outline(&f.outline(2, 9))), 0);
    assert_eq!(status(s.outline(&list[..256])), 0);
    let most = [&list[..], &list[..MOST - 257]].concat();
    assert_eq!(status(s.region(&most, 1, RIGHT)), 15);
    assert_eq!(status(s.outline(&most)), 15);
}

// 1, 2 and 3 before 15, and 15 before 14; 14 before a refused position and before 16; every wrong length: nothing is written.
pub fn refused(s: &mut Script, f: &mut Faces) {
    s.open();
    let mut list = f.outline(9, 4);
    assert_eq!(status(s.outline(&list[..2])), 0);
    list.extend([f.within(3), [f64::NAN, 0.0]]);
    for (count, places) in [
        (1, 0),
        (1, 2),
        (3, 2),
        (3, 4),
        (5, 4),
        (6, 5),
        (6, 7),
        (4, 0),
        (2, MOST),
    ] {
        assert_eq!(status(s.region(&list[..count], places, RIGHT)), 14);
    }
    let wrong = all_lengths().into_iter().filter(|lent| *lent != RIGHT);
    for (turn, lent) in wrong.enumerate() {
        let (count, places) = [(3, 3), (0, 0), (2, 4), (6, 6)][turn % 4];
        assert!([1, 2, 3].contains(&status(s.region(&list[..count], places, lent))));
    }
    assert_eq!(status(s.outline(&list)), 5);
    assert_eq!(status(s.outline(&list[..5])), 16);
    assert_eq!(status(s.outline(&list[..4])), 0);
}

// Foreign contents, as for lists of positions: a face slot, a sphere slot with its own b × c or with another, marks that are none, a row
// of the frame. Several positions lie in the triangle of that slot, others on the same face.
pub fn foreign(s: &mut Script, f: &mut Faces) {
    for turn in 0..20 {
        let slot = (turn * 37 + 5) % 120;
        let (face, kind) = (slot % 10, turn % 5);
        let mut list = f.outline(slot / 10, 2);
        for at in [0, 2, 3] {
            list.insert(at, f.within(slot));
        }
        let own_face = s.defined.face_slot(face).expect("all are filled").to_vec();
        let own_sphere = s
            .defined
            .sphere_slot(slot)
            .expect("all are filled")
            .to_vec();
        s.open();
        match turn / 5 {
            0 => s.put_face(face, 1.0, &other_numbers(&mut f.g, &own_face, kind)),
            1 => s.put_sphere(slot, 1.0, &other_numbers(&mut f.g, &own_sphere, kind)),
            2 => {
                let corners = other_numbers(&mut f.g, &own_sphere[..SPHERE_COORDINATES], kind);
                s.put_sphere(slot, 1.0, &with_cross_product(&corners));
            }
            _ => {
                let mark = [2.0, f64::NAN, 0.9999999999999999, -0.0, -1.0][kind];
                s.put_face(face, mark, &other_numbers(&mut f.g, &own_face, 2));
                s.put_sphere(slot, mark, &other_numbers(&mut f.g, &own_sphere, 2));
                let row = [0, 32, 12, slot / 10, 45][kind];
                s.put_row(row, rows()[row].map(|x| 2.0 * x));
            }
        }
        let _ = s.outline(&list);
        let _ = s.outline(&list);
        let _ = s.outline(&list[1..2]);
    }
}

// Points beyond ±4, which the box takes in all the same: a face slot of larger numbers, with the sphere slot as it is defined.
pub fn beyond(s: &mut Script, f: &mut Faces) {
    for (slot, size) in [
        (0, 9.0),
        (37, -9.0),
        (58, 1e9),
        (83, 1e300),
        (119, f64::MAX),
    ] {
        let own_face = s
            .defined
            .face_slot(slot % 10)
            .expect("all are filled")
            .to_vec();
        let own_sphere = s
            .defined
            .sphere_slot(slot)
            .expect("all are filled")
            .to_vec();
        let numbers: Vec<f64> = own_face.iter().map(|x| x * size).collect();
        let list = [
            f.within(slot),
            f.on(slot / 10),
            f.within(slot),
            f.within(slot),
        ];
        s.open();
        s.put_face(slot % 10, 1.0, &numbers);
        s.put_sphere(slot, 1.0, &own_sphere);
        if let Ok(region) = s.outline(&list) {
            assert!(region.caption.sides.iter().any(|side| side.abs() > 4.0));
        }
        let _ = s.outline(&list[2..]);
    }
}

// 8 where no vertex is found: after a position that a filled slot answers, which then fills nothing, and before one whose origin differs.
pub fn no_frame(s: &mut Script, f: &mut Faces) {
    for numbers in [[0.0; 3], [7.5; 3], [f64::NAN; 3], [1.0; 3]] {
        let [first, second, other, far] = [44, 44, 46, 91].map(|slot| f.within(slot));
        let list = [first, second, other, far];
        s.fill(numbers);
        let _ = s.outline(&list);
        let own = s.defined.sphere_slot(44).expect("all are filled").to_vec();
        s.put_sphere(44, 1.0, &own);
        let _ = s.outline(&list);
        let _ = s.outline(&list[..2]);
        let _ = s.outline(&[first, far, [f64::NAN, 0.0]]);
        let _ = s.outline(&[first, [0.0, 91.0], far]);
    }
}
