// Sets that foreign hands have written: marks, coordinates and rows.

use crate::calls::{Forward, Place};
use crate::common::arguments::SMALLEST;
use crate::common::fields::{bits, whole};
use crate::common::generator::Generator;
use crate::common::places::rows;
use crate::common::sizes::{FACE_COORDINATES, RIGHT, SPHERE_COORDINATES};
use crate::common::sphere_slot::with_cross_product;
use crate::common::values::{moved, near};
use crate::inputs::{forward, inverse, lon_lat_of, place, point_in, position_of, unplace, Asked};
use crate::script::Script;
use crate::set::Set;
use std::f64::consts::PI;

// A triangle of a face, with a point in it.
#[derive(Debug)]
pub struct Target {
    pub id: usize,
    pub index: usize,
    pub reflected: bool,
    pub point: [f64; 2],
}

#[derive(Clone, Copy)]
pub enum Slot {
    Face(usize),
    Sphere(usize),
}

impl Target {
    fn any(g: &mut Generator, reflected: bool) -> Target {
        let (id, index) = (g.whole(0, 12) as usize, g.whole(0, 10) as usize);
        let point = point_in(g, index, reflected);
        Target {
            id,
            index,
            reflected,
            point,
        }
    }

    pub fn sphere(&self) -> usize {
        10 * self.id + self.index + if self.reflected { 120 } else { 0 }
    }

    // The slots that a call on it uses.
    pub fn slots(&self) -> Vec<Slot> {
        let sphere = Slot::Sphere(self.sphere());
        if self.reflected {
            vec![
                Slot::Face(10 + self.index),
                Slot::Face(20 + self.index),
                sphere,
            ]
        } else {
            vec![Slot::Face(self.index), sphere]
        }
    }

    fn calls(&self) -> Vec<Asked> {
        let position = position_of(self.point, self.id);
        let mut list = vec![
            forward(position, self.id),
            inverse(self.point, self.id),
            unplace(self.point, self.id),
        ];
        if !self.reflected {
            list.push(place(lon_lat_of(position)));
        }
        list
    }

    // The rows of the frame that the sphere triangle consists of.
    pub fn rows(&self, defined: &Set) -> Vec<usize> {
        let triangle = defined.sphere_slot(self.sphere()).expect("all are filled");
        let row = |v: &[f64]| rows().iter().position(|r| r == v).expect("a row");
        let vertices = triangle[..SPHERE_COORDINATES].chunks(3);
        vertices.map(row).collect()
    }
}

// What follows a slot's mark: six coordinates, or nine and b × c.
pub fn contents(set: &Set, slot: Slot) -> Vec<f64> {
    let found = match slot {
        Slot::Face(k) => set.face_slot(k),
        Slot::Sphere(k) => set.sphere_slot(k),
    };
    found.expect("all are filled").to_vec()
}

pub fn put(script: &mut Script, slot: Slot, mark: f64, contents: &[f64]) {
    match slot {
        Slot::Face(k) => script.put_face(k, mark, contents),
        Slot::Sphere(k) => script.put_sphere(k, mark, contents),
    }
}

fn moved_by(g: &mut Generator, x: &[f64], size: f64) -> Vec<f64> {
    x.iter().map(|x| x + g.between(-size, size)).collect()
}

fn anywhere(g: &mut Generator, count: usize) -> Vec<f64> {
    (0..count).map(|_| g.between(-1.0, 1.0)).collect()
}

// "1.0 is filled, anything else is empty": what stands there is not read, and is written over by an answered call.
fn marks(script: &mut Script, g: &mut Generator, defined: &Set) {
    let list = [
        2.0,
        f64::NAN,
        -1.0,
        moved(1.0, 1),
        moved(1.0, -1),
        f64::INFINITY,
        -0.0,
        SMALLEST,
    ];
    for (turn, mark) in list.into_iter().enumerate() {
        for reflected in [false, true] {
            let target = Target::any(g, reflected);
            let slots = target.slots();
            let calls = target.calls();
            for (k, slot) in slots.iter().enumerate() {
                script.open(RIGHT);
                let other = anywhere(g, contents(defined, *slot).len());
                put(script, *slot, mark, &other);
                let (call, x) = &calls[(turn + k) % calls.len()];
                let answer = script.call(*call, x);
                assert!(answer.is_ok(), "a slot that is not marked is empty");
            }
            script.open(RIGHT);
            for slot in slots {
                let other = anywhere(g, contents(defined, slot).len());
                put(script, slot, mark, &other);
            }
            for (call, x) in &calls[turn % 2..] {
                let _ = script.call(*call, x);
            }
        }
    }
}

fn broken(g: &mut Generator, x: &[f64], with: f64) -> Vec<f64> {
    let mut copy = x.to_vec();
    copy[g.whole(0, x.len() as i64) as usize] = with;
    copy
}

// Other coordinates for a slot: a little moved, the corners in other orders, twice as large, anywhere, nothing, what is not a
// finite number, too large.
fn other_triangles(g: &mut Generator, x: &[f64]) -> Vec<Vec<f64>> {
    let n = x.len() / 3;
    vec![
        moved_by(g, x, 1e-7),
        [&x[n..], &x[..n]].concat(),
        [&x[..n], &x[2 * n..], &x[n..2 * n]].concat(),
        x.iter().map(|x| 2.0 * x).collect(),
        anywhere(g, x.len()),
        vec![0.0; x.len()],
        broken(g, x, f64::NAN),
        broken(g, x, f64::INFINITY),
        x.iter().map(|x| 1e200 * x).collect(),
    ]
}

// Another b × c: a little moved, c × b, twice as large, anywhere, nothing, what is not a finite number, too large.
fn other_cross_products(g: &mut Generator, x: &[f64]) -> Vec<Vec<f64>> {
    let times = |by: f64| x.iter().map(|x| by * x).collect();
    vec![
        moved_by(g, x, 1e-7),
        times(-1.0),
        times(2.0),
        anywhere(g, x.len()),
        times(0.0),
        broken(g, x, f64::NAN),
        broken(g, x, f64::INFINITY),
        times(1e200),
    ]
}

// How many others there are of a slot's contents.
const OTHERS: usize = 18;

// Other coordinates: in a sphere slot each with the b × c that stood there, and with that of its own b and c.
fn others(g: &mut Generator, x: &[f64]) -> Vec<Vec<f64>> {
    if x.len() == FACE_COORDINATES {
        return other_triangles(g, x);
    }
    let (corners, bxc) = x.split_at(SPHERE_COORDINATES);
    let both = |t: Vec<f64>| [[&t, bxc].concat(), with_cross_product(&t)];
    let list: Vec<Vec<f64>> = other_triangles(g, corners)
        .into_iter()
        .flat_map(both)
        .collect();
    assert_eq!(list.len(), OTHERS);
    list
}

// "A filled slot is read as it stands, even if foreign hands wrote it", "a call that builds a sphere triangle on foreign contents
// still takes a filled face slot as it stands": one slot that a call uses, then all of them.
fn filled(script: &mut Script, g: &mut Generator, defined: &Set) {
    for reflected in [false, true] {
        let target = Target::any(g, reflected);
        for slot in target.slots() {
            for other in others(g, &contents(defined, slot)) {
                for (call, x) in target.calls() {
                    script.open(RIGHT);
                    put(script, slot, 1.0, &other);
                    let _ = script.call(call, &x);
                }
            }
        }
        let target = Target::any(g, reflected);
        for turn in 0..OTHERS {
            script.open(RIGHT);
            for slot in target.slots() {
                let list = others(g, &contents(defined, slot));
                put(script, slot, 1.0, &list[turn % list.len()]);
            }
            for (call, x) in target.calls() {
                let _ = script.call(call, &x);
            }
        }
    }
}

// Paper 6: "Forward reads b × c there, as it stands, instead of forming it; inverse goes on as before." Where a slot has another
// b × c than that of its b and c, forward and place come to something else than on the slot as defined, inverse and unplace to
// the same.
fn cross_products(script: &mut Script, g: &mut Generator, defined: &Set) {
    let mut told = false;
    for reflected in [false, true] {
        let target = Target::any(g, reflected);
        let slot = Slot::Sphere(target.sphere());
        let own = contents(defined, slot);
        let (corners, bxc) = own.split_at(SPHERE_COORDINATES);
        for (call, x) in target.calls() {
            let mut with = |bxc: &[f64]| {
                script.open(RIGHT);
                put(script, slot, 1.0, &[corners, bxc].concat());
                script.call(call, &x).map(|answer| bits(&answer))
            };
            let as_defined = with(bxc);
            for other in other_cross_products(g, bxc) {
                let is_other = with(&other) != as_defined;
                let is_read = call == Forward || call == Place;
                assert!(is_read || !is_other, "{call:?} of {x:?}, {other:?}");
                told |= is_other;
            }
        }
    }
    // at a corner of the triangle b × c does not matter, and a small change may be lost in rounding: so not each has to show
    assert!(told, "no other b x c alters an answer");
}

// The triangle's corners: there "inverse returns a, b, c".
fn corners(target: &Target, defined: &Set) -> Vec<[f64; 2]> {
    let slot = target.slots()[0];
    let x = contents(defined, slot);
    x.chunks(2).map(|p| [p[0], p[1]]).collect()
}

fn everything(script: &mut Script, target: &Target, defined: &Set) {
    let mut calls = target.calls();
    for p in corners(target, defined) {
        calls.extend([inverse(p, target.id), unplace(p, target.id)]);
    }
    for (call, x) in calls {
        let _ = script.call(call, &x);
    }
}

// "8: forward on 186 zeros, empty stores", also where the answer would be a corner; and where the sphere slot is filled, with the
// triangle defined for it, nothing has to be built.
fn no_frame(script: &mut Script, g: &mut Generator, defined: &Set) {
    for numbers in [[0.0; 3], [7.5; 3], [f64::NAN; 3], [1.0; 3], [0.0, 1.0, 0.0]] {
        for reflected in [false, true] {
            let target = Target::any(g, reflected);
            script.fill(numbers);
            everything(script, &target, defined);
            let slot = Slot::Sphere(target.sphere());
            put(script, slot, 1.0, &contents(defined, slot));
            everything(script, &target, defined);
        }
    }
    script.fill([0.0; 3]);
    let answer = script.call(crate::calls::Inverse, &[0.0, 0.0, whole(0)]);
    assert_eq!(answer, Err(8));
}

// Foreign numbers in every slot, none marked, and the frame of an opened set: a call writes its own slots and no other.
fn all_empty(script: &mut Script, g: &mut Generator) {
    script.fill([7.5; 3]);
    for (k, row) in rows().into_iter().enumerate() {
        script.put_row(k, row);
    }
    for turn in 0..10 {
        for (call, x) in Target::any(g, turn % 2 == 0).calls() {
            script.call(call, &x).expect("an answer");
        }
    }
}

// "Constants come from frame rows 0, 32, 12 at each call." "A lookup takes the first row strictly below 1e-5": a row of the
// triangle a little moved, moved too far, gone, and with another near it in an earlier or a later row.
fn frames(script: &mut Script, g: &mut Generator, defined: &Set) {
    let rows = rows();
    for reflected in [false, true] {
        for row in [0, 32, 12] {
            let target = Target::any(g, reflected);
            let twice = rows[row].map(|x| 2.0 * x);
            for other in [twice, [0.0; 3], [f64::NAN; 3], [0.6, 0.0, 0.8]] {
                script.open(RIGHT);
                script.put_row(row, other);
                everything(script, &target, defined);
            }
        }
        for corner in 0..3 {
            let target = Target::any(g, reflected);
            let row = target.rows(defined)[corner];
            for size in [3e-6, 2e-5, 1.0] {
                script.open(RIGHT);
                script.put_row(row, rows[row].map(|x| x + size));
                everything(script, &target, defined);
            }
            for other in [1, 60] {
                script.open(RIGHT);
                script.put_row(other, rows[row].map(|x| x - 2e-6));
                everything(script, &target, defined);
            }
        }
    }
}

// A corner exactly at the limit of u, v and w, 1 - 1e-14, and beside it: on these triangles each is the point's x.
fn at_threshold(script: &mut Script) {
    let triangles = [
        [1.0, 0.0, 0.0, 1.0, 0.0, 0.0],
        [0.0, 1.0, 1.0, 0.0, 0.0, 0.0],
        [0.0, 1.0, 0.0, 0.0, 1.0, 0.0],
    ];
    for (id, triangle) in triangles.into_iter().enumerate() {
        for x in near(1.0 - 1e-14) {
            script.open(RIGHT);
            script.put_face(10, 1.0, &triangle);
            let (call, x) = inverse([x, 0.0], id);
            script.call(call, &x).expect("an answer");
        }
    }
}

// "The first row strictly below 1e-5": origin 0's centre, (0, 0, 1), is so far from its row that the squares come to exactly
// 1e-10, and nearer and farther by a unit.
fn at_tolerance(script: &mut Script) {
    let short = moved(1e-5, -1);
    let exact = (1e-10 - short * short).sqrt();
    assert_eq!(short * short + exact * exact, 1e-10);
    let mut rows = near(1e-5).map(|x| [x, 0.0, 1.0]).to_vec();
    rows.push([short, exact, 1.0]);
    for (k, row) in rows.into_iter().enumerate() {
        script.open(RIGHT);
        script.put_row(0, row);
        let (call, x) = inverse([0.25, 0.125], 0);
        let outcome = script.call(call, &x);
        assert_eq!(outcome.err(), if k < 2 { None } else { Some(8) });
    }
}

// 9 leaves every slot as it was: on an opened set, and where the face slot is filled with what is not finite.
fn not_finite(script: &mut Script, g: &mut Generator, defined: &Set) {
    script.open(RIGHT);
    let answer = script.call(crate::calls::Forward, &[0.0, PI, whole(0)]);
    assert_eq!(answer, Err(9));
    for reflected in [false, true] {
        let target = Target::any(g, reflected);
        let slot = target.slots()[0];
        script.open(RIGHT);
        put(script, slot, 1.0, &vec![f64::INFINITY; 6]);
        everything(script, &target, defined);
    }
}

pub fn all(script: &mut Script, g: &mut Generator) {
    let defined = Set::defined();
    marks(script, g, &defined);
    filled(script, g, &defined);
    cross_products(script, g, &defined);
    no_frame(script, g, &defined);
    all_empty(script, g);
    frames(script, g, &defined);
    at_threshold(script);
    at_tolerance(script);
    not_finite(script, g, &defined);
}
