// What document 01 says of single points, tried on the given Rust with the steps in it.

use crate::calls::{call, call_with, Forward, Inverse, Place, Unplace};
use crate::common::fields::{bits, of_spherical, polar, whole};
use crate::common::sizes::{FACE_SLOTS, RIGHT, SPHERE_COORDINATES, SPHERE_SLOTS};
use crate::outside::KNOWN;
use crate::set::{new_projection, Set};
use a5::coordinate_systems::Face;
use a5::core::origin::get_origins;
use a5::core::utils::Origin;
use std::f64::consts::PI;

// The session of "The strike program", on one set.
fn session() {
    let mut set = Set::opened();
    let placed = call(Place, &mut set, RIGHT, &[-93.0, 90.0]);
    assert_eq!(placed, Ok(vec![whole(0), 0.0, 0.0]));
    let back = call(Unplace, &mut set, RIGHT, &[0.0, 0.0, whole(0)]);
    assert_eq!(back, Ok(vec![-93.0, 90.0]));
    let refused = call(Unplace, &mut set, RIGHT, &[0.0, 0.0, whole(12)]);
    assert_eq!(refused, Err(4));
}

// The table's examples of 8 and 9, and the order of the others.
fn refusals() {
    let mut zeros = Set::filled_with([0.0; 3]);
    let mut set = Set::opened();
    assert_eq!(
        call(Forward, &mut zeros, RIGHT, &[1.0, 1.0, whole(0)]),
        Err(8)
    );
    assert_eq!(call(Forward, &mut set, RIGHT, &[0.0, PI, whole(0)]), Err(9));
    let none = [0, 0, 0];
    assert_eq!(
        call(Inverse, &mut set, none, &[9.0, 9.0, whole(12)]),
        Err(1)
    );
    let broken = [f64::NAN, 0.0, whole(12)];
    assert_eq!(call(Inverse, &mut set, RIGHT, &broken), Err(4));
    let broken = [5.0, f64::NAN, whole(11)];
    assert_eq!(call(Inverse, &mut set, RIGHT, &broken), Err(6));
    assert!(set.face.iter().all(|x| *x == 0.0));
}

// "An unreflected call uses face slot i and its sphere slot; a reflected one uses 10+i, 20+i and its sphere slot", also where
// its sphere slot is filled.
fn slots() {
    let mut set = Set::opened();
    let filled = |set: &Set| -> (Vec<usize>, Vec<usize>) {
        let faces = (0..FACE_SLOTS).filter(|k| set.face_slot(*k).is_some());
        let spheres = (0..SPHERE_SLOTS).filter(|k| set.sphere_slot(*k).is_some());
        (faces.collect(), spheres.collect())
    };
    call(Inverse, &mut set, RIGHT, &[0.3, 0.1, whole(4)]).expect("an answer");
    assert_eq!(filled(&set), (vec![0], vec![40]));
    let mut set = Set::opened();
    let reflected = [0.8, 0.1, whole(4)];
    call(Inverse, &mut set, RIGHT, &reflected).expect("an answer");
    assert_eq!(filled(&set), (vec![10, 20], vec![160]));
    set.face.fill(0.0);
    call(Inverse, &mut set, RIGHT, &reflected).expect("an answer");
    assert_eq!(filled(&set), (vec![10, 20], vec![160]));
}

// Paper 6: "A slot filled by an answered call must hold the cross product of its own b and c", whichever call it is.
fn cross_product() {
    let asked = [
        (Forward, vec![1.0, 0.5, whole(3)]),
        (Inverse, vec![0.3, 0.1, whole(4)]),
        (Inverse, vec![0.8, 0.1, whole(4)]),
        (Place, vec![16.3725, 48.2083]),
        (Unplace, vec![0.3, 0.1, whole(11)]),
    ];
    for (asked, x) in asked {
        let mut set = Set::opened();
        call(asked, &mut set, RIGHT, &x).expect("an answer");
        let mut filled = (0..SPHERE_SLOTS).filter_map(|k| set.sphere_slot(k));
        let (corners, kept) = filled.next().expect("one").split_at(SPHERE_COORDINATES);
        let (b, c) = (&corners[3..6], &corners[6..9]);
        let formed = [
            b[1] * c[2] - b[2] * c[1],
            b[2] * c[0] - b[0] * c[2],
            b[0] * c[1] - b[1] * c[0],
        ];
        assert_eq!(bits(kept), bits(&formed), "{asked:?}");
        assert!(filled.next().is_none());
    }
}

// Paper 7: "Inverse and unplace then refuse." Nothing is written; "tried after 8".
fn outside() {
    let mut zeros = Set::filled_with([0.0; 3]);
    let mut set = Set::opened();
    for (p, id) in KNOWN {
        let x = [p[0], p[1], whole(id)];
        for asked in [Inverse, Unplace] {
            assert_eq!(call(asked, &mut set, RIGHT, &x), Err(19));
            assert_eq!(call(asked, &mut zeros, RIGHT, &x), Err(8));
        }
    }
    assert!(set.is_empty());
}

// "In the Rust, inverse with ids 12 to 23 may find a reflected triangle of another origin in the cache; here it is 4."
fn cache_accident() {
    let mut rust = new_projection();
    assert!(rust.inverse(Face::new(0.0, 0.0), 12).is_err());
    rust.inverse(Face::new(0.7, 0.0), 0).expect("an answer");
    assert!(rust.inverse(Face::new(0.0, 0.0), 12).is_ok());
}

// The Rust's own origins as rows, with one number changed.
fn rows_with(place: usize, x: f64) -> Vec<f64> {
    let row = |o: &Origin| {
        let ([x, y, z, w], axis) = (o.quat, of_spherical(o.axis));
        [axis[0], axis[1], x, y, z, w, o.angle.get()]
    };
    let mut rows: Vec<f64> = get_origins().iter().flat_map(row).collect();
    rows[place] = x;
    rows
}

// Paper 10: its own rows as a table change nothing; the order of refusals; "refusals 7 and 8 may now occur".
fn tables() {
    let own = rows_with(0, 0.0);
    let mut set = Set::opened_with(&own).expect("62 rows");
    assert_eq!(bits(&set.frame), bits(&Set::opened().frame));
    let (placed, mut plain) = ([16.3725, 48.2083], Set::opened());
    let given = call_with(&own, Place, &mut set, RIGHT, &placed);
    assert_eq!(given, call(Place, &mut plain, RIGHT, &placed));
    assert_eq!(bits(&set.sphere), bits(&plain.sphere));

    let x = [0.1, 0.1, whole(0)];
    let none = [0, 0, 0];
    let nan = rows_with(83, f64::NAN);
    let mut asked = |rows: &[f64], lent, x: &[f64]| call_with(rows, Inverse, &mut set, lent, x);
    assert_eq!(asked(&nan[1..], none, &x), Err(20));
    assert_eq!(asked(&nan, none, &x), Err(1));
    let mut both = nan;
    both[5] = 0.5;
    assert_eq!(asked(&both, RIGHT, &[0.1, 0.1, whole(12)]), Err(21));
    let off = rows_with(5, 0.5);
    assert_eq!(asked(&off, RIGHT, &[0.1, 0.1, whole(12)]), Err(22));
    assert_eq!(asked(&own, RIGHT, &[0.1, 0.1, whole(12)]), Err(4));

    assert_eq!(Set::opened_with(&rows_with(6, 1.0)).err(), Some(7));
    let other_axis = rows_with(1, 0.25);
    let mut set = Set::opened_with(&other_axis).expect("62 rows");
    for asked in [Inverse, Unplace] {
        let given = call_with(&other_axis, asked, &mut set, RIGHT, &x);
        assert_eq!(given, Err(8));
    }
    assert!(set.is_empty());
}

// "The index in 0..9 also where an angle takes gamma below −2π": at the first double below it, and where a row's angle is 8.
fn index_below() {
    let rust = new_projection();
    let index = |gamma| rust.oracle_triangle_index(polar([0.3, gamma]));
    assert_eq!(index(-6.283185307179587), 9);
    assert!((0..2000).all(|k| index(-f64::from(k) / 150.0) < 10));
    let rows = rows_with(6, 7.539822368615503);
    let mut set = Set::opened_with(&rows).expect("62 rows: the angle is six fifths of a turn");
    let x = [-2.0, 0.3, whole(0)];
    assert!(call_with(&rows, Forward, &mut set, RIGHT, &x).is_ok());
}

pub fn run() {
    session();
    refusals();
    slots();
    cross_product();
    outside();
    cache_accident();
    tables();
    index_below();
}
