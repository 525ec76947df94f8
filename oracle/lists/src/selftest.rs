// What Paper 1 says of lists, tried on the given Rust with the steps in it.

use crate::calls::{call, call_with, Place};
use crate::common::fields::bits;
use crate::common::sizes::RIGHT;
use crate::lists::{place_list, place_list_with, Placed};
use crate::set::Set;
use crate::tables::{built_in, with};

const BEFORE: Placed = Placed {
    refusal: 7,
    origin: 7,
    x: 7.0,
    y: 7.0,
};

fn listed(set: &mut Set, positions: &[[f64; 2]], results: &mut [Placed]) -> Result<(), u8> {
    place_list(RIGHT, positions, results, |x| call(Place, set, RIGHT, x))
}

// "The results and the set must equal those of placing the positions singly." "A refused one has origin 0 and +0 twice. A refused
// position doesn't stop the list."
fn singly() {
    let positions = [[-93.0, 90.0], [f64::NAN, 0.0], [16.3725, 48.2083]];
    let (mut set, mut other) = (Set::opened(), Set::opened());
    let mut results = [BEFORE; 3];
    assert_eq!(listed(&mut set, &positions, &mut results), Ok(()));
    let [first, second, third] = results;
    assert_eq!(
        (first.refusal, first.origin, first.x, first.y),
        (0, 0, 0.0, 0.0)
    );
    assert_eq!((second.refusal, second.origin), (5, 0));
    assert_eq!(bits(&[second.x, second.y]), [0, 0]);
    assert_eq!(third.refusal, 0);
    for position in positions {
        let _ = call(Place, &mut other, RIGHT, &position);
    }
    assert_eq!(bits(&set.sphere), bits(&other.sphere));
    assert_eq!(bits(&set.face), bits(&other.face));
}

// "An empty list changes nothing." "Refusal 14: the two slices differ in length, tried after 3."
fn refusals() {
    let mut set = Set::opened();
    assert_eq!(listed(&mut set, &[], &mut []), Ok(()));
    let mut one = [BEFORE];
    assert_eq!(listed(&mut set, &[], &mut one), Err(14));
    assert_eq!(one[0].refusal, 7);
    let short = [RIGHT[0], RIGHT[1], RIGHT[2] - 1];
    let given = place_list(short, &[], &mut one, |x| call(Place, &mut set, RIGHT, x));
    assert_eq!(given, Err(3));
    assert!(set.is_empty());
}

// Paper 10: with the built-in rows a list gives what it gives without a table; 20 before all, 21 and 22 after 3 and before 14.
fn with_table() {
    let positions = [[16.3725, 48.2083], [-93.0, 90.0]];
    let (mut set, mut other) = (Set::opened(), Set::opened());
    let (mut results, mut others) = ([BEFORE; 2], [BEFORE; 3]);
    let rows = built_in();
    let mut listed_with = |rows: &[f64], lent: [usize; 3], results: &mut [Placed]| {
        place_list_with(rows, lent, &positions, results, |x| {
            call_with(rows, Place, &mut set, RIGHT, x)
        })
    };
    assert_eq!(listed_with(&rows, RIGHT, &mut results), Ok(()));
    assert_eq!(listed(&mut other, &positions, &mut others[..2]), Ok(()));
    for (one, two) in results.iter().zip(&others) {
        assert_eq!((one.refusal, one.origin), (two.refusal, two.origin));
        assert_eq!(bits(&[one.x, one.y]), bits(&[two.x, two.y]));
    }
    let short = [RIGHT[0], RIGHT[1], RIGHT[2] - 1];
    let cases = [
        (rows[..83].to_vec(), short, 20),
        (with(&rows, 83, f64::NAN), short, 3),
        (with(&rows, 83, f64::NAN), RIGHT, 21),
        (with(&rows, 82, 0.5), RIGHT, 22),
        (rows, RIGHT, 14),
    ];
    for (rows, lent, refusal) in cases {
        assert_eq!(listed_with(&rows, lent, &mut others), Err(refusal));
    }
    assert_eq!(bits(&set.sphere), bits(&other.sphere));
}

pub fn run() {
    singly();
    refusals();
    with_table();
}
