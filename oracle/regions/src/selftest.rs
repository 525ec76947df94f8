// What Paper 4 says of a region, tried on the given Rust with the steps in it.

use crate::calls::{call, Place};
use crate::common::fields::{bits, of_whole};
use crate::common::sizes::RIGHT;
use crate::regions::{region, Region};
use crate::set::Set;

fn outlined(set: &mut Set, positions: &[[f64; 2]], places: usize) -> Result<Region, u8> {
    let place = |set: &mut Set, x: &[f64; 2]| call(Place, set, RIGHT, x);
    region(set, Ok(()), positions, places, place)
}

// "gives that face, every face point and the outline's box"; "The set is then as after placing the positions in turn."
fn singly() {
    let positions = [[16.3725, 48.2083], [16.0, 48.5], [17.1, 48.1]];
    let (mut set, mut other) = (Set::opened(), Set::opened());
    let given = outlined(&mut set, &positions, 3).unwrap_or_else(|_| panic!("one face"));
    for (position, point) in positions.iter().zip(&given.points) {
        let placed = call(Place, &mut other, RIGHT, position).expect("an answer");
        assert_eq!(of_whole(placed[0]) as u8, given.origin);
        assert_eq!(bits(&placed[1..]), bits(point));
    }
    let least = given.points.iter().map(|p| p[0]).fold(f64::MAX, f64::min);
    let greatest = given.points.iter().map(|p| p[1]).fold(f64::MIN, f64::max);
    assert_eq!(
        (given.caption.sides[0], given.caption.sides[3]),
        (least, greatest)
    );
    assert_eq!(bits(&set.face), bits(&other.face));
    assert_eq!(bits(&set.sphere), bits(&other.sphere));
}

// 15, then 14, then the first failing position's number, then 16; "Otherwise nothing is written and the set is unchanged."
fn refusals() {
    let mut set = Set::opened();
    let (here, south, wide) = ([16.3725, 48.2083], [0.0, -90.0], [0.0, 90.5]);
    let many = [here; 257];
    let cases: [(&[[f64; 2]], usize, u8); 6] = [
        (&[], 1, 15),
        (&many, 257, 15),
        (&[wide], 2, 14),
        (&[here, south, wide], 3, 6),
        (&[here, south], 2, 16),
        (&[here, here, here, south], 4, 16),
    ];
    for (positions, places, refusal) in cases {
        assert_eq!(outlined(&mut set, positions, places).err(), Some(refusal));
        assert!(set.is_empty());
    }
    assert!(outlined(&mut set, &many[..256], 256).is_ok());
}

pub fn run() {
    singly();
    refusals();
}
