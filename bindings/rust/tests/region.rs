//! Regions on one face, tried on the linked library: against place one by one, on sets with and without a table; the refusals in
//! their order; and that a refused one changes nothing.

use a5_faces::{calls, Face, LonLat, Place, Refusal, Set, Sides, Table};
use a5_faces::{FACE_STORE, FRAME, REGION, SPHERE_STORE};

const TURNED: &[u8] = include_bytes!("../../turned.eat");

fn bits(set: &Set) -> Vec<u64> {
    let numbers = set.buffers().into_iter().flatten();
    numbers.map(|x| x.to_bits()).collect()
}

fn sets() -> [Set; 2] {
    let turned = Table::load(TURNED).expect("a table");
    [Set::new().unwrap(), Set::new_with(turned).unwrap()]
}

// Positions round the middle of a face, up to 0.2 from it on the face.
fn outline(set: &Set, origin: u8, n: usize) -> Vec<LonLat> {
    let mut apart = set.clone();
    apart.open().unwrap();
    let share = |k: usize| 0.4 * (k % 256) as f64 / 255.0 - 0.2;
    (0..n)
        .map(|i| {
            let face = Face {
                x: share(i * 37),
                y: share(i * 101),
            };
            apart.unplace(Place { origin, face }).unwrap()
        })
        .collect()
}

// The least and greatest coordinates.
fn sides(points: &[Face]) -> Sides {
    let least = |of: fn(&Face) -> f64| points.iter().map(of).fold(f64::INFINITY, f64::min);
    let greatest = |of: fn(&Face) -> f64| points.iter().map(of).fold(-f64::INFINITY, f64::max);
    Sides {
        least_x: least(|p| p.x),
        greatest_x: greatest(|p| p.x),
        least_y: least(|p| p.y),
        greatest_y: greatest(|p| p.y),
    }
}

#[test]
fn a_region_is_place_one_by_one() {
    for mut together in sets() {
        for n in [1, 2, 3, REGION] {
            let list = outline(&together, 5, n);
            let mut singly = together.clone();
            let region = together.region(&list).unwrap();
            assert_eq!((region.origin, region.points.len()), (5, n));
            for (point, position) in region.points.iter().zip(&list) {
                let place = singly.place(*position).unwrap();
                assert_eq!((place.origin, place.face), (5, *point));
            }
            assert_eq!(region.bounds, sides(&region.points));
            assert_eq!(bits(&together), bits(&singly));
        }
    }
}

#[test]
fn a_set_s_own_table_is_taken() {
    let [mut built_in, mut turned] = sets();
    let list = outline(&turned, 5, 4);
    assert!(turned.region(&list).is_ok());
    assert_ne!(turned.region(&list), built_in.region(&list));
}

#[test]
fn a_refused_region_changes_nothing() {
    for mut set in sets() {
        let list = outline(&set, 5, REGION + 1);
        let other = outline(&set, 2, 1)[0];
        let mut refused = |list: &[LonLat], refusal| {
            let before = bits(&set);
            assert_eq!(set.region(list), Err(refusal));
            assert_eq!(bits(&set), before);
        };
        refused(&[], Refusal::PositionCount);
        refused(&list, Refusal::PositionCount);
        // another origin at the last place
        let mut two = list[..REGION].to_vec();
        two[REGION - 1] = other;
        refused(&two, Refusal::OriginsDiffer);
        // a refused position after that comes first
        two[10] = other;
        two[REGION - 1].latitude = 90.5;
        refused(&two, Refusal::OutOfRange);
        // and of two the first
        two[200].longitude = f64::NAN;
        refused(&two, Refusal::NotFinite);
    }
}

#[test]
fn lengths_are_tried_in_their_order() {
    let [opened, _] = sets();
    let list = outline(&opened, 5, 20);
    let [frame, face, sphere] = opened.buffers();
    let held = Face { x: -1.5, y: 2.5 };
    // lengths of the three buffers and of the points, beside the right ones; how many positions
    for (short, positions, points, refusal) in [
        ([1, 1, 1], 0, 1, Refusal::FrameLength),
        ([0, 1, 1], 0, 1, Refusal::FaceStoreLength),
        ([0, 0, 1], 0, 1, Refusal::SphereStoreLength),
        ([0, 0, 0], 0, 1, Refusal::PositionCount),
        ([0, 0, 0], 20, 19, Refusal::ResultCount),
        ([0, 0, 0], 20, 21, Refusal::ResultCount),
    ] {
        let frame = &frame[..FRAME - short[0]];
        let mut face = face[..FACE_STORE - short[1]].to_vec();
        let mut sphere = sphere[..SPHERE_STORE - short[2]].to_vec();
        let before = (face.clone(), sphere.clone());
        let mut filled = vec![held; points];
        let list = &list[..positions];
        let given = calls::region(frame, &mut face, &mut sphere, list, &mut filled);
        assert_eq!(given, Err(refusal));
        assert_eq!((face, sphere), before);
        assert!(filled.iter().all(|p| *p == held));
    }
}
