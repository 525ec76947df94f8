//! Lists of positions, tried on the linked library: against place one by one, refused positions among them, an empty list,
//! and the refusals of the list itself; all of it with a table too.

use a5_faces::{calls, LonLat, Place, PlaceResult, Refusal, Set, Table};
use a5_faces::{FACE_STORE, FRAME, SPHERE_STORE};

fn bits(set: &Set) -> Vec<u64> {
    let numbers = set.buffers().into_iter().flatten();
    numbers.map(|x| x.to_bits()).collect()
}

fn result_bits(given: &Result<Place, Refusal>) -> (u8, u8, u64, u64) {
    match given {
        Ok(p) => (0, p.origin, p.face.x.to_bits(), p.face.y.to_bits()),
        Err(n) => (n.number(), 0, 0, 0),
    }
}

// Over the globe; every tenth is refused, with 5 or 6.
fn positions(n: usize) -> Vec<LonLat> {
    let share = |k: usize| (k % n) as f64 / (n - 1) as f64;
    let mut list: Vec<LonLat> = (0..n)
        .map(|i| LonLat {
            longitude: 720.0 * share(i * 37) - 360.0,
            latitude: 180.0 * share(i * 101) - 90.0,
        })
        .collect();
    for (k, position) in list.iter_mut().skip(3).step_by(10).enumerate() {
        position.latitude = if k % 2 == 0 { 90.5 } else { f64::NAN };
    }
    list
}

#[test]
fn a_list_is_place_one_by_one() {
    let list = positions(300);
    let mut together = Set::new().unwrap();
    let mut singly = Set::new().unwrap();
    let given = together.place_list(&list);
    assert_eq!(given.len(), list.len());
    for (one, position) in given.iter().zip(&list) {
        assert_eq!(result_bits(one), result_bits(&singly.place(*position)));
    }
    assert_eq!(bits(&together), bits(&singly));
    assert_eq!(given[3], Err(Refusal::OutOfRange));
    assert_eq!(given[13], Err(Refusal::NotFinite));
    assert!(given[4].is_ok());
}

// A table of its own: the built-in one with every axis and quaternion turned half way round the pole's axis, which keeps its
// numbers but for the signs of x and y.
fn half_turned() -> Table {
    let mut numbers = *Table::built_in().numbers();
    for row in numbers.chunks_mut(7) {
        let [x, y, z, w] = [row[2], row[3], row[4], row[5]];
        row[0] += std::f64::consts::PI;
        [row[2], row[3], row[4], row[5]] = [-y, x, w, -z];
    }
    numbers.iter_mut().step_by(7).for_each(|theta| {
        if *theta > 8.0 {
            *theta -= std::f64::consts::TAU;
        }
    });
    Table::new(&numbers).unwrap()
}

#[test]
fn a_list_on_a_set_with_a_table_is_place_one_by_one() {
    let list = positions(100);
    let mut together = Set::new_with(half_turned()).unwrap();
    let mut singly = Set::new_with(half_turned()).unwrap();
    let mut built_in = Set::new().unwrap();
    let given = together.place_list(&list);
    for (one, position) in given.iter().zip(&list) {
        assert_eq!(result_bits(one), result_bits(&singly.place(*position)));
    }
    assert_eq!(bits(&together), bits(&singly));
    assert_ne!(given, built_in.place_list(&list));
    let mut too_few = vec![PlaceResult::default(); 99];
    let refused = together.place_list_into(&list, &mut too_few);
    assert_eq!(refused, Err(Refusal::ResultCount));
    assert_eq!(together.place_list(&[]), []);
    assert_eq!(bits(&together), bits(&singly));
}

// 20, 1, 2, 3, 21, 22, 14, each where all that come after it apply too.
#[test]
fn a_refused_list_with_a_table_changes_nothing() {
    let list = positions(20);
    let opened = Set::new_with(half_turned()).unwrap();
    let [frame, face, sphere] = opened.buffers();
    let sound = half_turned();
    let mut off = *sound.numbers();
    off[2] = 1.0;
    let mut faulty = off;
    faulty[83] = f64::NAN;
    let held = PlaceResult {
        refusal: 77,
        ..PlaceResult::default()
    };
    let long = [&faulty[..], &[0.5]].concat();
    for (table, short, refusal) in [
        (&long[..], [1, 1, 1], Refusal::TableFile),
        (&faulty[..83], [1, 1, 1], Refusal::TableFile),
        (&[], [0, 0, 0], Refusal::TableFile),
        (&faulty, [1, 1, 1], Refusal::FrameLength),
        (&faulty, [0, 1, 1], Refusal::FaceStoreLength),
        (&faulty, [0, 0, 1], Refusal::SphereStoreLength),
        (&faulty, [0, 0, 0], Refusal::TableNumber),
        (&off, [0, 0, 0], Refusal::TableQuaternion),
        (&sound.numbers()[..], [0, 0, 0], Refusal::ResultCount),
    ] {
        let frame = &frame[..FRAME - short[0]];
        let mut face = face[..FACE_STORE - short[1]].to_vec();
        let mut sphere = sphere[..SPHERE_STORE - short[2]].to_vec();
        let before = (face.clone(), sphere.clone());
        let mut filled = vec![held; 19];
        let lent = (&mut face, &mut sphere);
        let given = calls::place_list_with(table, frame, lent.0, lent.1, &list, &mut filled);
        assert_eq!(given, Err(refusal));
        assert_eq!((face, sphere), before);
        assert!(filled.iter().all(|r| *r == held));
    }
}

// Another table than the set was opened with: what an empty slot should hold is not in the frame, and each result says so.
#[test]
fn a_list_with_another_table() {
    let list = &positions(20)[..3];
    let set = Set::new_with(half_turned()).unwrap();
    let [frame, face, sphere] = set.buffers().map(<[f64]>::to_vec);
    let (mut face, mut sphere) = (face, sphere);
    let mut results = vec![PlaceResult::default(); 3];
    let own = Table::built_in();
    let lent = (&mut face, &mut sphere);
    let given = calls::place_list_with(own.numbers(), &frame, lent.0, lent.1, list, &mut results);
    assert_eq!(given, Ok(()));
    assert!(results.iter().any(|r| r.refusal != 0));
    for (result, position) in results.iter().zip(list) {
        let lent = (&mut face, &mut sphere);
        let one = calls::place_with(own.numbers(), &frame, lent.0, lent.1, *position);
        assert_eq!(result_bits(&result.given()), result_bits(&one));
    }
}

#[test]
fn results_are_filled_whatever_they_held() {
    let list = positions(50);
    let held = PlaceResult {
        refusal: 77,
        origin: 99,
        x: f64::NAN,
        y: -1.0,
    };
    let mut results = vec![held; 50];
    let mut set = Set::new().unwrap();
    assert_eq!(set.place_list_into(&list, &mut results), Ok(()));
    let given = Set::new().unwrap().place_list(&list);
    for (result, one) in results.iter().zip(&given) {
        assert_eq!(result_bits(&result.given()), result_bits(one));
    }
    // a refused one has origin 0 and +0.0 twice
    let refused = results[3];
    assert_eq!((refused.refusal, refused.origin), (6, 0));
    assert_eq!((refused.x.to_bits(), refused.y.to_bits()), (0, 0));
}

#[test]
fn an_empty_list_changes_nothing() {
    let mut set = Set::new().unwrap();
    let before = bits(&set);
    assert_eq!(set.place_list(&[]), []);
    assert_eq!(set.place_list_into(&[], &mut []), Ok(()));
    assert_eq!(bits(&set), before);
}

#[test]
fn a_refused_list_changes_nothing() {
    let list = positions(20);
    let opened = Set::new().unwrap();
    let [frame, face, sphere] = opened.buffers();
    let held = PlaceResult {
        refusal: 77,
        ..PlaceResult::default()
    };
    // lengths of the three buffers and of the results, beside the right ones
    for (short, results, refusal) in [
        ([1, 1, 1], 19, Refusal::FrameLength),
        ([0, 1, 1], 19, Refusal::FaceStoreLength),
        ([0, 0, 1], 19, Refusal::SphereStoreLength),
        ([0, 0, 0], 19, Refusal::ResultCount),
        ([0, 0, 0], 21, Refusal::ResultCount),
    ] {
        let frame = &frame[..FRAME - short[0]];
        let mut face = face[..FACE_STORE - short[1]].to_vec();
        let mut sphere = sphere[..SPHERE_STORE - short[2]].to_vec();
        let before = (face.clone(), sphere.clone());
        let mut filled = vec![held; results];
        let given = calls::place_list(frame, &mut face, &mut sphere, &list, &mut filled);
        assert_eq!(given, Err(refusal));
        assert_eq!((face, sphere), before);
        assert!(filled.iter().all(|r| *r == held));
    }
}
