//! The Rust interface, tried on the linked library: open, refusals, wrong lengths, the session of document 01, a
//! session of place and unplace, and show.

use a5_faces::{calls, Face, LonLat, Place, Refusal, Set, Spherical, Store};
use a5_faces::{
    FACE_SLOTS, FACE_STORE, FRAME, SPHERE_COORDINATES, SPHERE_SLOTS, SPHERE_STORE, SPHERE_WIDTH,
};

const LENGTHS: [usize; 3] = [FRAME, FACE_STORE, SPHERE_STORE];
// Before b × c stood in a sphere slot: 240 slots of 10.
const OLD_SPHERE_STORE: usize = 2400;

// ---- buffers of any length and contents, and the calls on them in one form

#[derive(Clone)]
struct Buffers([Vec<f64>; 3]);

impl Buffers {
    fn filled_with(number: f64, lengths: [usize; 3]) -> Buffers {
        Buffers(lengths.map(|length| vec![number; length]))
    }

    fn opened() -> Buffers {
        let mut buffers = Buffers::filled_with(0.25, LENGTHS);
        let [frame, face, sphere] = &mut buffers.0;
        assert_eq!(calls::open(frame, face, sphere), Ok(()));
        buffers
    }

    fn bits(&self) -> Vec<u64> {
        self.0.iter().flatten().map(|x| x.to_bits()).collect()
    }
}

fn bits_of(set: &Set) -> Vec<u64> {
    let numbers = set.buffers().into_iter().flatten();
    numbers.map(|x| x.to_bits()).collect()
}

// A call with two numbers; what it answers is only looked at for being an answer.
type Call = fn(&mut Buffers, f64, f64, u8) -> Result<(), Refusal>;

fn place_at(x: f64, y: f64, origin: u8) -> Place {
    let face = Face { x, y };
    Place { origin, face }
}

fn lon_lat(longitude: f64, latitude: f64) -> LonLat {
    LonLat {
        longitude,
        latitude,
    }
}

fn opening(b: &mut Buffers, _: f64, _: f64, _: u8) -> Result<(), Refusal> {
    let [frame, face, sphere] = &mut b.0;
    calls::open(frame, face, sphere)
}

fn forward(b: &mut Buffers, theta: f64, phi: f64, origin: u8) -> Result<(), Refusal> {
    let [frame, face, sphere] = &mut b.0;
    calls::forward(frame, face, sphere, Spherical { theta, phi }, origin).map(drop)
}

fn inverse(b: &mut Buffers, x: f64, y: f64, origin: u8) -> Result<(), Refusal> {
    let [frame, face, sphere] = &mut b.0;
    calls::inverse(frame, face, sphere, place_at(x, y, origin)).map(drop)
}

fn place(b: &mut Buffers, longitude: f64, latitude: f64, _: u8) -> Result<(), Refusal> {
    let [frame, face, sphere] = &mut b.0;
    calls::place(frame, face, sphere, lon_lat(longitude, latitude)).map(drop)
}

fn unplace(b: &mut Buffers, x: f64, y: f64, origin: u8) -> Result<(), Refusal> {
    let [frame, face, sphere] = &mut b.0;
    calls::unplace(frame, face, sphere, place_at(x, y, origin)).map(drop)
}

fn nearest(_: &mut Buffers, theta: f64, phi: f64, _: u8) -> Result<(), Refusal> {
    calls::nearest(Spherical { theta, phi }).map(drop)
}

fn from_lon_lat(_: &mut Buffers, longitude: f64, latitude: f64, _: u8) -> Result<(), Refusal> {
    calls::from_lon_lat(lon_lat(longitude, latitude)).map(drop)
}

fn to_lon_lat(_: &mut Buffers, theta: f64, phi: f64, _: u8) -> Result<(), Refusal> {
    calls::to_lon_lat(Spherical { theta, phi }).map(drop)
}

const ON_A_SET: [Call; 4] = [forward, inverse, place, unplace];
const WITH_ORIGIN: [Call; 3] = [forward, inverse, unplace];
const WITH_LIMITS: [(Call, [f64; 2]); 7] = [
    (forward, [8.0, 8.0]),
    (inverse, [4.0, 4.0]),
    (place, [360.0, 90.0]),
    (unplace, [4.0, 4.0]),
    (nearest, [8.0, 8.0]),
    (from_lon_lat, [360.0, 90.0]),
    (to_lon_lat, [8.0, 8.0]),
];

// The next double above a positive one.
fn above(x: f64) -> f64 {
    f64::from_bits(x.to_bits() + 1)
}

// The call is refused, and every number lent is left as it was.
fn refuses(call: Call, buffers: &mut Buffers, numbers: [f64; 2], origin: u8, refusal: Refusal) {
    let before = buffers.bits();
    let answer = call(buffers, numbers[0], numbers[1], origin);
    assert_eq!(answer, Err(refusal), "{numbers:?} {origin}");
    assert_eq!(buffers.bits(), before, "{numbers:?} {origin}");
}

#[test]
fn open_writes_the_frame_and_clears_the_stores() {
    let Buffers([frame, face, sphere]) = Buffers::opened();
    assert_eq!(frame[..3], [0.0, 0.0, 1.0]);
    for row in frame.chunks(3) {
        let length: f64 = row.iter().map(|x| x * x).sum();
        assert!((length - 1.0).abs() < 1e-12, "{row:?}");
    }
    assert!(face.iter().chain(&sphere).all(|x| x.to_bits() == 0));
}

// ---- refusals

#[test]
fn refusals_have_the_numbers_of_the_table() {
    let numbers = Refusal::ALL.map(Refusal::number);
    assert!(numbers.into_iter().eq(1..=26));
    for number in 0..=255 {
        let refusal = Refusal::ALL.into_iter().find(|r| *r as u8 == number);
        assert_eq!(Refusal::from_number(number), refusal, "{number}");
    }
}

#[test]
fn a_wrong_length_is_refused() {
    for call in [&[opening as Call][..], &ON_A_SET].concat() {
        for b in 0..3 {
            let mut lengths = LENGTHS;
            for wrong in [0, LENGTHS[b] - 1, LENGTHS[b] + 1] {
                lengths[b] = wrong;
                let mut buffers = Buffers::filled_with(0.25, lengths);
                refuses(call, &mut buffers, [0.0, 0.0], 0, Refusal::ALL[b]);
            }
            // the buffers behind it, the origin and the numbers are looked at later
            lengths[b..].fill(0);
            let mut buffers = Buffers::filled_with(0.25, lengths);
            refuses(call, &mut buffers, [f64::NAN, 0.0], 12, Refusal::ALL[b]);
        }
        let mut old = Buffers::filled_with(0.25, [FRAME, FACE_STORE, OLD_SPHERE_STORE]);
        refuses(call, &mut old, [0.0, 0.0], 0, Refusal::SphereStoreLength);
    }
}

#[test]
fn an_unknown_origin_is_refused() {
    let mut buffers = Buffers::opened();
    for call in WITH_ORIGIN {
        refuses(call, &mut buffers, [0.0, 0.0], 12, Refusal::UnknownOrigin);
        refuses(
            call,
            &mut buffers,
            [f64::NAN, 0.0],
            255,
            Refusal::UnknownOrigin,
        );
        assert_eq!(call(&mut buffers, 0.5, 0.5, 11), Ok(()));
    }
}

#[test]
fn a_number_that_is_not_finite_is_refused() {
    let mut buffers = Buffers::opened();
    for (call, limits) in WITH_LIMITS {
        for x in [f64::NAN, f64::INFINITY, f64::NEG_INFINITY] {
            refuses(call, &mut buffers, [x, 0.0], 0, Refusal::NotFinite);
            refuses(call, &mut buffers, [0.0, x], 0, Refusal::NotFinite);
        }
        let numbers = [f64::NAN, above(limits[1])];
        refuses(call, &mut buffers, numbers, 0, Refusal::NotFinite);
    }
}

#[test]
fn a_number_out_of_range_is_refused() {
    let mut buffers = Buffers::opened();
    for (call, [first, second]) in WITH_LIMITS {
        for sign in [1.0, -1.0] {
            let (first_above, second_above) = (sign * above(first), sign * above(second));
            refuses(
                call,
                &mut buffers,
                [first_above, 0.0],
                0,
                Refusal::OutOfRange,
            );
            refuses(
                call,
                &mut buffers,
                [first_above, f64::NAN],
                0,
                Refusal::OutOfRange,
            );
            refuses(
                call,
                &mut buffers,
                [0.0, second_above],
                0,
                Refusal::OutOfRange,
            );
            assert_eq!(call(&mut buffers, sign * first, sign * second, 0), Ok(()));
        }
    }
}

#[test]
fn a_frame_of_zeros_has_no_vertex() {
    for call in ON_A_SET {
        let mut zeros = Buffers::filled_with(0.0, LENGTHS);
        refuses(call, &mut zeros, [0.1, 0.1], 0, Refusal::NoVertex);
    }
}

#[test]
fn an_answer_that_is_not_finite_is_refused() {
    let mut buffers = Buffers::opened();
    let antipode = [0.0, std::f64::consts::PI];
    refuses(forward, &mut buffers, antipode, 0, Refusal::AnswerNotFinite);
}

#[test]
fn a_point_too_far_off_the_face_is_refused() {
    for call in [inverse, unplace] {
        for (point, origin) in [
            ([1.235847662, -0.125812592], 7),
            ([1.235734985, 0.265693756], 4),
        ] {
            let mut buffers = Buffers::opened();
            refuses(call, &mut buffers, point, origin, Refusal::AngleOutside);
            // 8 comes before it
            let mut zeros = Buffers::filled_with(0.0, LENGTHS);
            refuses(call, &mut zeros, point, origin, Refusal::NoVertex);
        }
        // as far off, and a corner
        assert!(call(&mut Buffers::opened(), 4.0, 4.0, 7).is_ok());
    }
}

// ---- show

fn filled_slots(set: &Set, store: Store, slots: usize, coordinates: usize) -> Vec<usize> {
    let filled = (0..slots).filter(|&slot| {
        let shown = set.show(store, slot).unwrap();
        assert_eq!(set.slot_state(store, slot), Ok(shown.is_some()));
        if let Some(part) = shown {
            assert_eq!(part.len(), coordinates);
        }
        shown.is_some()
    });
    filled.collect()
}

#[test]
fn show_before_and_after_place() {
    let mut set = Set::new().unwrap();
    assert!(filled_slots(&set, Store::Face, FACE_SLOTS, 6).is_empty());
    assert!(filled_slots(&set, Store::Sphere, SPHERE_SLOTS, 9).is_empty());
    assert_eq!(set.place(lon_lat(16.3725, 48.2083)).unwrap().origin, 5);
    assert_eq!(filled_slots(&set, Store::Face, FACE_SLOTS, 6), [9]);
    assert_eq!(filled_slots(&set, Store::Sphere, SPHERE_SLOTS, 9), [59]);

    // the part is the store's own memory, behind the slot's mark
    let [_, face, sphere] = set.buffers();
    let shown = set.show(Store::Face, 9).unwrap().unwrap();
    assert_eq!(shown.as_ptr_range(), face[64..70].as_ptr_range());
    let shown = set.show(Store::Sphere, 59).unwrap().unwrap();
    assert_eq!(shown.as_ptr_range(), sphere[768..777].as_ptr_range());
    assert_eq!((face[63], sphere[767]), (1.0, 1.0));
}

fn show_refuses(buffers: &Buffers, store: Store, slot: usize, refusal: Refusal) {
    let [_, face, sphere] = &buffers.0;
    assert_eq!(calls::show(face, sphere, store, slot), Err(refusal));
    assert_eq!(calls::slot_state(face, sphere, store, slot), Err(refusal));
}

#[test]
fn show_is_refused() {
    let set = Buffers::filled_with(1.0, LENGTHS);
    for (store, slots) in [(Store::Face, FACE_SLOTS), (Store::Sphere, SPHERE_SLOTS)] {
        show_refuses(&set, store, slots, Refusal::UnknownSlot);
        show_refuses(&set, store, usize::MAX, Refusal::UnknownSlot);
        for wrong in [0, FACE_STORE - 1, FACE_STORE + 1] {
            let buffers = Buffers::filled_with(1.0, [FRAME, wrong, 0]);
            show_refuses(&buffers, store, slots, Refusal::FaceStoreLength);
        }
        for wrong in [0, OLD_SPHERE_STORE, SPHERE_STORE - 1, SPHERE_STORE + 1] {
            let buffers = Buffers::filled_with(1.0, [FRAME, FACE_STORE, wrong]);
            show_refuses(&buffers, store, slots, Refusal::SphereStoreLength);
        }
    }
}

// ---- b × c in a sphere slot

// The numbers of the only filled sphere slot.
fn filled_sphere(buffers: &mut Buffers) -> &mut [f64] {
    let slots = buffers.0[2].chunks_mut(SPHERE_WIDTH);
    let mut filled = slots.filter(|slot| slot[0] == 1.0);
    let slot = filled.next().expect("a filled slot");
    assert!(filled.next().is_none());
    slot
}

fn cross(b: &[f64], c: &[f64]) -> [u64; 3] {
    let bxc = [
        b[1] * c[2] - b[2] * c[1],
        b[2] * c[0] - b[0] * c[2],
        b[0] * c[1] - b[1] * c[0],
    ];
    bxc.map(f64::to_bits)
}

#[test]
fn each_call_fills_thirteen_numbers_with_the_cross_product() {
    for call in ON_A_SET {
        let mut buffers = Buffers::opened();
        assert_eq!(call(&mut buffers, 0.3, 0.4, 5), Ok(()));
        let slot = filled_sphere(&mut buffers);
        assert_eq!(slot.len(), 13);
        let (triangle, bxc) = slot.split_at(1 + SPHERE_COORDINATES);
        let kept: Vec<u64> = bxc.iter().map(|x| x.to_bits()).collect();
        assert_eq!(kept, cross(&triangle[4..7], &triangle[7..10]));
    }
}

// Forward and place of a position in Vienna, inverse and unplace of a point: all four use the same sphere slot.
fn four(set: &mut Buffers, point: Place) -> (Face, Place, Spherical, LonLat) {
    let [frame, face, sphere] = &mut set.0;
    let vienna = lon_lat(16.3725, 48.2083);
    let position = calls::from_lon_lat(vienna).unwrap();
    (
        calls::forward(frame, face, sphere, position, point.origin).unwrap(),
        calls::place(frame, face, sphere, vienna).unwrap(),
        calls::inverse(frame, face, sphere, point).unwrap(),
        calls::unplace(frame, face, sphere, point).unwrap(),
    )
}

// With another b × c than that of its b and c in the slot: forward and place follow it, inverse and unplace don't, and all leave
// it as it is.
#[test]
fn forward_and_place_read_the_cross_product_as_it_stands() {
    let (_, point, _, _) = four(&mut Buffers::opened(), place_at(0.1, 0.1, 5));
    let mut set = Buffers::opened();
    let before = four(&mut set, point);
    let bxc = &mut filled_sphere(&mut set)[1 + SPHERE_COORDINATES..];
    bxc.iter_mut().for_each(|x| *x *= 1.125);
    let foreign = set.bits();
    let after = four(&mut set, point);
    assert_ne!(after.0, before.0);
    assert_ne!(after.1, before.1);
    assert_eq!((after.2, after.3), (before.2, before.3));
    assert_eq!(set.bits(), foreign);
}

// ---- sessions

// The strike program's line for a record.
fn line(set: &mut Set, record: [u8; 10]) -> String {
    let number = |at: usize| i32::from_be_bytes(record[at..at + 4].try_into().unwrap()) as f64;
    let (first, second) = (number(2), number(6));
    let given = if record[0] == 1 {
        let placed = set.place(lon_lat(first / 10000000.0, second / 10000000.0));
        placed.map(|p| {
            let (x, y) = (p.face.x.to_bits(), p.face.y.to_bits());
            format!("P {} {x:016x} {y:016x}", p.origin)
        })
    } else {
        let (x, y) = (first / 1000000000.0, second / 1000000000.0);
        let unplaced = set.unplace(place_at(x, y, record[1]));
        unplaced.map(|l| {
            let (longitude, latitude) = (l.longitude.to_bits(), l.latitude.to_bits());
            format!("U {longitude:016x} {latitude:016x}")
        })
    };
    given.unwrap_or_else(|refusal| format!("R {}", refusal.number()))
}

// Document 01, "The strike program": the records of its example and the lines that they give.
#[test]
fn session_of_document_01() {
    let mut set = Set::new().unwrap();
    let record = [0x01, 0x00, 0xC8, 0x91, 0x53, 0x80, 0x35, 0xA4, 0xE9, 0x00];
    let placed = line(&mut set, record);
    assert_eq!(placed, "P 0 0000000000000000 0000000000000000");
    let unplaced = line(&mut set, [2, 0, 0, 0, 0, 0, 0, 0, 0, 0]);
    assert_eq!(unplaced, "U c057400000000000 4056800000000000");
    let refused = line(&mut set, [2, 12, 0, 0, 0, 0, 0, 0, 0, 0]);
    assert_eq!(refused, "R 4");
}

// On the used set as on a new one, and back near where it started. Forward and inverse take the same way.
fn there_and_back(used: &mut Set, position: LonLat) {
    let new = Set::new().unwrap();
    let placed = used.place(position).unwrap();
    assert_eq!(new.clone().place(position), Ok(placed));
    let back = used.unplace(placed).unwrap();
    assert_eq!(new.clone().unplace(placed), Ok(back));
    let turned = (back.longitude - position.longitude).rem_euclid(360.0);
    assert!(turned.min(360.0 - turned) < 1e-9, "{position:?} {back:?}");
    assert!(
        (back.latitude - position.latitude).abs() < 1e-9,
        "{position:?} {back:?}"
    );

    let spherical = calls::from_lon_lat(position).unwrap();
    assert_eq!(calls::nearest(spherical), Ok(placed.origin));
    assert_eq!(used.forward(spherical, placed.origin), Ok(placed.face));
    let inverse = used.inverse(placed).unwrap();
    assert_eq!(calls::to_lon_lat(inverse), Ok(back));
}

// The second round finds every slot filled, and leaves the set as it is.
#[test]
fn session_of_place_and_unplace() {
    let mut set = Set::new().unwrap();
    let new = bits_of(&set);
    let mut round = || {
        for longitude in (-175..=175).step_by(14) {
            for latitude in (-84..=84).step_by(12) {
                there_and_back(
                    &mut set,
                    lon_lat(longitude as f64 + 0.123, latitude as f64 + 0.321),
                );
            }
        }
        bits_of(&set)
    };
    let first = round();
    assert_eq!(round(), first);
    assert_eq!(first[..FRAME], new[..FRAME]);
    assert_ne!(first[FRAME..], new[FRAME..]);
    assert_eq!(set.open(), Ok(()));
    assert_eq!(bits_of(&set), new);
}

// A set may move to another thread; `&mut` keeps two from using it at once.
#[test]
fn a_set_goes_to_another_thread() {
    let mut set = Set::new().unwrap();
    let here = set.clone().place(lon_lat(16.3725, 48.2083));
    let there = std::thread::spawn(move || set.place(lon_lat(16.3725, 48.2083)));
    assert_eq!(there.join().unwrap(), here);
}
