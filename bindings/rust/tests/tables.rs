//! Tables, tried on the linked library: the built-in one, a turned one from its file, each refusal, a set that remembers its
//! table, and another table than the set was opened with.

use a5_faces::{calls, Face, LonLat, Place, Refusal, Set, Spherical, Table, TABLE, TABLE_FILE};
use a5_faces::{FACE_STORE, FRAME, SPHERE_STORE};

// What examples/turned_table writes for longitude -0.1278, latitude 51.5074 and 17.5 degrees.
const TURNED: &[u8] = include_bytes!("../../turned.eat");

fn turned() -> Table {
    Table::load(TURNED).expect("a table")
}

fn with(change: impl Fn(&mut [f64; TABLE])) -> Result<Table, Refusal> {
    let mut numbers = *Table::built_in().numbers();
    change(&mut numbers);
    Table::new(&numbers)
}

fn bits(set: &Set) -> Vec<u64> {
    let numbers = set.buffers().into_iter().flatten();
    numbers.map(|x| x.to_bits()).collect()
}

fn positions() -> impl Iterator<Item = LonLat> {
    (0..400).map(|k| LonLat {
        longitude: -179.0 + 0.89 * f64::from(k),
        latitude: 85.0 * f64::from(k).sin(),
    })
}

#[test]
fn built_in_is_the_library_s() {
    let (mut set, mut other) = (
        Set::new().unwrap(),
        Set::new_with(Table::built_in()).unwrap(),
    );
    assert_eq!(bits(&set), bits(&other));
    assert_eq!(set.table(), other.table());
    for position in positions() {
        let place = set.place(position);
        assert_eq!(place, other.place(position));
        assert_eq!(set.unplace(place.unwrap()), other.unplace(place.unwrap()));
        assert_eq!(set.inverse(place.unwrap()), other.inverse(place.unwrap()));
        let at = calls::from_lon_lat(position).unwrap();
        let origin = place.unwrap().origin;
        assert_eq!(set.forward(at, origin), other.forward(at, origin));
        assert_eq!(calls::nearest(at), Table::built_in().nearest(at));
    }
    assert_eq!(bits(&set), bits(&other));
}

#[test]
fn turned_there_and_back() {
    let mut set = Set::new_with(turned()).unwrap();
    let mut plain = Set::new().unwrap();
    for position in positions() {
        let place = set.place(position).unwrap();
        let back = set.unplace(place).unwrap();
        let off = (back.longitude - position.longitude).rem_euclid(360.0);
        assert!(off.min(360.0 - off) < 1e-9 && (back.latitude - position.latitude).abs() < 1e-9);
        assert_ne!(plain.place(position), Ok(place), "elsewhere without it");
        let at = calls::from_lon_lat(position).unwrap();
        assert_eq!(turned().nearest(at), Ok(place.origin));
    }
    // opened again it is newly opened, with the same table
    set.open().unwrap();
    assert_eq!(bits(&set), bits(&Set::new_with(turned()).unwrap()));
    assert_eq!(set.table(), turned());
}

#[test]
fn saved_and_loaded() {
    assert_eq!(turned().save(), TURNED);
    assert_eq!(
        Table::load(&Table::built_in().save()),
        Ok(Table::built_in())
    );
    assert_eq!(Table::new(turned().numbers()), Ok(turned()));
    for k in 0..5 {
        let mut file = turned().save();
        file[k] ^= 1;
        assert_eq!(Table::load(&file), Err(Refusal::TableFile));
    }
    assert_eq!(Table::load(&TURNED[1..]), Err(Refusal::TableFile));
    assert_eq!(Table::load(&[]), Err(Refusal::TableFile));
    let mut bytes = [7; TABLE_FILE - 1];
    let refused = calls::table_save(turned().numbers(), &mut bytes);
    assert_eq!((refused, bytes[0]), (Err(Refusal::TableFile), 7));
}

#[test]
fn refused_tables() {
    assert_eq!(Table::new(&[0.0; 83]), Err(Refusal::TableFile));
    assert_eq!(with(|t| t[0] = f64::NAN), Err(Refusal::TableNumber));
    assert_eq!(with(|t| t[83] = f64::INFINITY), Err(Refusal::TableNumber));
    assert_eq!(
        with(|t| t[1] = 8.000000000000002),
        Err(Refusal::TableNumber)
    );
    assert_eq!(
        with(|t| t[5] = 1.0000000000000002),
        Err(Refusal::TableNumber)
    );
    assert_eq!(with(|t| t[5] = 0.9999), Err(Refusal::TableQuaternion));
    let both = with(|t| (t[5], t[83]) = (0.9999, 9.0));
    assert_eq!(both, Err(Refusal::TableNumber), "21 over all rows, then 22");
    // at the limits
    assert!(with(|t| (t[0], t[1], t[6]) = (8.0, -8.0, 8.0)).is_ok());
    // a set of wrong length comes after 20 and before 21
    let (mut frame, mut face, mut sphere) =
        ([0.0; FRAME - 1], [0.0; FACE_STORE], [0.0; SPHERE_STORE]);
    let mut open = |table: &[f64]| calls::open_with(table, &mut frame, &mut face, &mut sphere);
    assert_eq!(open(&[f64::NAN; 85]), Err(Refusal::TableFile));
    assert_eq!(open(&[f64::NAN; 84]), Err(Refusal::FrameLength));
    // nearest tests the table first
    let at = Spherical {
        theta: f64::NAN,
        phi: 0.0,
    };
    assert_eq!(
        calls::nearest_with(&[9.0; 84], at),
        Err(Refusal::TableNumber)
    );
    assert_eq!(calls::nearest_with(&[0.5; 83], at), Err(Refusal::TableFile));
    assert_eq!(turned().nearest(at), Err(Refusal::NotFinite));
}

// Tables that pass 21 and 22, and with which a set isn't opened, or some calls have no vertex.
#[test]
fn frames_that_do_not_fit() {
    let seven = with(|t| t[6] = 1.0).unwrap();
    assert_eq!(Set::new_with(seven.clone()).err(), Some(Refusal::FrameRows));
    let mut set = Set::new_with(turned()).unwrap();
    let before = bits(&set);
    assert_eq!(set.open_with(seven), Err(Refusal::FrameRows));
    assert_eq!((bits(&set), set.table()), (before, turned()));

    let mut set = Set::new_with(with(|t| t[1] = 0.25).unwrap()).unwrap();
    let before = bits(&set);
    let face = Face { x: 0.1, y: 0.1 };
    assert_eq!(
        set.unplace(Place { origin: 0, face }),
        Err(Refusal::NoVertex)
    );
    assert_eq!(bits(&set), before);
    assert!(set.unplace(Place { origin: 9, face }).is_ok());
}

// Another table than the set was opened with: what an empty slot should hold is not in the frame.
#[test]
fn another_table() {
    let mut set = Set::new_with(turned()).unwrap();
    let before = bits(&set);
    let [frame, face, sphere] = set.buffers().map(<[f64]>::to_vec);
    let (mut face, mut sphere) = (face, sphere);
    let position = LonLat {
        longitude: 10.0,
        latitude: 20.0,
    };
    let own = Table::built_in();
    let refused = calls::place_with(own.numbers(), &frame, &mut face, &mut sphere, position);
    assert_eq!(refused, Err(Refusal::NoVertex));
    let refused = calls::place(&frame, &mut face, &mut sphere, position);
    assert_eq!(refused, Err(Refusal::NoVertex));
    assert!(set.place(position).is_ok());
    set.open_with(turned()).unwrap();
    assert_eq!(bits(&set), before);
}
