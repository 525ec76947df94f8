// The three that are compared: the proved library, and the given Rust in both forms.

use a5_faces::{calls, Face, LonLat, Place, PlaceResult, Set, Sides, Spherical, Table};
use std::hint::black_box;

// Each call answers: the driver hands out no argument that is refused.
pub trait Form {
    fn open(&mut self);
    fn nearest(&mut self, theta: f64, phi: f64) -> u8;
    fn from_lon_lat(&mut self, longitude: f64, latitude: f64) -> [f64; 2];
    fn to_lon_lat(&mut self, theta: f64, phi: f64) -> [f64; 2];
    fn forward(&mut self, theta: f64, phi: f64, origin: u8) -> [f64; 2];
    fn place(&mut self, longitude: f64, latitude: f64) -> Place;
    // Places one position after another.
    fn place_each(&mut self, positions: &[LonLat], results: &mut [PlaceResult]) {
        for (position, result) in positions.iter().zip(results) {
            let place = self.place(position.longitude, position.latitude);
            *result = PlaceResult {
                refusal: 0,
                origin: place.origin,
                x: place.face.x,
                y: place.face.y,
            };
        }
    }
    // Places them in one call, where the form has one.
    fn place_list(&mut self, positions: &[LonLat], results: &mut [PlaceResult]) {
        self.place_each(positions, results);
    }
    // An outline on one face: its positions placed one after another, and the least and greatest coordinates.
    fn region_each(&mut self, positions: &[LonLat], points: &mut [Face]) -> (u8, Sides) {
        let [mut least, mut greatest] = [[f64::INFINITY; 2], [-f64::INFINITY; 2]];
        let mut origin = None;
        for (position, point) in positions.iter().zip(points) {
            let place = self.place(position.longitude, position.latitude);
            assert_eq!(*origin.get_or_insert(place.origin), place.origin);
            *point = place.face;
            for (k, x) in [place.face.x, place.face.y].into_iter().enumerate() {
                least[k] = if x < least[k] { x } else { least[k] };
                greatest[k] = if x > greatest[k] { x } else { greatest[k] };
            }
        }
        let bounds = Sides {
            least_x: least[0],
            greatest_x: greatest[0],
            least_y: least[1],
            greatest_y: greatest[1],
        };
        (origin.expect("a position"), bounds)
    }
    // The same in one call, where the form has one.
    fn region(&mut self, positions: &[LonLat], points: &mut [Face]) -> (u8, Sides) {
        self.region_each(positions, points)
    }
    fn unplace(&mut self, place: Place) -> [f64; 2];
    fn sine(&mut self, x: f64) -> f64;
    fn remainder(&mut self, x: f64, y: f64) -> f64;
    fn sqrt(&self, x: f64) -> f64;
}

// Sine and remainder by themselves are no calls of the library: crate exports_elementary has them for this alone.
#[link(name = "exports_elementary", kind = "static")]
extern "C" {
    fn a5_sin(x: f64) -> f64;
    fn a5_remainder(x: f64, y: f64) -> f64;
}

// The library, with the set of its calls and another that is only opened: the first stays used.
pub struct Ours {
    pub set: Set,
    spare: Set,
    // by the calls with a table
    table: Option<Table>,
}

impl Ours {
    pub fn new() -> Ours {
        let opened = || Set::new().expect("open");
        Ours {
            set: opened(),
            spare: opened(),
            table: None,
        }
    }

    // The built-in rows, handed over as a table: the same answers.
    pub fn with_table() -> Ours {
        let opened = || Set::new_with(Table::built_in()).expect("open");
        Ours {
            set: opened(),
            spare: opened(),
            table: Some(Table::built_in()),
        }
    }
}

impl Form for Ours {
    fn open(&mut self) {
        self.spare.open().expect("open");
        black_box(&mut self.spare);
    }

    fn nearest(&mut self, theta: f64, phi: f64) -> u8 {
        let position = Spherical { theta, phi };
        let nearest = match &self.table {
            None => calls::nearest(position),
            Some(table) => table.nearest(position),
        };
        nearest.expect("nearest")
    }

    fn from_lon_lat(&mut self, longitude: f64, latitude: f64) -> [f64; 2] {
        let to = calls::from_lon_lat(LonLat {
            longitude,
            latitude,
        })
        .expect("from_lon_lat");
        [to.theta, to.phi]
    }

    fn to_lon_lat(&mut self, theta: f64, phi: f64) -> [f64; 2] {
        let to = calls::to_lon_lat(Spherical { theta, phi }).expect("to_lon_lat");
        [to.longitude, to.latitude]
    }

    fn forward(&mut self, theta: f64, phi: f64, origin: u8) -> [f64; 2] {
        let position = Spherical { theta, phi };
        let to = self.set.forward(position, origin).expect("forward");
        [to.x, to.y]
    }

    fn place(&mut self, longitude: f64, latitude: f64) -> Place {
        self.set
            .place(LonLat {
                longitude,
                latitude,
            })
            .expect("place")
    }

    fn place_list(&mut self, positions: &[LonLat], results: &mut [PlaceResult]) {
        self.set
            .place_list_into(positions, results)
            .expect("place_list");
    }

    fn region(&mut self, positions: &[LonLat], points: &mut [Face]) -> (u8, Sides) {
        let region = self.set.region(positions).expect("region");
        points.copy_from_slice(&region.points);
        (region.origin, region.bounds)
    }

    fn unplace(&mut self, place: Place) -> [f64; 2] {
        let to = self.set.unplace(place).expect("unplace");
        [to.longitude, to.latitude]
    }

    // They take numbers alone, and every number.
    fn sine(&mut self, x: f64) -> f64 {
        unsafe { a5_sin(x) }
    }

    fn remainder(&mut self, x: f64, y: f64) -> f64 {
        unsafe { a5_remainder(x, y) }
    }

    fn sqrt(&self, x: f64) -> f64 {
        a5_faces::sqrt(x)
    }
}

// One form of the Rust: the same sources under another crate's name, and the sine and the root that they use.
macro_rules! rust_form {
    ($form:ident, $a5:ident, $sine:expr, $sqrt:expr) => {
        pub struct $form($a5::projections::dodecahedron::DodecahedronProjection);

        impl $form {
            pub fn new() -> $form {
                let set = $a5::projections::dodecahedron::DodecahedronProjection::new();
                $form(set.expect("the Rust has 62 rows"))
            }

            fn position(theta: f64, phi: f64) -> $a5::coordinate_systems::Spherical {
                use $a5::coordinate_systems::{Radians, Spherical};
                Spherical::new(Radians::new_unchecked(theta), Radians::new_unchecked(phi))
            }
        }

        impl Form for $form {
            fn open(&mut self) {
                let crs = $a5::projections::crs::CRS::new();
                assert!(black_box(&crs).is_ok(), "CRS::new");
            }

            fn nearest(&mut self, theta: f64, phi: f64) -> u8 {
                $a5::core::origin::find_nearest_origin(Self::position(theta, phi)).id
            }

            fn from_lon_lat(&mut self, longitude: f64, latitude: f64) -> [f64; 2] {
                let point = $a5::coordinate_systems::LonLat::new(longitude, latitude);
                let to = $a5::core::coordinate_transforms::from_lon_lat(point);
                [to.theta().get(), to.phi().get()]
            }

            fn to_lon_lat(&mut self, theta: f64, phi: f64) -> [f64; 2] {
                let to = $a5::core::coordinate_transforms::to_lon_lat(Self::position(theta, phi));
                [to.longitude(), to.latitude()]
            }

            fn forward(&mut self, theta: f64, phi: f64, origin: u8) -> [f64; 2] {
                let to = self.0.forward(Self::position(theta, phi), origin);
                to.expect("forward").into()
            }

            fn place(&mut self, longitude: f64, latitude: f64) -> Place {
                let point = $a5::coordinate_systems::LonLat::new(longitude, latitude);
                let position = $a5::core::coordinate_transforms::from_lon_lat(point);
                let origin = $a5::core::origin::find_nearest_origin(position).id;
                let face = self.0.forward(position, origin).expect("forward");
                let (x, y) = (face.x(), face.y());
                Place {
                    origin,
                    face: Face { x, y },
                }
            }

            fn unplace(&mut self, place: Place) -> [f64; 2] {
                let face = $a5::coordinate_systems::Face::new(place.face.x, place.face.y);
                let position = self.0.inverse(face, place.origin).expect("inverse");
                let to = $a5::core::coordinate_transforms::to_lon_lat(position);
                [to.longitude(), to.latitude()]
            }

            fn sine(&mut self, x: f64) -> f64 {
                $sine(x)
            }

            fn remainder(&mut self, x: f64, y: f64) -> f64 {
                x % y
            }

            fn sqrt(&self, x: f64) -> f64 {
                $sqrt(x)
            }
        }
    };
}

rust_form!(
    Stepped,
    a5_stepped,
    a5_stepped::steps::sin,
    a5_stepped::steps::sqrt
);
rust_form!(Plain, a5_plain, f64::sin, f64::sqrt);
