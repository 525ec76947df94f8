// The given Rust as it is, and beside it the library, each on a set without triangles: so the triangle that a call uses is seen
// from what it has filled.

use crate::calls::{Call, Forward, Inverse, Place, Unplace};
use crate::common::fields::{of_whole, whole};
use crate::common::sizes::{FACE_SLOTS, RIGHT, SPHERE_SLOTS, SPHERE_WIDTH};
use crate::library::{Buffers, Library};
use crate::set::Set;
use a5_plain::coordinate_systems::{Cartesian, Face, LonLat, Radians, Spherical};
use a5_plain::core::coordinate_transforms;
use a5_plain::core::origin::find_nearest_origin;
use a5_plain::projections::crs::CRS;
use a5_plain::projections::dodecahedron::DodecahedronProjection;

// The numbers of an answer, and the sphere slot of a call on a set.
pub type Given = (Vec<f64>, usize);

// Of a call that takes no set.
pub const NO_SLOT: usize = SPHERE_SLOTS;

fn position(x: &[f64]) -> Spherical {
    Spherical::new(Radians::new_unchecked(x[0]), Radians::new_unchecked(x[1]))
}

fn of_position(s: Spherical) -> Vec<f64> {
    vec![s.theta().get(), s.phi().get()]
}

pub fn from_lon_lat(x: [f64; 2]) -> Vec<f64> {
    of_position(coordinate_transforms::from_lon_lat(LonLat::new(x[0], x[1])))
}

pub fn to_lon_lat(x: &[f64]) -> Vec<f64> {
    let to = coordinate_transforms::to_lon_lat(position(x));
    vec![to.longitude(), to.latitude()]
}

pub fn nearest(x: [f64; 2]) -> Vec<f64> {
    vec![whole(find_nearest_origin(position(&x)).id as usize)]
}

pub struct Plain {
    rows: Vec<Cartesian>,
}

impl Plain {
    pub fn new() -> Plain {
        let crs = CRS::new().expect("the frame has 62 rows");
        Plain {
            rows: crs.oracle_rows().to_vec(),
        }
    }

    pub fn call(&self, call: Call, x: &[f64]) -> Option<Given> {
        let (faces, spheres) = (vec![None; FACE_SLOTS], vec![None; SPHERE_SLOTS]);
        let mut rust = DodecahedronProjection::oracle_with(
            CRS::oracle_with(self.rows.clone()),
            faces,
            spheres,
        );
        let numbers = match call {
            Forward => {
                <[f64; 2]>::from(rust.forward(position(x), of_whole(x[2]) as u8).ok()?).to_vec()
            }
            Place => {
                let at = coordinate_transforms::from_lon_lat(LonLat::new(x[0], x[1]));
                let id = find_nearest_origin(at).id;
                let to = <[f64; 2]>::from(rust.forward(at, id).ok()?);
                vec![whole(id as usize), to[0], to[1]]
            }
            Inverse | Unplace => {
                let at = rust
                    .inverse(Face::new(x[0], x[1]), of_whole(x[2]) as u8)
                    .ok()?;
                match call {
                    Unplace => to_lon_lat(&of_position(at)),
                    _ => of_position(at),
                }
            }
        };
        let slot = rust
            .oracle_spherical_triangles()
            .iter()
            .position(Option::is_some)?;
        numbers
            .iter()
            .all(|x| x.is_finite())
            .then_some((numbers, slot))
    }
}

pub struct Ours {
    pub library: Library,
    buffers: Buffers,
    opened: Set,
}

impl Ours {
    pub fn new() -> Ours {
        let opened = Set::opened();
        Ours {
            library: Library { spoil: None },
            buffers: Buffers::of(&opened),
            opened,
        }
    }

    pub fn call(&mut self, call: Call, x: &[f64]) -> Option<Given> {
        self.buffers.take(&self.opened);
        let outcome = self.library.call(&mut self.buffers, call, RIGHT, x);
        let slot = self.buffers.numbers[2]
            .chunks(SPHERE_WIDTH)
            .position(|slot| slot[0] == 1.0)?;
        (outcome.status == 0).then_some((outcome.numbers, slot))
    }
}
