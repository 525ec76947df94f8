// Arguments on the faces of a table.

use crate::calls::{Call, Forward, Inverse, Place, Unplace};
use crate::common::fields::{of_lon_lat, of_spherical, spherical, whole};
use crate::common::generator::Generator;
use crate::set::Set;
use crate::tables::Rows;
use a5::coordinate_systems::Face;
use a5::core::constants::PI_OVER_5;
use a5::core::coordinate_transforms::to_lon_lat;
use a5::core::origin::oracle_with_table;
use a5::steps::{cos, sin};
use std::f64::consts::PI;

pub const CALLS: [Call; 4] = [Forward, Inverse, Place, Unplace];

// A triangle of a face, with a point in it.
pub struct Target {
    pub id: usize,
    pub index: usize,
    pub reflected: bool,
    pub point: [f64; 2],
}

impl Target {
    pub fn in_triangle(g: &mut Generator, id: usize, index: usize, reflected: bool) -> Target {
        let gamma = (index as f64 + g.between(0.05, 0.95)) * PI_OVER_5.get();
        let rho = if reflected {
            g.between(0.77, 1.1)
        } else {
            g.between(0.05, 0.6)
        };
        Target {
            id,
            index,
            reflected,
            point: [rho * cos(gamma), rho * sin(gamma)],
        }
    }

    pub fn any(g: &mut Generator) -> Target {
        let (id, index) = (g.whole(0, 12) as usize, g.whole(0, 10) as usize);
        let reflected = g.whole(0, 2) == 0;
        Target::in_triangle(g, id, index, reflected)
    }

    // "Face slot i (0..9) is the base triangle, 10+i reflected with scale 2." "Sphere slot is 10·origin + index, plus 120 if
    // reflected."
    pub fn slots(&self) -> (usize, usize) {
        let sphere = 10 * self.id + self.index;
        if self.reflected {
            (10 + self.index, 120 + sphere)
        } else {
            (self.index, sphere)
        }
    }

    // Where the table's face has the point on a set, or, where a vertex is missing, anywhere.
    fn position(&self, g: &mut Generator, table: &Rows, set: &Set) -> [f64; 2] {
        let [x, y] = self.point;
        let inverse = || set.projection().inverse(Face::new(x, y), self.id as u8);
        match oracle_with_table(table, inverse) {
            Ok(position) => of_spherical(position),
            Err(_) => [g.between(-PI, PI), g.between(0.0, PI)],
        }
    }

    // A call's arguments there.
    pub fn arguments(&self, g: &mut Generator, call: Call, table: &Rows, set: &Set) -> Vec<f64> {
        let p = match call {
            Inverse | Unplace => self.point,
            Forward => self.position(g, table, set),
            Place => of_lon_lat(to_lon_lat(spherical(self.position(g, table, set)))),
        };
        asked(call, p, self.id)
    }
}

// The two numbers, and the origin's id where the call has one.
pub fn asked(call: Call, p: [f64; 2], id: usize) -> Vec<f64> {
    match call {
        Place => p.to_vec(),
        _ => vec![p[0], p[1], whole(id)],
    }
}
