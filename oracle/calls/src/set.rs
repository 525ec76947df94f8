// A set of document 01 as three lists of numbers, and the Rust's projection with that frame and those triangles.

use crate::common::fields::{cartesian, of_triangle, triangle};
use crate::common::places::rows;
use crate::common::sizes::{
    FACE_SLOTS, FACE_STORE, FACE_WIDTH, FRAME, SPHERE_SLOTS, SPHERE_STORE, SPHERE_WIDTH,
};
use crate::common::sphere_slot::{of_spherical_triangle, spherical_triangle};
use a5::core::origin::oracle_with_table;
use a5::projections::crs::CRS;
use a5::projections::dodecahedron::DodecahedronProjection;

#[derive(Clone)]
pub struct Set {
    pub frame: Vec<f64>,
    pub face: Vec<f64>,
    pub sphere: Vec<f64>,
}

pub fn new_projection() -> DodecahedronProjection {
    DodecahedronProjection::new().expect("the frame has 62 rows")
}

// The same without making its frame again.
pub fn empty_projection() -> DodecahedronProjection {
    let rows = rows().iter().map(|row| cartesian(row)).collect();
    let (faces, spheres) = (vec![None; FACE_SLOTS], vec![None; SPHERE_SLOTS]);
    DodecahedronProjection::oracle_with(CRS::oracle_with(rows), faces, spheres)
}

// "A slot's first number is its mark: 1.0 is filled, anything else is empty." What follows it: six coordinates, or nine and b × c.
pub fn filled(store: &[f64], width: usize, slot: usize) -> Option<&[f64]> {
    let numbers = &store[slot * width..(slot + 1) * width];
    (numbers[0] == 1.0).then_some(&numbers[1..])
}

fn put(store: &mut [f64], width: usize, slot: usize, mark: f64, numbers: &[f64]) {
    store[slot * width] = mark;
    store[slot * width + 1..(slot + 1) * width].copy_from_slice(numbers);
}

impl Set {
    // "Open writes the frame and fills both stores with 0.0."
    pub fn opened() -> Set {
        Set {
            frame: rows().concat(),
            face: vec![0.0; FACE_STORE],
            sphere: vec![0.0; SPHERE_STORE],
        }
    }

    // The same with a table, which passed 21 and 22. "7: the frame that open makes hasn't 62 rows": the Rust's own failure.
    pub fn opened_with(table: &[f64]) -> Result<Set, u8> {
        let crs = oracle_with_table(table, CRS::new).map_err(|_| 7)?;
        let rows = crs.oracle_rows().iter().map(|row| <[f64; 3]>::from(*row));
        let mut set = Set::filled_with([0.0; 3]);
        set.frame = rows.collect::<Vec<_>>().concat();
        Ok(set)
    }

    pub fn filled_with(numbers: [f64; 3]) -> Set {
        Set {
            frame: vec![numbers[0]; FRAME],
            face: vec![numbers[1]; FACE_STORE],
            sphere: vec![numbers[2]; SPHERE_STORE],
        }
    }

    // The opened set with every slot filled, by the Rust.
    pub fn defined() -> Set {
        let mut set = Set::opened();
        let mut rust = new_projection();
        for slot in 0..FACE_SLOTS {
            let t = rust.oracle_face_triangle(slot);
            set.put_face(slot, 1.0, &of_triangle(t));
        }
        for slot in 0..SPHERE_SLOTS {
            let t = rust.oracle_spherical_triangle(slot);
            set.put_sphere(slot, 1.0, &of_spherical_triangle(t));
        }
        set
    }

    pub fn put_row(&mut self, row: usize, numbers: [f64; 3]) {
        self.frame[3 * row..3 * row + 3].copy_from_slice(&numbers);
    }

    pub fn put_face(&mut self, slot: usize, mark: f64, numbers: &[f64]) {
        put(&mut self.face, FACE_WIDTH, slot, mark, numbers);
    }

    pub fn put_sphere(&mut self, slot: usize, mark: f64, numbers: &[f64]) {
        put(&mut self.sphere, SPHERE_WIDTH, slot, mark, numbers);
    }

    pub fn face_slot(&self, slot: usize) -> Option<&[f64]> {
        filled(&self.face, FACE_WIDTH, slot)
    }

    pub fn sphere_slot(&self, slot: usize) -> Option<&[f64]> {
        filled(&self.sphere, SPHERE_WIDTH, slot)
    }

    pub fn is_empty(&self) -> bool {
        let faces = (0..FACE_SLOTS).all(|slot| self.face_slot(slot).is_none());
        faces && (0..SPHERE_SLOTS).all(|slot| self.sphere_slot(slot).is_none())
    }

    pub fn is_full(&self) -> bool {
        let faces = (0..FACE_SLOTS).all(|slot| self.face_slot(slot).is_some());
        faces && (0..SPHERE_SLOTS).all(|slot| self.sphere_slot(slot).is_some())
    }

    // The Rust with this frame, whose constants it then takes from there, and with the filled slots in its caches. "A filled
    // slot is read as it stands, even if foreign hands wrote it."
    pub fn projection(&self) -> DodecahedronProjection {
        let faces = (0..FACE_SLOTS).map(|slot| self.face_slot(slot).map(triangle));
        let spheres = (0..SPHERE_SLOTS).map(|slot| self.sphere_slot(slot).map(spherical_triangle));
        DodecahedronProjection::oracle_with(
            CRS::oracle_with(self.frame.chunks(3).map(cartesian).collect()),
            faces.collect(),
            spheres.collect(),
        )
    }
}
