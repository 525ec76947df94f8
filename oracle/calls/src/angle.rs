// The angle from the area share at a point. It serves to find arguments: what a call gives there is the Rust's own.

use crate::common::fields::{cartesian, face, triangle};
use crate::common::sphere_slot::spherical_triangle;
use crate::foreign::{contents, Slot, Target};
use crate::set::{empty_projection, Set};
use a5::coordinate_systems::{Barycentric, FaceTriangle, SphericalTriangle};
use a5::core::coordinate_transforms::{face_to_barycentric, to_polar};
use a5::projections::crs::CRS;
use a5::projections::dodecahedron::DodecahedronProjection;
use a5::projections::equal_area::{EqualAreaProjection, TriangleConstants};

// In the triangle of a target, and what it depends on besides the point.
pub struct Angle<'a> {
    pub target: &'a Target,
    face: FaceTriangle,
    sphere: SphericalTriangle,
    constants: TriangleConstants,
    rust: DodecahedronProjection,
}

impl Angle<'_> {
    // On a set. A slot that is empty has the triangle defined for it.
    pub fn on<'a>(set: &Set, defined: &Set, target: &'a Target) -> Angle<'a> {
        let has = |slot| match slot {
            Slot::Face(k) => set.face_slot(k).is_some(),
            Slot::Sphere(k) => set.sphere_slot(k).is_some(),
        };
        let of = |slot| contents(if has(slot) { set } else { defined }, slot);
        let frame = CRS::oracle_with(set.frame.chunks(3).map(cartesian).collect());
        Angle {
            target,
            face: triangle(&of(target.slots()[0])),
            sphere: spherical_triangle(&of(Slot::Sphere(target.sphere()))),
            constants: EqualAreaProjection::compute_constants(frame.get_canonical_triangle()),
            rust: empty_projection(),
        }
    }

    fn weights(&self, p: [f64; 2]) -> Barycentric {
        face_to_barycentric(face(&p), self.face)
    }

    fn is_odd(&self) -> bool {
        let (a, b) = (self.sphere.a, self.sphere.b);
        let a_dot_b = a.x() * b.x() + a.y() * b.y() + a.z() * b.z();
        let [even, odd] = [self.constants.a_dot_b, self.constants.a_dot_c];
        (a_dot_b - even).abs() > (a_dot_b - odd).abs()
    }

    // Also where a corner is returned, and nobody looks at it.
    pub fn at(&self, p: [f64; 2]) -> f64 {
        let b = self.weights(p);
        let share = if self.is_odd() { b.v } else { b.w };
        share / (1.0 - b.u) * self.constants.area_abc
    }

    // The corner that is returned: 0, 1 or 2 for a, b or c.
    pub fn corner(&self, p: [f64; 2]) -> Option<usize> {
        let b = self.weights(p);
        [b.u, b.v, b.w].iter().position(|x| *x > 1.0 - 1e-14)
    }

    // Whether a call at p uses this triangle.
    pub fn is_used(&self, p: [f64; 2]) -> bool {
        let polar = to_polar(face(&p));
        self.rust.oracle_triangle_index(polar) == self.target.index
            && self.rust.oracle_should_reflect(polar) == self.target.reflected
    }

    // On the line through a parallel to bc, so many sides from a. There u is 1, and beside it the angle has no bound.
    pub fn on_line(&self, sides: f64) -> [f64; 2] {
        let FaceTriangle { a, b, c } = self.face;
        let [x, y] = [c.x() - b.x(), c.y() - b.y()];
        [a.x() + sides * x, a.y() + sides * y]
    }

    // The axis that leads across that line rather than along it, and the sign of the way on which u falls.
    pub fn across(&self) -> (usize, f64) {
        let FaceTriangle { a, b, c } = self.face;
        let is_upright = (c.x() - b.x()).abs() < (c.y() - b.y()).abs();
        let axis = if is_upright { 0 } else { 1 };
        let u = self.weights(shifted([a.x(), a.y()], axis, 1e-3)).u;
        (axis, if u < 1.0 { 1.0 } else { -1.0 })
    }
}

// The point with one number changed.
pub fn shifted(mut p: [f64; 2], axis: usize, by: f64) -> [f64; 2] {
    p[axis] += by;
    p
}
