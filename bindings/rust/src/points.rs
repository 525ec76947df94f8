// What goes into a call and comes out.

use crate::{Refusal, Sides};

/// Longitude (−360 to 360) and latitude (−90 to 90), in degrees.
#[derive(Clone, Copy, Debug, PartialEq)]
// as the library reads it in a list
#[repr(C)]
pub struct LonLat {
    pub longitude: f64,
    pub latitude: f64,
}

/// A position on the authalic sphere: theta and phi (−8 to 8), in radians.
#[derive(Clone, Copy, Debug, PartialEq)]
pub struct Spherical {
    pub theta: f64,
    pub phi: f64,
}

/// A point on a face: x and y (−4 to 4).
#[derive(Clone, Copy, Debug, PartialEq)]
// as the library writes it in a region
#[repr(C)]
pub struct Face {
    pub x: f64,
    pub y: f64,
}

/// A point on the face of an origin (0 to 11).
#[derive(Clone, Copy, Debug, PartialEq)]
pub struct Place {
    pub origin: u8,
    pub face: Face,
}

/// What place gives for one position of a list, as the library writes it: the number of its refusal, 0 where it answered,
/// and origin, x and y, which are 0 where it refused. [`PlaceResult::given`] is the same as `place` gives it.
#[derive(Clone, Copy, Debug, Default, PartialEq)]
#[repr(C)]
pub struct PlaceResult {
    pub refusal: u8,
    pub origin: u8,
    pub x: f64,
    pub y: f64,
}

impl PlaceResult {
    /// The place, or the refusal. It panics on a number that no refusal has, which no list gives.
    #[inline]
    pub fn given(self) -> Result<Place, Refusal> {
        let PlaceResult { origin, x, y, .. } = self;
        let face = Face { x, y };
        crate::calls::given(self.refusal, Place { origin, face })
    }
}

/// An outline on one face: its origin (0 to 11), the face point of each position, in their order, and the sides of the
/// smallest box round the points.
#[derive(Clone, Debug, PartialEq)]
pub struct Region {
    pub origin: u8,
    pub points: Vec<Face>,
    pub bounds: Sides,
}

/// The store that show looks at.
#[derive(Clone, Copy, Debug, PartialEq, Eq)]
pub enum Store {
    Face,
    Sphere,
}
