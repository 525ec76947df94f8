//! Twelve faces for regional maps: a safe interface to the proved library.
//!
//! A [`Set`] owns its buffers and is open from the start; its methods are the calls on it, and
//! [`place_list`](Set::place_list) places many positions in one and [`region`](Set::region) an outline on one face.
//! [`calls`] has the same calls on slices that the caller keeps elsewhere. Every call is total: it answers, or it is refused with a [`Refusal`] and
//! changes nothing. Angles of [`LonLat`] are degrees, those of [`Spherical`] are radians. A [`CaptionBox`] grows round
//! the points of one face, and a [`Window`] keeps the last 180 minutes of strikes. A [`Table`] holds other origins, for a
//! dodecahedron that is turned; a set is opened with it and remembers it. A [`Panel`] is the 32 registers of the caption panel, and
//! [`step`](Set::step) carries out the command in them.
//!
//! [`fair_turns`](fair_turns()) hands out a turn's place calls to sixteen channels. [`sqrt`] is the root that the calls
//! take, and [`sqrt_rounds`] says how many rounds it takes.
//!
//! The calls expect the processor's usual floating-point state: rounding to nearest, subnormal numbers kept.

pub mod calls;
mod caption;
mod panel;
mod points;
mod raw;
mod refusal;
mod root;
mod set;
mod table;
mod turns;
mod window;

pub use caption::{CaptionBox, Sides};
pub use panel::{Command, Panel, BLOCK, DONE, REFUSED};
pub use points::{Face, LonLat, Place, PlaceResult, Region, Spherical, Store};
pub use refusal::Refusal;
pub use root::{sqrt, sqrt_rounds};
pub use set::Set;
pub use table::{Table, TABLE, TABLE_FILE};
pub use turns::fair_turns;
pub use window::Window;

/// How many channels take part in a turn.
pub const CHANNELS: usize = 16;
/// How many bytes a [sheet](Window::sheet) has: 60 lines of 80 columns and a newline.
pub const PAGE: usize = 4860;
/// How many positions a [region](Set::region) has at most.
pub const REGION: usize = 256;
/// How many slots the face store has.
pub const FACE_SLOTS: usize = 30;
/// How many coordinates a face slot has: two of each vertex of its triangle.
pub const FACE_COORDINATES: usize = 6;
/// How many numbers a face slot has: a mark, 1.0 where it is filled, and the coordinates.
pub const FACE_WIDTH: usize = 1 + FACE_COORDINATES;
/// How many slots the sphere store has.
pub const SPHERE_SLOTS: usize = 240;
/// How many coordinates a sphere slot has: three of each vertex a, b, c of its triangle.
pub const SPHERE_COORDINATES: usize = 9;
/// How many numbers a sphere slot has: a mark, the coordinates, and b × c, which forward and place read there.
pub const SPHERE_WIDTH: usize = 1 + SPHERE_COORDINATES + 3;
/// How many numbers the frame has: 62 rows of 3.
pub const FRAME: usize = 62 * 3;
/// How many numbers the face store has: 210.
pub const FACE_STORE: usize = FACE_SLOTS * FACE_WIDTH;
/// How many numbers the sphere store has: 3,120.
pub const SPHERE_STORE: usize = SPHERE_SLOTS * SPHERE_WIDTH;
