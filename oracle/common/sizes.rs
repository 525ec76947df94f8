// How many numbers a set has. "The frame (186 numbers, 62 rows of three), the face store (210, 30 slots of 7)." "A slot's first
// number is its mark. Six or nine coordinates follow." Paper 6: "A sphere slot shall have 13 numbers: mark, nine coordinates, then
// b × c. The store is 3,120 numbers."

pub const FRAME: usize = 62 * 3;

pub const FACE_SLOTS: usize = 30;
pub const FACE_COORDINATES: usize = 6;
pub const FACE_WIDTH: usize = 1 + FACE_COORDINATES;
pub const FACE_STORE: usize = FACE_SLOTS * FACE_WIDTH;

pub const SPHERE_SLOTS: usize = 240;
pub const SPHERE_COORDINATES: usize = 9;
pub const SPHERE_WIDTH: usize = 1 + SPHERE_COORDINATES + 3;
pub const SPHERE_STORE: usize = SPHERE_SLOTS * SPHERE_WIDTH;

pub const RIGHT: [usize; 3] = [FRAME, FACE_STORE, SPHERE_STORE];

// The sphere store before Paper 6: "refusal 3 is for every other length".
pub const OLD_SPHERE_STORE: usize = SPHERE_SLOTS * (1 + SPHERE_COORDINATES);
