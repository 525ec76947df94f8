// The library's functions as they are linked; bindings/a5.h says what each does. A slice is a pointer and how many
// numbers there are; a position and a point in a list are two numbers each. oracle/compare includes this file: it looks at what a refusal leaves where an answer would stand,
// which the safe functions do not show.

// The calls on a set take two numbers, and then an origin or, of place, where to write one.
macro_rules! on_a_set {
    ($($name:ident($x:ident, $y:ident, $more:ident: $type:ty);)*) => {
        extern "C" {
            $(pub fn $name(
                frame: *const f64,
                frame_length: usize,
                face: *mut f64,
                face_length: usize,
                sphere: *mut f64,
                sphere_length: usize,
                $x: f64,
                $y: f64,
                $more: $type,
                to: *mut [f64; 2],
            ) -> u8;)*
        }
    };
}

on_a_set! {
    a5_forward(theta, phi, origin: u8);
    a5_inverse(x, y, origin: u8);
    a5_place(longitude, latitude, id: *mut u8);
    a5_unplace(x, y, origin: u8);
}

// The same with a table before the set.
macro_rules! on_a_set_with {
    ($($name:ident($x:ident, $y:ident, $more:ident: $type:ty);)*) => {
        extern "C" {
            $(pub fn $name(
                table: *const f64,
                table_length: usize,
                frame: *const f64,
                frame_length: usize,
                face: *mut f64,
                face_length: usize,
                sphere: *mut f64,
                sphere_length: usize,
                $x: f64,
                $y: f64,
                $more: $type,
                to: *mut [f64; 2],
            ) -> u8;)*
        }
    };
}

on_a_set_with! {
    a5_forward_with(theta, phi, origin: u8);
    a5_inverse_with(x, y, origin: u8);
    a5_place_with(longitude, latitude, id: *mut u8);
    a5_unplace_with(x, y, origin: u8);
}

#[link(name = "a5faces", kind = "static")]
extern "C" {
    pub fn a5_open(
        frame: *mut f64,
        frame_length: usize,
        face: *mut f64,
        face_length: usize,
        sphere: *mut f64,
        sphere_length: usize,
    ) -> u8;
    pub fn a5_place_list(
        frame: *const f64,
        frame_length: usize,
        face: *mut f64,
        face_length: usize,
        sphere: *mut f64,
        sphere_length: usize,
        positions: *const [f64; 2],
        positions_length: usize,
        results: *mut Placed,
        results_length: usize,
    ) -> u8;
    pub fn a5_place_list_with(
        table: *const f64,
        table_length: usize,
        frame: *const f64,
        frame_length: usize,
        face: *mut f64,
        face_length: usize,
        sphere: *mut f64,
        sphere_length: usize,
        positions: *const [f64; 2],
        positions_length: usize,
        results: *mut Placed,
        results_length: usize,
    ) -> u8;
    pub fn a5_region(
        frame: *const f64,
        frame_length: usize,
        face: *mut f64,
        face_length: usize,
        sphere: *mut f64,
        sphere_length: usize,
        positions: *const [f64; 2],
        positions_length: usize,
        points: *mut [f64; 2],
        points_length: usize,
        origin: *mut u8,
        caption: *mut Caption,
    ) -> u8;
    pub fn a5_region_with(
        table: *const f64,
        table_length: usize,
        frame: *const f64,
        frame_length: usize,
        face: *mut f64,
        face_length: usize,
        sphere: *mut f64,
        sphere_length: usize,
        positions: *const [f64; 2],
        positions_length: usize,
        points: *mut [f64; 2],
        points_length: usize,
        origin: *mut u8,
        caption: *mut Caption,
    ) -> u8;
    pub fn a5_open_with(
        table: *const f64,
        table_length: usize,
        frame: *mut f64,
        frame_length: usize,
        face: *mut f64,
        face_length: usize,
        sphere: *mut f64,
        sphere_length: usize,
    ) -> u8;
    pub fn a5_panel_step(
        frame: *const f64,
        frame_length: usize,
        face: *mut f64,
        face_length: usize,
        sphere: *mut f64,
        sphere_length: usize,
        block: *mut u8,
        n: usize,
    ) -> u8;
    pub fn a5_panel_step_with(
        table: *const f64,
        table_length: usize,
        frame: *const f64,
        frame_length: usize,
        face: *mut f64,
        face_length: usize,
        sphere: *mut f64,
        sphere_length: usize,
        block: *mut u8,
        n: usize,
    ) -> u8;
    pub fn a5_nearest_with(
        table: *const f64,
        table_length: usize,
        theta: f64,
        phi: f64,
        id: *mut u8,
    ) -> u8;
    pub fn a5_table_load(bytes: *const u8, n: usize, table: *mut [f64; 84]) -> u8;
    pub fn a5_table_save(table: *const f64, table_length: usize, bytes: *mut u8, n: usize) -> u8;
    pub fn a5_show(
        face: *const f64,
        face_length: usize,
        sphere: *const f64,
        sphere_length: usize,
        kind: u8,
        slot: usize,
        part: *mut [usize; 2],
    ) -> u8;
    pub fn a5_slot_state(
        face: *const f64,
        face_length: usize,
        sphere: *const f64,
        sphere_length: usize,
        kind: u8,
        slot: usize,
        filled: *mut u8,
    ) -> u8;
    pub fn a5_nearest(theta: f64, phi: f64, id: *mut u8) -> u8;
    pub fn a5_from_lon_lat(longitude: f64, latitude: f64, to: *mut [f64; 2]) -> u8;
    pub fn a5_to_lon_lat(theta: f64, phi: f64, to: *mut [f64; 2]) -> u8;
    pub fn a5_sqrt(x: f64) -> f64;
    pub fn a5_sqrt_rounds(x: f64) -> u32;
    pub fn a5_box_new(caption: *mut Caption);
    pub fn a5_box_take(caption: *mut Caption, x: f64, y: f64) -> u8;
    pub fn a5_fair_turns(
        wishes: *const u16,
        wishes_length: usize,
        grants: *mut u16,
        grants_length: usize,
    ) -> u8;
    pub fn a5_window_new(window: *mut Window);
    pub fn a5_window_add(window: *mut Window, minute: u32, origin: u8) -> u8;
    pub fn a5_window_counts(window: *const Window, counts: *mut [u32; 12]);
    pub fn a5_window_kept(window: *const Window) -> u32;
    pub fn a5_sheet(window: *const Window, page: *mut u8, n: usize) -> u8;
}

// a5_result.
#[derive(Clone, Copy)]
#[repr(C)]
pub struct Placed {
    pub refusal: u8,
    pub origin: u8,
    pub x: f64,
    pub y: f64,
}

// a5_box.
#[derive(Clone, Copy)]
#[repr(C)]
pub struct Caption {
    pub least_x: f64,
    pub greatest_x: f64,
    pub least_y: f64,
    pub greatest_y: f64,
    pub empty: bool,
}

// A window of strikes, as the library lays it out.
#[repr(C)]
#[derive(Clone)]
pub struct Window {
    pub minutes: [u32; 4096],
    pub origins: [u8; 4096],
    pub counts: [u32; 12],
    pub first: u32,
    pub kept: u32,
    pub last: u32,
}
