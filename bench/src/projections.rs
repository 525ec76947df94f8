// PROJ's own equal-area projections, where libproj is at hand: forward from longitude and latitude in radians.

#[repr(C)]
#[derive(Clone, Copy)]
struct Coordinates([f64; 4]);

#[repr(C)]
struct Handle {
    _private: [u8; 0],
}

#[link(name = "proj")]
extern "C" {
    fn proj_create(context: *mut Handle, definition: *const std::ffi::c_char) -> *mut Handle;
    fn proj_trans(projection: *mut Handle, direction: i32, from: Coordinates) -> Coordinates;
}

pub struct Projection(*mut Handle);

impl Projection {
    pub fn new(definition: &std::ffi::CStr) -> Projection {
        // the default context, and a string that ends
        let projection = unsafe { proj_create(std::ptr::null_mut(), definition.as_ptr()) };
        assert!(!projection.is_null(), "{definition:?}");
        Projection(projection)
    }

    pub fn forward(&mut self, longitude: f64, latitude: f64) -> [f64; 2] {
        let from = Coordinates([longitude, latitude, 0.0, 0.0]);
        // the handle that proj_create gave, in one thread
        let Coordinates([x, y, ..]) = unsafe { proj_trans(self.0, 1, from) };
        [x, y]
    }
}
