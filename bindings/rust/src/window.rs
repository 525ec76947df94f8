// A window of strikes that owns its memory.

use crate::calls::given;
use crate::raw;
use crate::Refusal;
use crate::PAGE;
use std::fmt;
use std::mem::{align_of, size_of, MaybeUninit};

// What a5.h says of the struct.
const _: () = assert!(size_of::<raw::Window>() == 20540 && align_of::<raw::Window>() == 4);

/// The last 180 minutes of strikes, at most 4,096: those accepted whose minute is less than 180 behind the last accepted
/// one, counted by origin. It lies on the heap, so that a move copies nothing of it.
#[derive(Clone)]
pub struct Window(Box<raw::Window>);

impl Window {
    /// How many strikes a window keeps at most.
    pub const MOST: u32 = 4096;
    /// How many minutes it looks back.
    pub const MINUTES: u32 = 180;

    /// An empty window.
    pub fn new() -> Window {
        let place = Box::into_raw(Box::new(MaybeUninit::<raw::Window>::uninit()));
        // The place is of the right size and alignment, and the call writes all of it.
        unsafe {
            raw::a5_window_new(place.cast());
            Window(Box::from_raw(place.cast()))
        }
    }

    /// Empties the window.
    #[inline]
    pub fn clear(&mut self) {
        unsafe { raw::a5_window_new(&mut *self.0) }
    }

    /// Adds a strike: those that are 180 minutes or more behind it are dropped first. An equal minute is accepted.
    /// Refused, in this order: an origin above 11, a minute before the last accepted one, a window that would still be
    /// full; then nothing is dropped.
    #[inline]
    pub fn add(&mut self, minute: u32, origin: u8) -> Result<(), Refusal> {
        given(unsafe { raw::a5_window_add(&mut *self.0, minute, origin) }, ())
    }

    /// How many of the kept strikes each origin has.
    #[inline]
    pub fn counts(&self) -> [u32; 12] {
        let mut counts = [0; 12];
        unsafe { raw::a5_window_counts(&*self.0, &mut counts) }
        counts
    }

    /// How many strikes are kept: the sum of the counts.
    #[inline]
    pub fn kept(&self) -> u32 {
        unsafe { raw::a5_window_kept(&*self.0) }
    }

    /// The as-run sheet: 60 lines of 80 columns, each ended by a newline, with a row for each origin's count and one for
    /// their sum.
    pub fn sheet(&self) -> String {
        let mut page = vec![0; PAGE];
        let status = unsafe { raw::a5_sheet(&*self.0, page.as_mut_ptr(), page.len()) };
        assert_eq!(status, 0, "a page of the right length");
        String::from_utf8(page).expect("letters, digits, spaces and newlines")
    }
}

impl Default for Window {
    fn default() -> Window {
        Window::new()
    }
}

impl fmt::Debug for Window {
    fn fmt(&self, f: &mut fmt::Formatter<'_>) -> fmt::Result {
        let mut window = f.debug_struct("Window");
        window.field("kept", &self.kept());
        window
            .field("counts", &self.counts())
            .finish_non_exhaustive()
    }
}
