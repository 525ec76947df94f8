// The caption box.

use crate::calls::given;
use crate::raw;
use crate::{Face, Refusal};

/// The smallest upright rectangle round the points of one face taken in so far.
#[derive(Clone, Copy)]
pub struct CaptionBox(raw::Caption);

/// The least and greatest coordinates taken in.
#[derive(Clone, Copy, Debug, PartialEq)]
pub struct Sides {
    pub least_x: f64,
    pub greatest_x: f64,
    pub least_y: f64,
    pub greatest_y: f64,
}

// The `unsafe` calls below are owed a pointer to a box that nothing else uses meanwhile: a `&mut` is just that.
impl CaptionBox {
    /// An empty box.
    #[inline]
    pub fn new() -> CaptionBox {
        let mut caption = raw::Caption {
            least_x: 0.0,
            greatest_x: 0.0,
            least_y: 0.0,
            greatest_y: 0.0,
            empty: true,
        };
        unsafe { raw::a5_box_new(&mut caption) };
        CaptionBox(caption)
    }

    /// Takes one more point in. A coordinate replaces a side exactly when it is strictly beyond it. A point that isn't
    /// finite, or is beyond ±4, is refused, and the box stays as it was.
    #[inline]
    pub fn take_in(&mut self, point: Face) -> Result<(), Refusal> {
        let status = unsafe { raw::a5_box_take(&mut self.0, point.x, point.y) };
        given(status, ())
    }

    /// Whether no point was taken in yet.
    #[inline]
    pub fn is_empty(&self) -> bool {
        self.0.empty
    }

    /// The four sides; `None` while no point was taken in.
    #[inline]
    pub fn sides(&self) -> Option<Sides> {
        (!self.0.empty).then_some(Sides::of(self.0))
    }
}

impl Sides {
    // Of a box with a point in it.
    #[inline]
    pub(crate) fn of(caption: raw::Caption) -> Sides {
        Sides {
            least_x: caption.least_x,
            greatest_x: caption.greatest_x,
            least_y: caption.least_y,
            greatest_y: caption.greatest_y,
        }
    }
}

impl Default for CaptionBox {
    fn default() -> CaptionBox {
        CaptionBox::new()
    }
}

/// Shows the sides, or that there are none.
impl std::fmt::Debug for CaptionBox {
    fn fmt(&self, f: &mut std::fmt::Formatter<'_>) -> std::fmt::Result {
        f.debug_tuple("CaptionBox").field(&self.sides()).finish()
    }
}
