// For the self-test: one bit on the library's side is changed once, so that a comparison that overlooks it shows.

use crate::common::sizes::{SPHERE_STORE, SPHERE_WIDTH};
use crate::counts::{Where, CALLS, PLACES};
use crate::library::Buffers;
use crate::outcome::Outcome;

// The numbers of an answer, the status, what a refusal leaves in the answer, one number of each buffer and one behind; b × c of a
// filled slot; then the status and numbers of the stores where it is 19.
pub const WHATS: [&str; 13] = [
    "answer",
    "status",
    "left",
    "frame",
    "face",
    "sphere",
    "behind",
    "b × c",
    FORMED,
    "status at 19",
    "left at 19",
    "face at 19",
    "sphere at 19",
];

// Not one bit: a call that forms b × c of a filled slot's b and c instead of reading it there.
pub const FORMED: &str = "b × c formed";

#[derive(Clone, Copy)]
pub struct Spoil {
    call: usize,
    what: &'static str,
    pub place: Where,
}

fn flip(x: &mut f64) {
    *x = f64::from_bits(x.to_bits() ^ 1);
}

impl Spoil {
    pub fn named(call: &str, what: &str, place: &str) -> Option<Spoil> {
        Some(Spoil {
            call: CALLS.iter().position(|name| *name == call)?,
            what: WHATS.iter().find(|name| **name == what)?,
            place: PLACES.iter().find(|p| p.1 == place)?.0,
        })
    }

    // Whether the call is one that forms b × c, as often as it is made.
    pub fn forms(&self, call: usize) -> bool {
        call == self.call && self.what == FORMED
    }

    // Whether it has been done at this call.
    pub fn done(&self, call: usize, outcome: &mut Outcome, buffers: Option<&mut Buffers>) -> bool {
        if call != self.call {
            return false;
        }
        let last = outcome.numbers.last_mut();
        match (self.what, outcome.status, last, buffers) {
            ("status", _, _, _) | ("status at 19", 19, _, _) => outcome.status ^= 1,
            ("answer", 0, Some(x), _) => flip(x),
            ("left", 1.., Some(x), _) | ("left at 19", 19, Some(x), _) => flip(x),
            ("frame", _, _, Some(b)) => flip(&mut b.numbers[0][100]),
            ("face", _, _, Some(b)) => flip(&mut b.numbers[1][209]),
            ("face at 19", 19, _, Some(b)) => flip(&mut b.numbers[1][70]),
            ("sphere", _, _, Some(b)) => flip(&mut b.numbers[2][1234]),
            ("sphere at 19", 19, _, Some(b)) => flip(&mut b.numbers[2][1200]),
            ("behind", _, _, Some(b)) => flip(&mut b.numbers[2][SPHERE_STORE]),
            ("b × c", _, _, Some(b)) => {
                let slots = b.numbers[2][..SPHERE_STORE].chunks_mut(SPHERE_WIDTH);
                let Some(filled) = slots.filter(|slot| slot[0] == 1.0).last() else {
                    return false;
                };
                flip(&mut filled[SPHERE_WIDTH - 1]);
            }
            // a box's outcome has what stands around it first, that of fair turns a place that is not lent
            ("behind", 0, _, None) => flip(&mut outcome.numbers[0]),
            _ => return false,
        }
        true
    }
}
