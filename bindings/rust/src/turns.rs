// Fair turns for sixteen channels.

use crate::{calls, CHANNELS};

/// Hands out a turn's 256 place calls to sixteen channels by what each wishes for, and gives what each gets.
///
/// A channel first gets the smaller of its wish and 16; what remains is handed out singly in channel order, round after
/// round, to those still short. So every channel gets at least the smaller of 16 and its wish, none gets more than its
/// wish, and the grants add up to the smaller of 256 and the total of wishes.
///
/// There is nothing to refuse: sixteen wishes have sixteen places.
#[inline]
pub fn fair_turns(wishes: &[u16; CHANNELS]) -> [u16; CHANNELS] {
    let mut grants = [0; CHANNELS];
    calls::fair_turns(wishes, &mut grants).expect("sixteen wishes and sixteen places");
    grants
}
