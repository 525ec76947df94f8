// Document 02, Paper 12, "Fair turns for sixteen channels": call by call, under the paper's words.

// "A turn has 256 place calls to hand out. Each of 16 channels states its wish, from 0 to 65,535."
pub const CALLS: u16 = 256;
pub const CHANNELS: usize = 16;

// "Refusal 24: not exactly 16 wishes, tried first; the lent grants unchanged. Refusal 25: not exactly 16 grant places,
// tried next."
pub fn fair_turns(wishes: &[u16], grants: &mut [u16]) -> Result<(), u8> {
    if wishes.len() != CHANNELS {
        return Err(24);
    }
    if grants.len() != CHANNELS {
        return Err(25);
    }
    let mut left = CALLS;
    // "A channel first gets the smaller of its wish and 16."
    for (grant, wish) in grants.iter_mut().zip(wishes) {
        *grant = if *wish < 16 { *wish } else { 16 };
        left -= *grant;
    }
    // "What remains is handed out singly in channel order, round after round, to those still short."
    let mut channel = 0;
    while left > 0 && (0..CHANNELS).any(|c| grants[c] < wishes[c]) {
        if grants[channel] < wishes[channel] {
            grants[channel] += 1;
            left -= 1;
        }
        channel = (channel + 1) % CHANNELS;
    }
    Ok(())
}
