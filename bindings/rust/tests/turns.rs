//! Fair turns, tried on the linked library: turns that can be worked out by hand, and refusals.

use a5_faces::{calls, fair_turns, Refusal, CHANNELS};

const MOST: u16 = u16::MAX;

// Wishes or grants of the channels named; the others have 0.
fn of(named: &[(usize, u16)]) -> [u16; CHANNELS] {
    let mut list = [0; CHANNELS];
    for (channel, number) in named {
        list[*channel] = *number;
    }
    list
}

#[test]
fn wishes_within_the_turn_are_granted() {
    for wishes in [
        [0; CHANNELS],
        [16; CHANNELS],
        of(&[(3, 256)]),
        of(&[(0, 100), (15, 156)]),
    ] {
        assert_eq!(fair_turns(&wishes), wishes);
    }
}

#[test]
fn what_remains_goes_in_channel_order() {
    assert_eq!(fair_turns(&[MOST; CHANNELS]), [16; CHANNELS]);
    assert_eq!(fair_turns(&of(&[(9, MOST)])), of(&[(9, 256)]));
    // 208 calls remain after the first shares: 69 rounds and one call more
    let three = of(&[(2, MOST), (5, 300), (15, 86)]);
    assert_eq!(fair_turns(&three), of(&[(2, 86), (5, 85), (15, 85)]));
    // the second channel is served after one round
    assert_eq!(
        fair_turns(&of(&[(0, MOST), (1, 17)])),
        of(&[(0, 239), (1, 17)])
    );
}

#[test]
fn no_channel_crowds_out_another() {
    for greedy in 0..CHANNELS {
        let mut wishes = [15; CHANNELS];
        wishes[greedy] = MOST;
        let grants = fair_turns(&wishes);
        assert_eq!(grants.iter().sum::<u16>(), 256);
        assert!(
            (0..CHANNELS).all(|c| c == greedy || grants[c] == 15),
            "{greedy}"
        );
    }
}

#[test]
fn other_lengths_are_refused_and_leave_the_grants() {
    let wishes = [1; CHANNELS + 1];
    for (n, m, refusal) in [
        (0, 16, Refusal::WishCount),
        (15, 16, Refusal::WishCount),
        (17, 15, Refusal::WishCount),
        (16, 15, Refusal::GrantCount),
        (16, 17, Refusal::GrantCount),
        (16, 0, Refusal::GrantCount),
    ] {
        let mut grants = [77; CHANNELS + 1];
        let given = calls::fair_turns(&wishes[..n], &mut grants[..m]);
        assert_eq!(given, Err(refusal), "{n} {m}");
        assert_eq!(grants, [77; CHANNELS + 1], "{n} {m}");
    }
}

#[test]
fn the_places_hold_the_grants() {
    let mut grants = [77; CHANNELS + 2];
    assert_eq!(
        calls::fair_turns(&[2; CHANNELS], &mut grants[1..=CHANNELS]),
        Ok(())
    );
    assert_eq!(grants[1..=CHANNELS], [2; CHANNELS]);
    assert_eq!((grants[0], grants[CHANNELS + 1]), (77, 77));
}
