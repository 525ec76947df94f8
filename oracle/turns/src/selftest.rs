// The oracle's own tests: turns that can be worked out by hand, and what the paper says of every turn.

use crate::generator::Generator;
use crate::inputs::{self, Wishes, MOST};
use crate::turns::fair_turns;

fn granted(wishes: Wishes) -> Wishes {
    let mut grants = [7; 16];
    assert_eq!(fair_turns(&wishes, &mut grants), Ok(()));
    grants
}

// The wishes of the first channels, and what they get; the others wish for nothing.
fn gives(wishes: &[u16], grants: &[u16]) {
    let mut asked = [0; 16];
    asked[..wishes.len()].copy_from_slice(wishes);
    let mut wanted = [0; 16];
    wanted[..grants.len()].copy_from_slice(grants);
    assert_eq!(granted(asked), wanted, "{wishes:?}");
}

fn by_hand() {
    gives(&[], &[]);
    gives(&[MOST; 16], &[16; 16]);
    gives(&[MOST], &[256]);
    gives(&[256], &[256]);
    gives(&[128, 128], &[128, 128]);
    // 208 remain, 69 rounds of three and one call more
    gives(&[MOST; 3], &[86, 85, 85]);
    // the second is served after one round, and 223 remain
    gives(&[MOST, 17], &[239, 17]);
    // fifteen wishes of 10 leave 90 beyond the last channel's first share
    let mut wishes = [10; 16];
    wishes[15] = MOST;
    let mut grants = wishes;
    grants[15] = 106;
    gives(&wishes, &grants);
    // one call remains, for the first of two that are short
    let mut wishes = [16; 16];
    (wishes[3], wishes[7], wishes[15]) = (20, 20, 15);
    let mut grants = wishes;
    (grants[3], grants[7]) = (17, 16);
    gives(&wishes, &grants);
}

fn refused(wishes: usize, places: usize, number: u8) {
    let mut grants = vec![7; places];
    assert_eq!(fair_turns(&vec![1; wishes], &mut grants), Err(number));
    assert!(grants.iter().all(|grant| *grant == 7));
}

// "Every channel gets at least the smaller of 16 and its wish, and never above its wish .. The grants add up to the smaller of
// 256 and the total of wishes."
fn fair(wishes: Wishes) {
    let grants = granted(wishes);
    for (wish, grant) in wishes.iter().zip(grants) {
        assert!(grant >= *wish.min(&16) && grant <= *wish, "{wishes:?}");
    }
    let sum = |list: Wishes| list.into_iter().map(u32::from).sum::<u32>();
    assert_eq!(sum(grants), sum(wishes).min(256), "{wishes:?}");
}

pub fn run() {
    by_hand();
    refused(15, 16, 24);
    refused(17, 15, 24);
    refused(16, 15, 25);
    refused(16, 0, 25);
    let mut g = Generator::new(2);
    inputs::wishes(&mut g).into_iter().for_each(fair);
    for _ in 0..100_000 {
        fair(inputs::any(&mut g));
    }
}
