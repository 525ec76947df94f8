// Arguments that are refused, and the ends of the ranges, which are not; lengths that are wrong.

use crate::calls::{Call, Forward, Inverse, Place, Unplace};
use crate::common::arguments::{all_lengths, pairs};
use crate::common::fields::whole;
use crate::common::refusals::{FACE_LIMITS, LON_LAT_LIMITS, SPHERICAL_LIMITS};
use crate::common::sizes::{FACE_STORE, FRAME, OLD_SPHERE_STORE, RIGHT, SPHERE_STORE};
use crate::common::values::moved;
use crate::inputs::Asked;
use crate::script::Script;

// A call's first two numbers with the limits of their ranges.
fn limits(call: Call) -> [f64; 2] {
    match call {
        Forward => SPHERICAL_LIMITS,
        Place => LON_LAT_LIMITS,
        Inverse | Unplace => FACE_LIMITS,
    }
}

fn asked(call: Call, p: [f64; 2], id: usize) -> Asked {
    match call {
        Place => (call, p.to_vec()),
        _ => (call, vec![p[0], p[1], whole(id)]),
    }
}

// The limit, the next beyond, far beyond, and what is not a finite number.
fn edges(limit: f64) -> Vec<f64> {
    let beyond = moved(limit, 1);
    let broken = [f64::NAN, f64::INFINITY, f64::NEG_INFINITY, f64::MAX];
    [&[limit, -limit, beyond, -beyond, 0.25][..], &broken].concat()
}

// Each number with each: 5 and 6 number by number. Origin ids to the last and beyond, also with numbers that are refused.
pub fn arguments() -> Vec<Asked> {
    let mut list = Vec::new();
    for call in [Forward, Inverse, Place, Unplace] {
        let [first, second] = limits(call).map(edges);
        for (k, p) in pairs(&first, &second).into_iter().enumerate() {
            list.push(asked(call, p, k % 12));
        }
        if call != Place {
            for id in [0, 10, 11, 12, 13, 23, 24, 127, 128, 255] {
                for p in [[0.25, -0.5], [0.0, 0.0], [0.75, 0.0], [f64::NAN, 9.0]] {
                    list.push(asked(call, p, id));
                }
            }
        }
    }
    list
}

fn try_lengths(script: &mut Script, lent: [usize; 3], turn: usize) {
    let call = [Forward, Inverse, Place, Unplace][turn % 4];
    let p = [[0.25, 0.5], [f64::NAN, 0.5], [0.5, 1e9]][turn % 3];
    let (call, x) = asked(call, p, [3, 12][turn / 4 % 2]);
    script.call_lent(call, &x, lent);
}

// All lengths; each call where one is wrong alone. Among the arguments are also some that are refused.
pub fn lengths(script: &mut Script) {
    let mut turn = 0;
    for lent in all_lengths() {
        let calls = match (0..3).filter(|i| lent[*i] != RIGHT[*i]).count() {
            0 => 0,
            1 => 4,
            _ => 1,
        };
        for _ in 0..calls {
            try_lengths(script, lent, turn);
            turn += 1;
        }
    }
    for lent in [
        [FRAME - 1, FACE_STORE, SPHERE_STORE],
        [FRAME, 0, SPHERE_STORE],
        [FRAME, FACE_STORE, SPHERE_STORE + 1],
        [FRAME, FACE_STORE, OLD_SPHERE_STORE],
    ] {
        script.open(lent);
    }
}
