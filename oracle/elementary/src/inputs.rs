// The arguments that each function is asked at.

use crate::generator::Generator;
use crate::values::{both_signs, moved, near, specials};
use std::f64::consts::{FRAC_PI_2, FRAC_PI_4, PI, TAU};

// For abs and max_zero.
pub fn plain(g: &mut Generator) -> Vec<f64> {
    let mut list = specials();
    for _ in 0..300 {
        list.push(g.any());
    }
    for _ in 0..60 {
        list.push(g.subnormal());
    }
    list
}

// For floor and round: whole numbers, halves and their neighbours, at every size below 2^54.
pub fn wholes(g: &mut Generator) -> Vec<f64> {
    let mut list = specials();
    for _ in 0..100 {
        list.push(g.any());
    }
    for field in 1010..1080 {
        for _ in 0..6 {
            list.push(g.with_field(field, field + 1));
        }
    }
    for _ in 0..60 {
        let width = g.whole(1, 52);
        let whole = g.whole(0, 1 << width) as f64 * (1.0 - 2.0 * g.whole(0, 2) as f64);
        list.extend([moved(whole, -1), whole, moved(whole, 1)]);
        let half = whole + 0.5;
        list.extend([moved(half, -1), half, moved(half, 1)]);
    }
    list
}

// Whole numbers m whose root is nearly halfway between two f64. With t = 2q + 1 odd, of 54 bits, and t * t - d divisible
// by 2^54 for a small d, the root of m = (t * t - d) / 2^54 lies just beside q + 1/2 in units of its last place.
fn nearly_halfway() -> Vec<f64> {
    let mut list = Vec::new();
    for d in (-255i128..=257).step_by(8) {
        // a root of d modulo 2^54, digit by digit
        let mut s: i128 = 1;
        for k in 3..54 {
            if (s * s - d) % (1 << (k + 1)) != 0 {
                s += 1 << (k - 1);
            }
        }
        for root in [s, -s] {
            let t = (1 << 53) + root.rem_euclid(1 << 53);
            let m = (t * t - d) >> 54;
            if m < 1 << 53 || m % 2 == 0 {
                list.push(m as f64);
            }
        }
    }
    list
}

// For sqrt: every exponent, every width of a subnormal, squares and their neighbours, roots that are hard to round.
pub fn roots(g: &mut Generator) -> Vec<f64> {
    let mut list = specials();
    list.extend(nearly_halfway());
    for field in 1..2047 {
        list.push(f64::from_bits(field << 52 | g.bits() >> 12));
    }
    for width in 0..52 {
        for _ in 0..3 {
            list.push(f64::from_bits(1 << width | g.bits() & ((1 << width) - 1)));
        }
    }
    for _ in 0..250 {
        // a root of at most 26 bits at any even power of two, so that its square is exact
        let power = f64::from_bits((g.whole(523, 1503) as u64) << 52);
        let root = g.whole(1, 1 << 26) as f64 * power;
        list.extend([moved(root * root, -1), root * root, moved(root * root, 1)]);
    }
    for _ in 0..150 {
        // near the square of a root of 53 bits, and of a number between two such roots
        let root = g.with_field(1000, 1050).abs();
        list.extend([root * root, moved(root, 1) * root]);
    }
    for _ in 0..100 {
        list.push(g.any());
    }
    list
}

// For sin, cos and tan.
pub fn angles(g: &mut Generator) -> Vec<f64> {
    let mut list = specials();
    for k in 1..=40 {
        list.extend(both_signs(&near(k as f64 * FRAC_PI_2)));
    }
    for k in (1..=41).step_by(2) {
        list.extend(both_signs(&near(k as f64 * FRAC_PI_4)));
    }
    for j in 0..24 {
        list.extend(both_signs(&near(TAU * (1u64 << j) as f64)));
    }
    for _ in 0..150 {
        let k = g.whole(41, 1 << 40) as f64;
        list.extend([k * FRAC_PI_2, -(k * FRAC_PI_4)]);
    }
    for i in 0..800 {
        list.push(-10.0 + 0.025 * (i as f64 + g.unit()));
    }
    for _ in 0..150 {
        list.push(g.with_field(1040, 2047));
        list.push(g.with_field(1, 1010));
    }
    for _ in 0..50 {
        list.push(g.subnormal());
        list.push(g.any());
    }
    list
}

// For the same: ±64 and the doubles beside it, the odd multiples of π/4 up to there that angles has not, and ±10 to ±66.
pub fn to_the_limit(g: &mut Generator) -> Vec<f64> {
    let mut list = both_signs(&near(64.0));
    for k in (43..=81).step_by(2) {
        list.extend(both_signs(&near(k as f64 * FRAC_PI_4)));
    }
    for i in 0..560 {
        let x = 10.0 + 0.1 * (i as f64 + g.unit());
        list.extend([x, -x]);
    }
    list
}

// For core: 0 to 1, the small numbers in it, and outside.
pub fn quotients(g: &mut Generator) -> Vec<f64> {
    let mut list = specials();
    list.extend(near(1.0));
    for i in 0..500 {
        list.push((i as f64 + g.unit()) / 500.0);
    }
    for _ in 0..250 {
        list.push(g.with_field(950, 1023).abs());
        list.push(g.with_field(1, 1023).abs());
    }
    for _ in 0..50 {
        list.push(g.subnormal());
        list.push(g.between(-100.0, 100.0));
        list.push(g.any());
    }
    list
}

// For atan: about 1, large, small, and the middle densely.
pub fn tangents(g: &mut Generator) -> Vec<f64> {
    let mut list = specials();
    for steps in -20..=20 {
        list.extend(both_signs(&[moved(1.0, steps)]));
    }
    for i in 0..400 {
        list.push(-4.0 + 0.02 * (i as f64 + g.unit()));
    }
    for _ in 0..200 {
        list.push(g.with_field(980, 1023));
        list.push(g.with_field(1023, 1090));
        list.push(g.any());
    }
    for _ in 0..50 {
        list.push(g.subnormal());
        list.push(g.with_field(1500, 2047));
    }
    list
}

// For atan2: the pairs (y, x).
pub fn points(g: &mut Generator) -> Vec<(f64, f64)> {
    let mut list = special_pairs();
    for _ in 0..120 {
        list.extend(level(g));
    }
    for _ in 0..600 {
        list.push((g.between(-10.0, 10.0), g.between(-10.0, 10.0)));
        list.push((g.any(), g.any()));
    }
    for _ in 0..100 {
        list.extend(underflowing(g));
    }
    for _ in 0..50 {
        list.push((g.subnormal(), g.subnormal()));
        list.push((g.subnormal(), g.any()));
        list.push((g.any(), g.subnormal()));
        list.push((0.0 * g.between(-1.0, 1.0), g.any()));
        list.push((g.any(), 0.0 * g.between(-1.0, 1.0)));
    }
    list
}

// For remainder: the pairs (x, y). Quotients of every size, from below 1 to 2^2045.
pub fn divisions(g: &mut Generator) -> Vec<(f64, f64)> {
    let mut list = special_pairs();
    for apart in 0..2046 {
        let field = g.whole(1, 2047 - apart);
        let y = g.with_field(field, field + 1);
        list.push((g.with_field(field + apart, field + apart + 1), y));
    }
    for _ in 0..100 {
        list.extend(level(g));
        list.extend(multiple(g));
    }
    for divisor in [TAU, 360.0, 10.0] {
        for k in 1..=12 {
            let xs = both_signs(&near(k as f64 * divisor));
            list.extend(xs.iter().map(|x| (*x, divisor)));
        }
    }
    for _ in 0..100 {
        list.push((g.subnormal(), g.subnormal()));
        list.push((g.subnormal(), g.any()));
        list.push((g.any(), g.subnormal()));
        list.push((g.any(), g.any()));
    }
    list
}

// A multiple of a number of 26 bits, which is exact, and its neighbours.
fn multiple(g: &mut Generator) -> [(f64, f64); 5] {
    let power = f64::from_bits((g.whole(1, 1990) as u64) << 52);
    let y = g.whole(1, 1 << 26) as f64 * power;
    let width = g.whole(1, 27);
    let x = g.whole(1, 1 << width) as f64 * y;
    let x = if g.whole(0, 2) == 0 { x } else { -x };
    near(x).map(|x| (x, y))
}

// Zeros, infinities and NaNs in each place among them.
fn special_pairs() -> Vec<(f64, f64)> {
    let mut few = vec![0.0, f64::from_bits(1), f64::MIN_POSITIVE, 0.5, 1.0];
    few.extend([moved(1.0, 1), PI, 1e300, f64::MAX, f64::INFINITY, f64::NAN]);
    let few = both_signs(&few);
    few.iter()
        .flat_map(|y| few.iter().map(|x| (*y, *x)))
        .collect()
}

// Pairs with a quotient that underflows: to zero, then to a subnormal or nearly.
fn underflowing(g: &mut Generator) -> [(f64, f64); 4] {
    let small = g.with_field(1, 600);
    let large = g.with_field(1680, 2047);
    let field = g.whole(1100, 2040);
    let divisor = g.with_field(field, field + 1);
    let divided = g.with_field(field - 1075, field - 1020);
    [
        (small, large),
        (large, small),
        (divided, divisor),
        (divisor, divided),
    ]
}

// Pairs of equal size or neighbours, over all signs.
fn level(g: &mut Generator) -> [(f64, f64); 5] {
    let y = g.with_field(1, 2046);
    let x = if g.whole(0, 2) == 0 { y } else { -y };
    near(x).map(|x| (y, x))
}
