// Document 01's elementary steps on f64, in its order, each under the words of 01 that it follows.
// "Each operation rounds once, no fused multiply": every line below is one operation after another
// on f64, which Rust neither joins nor reorders. The square root, floor and round are written over
// whole numbers, without the library's own.

use std::f64::consts::{FRAC_2_PI, FRAC_PI_2, PI, TAU};

const SIGN: u64 = 1 << 63;
const FRACTION: u64 = (1 << 52) - 1;

fn is_negative(x: f64) -> bool {
    x.to_bits() & SIGN != 0
}

// The whole root of n, for n below 2^106: the largest q with q * q <= n, found by comparing squares.
fn whole_root(n: u128) -> u128 {
    let mut q: u128 = 0;
    let mut bit: u128 = 1 << 52;
    while bit > 0 {
        if (q + bit) * (q + bit) <= n {
            q += bit;
        }
        bit >>= 1;
    }
    q
}

// The m and e with x = m * 2^e for a finite x above 0, m of 53 bits.
fn parts(x: f64) -> (u64, i64) {
    let field = (x.to_bits() >> 52) as i64;
    let m = x.to_bits() & FRACTION;
    if field > 0 {
        return (m | 1 << 52, field - 1075);
    }
    let shift = m.leading_zeros() - 11;
    (m << shift, -1074 - shift as i64)
}

// "Square root: IEEE 754, nearest, ties to even; −0 gives −0, negative gives NaN, +infinity itself.
// A subnormal is first brought to full width by its count of leading zeros. It is defined over whole
// numbers by comparing squares."
pub fn sqrt(x: f64) -> f64 {
    if x.is_nan() || x == 0.0 || x == f64::INFINITY {
        return x;
    }
    if is_negative(x) {
        return f64::NAN;
    }
    let (mut m, mut e) = parts(x);
    // an even exponent, then n = m * 2^52, whose root has 53 bits
    if e % 2 != 0 {
        m <<= 1;
        e -= 1;
    }
    let n = (m as u128) << 52;
    let q = whole_root(n);
    // the root lies above q + 1/2 exactly when 4n is above (2q + 1)^2; at a tie take the even one
    let middle = (2 * q + 1) * (2 * q + 1);
    let up = 4 * n > middle || (4 * n == middle && q % 2 == 1);
    let significand = q as u64 + up as u64;
    // the root is significand * 2^((e - 52) / 2), and is normal; a carry goes into the exponent
    let field = ((e - 52) / 2 + 1075) as u64;
    f64::from_bits((field << 52) + significand - (1 << 52))
}

// "Abs clears the sign bit."
pub fn abs(x: f64) -> f64 {
    f64::from_bits(x.to_bits() & !SIGN)
}

// From 2^52 on every f64 is whole. Below, an i64 holds the whole part. Written so that a NaN is not below.
fn may_have_fraction(x: f64) -> bool {
    abs(x) < 4503599627370496.0
}

// "Floor is downward." A zero keeps its sign.
pub fn floor(x: f64) -> f64 {
    if x == 0.0 || !may_have_fraction(x) {
        return x;
    }
    let toward_zero = x as i64;
    let below = if toward_zero as f64 > x {
        toward_zero - 1
    } else {
        toward_zero
    };
    below as f64
}

// "Round takes halves away from zero." A zero answer has x's sign.
pub fn round(x: f64) -> f64 {
    if !may_have_fraction(x) {
        return x;
    }
    let size = abs(x);
    let whole = size as i64;
    let rounded = if size - whole as f64 >= 0.5 {
        whole + 1
    } else {
        whole
    };
    if is_negative(x) {
        -(rounded as f64)
    } else {
        rounded as f64
    }
}

// "`max(0.0)` gives the value if above 0, else +0 (also for NaN)."
pub fn max_zero(x: f64) -> f64 {
    if x > 0.0 {
        x
    } else {
        0.0
    }
}

// "c(k) = 1/k! in one division". 17! is below 2^53, so the float of k! is exact.
fn c(k: u64) -> f64 {
    let mut factorial: u64 = 1;
    for i in 1..=k {
        factorial *= i;
    }
    1.0 / factorial as f64
}

// Paper 7: "Sine and cosine shall answer "outside" for finite arguments beyond ±64." 64 is not beyond, and what is not finite
// gives NaN as before. Who asks for a sine, a cosine or a tangent looks here first; the steps themselves are below.
pub fn outside(x: f64) -> bool {
    x.is_finite() && (x < -64.0 || x > 64.0)
}

pub struct SinCos {
    pub sin: f64,
    pub cos: f64,
}

// "Sine and cosine of finite x: y = x % TAU; n = the whole number round(y·FRAC_2_PI);
// r = (y − n·FRAC_PI_2) − n·6.123233995736766e-17; z = r·r. With c(k) = 1/k! in one division:
// p = c(17), then p = c(k) − z·p for k = 15, 13 .. 1, S = r·p. For C, p = c(16), then
// k = 14, 12 .. 0, C = p. For n mod 4 (never negative) = 0, 1, 2, 3 the pair is (S, C), (C, −S),
// (−S, −C), (−C, S). Otherwise NaN."
// n is a whole number, so its float is never −0.
pub fn sin_cos(x: f64) -> SinCos {
    if !x.is_finite() {
        return SinCos {
            sin: f64::NAN,
            cos: f64::NAN,
        };
    }
    let y = x % TAU;
    let n = round(y * FRAC_2_PI) as i64;
    let r = (y - n as f64 * FRAC_PI_2) - n as f64 * 6.123233995736766e-17;
    let z = r * r;
    let mut p = c(17);
    for k in [15, 13, 11, 9, 7, 5, 3, 1] {
        p = c(k) - z * p;
    }
    let s = r * p;
    let mut p = c(16);
    for k in [14, 12, 10, 8, 6, 4, 2, 0] {
        p = c(k) - z * p;
    }
    let c = p;
    match n.rem_euclid(4) {
        0 => SinCos { sin: s, cos: c },
        1 => SinCos { sin: c, cos: -s },
        2 => SinCos { sin: -s, cos: -c },
        _ => SinCos { sin: -c, cos: s },
    }
}

pub fn sin(x: f64) -> f64 {
    sin_cos(x).sin
}

pub fn cos(x: f64) -> f64 {
    sin_cos(x).cos
}

// "Tangent is sine/cosine."
pub fn tan(x: f64) -> f64 {
    sin(x) / cos(x)
}

// "Core(t), t in 0..1: twice t = t/(1 + sqrt(1 + t·t)); z = t·t; p = 1/25, then p = 1/k − z·p for
// k = 23, 21 .. 1; 4·(t·p)." Outside 0..1 it is the same operations.
pub fn core(t: f64) -> f64 {
    let mut t = t;
    for _ in 0..2 {
        t = t / (1.0 + sqrt(1.0 + t * t));
    }
    let z = t * t;
    let mut p = 1.0 / 25.0;
    for k in [
        23.0, 21.0, 19.0, 17.0, 15.0, 13.0, 11.0, 9.0, 7.0, 5.0, 3.0, 1.0,
    ] {
        p = 1.0 / k - z * p;
    }
    4.0 * (t * p)
}

// "Atan: with a = abs x, Core(a) if a ≤ 1, else FRAC_PI_2 − Core(1/a); sign of x; NaN gives NaN."
pub fn atan(x: f64) -> f64 {
    if x.is_nan() {
        return f64::NAN;
    }
    let a = abs(x);
    let size = if a <= 1.0 {
        core(a)
    } else {
        FRAC_PI_2 - core(1.0 / a)
    };
    if is_negative(x) {
        -size
    } else {
        size
    }
}

// "Atan2(y, x): NaN unless both finite. Base is +0 if both are zero, Core(abs y/abs x) if
// abs y ≤ abs x, else FRAC_PI_2 − Core(abs x/abs y). If x's sign bit is set, π − base. Then y's sign."
pub fn atan2(y: f64, x: f64) -> f64 {
    if !y.is_finite() || !x.is_finite() {
        return f64::NAN;
    }
    let base = if y == 0.0 && x == 0.0 {
        0.0
    } else if abs(y) <= abs(x) {
        core(abs(y) / abs(x))
    } else {
        FRAC_PI_2 - core(abs(x) / abs(y))
    };
    let size = if is_negative(x) { PI - base } else { base };
    if is_negative(y) {
        -size
    } else {
        size
    }
}
