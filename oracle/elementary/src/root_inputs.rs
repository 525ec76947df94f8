// The numbers whose root is asked for.

use crate::generator::Generator;
use crate::values::{near, specials};

// Exact: q * q is a whole number below 2^53, and the result is neither too large nor too small for f64.
fn times_power(square: u64, power: i64) -> Option<f64> {
    let width = 64 - i64::from(square.leading_zeros());
    let fits = square < 1 << 53 && power >= -1074 && width + power <= 1024;
    // by steps that are exact, the smallest power of two being 2^-1074
    fits.then(|| {
        square as f64 * 2f64.powi((power / 2) as i32) * 2f64.powi((power - power / 2) as i32)
    })
}

// Odd, of so many binary digits, with a square below 2^53; for 1 digit there is only 1.
pub fn odd_root(g: &mut Generator, digits: i64) -> u64 {
    let (low, high) = match digits {
        27 => (1 << 26, 94906265),
        _ => (1 << (digits - 1), 1 << digits),
    };
    g.whole(low, high) as u64 | 1
}

// Powers of four that bring a square of so many digits from the smallest numbers to the largest.
fn powers(g: &mut Generator, digits: i64) -> Vec<i64> {
    let most = (1024 - 2 * digits) / 2;
    // about where the subnormals end, whatever the square's width
    let edge = (-1022 - 2 * digits) / 2;
    let mut list = vec![-537, -536, edge - 1, edge, edge + 1, -1, 0, 1];
    list.extend([most - 1, most, most + 1]);
    list.extend((0..6).map(|_| g.whole(-537, most + 1)));
    list
}

// Squares of every width, and twice such, whose root is not exact.
fn squares(g: &mut Generator) -> Vec<f64> {
    let mut list = Vec::new();
    for digits in 1..=27 {
        for four in powers(g, digits) {
            let root = odd_root(g, digits);
            list.extend(times_power(root * root, 2 * four));
            list.extend(times_power(root * root, 2 * four + 1));
        }
    }
    list
}

// Exact squares with their neighbours, the special values, any patterns, subnormals of every width.
pub fn all(g: &mut Generator) -> Vec<f64> {
    let mut list = specials();
    list.extend(squares(g).into_iter().flat_map(near));
    for _ in 0..400 {
        list.push(g.any());
    }
    for width in 0..52 {
        list.push(f64::from_bits(1 << width));
        list.push(f64::from_bits(1 << width | g.bits() & ((1 << width) - 1)));
    }
    list
}

// One for the comparison: mostly squares and beside them.
#[allow(dead_code)]
pub fn any(g: &mut Generator) -> f64 {
    match g.whole(0, 4) {
        0 => g.any(),
        1 => g.subnormal(),
        _ => {
            let digits = g.whole(1, 28);
            let root = odd_root(g, digits);
            let power = g.whole(-1074, 1024 - 2 * digits + 2);
            let x = times_power(root * root, power).unwrap_or(1.0);
            near(x)[[2, 2, 2, 0, 1, 3, 4][g.whole(0, 7) as usize]]
        }
    }
}
