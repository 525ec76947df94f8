// Tests of the rounds: Paper 2's three numbers, and the rounds by another way: a square is an odd root's times a power of
// four, and that root's width is the count.

use crate::generator::Generator;
use crate::root_inputs;
use crate::rounds::sqrt_rounds;
use crate::steps::sqrt;

// The count by the odd part of the number, which is a square or not, and by the power of two that is left.
fn by_odd_part(x: f64) -> u32 {
    if !x.is_finite() || x <= 0.0 {
        return 0;
    }
    let field = (x.to_bits() >> 52) as i64;
    let fraction = x.to_bits() & ((1 << 52) - 1);
    let (m, exponent) = match field {
        0 => (fraction, -1074),
        _ => (fraction | 1 << 52, field - 1075),
    };
    let odd = m >> m.trailing_zeros();
    let power = exponent + i64::from(m.trailing_zeros());
    // below 2^53, so the library's root is within one of the whole root
    let near = (odd as f64).sqrt() as u64;
    let root = (near.saturating_sub(1)..=near + 1).find(|r| r * r == odd);
    match root {
        Some(root) if power % 2 == 0 => 64 - root.leading_zeros(),
        _ => 53,
    }
}

fn one(x: f64) {
    let rounds = sqrt_rounds(x);
    assert_eq!(rounds, by_odd_part(x), "{:016x}", x.to_bits());
    // an exact root has at most 27 digits
    assert!(rounds <= 27 || rounds == 53, "{:016x}", x.to_bits());
    // where it is exact, squaring gives the number back, unless that is too small
    if (1..=27).contains(&rounds) && x > 1e-290 {
        assert_eq!(sqrt(x) * sqrt(x), x, "{:016x}", x.to_bits());
    }
}

pub fn run() {
    for (x, rounds) in [(4.0, 1), (9.0, 2), (2.0, 53), (0.25, 1), (2.25, 2)] {
        assert_eq!(sqrt_rounds(x), rounds, "{x}");
    }
    assert_eq!(sqrt_rounds(f64::from_bits(1)), 1);
    for x in [0.0, -0.0, -1.0, f64::INFINITY, f64::NAN, -f64::INFINITY] {
        assert_eq!(sqrt_rounds(x), 0, "{x}");
    }
    let mut g = Generator::new(2);
    root_inputs::all(&mut g).into_iter().for_each(one);
    for _ in 0..1_000_000 {
        one(root_inputs::any(&mut g));
    }
    // every count from 1 to 27 occurs, and 53
    let mut met = [false; 54];
    for x in root_inputs::all(&mut g) {
        met[sqrt_rounds(x) as usize] = true;
    }
    assert!(met[..28].iter().all(|met| *met) && met[53]);
}
