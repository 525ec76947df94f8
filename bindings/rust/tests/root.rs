//! The square root and its rounds, tried on the linked library beside the processor's own root.

use a5_faces::{sqrt, sqrt_rounds};

// Whole numbers, quarters of them, and what lies far from 1.
fn numbers() -> impl Iterator<Item = f64> {
    let scales = [1.0, 0.25, 1e-300, 1e300, f64::MIN_POSITIVE / 1024.0];
    scales
        .into_iter()
        .flat_map(|scale| (1..2000).map(move |n| f64::from(n) * scale))
}

#[test]
fn the_root_is_the_processors() {
    let special = [
        0.0,
        -0.0,
        f64::INFINITY,
        f64::MAX,
        f64::MIN_POSITIVE,
        f64::from_bits(1),
    ];
    for x in numbers().chain(special) {
        assert_eq!(sqrt(x).to_bits(), x.sqrt().to_bits(), "{x:e}");
    }
    for x in [-1.0, f64::NAN, f64::NEG_INFINITY, -f64::from_bits(1)] {
        assert!(sqrt(x).is_nan(), "{x:e}");
    }
}

#[test]
fn the_papers_rounds() {
    for (x, rounds) in [(4.0, 1), (9.0, 2), (2.0, 53), (f64::from_bits(1), 1)] {
        assert_eq!(sqrt_rounds(x), rounds, "{x:e}");
    }
    for x in [0.0, -0.0, -1.0, f64::INFINITY, f64::NEG_INFINITY, f64::NAN] {
        assert_eq!(sqrt_rounds(x), 0, "{x:e}");
    }
}

// The digits of an odd root, whatever power of four goes with its square; and twice a square has no exact root.
#[test]
fn rounds_are_the_odd_roots_digits() {
    for root in [1u64, 3, 5, 1023, 65537, 67108863, 94906265] {
        let square = (root * root) as f64;
        for four in [0.0009765625, 1.0, 4.0, 1.1529215046068470e18] {
            assert_eq!(
                sqrt_rounds(square * four),
                64 - root.leading_zeros(),
                "{root}"
            );
            assert_eq!(sqrt_rounds(square * four * 2.0), 53, "{root}");
        }
    }
}
