// Ways of making arguments, which the oracles on the given Rust share.

use super::generator::Generator;
use super::sizes::{OLD_SPHERE_STORE, RIGHT};
use super::values::{both_signs, moved};
use std::f64::consts::{FRAC_PI_2, PI};

pub const SMALLEST: f64 = f64::from_bits(1);

// What is not finite, and the ends of what is.
pub const BROKEN: [f64; 5] = [f64::NAN, f64::INFINITY, -f64::INFINITY, f64::MAX, SMALLEST];

// Zeros, the smallest and the largest numbers, infinities and NaN.
pub fn few() -> Vec<f64> {
    both_signs(&[0.0, SMALLEST, 1.0, f64::MAX, f64::INFINITY, f64::NAN])
}

// x and a neighbour on each side, of either sign.
pub fn limits(x: f64) -> Vec<f64> {
    both_signs(&[moved(x, -1), x, moved(x, 1)])
}

pub fn pairs(first: &[f64], second: &[f64]) -> Vec<[f64; 2]> {
    first
        .iter()
        .flat_map(|x| second.iter().map(|y| [*x, *y]))
        .collect()
}

// Theta and phi: the limits and their neighbours, what is broken, zeros and parts of a turn, each with each.
pub fn spherical_ends() -> Vec<[f64; 2]> {
    let ends = [&limits(8.0)[..], &BROKEN, &[0.0, -0.0, FRAC_PI_2, -PI, PI]].concat();
    pairs(&ends, &ends)
}

// Each buffer empty, one short, right and one long, and the sphere store as long as it was before Paper 6, with each.
pub fn all_lengths() -> Vec<[usize; 3]> {
    let [frames, faces, [empty, short, right, long]] =
        RIGHT.map(|size| [0, size - 1, size, size + 1]);
    let spheres = [empty, OLD_SPHERE_STORE, short, right, long];
    let mut list = Vec::new();
    for frame in frames {
        for face in faces {
            list.extend(spheres.map(|sphere| [frame, face, sphere]));
        }
    }
    list
}

// Copies of x with each number in turn replaced by one that is special.
pub fn spoilt<const N: usize>(x: [f64; N]) -> Vec<[f64; N]> {
    let mut list = Vec::new();
    for place in 0..N {
        for special in [
            f64::NAN,
            f64::INFINITY,
            -f64::INFINITY,
            -0.0,
            f64::MAX,
            SMALLEST,
        ] {
            let mut copy = x;
            copy[place] = special;
            list.push(copy);
        }
    }
    list
}

pub fn within<const N: usize>(g: &mut Generator, size: f64) -> [f64; N] {
    std::array::from_fn(|_| g.between(-size, size))
}

pub fn any<const N: usize>(g: &mut Generator) -> [f64; N] {
    std::array::from_fn(|_| g.any())
}

pub fn subnormal<const N: usize>(g: &mut Generator) -> [f64; N] {
    std::array::from_fn(|_| g.subnormal())
}

// Twenty of any size, and twenty subnormal.
pub fn wild<const N: usize>(g: &mut Generator) -> Vec<[f64; N]> {
    let mut list = Vec::new();
    for _ in 0..20 {
        list.push(any(g));
        list.push(subnormal(g));
    }
    list
}

// Other numbers for a slot, of five kinds: a little moved, twice as large, anywhere, NaN for those below 0, nothing.
pub fn other_numbers(g: &mut Generator, x: &[f64], kind: usize) -> Vec<f64> {
    let nan_below = |x: &f64| if *x < 0.0 { f64::NAN } else { *x };
    match kind {
        0 => x.iter().map(|x| x + g.between(-1e-7, 1e-7)).collect(),
        1 => x.iter().map(|x| 2.0 * x).collect(),
        2 => x.iter().map(|_| g.between(-1.0, 1.0)).collect(),
        3 => x.iter().map(nan_below).collect(),
        _ => vec![0.0; x.len()],
    }
}

// The two arrays one after the other.
pub fn join<const A: usize, const B: usize, const N: usize>(a: [f64; A], b: [f64; B]) -> [f64; N] {
    let both = [a.as_slice(), b.as_slice()].concat();
    both.try_into().expect("A + B is N")
}
