// Table files: good ones, ones at the limits, and every kind of fault in every field.

use crate::generator::Generator;
use crate::table::{file, Table};

// The built-in table of document 01.
pub const BUILT_IN: [[f64; 7]; 12] = [
    [0.0, 0.0, 0.0, 0.0, 0.0, 1.0, 0.0],
    [0.0, 1.1071487177940904, 0.0, 0.5257311121191336, 0.0, 0.8506508083520399, 0.6283185307179586],
    [0.6283185307179586, 2.0344439357957027, -0.5, 0.6881909602355868, 0.0, 0.5257311121191336, 0.6283185307179586],
    [1.8849555921538759, 2.0344439357957027, -0.8090169943749475, -0.2628655560595668, 0.0, 0.5257311121191336, 0.6283185307179586],
    [1.2566370614359172, 1.1071487177940904, -0.5, 0.16245984811645314, 0.0, 0.8506508083520399, 0.6283185307179586],
    [2.5132741228718345, 1.1071487177940904, -0.30901699437494745, -0.42532540417602, 0.0, 0.8506508083520399, 0.6283185307179586],
    [3.7699111843077517, 1.1071487177940904, 0.30901699437494745, -0.42532540417602, 0.0, 0.8506508083520399, 0.6283185307179586],
    [4.39822971502571, 2.0344439357957027, 0.8090169943749475, -0.2628655560595668, 0.0, 0.5257311121191336, 0.6283185307179586],
    [3.141592653589793, 2.0344439357957027, 0.0, -0.8506508083520399, 0.0, 0.5257311121191336, 0.6283185307179586],
    [0.0, 3.141592653589793, 0.0, -1.0, 0.0, 0.0, 0.0],
    [5.654866776461628, 2.0344439357957027, 0.5, 0.6881909602355868, 0.0, 0.5257311121191336, 0.6283185307179586],
    [5.026548245743669, 1.1071487177940904, 0.5, 0.16245984811645314, 0.0, 0.8506508083520399, 0.6283185307179586],
];

pub fn built_in() -> Table {
    std::array::from_fn(|n| BUILT_IN[n / 7][n % 7])
}

// The limit of the number at a place.
pub fn limit(place: usize) -> f64 {
    if (2..6).contains(&(place % 7)) {
        1.0
    } else {
        8.0
    }
}

// The next double away from zero.
pub fn beyond(x: f64) -> f64 {
    f64::from_bits(x.to_bits() + 1)
}

// Any table that passes: angles in their range, quaternions of four random numbers brought to length 1.
fn random(g: &mut Generator) -> Table {
    let mut table = [0.0; 84];
    for row in table.chunks_exact_mut(7) {
        for place in [0, 1, 6] {
            row[place] = g.between(-8.0, 8.0);
        }
        let four: [f64; 4] = std::array::from_fn(|_| g.between(-1.0, 1.0));
        let length = four.iter().map(|n| n * n).sum::<f64>().sqrt();
        for (number, n) in row[2..6].iter_mut().zip(four) {
            *number = (n / length).clamp(-1.0, 1.0);
        }
    }
    table
}

// A table with another number at a place.
fn with(table: &Table, place: usize, number: f64) -> Table {
    let mut changed = *table;
    changed[place] = number;
    changed
}

// A table with another quaternion in a row.
fn with_quaternion(table: &Table, row: usize, quaternion: [f64; 4]) -> Table {
    let mut changed = *table;
    changed[7 * row + 2..7 * row + 6].copy_from_slice(&quaternion);
    changed
}

fn sum(q: [f64; 4]) -> f64 {
    let mut sum = 0.0;
    for n in q {
        sum += n * n;
    }
    sum
}

// The last number of size x, from `inside` to `outside`, with which a quaternion is within 1e-12 of unit length, and the
// next one, with which it is not. The two bounds are found by halving.
fn at_limit(quaternion: impl Fn(f64) -> [f64; 4], inside: f64, outside: f64) -> [[f64; 4]; 2] {
    let off = |x: f64| (sum(quaternion(x)) - 1.0).abs() > 1e-12;
    assert!(!off(inside) && off(outside));
    let (mut low, mut high) = (inside.to_bits(), outside.to_bits());
    while low.abs_diff(high) > 1 {
        let middle = low.min(high) + low.abs_diff(high) / 2;
        if off(f64::from_bits(middle)) {
            high = middle;
        } else {
            low = middle;
        }
    }
    [low, high].map(|bits| quaternion(f64::from_bits(bits)))
}

// Quaternions just within and just off unit length, on both sides.
pub fn limits() -> Vec<[f64; 4]> {
    let above = at_limit(|x| [0.6, x, 0.0, 0.6], 0.5291502622129181, 0.53);
    let below = at_limit(|x| [x, 0.5, -0.5, 0.5], 0.5, 0.4999);
    let tiny = at_limit(|x| [x, 0.0, 0.0, 1.0], 1e-9, 1e-3);
    let alone = at_limit(|x| [0.0, 0.0, x, 0.0], 1.0, 0.9999);
    [above, below, tiny, alone].concat()
}

fn good(g: &mut Generator, files: &mut Vec<Vec<u8>>) {
    let own = built_in();
    files.push(file(&own));
    for _ in 0..40 {
        files.push(file(&random(g)));
    }
    // the ends of each range, −0, the smallest numbers
    for place in (0..84).filter(|n| limit(*n) == 8.0) {
        for number in [8.0, -8.0] {
            files.push(file(&with(&own, place, number)));
        }
    }
    for (place, number) in [(35, -0.0), (36, 5e-324), (41, -2.2e-308), (39, -0.0), (39, 5e-324)] {
        files.push(file(&with(&own, place, number)));
    }
    for row in [0, 5, 11] {
        for place in 0..4 {
            for one in [1.0, -1.0] {
                let mut unit = [-0.0; 4];
                unit[place] = one;
                files.push(file(&with_quaternion(&own, row, unit)));
            }
        }
    }
}

fn wrong_frame(g: &mut Generator, files: &mut Vec<Vec<u8>>) {
    let own = file(&built_in());
    for length in [0, 1, 2, 3, 4, 5, 6, 8, 13, 61, 676, 678, 684, 685, 800] {
        let mut other = own.clone();
        other.resize(length, 0);
        files.push(other);
    }
    // each bit of the mark and the version
    for bit in 0..40 {
        let mut other = own.clone();
        other[bit / 8] ^= 1 << (bit % 8);
        files.push(other);
    }
    for version in [[0, 0], [0, 2], [1, 0], [1, 1], [255, 255]] {
        let mut other = own.clone();
        other[3..5].copy_from_slice(&version);
        files.push(other);
    }
    for mark in [b"EAD", b"TAE", b"eat"] {
        let mut other = own.clone();
        other[..3].copy_from_slice(mark);
        files.push(other);
    }
    // nothing of the numbers is looked at there
    let mut both = file(&with(&random(g), 50, f64::NAN));
    both[4] = 2;
    files.push(both);
}

fn wrong_numbers(g: &mut Generator, files: &mut Vec<Vec<u8>>) {
    let own = built_in();
    for place in 0..84 {
        let end = limit(place);
        let odd = f64::from_bits(0x7ff0_0000_0000_0001 + g.whole(0, 1 << 50) as u64);
        for number in [odd, -odd, f64::INFINITY, f64::NEG_INFINITY, beyond(end), -beyond(end)] {
            files.push(file(&with(&own, place, number)));
        }
    }
    for row in 0..12 {
        for quaternion in limits() {
            files.push(file(&with_quaternion(&own, row, quaternion)));
        }
        files.push(file(&with_quaternion(&own, row, [0.0; 4])));
        files.push(file(&with_quaternion(&own, row, [1.0; 4])));
    }
}

fn several(g: &mut Generator, files: &mut Vec<Vec<u8>>) {
    let own = built_in();
    for _ in 0..60 {
        // a quaternion off unit length in one row, a number of another row not finite or out of its range
        let (row, place) = (g.whole(0, 12) as usize, g.whole(0, 84) as usize);
        let off = with_quaternion(&own, row, [0.5, 0.5, 0.5, 0.25]);
        let number = [f64::NAN, f64::INFINITY, 8.5, -1e300][g.whole(0, 4) as usize];
        let mut both = file(&with(&off, place, number));
        if g.whole(0, 4) == 0 {
            both[g.whole(0, 5) as usize] ^= 0x10;
        }
        files.push(both);
        files.push(file(&off));
    }
}

pub fn files(g: &mut Generator) -> Vec<Vec<u8>> {
    let mut files = Vec::new();
    good(g, &mut files);
    wrong_frame(g, &mut files);
    wrong_numbers(g, &mut files);
    several(g, &mut files);
    files
}
