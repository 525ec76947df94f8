// Special values, and the neighbours of a value.

// x moved by so many units in its last place, away from zero where steps is positive.
pub fn moved(x: f64, steps: i64) -> f64 {
    f64::from_bits((x.to_bits() as i64).wrapping_add(steps) as u64)
}

// x and its two neighbours on each side.
pub fn near(x: f64) -> [f64; 5] {
    [moved(x, -2), moved(x, -1), x, moved(x, 1), moved(x, 2)]
}

pub fn both_signs(list: &[f64]) -> Vec<f64> {
    list.iter().flat_map(|x| [*x, -*x]).collect()
}

// Zero, infinity, NaNs, and the ends of the subnormals and of the normals.
fn ends() -> Vec<f64> {
    let nans = [0x7ff8000000000000, 0x7ff0000000000001, 0x7fffffffffffffff];
    let smallest = [0x0000000000000001, 0x0000000000000002, 0x000fffffffffffff];
    let normal = [0x0010000000000000, 0x0010000000000001, 0x7fefffffffffffff];
    let mut list = vec![0.0, f64::INFINITY, moved(f64::MAX, -1)];
    list.extend(nans.map(f64::from_bits));
    list.extend(smallest.map(f64::from_bits));
    list.extend(normal.map(f64::from_bits));
    list
}

// Small whole numbers, halves and their neighbours.
fn small() -> Vec<f64> {
    let mut list = vec![0.25, 0.49999999999999994, 0.5, moved(0.5, 1), 0.75];
    list.extend([moved(1.0, -1), 1.0, moved(1.0, 1), 2.0, 3.0, 3.5, 4.0]);
    list.extend([moved(1.5, -1), 1.5, moved(1.5, 1)]);
    list.extend([moved(2.5, -1), 2.5, moved(2.5, 1)]);
    list
}

// Where f64 stops having fractions, then every whole number; the ends of i64 and u64.
fn large() -> Vec<f64> {
    let two_52 = 4503599627370496.0;
    let two_63 = 9223372036854775808.0;
    let mut list = vec![two_52 / 2.0 - 0.5, two_52 / 2.0 + 0.5];
    list.extend([two_52 - 1.0, two_52 - 0.5, two_52, two_52 + 1.0]);
    list.extend([2.0 * two_52 - 1.0, 2.0 * two_52, 2.0 * two_52 + 2.0]);
    list.extend([moved(two_63, -1), two_63, moved(two_63, 1)]);
    list.extend([2.0 * two_63, 1e300]);
    list
}

// The special values, each with both signs.
pub fn specials() -> Vec<f64> {
    both_signs(&[ends(), small(), large()].concat())
}
