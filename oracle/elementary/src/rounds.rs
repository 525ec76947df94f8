// Paper 2's companion of the square root, over whole numbers of 128 bits, under the paper's words. No step of the
// elementary root is used here.

// Of a finite number above 0: the whole number n of 105 or 106 digits that is it times a power of four. Its whole root has
// 53 digits, and the number's own root has the same ones.
fn times_a_power_of_four(x: f64) -> u128 {
    let field = (x.to_bits() >> 52) as i64;
    let fraction = (x.to_bits() & ((1 << 52) - 1)) as u128;
    let (mut n, mut exponent) = match field {
        0 => (fraction, -1074),
        _ => (fraction | 1 << 52, field - 1075),
    };
    while n < 1 << 104 || exponent % 2 != 0 {
        n *= 2;
        exponent -= 1;
    }
    n
}

// "The root's binary digits shall be found one a round, from its first 1 on, in a loop that leaves as soon as the digits
// found, zeros after them, are the exact root. .. A companion call gives the rounds run: for a finite number above 0 the
// least count of digits that are the exact root, or 53 if there is none; for all else 0."
pub fn sqrt_rounds(x: f64) -> u32 {
    if !x.is_finite() || x <= 0.0 {
        return 0;
    }
    let n = times_a_power_of_four(x);
    let mut found: u128 = 0;
    for round in 1..=53 {
        let one_more = found + (1 << (53 - round));
        if one_more * one_more <= n {
            found = one_more;
        }
        if found * found == n {
            return round;
        }
    }
    53
}
