// The square root of the calls, and how many rounds it takes.

use crate::raw;

/// The square root, rounded to the nearest double, as IEEE 754 has it: the root that the calls themselves take. Its binary
/// digits are found one a round, and the last round is that after which they are the exact root.
#[inline]
pub fn sqrt(x: f64) -> f64 {
    unsafe { raw::a5_sqrt(x) }
}

/// How many rounds [`sqrt`] runs: the least count of binary digits, from the first 1 on, that are the exact root, or 53
/// where there is no exact root; 0 for all but a finite number above 0. An exact root has at most 27.
///
/// ```
/// use a5_faces::sqrt_rounds;
/// assert_eq!([4.0, 9.0, 2.0, 0.0].map(sqrt_rounds), [1, 2, 53, 0]);
/// ```
#[inline]
pub fn sqrt_rounds(x: f64) -> u32 {
    unsafe { raw::a5_sqrt_rounds(x) }
}
