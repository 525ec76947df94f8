// Paper 7: "Sine and cosine shall answer "outside" for finite arguments beyond ±64. Every caller must take that answer into
// account." A function of the Rust that hands an angle to a sine, a cosine or a tangent has no answer where it is outside.

use a5::steps::outside;

// 19 where one of the angles is outside; then the function is not asked.
pub fn inside(angles: &[f64]) -> Result<(), u8> {
    if angles.iter().any(|x| outside(*x)) {
        Err(19)
    } else {
        Ok(())
    }
}
