// The Rust's spherical triangle, which has b × c beside its vertices in the stepped form, from what follows a sphere slot's mark
// and back. Paper 6: "mark, nine coordinates, then b × c."

use super::fields::cartesian;
use a5::coordinate_systems::SphericalTriangle;

// "As it stands": b × c is what is given for it.
pub fn spherical_triangle(x: &[f64]) -> SphericalTriangle {
    let [a, b, c, bxc] = [&x[0..3], &x[3..6], &x[6..9], &x[9..12]].map(cartesian);
    SphericalTriangle { a, b, c, bxc }
}

pub fn of_spherical_triangle(t: SphericalTriangle) -> Vec<f64> {
    [t.a, t.b, t.c, t.bxc].map(<[f64; 3]>::from).concat()
}

// Nine coordinates with b × c of their own b and c behind them, as the Rust forms it.
pub fn with_cross_product(coordinates: &[f64]) -> Vec<f64> {
    let [a, b, c] = [&coordinates[0..3], &coordinates[3..6], &coordinates[6..9]].map(cartesian);
    of_spherical_triangle(SphericalTriangle::new(a, b, c))
}
