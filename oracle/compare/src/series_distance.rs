// What the "- c[5]" of the authalic recurrence changes: the latitude with it and without, both with document 01's steps.

use crate::common::generator::Generator;
use crate::row::{share, RADIUS};
use a5::coordinate_systems::Radians;
use a5::projections::authalic::AuthalicProjection;
use a5_unaltered::coordinate_systems::Radians as GivenRadians;
use a5_unaltered::projections::authalic::AuthalicProjection as Given;

// With the term, and as the Rust is given.
type Both = fn(f64) -> [f64; 2];

fn to_authalic(x: f64) -> [f64; 2] {
    let with = AuthalicProjection.forward(Radians::new_unchecked(x));
    let without = Given.forward(GivenRadians::new_unchecked(x));
    [with.get(), without.get()]
}

fn from_authalic(x: f64) -> [f64; 2] {
    let with = AuthalicProjection.inverse(Radians::new_unchecked(x));
    let without = Given.inverse(GivenRadians::new_unchecked(x));
    [with.get(), without.get()]
}

// The least whole number of degrees that shows a difference.
fn first(both: Both) -> String {
    let bits = |degrees: i32| both((degrees as f64).to_radians()).map(f64::to_bits);
    match (0..=90).find(|&degrees| bits(degrees)[0] != bits(degrees)[1]) {
        Some(degrees) => {
            let [with, without] = bits(degrees);
            format!("{degrees}: {with:016x}, without {without:016x}")
        }
        None => "none".to_string(),
    }
}

fn line(n: usize, g: &mut Generator, name: &str, both: Both) {
    let (mut metres, mut greatest, mut at) = (Vec::new(), 0.0, 0.0);
    for _ in 0..n {
        // evenly over the globe
        let x = g.between(-1.0, 1.0).asin();
        let [with, without] = both(x);
        let distance = (with - without).abs() * RADIUS;
        if distance > greatest {
            (greatest, at) = (distance, x);
        }
        metres.push(distance);
    }
    let equal = share(&metres);
    println!("| {name} | {equal} | {greatest:.1e} m | {at:?} | {} |", first(both));
}

pub fn write(n: usize, g: &mut Generator) {
    println!("\nThe latitude with the recurrence's \"- c[5]\" and without, {n} over the globe.\n");
    println!("| direction | equal | greatest | at, in radians | first whole degree that shows it |");
    println!("|---|---|---|---|---|");
    line(n, g, "geodetic to authalic", to_authalic);
    line(n, g, "authalic to geodetic", from_authalic);
}
