// How far document 01's elementary steps, by the oracle's copy of them, are from the Rust library's functions.

use crate::common::arguments::within;
use crate::common::generator::Generator;
use crate::row::{quantiles, share};
use a5::steps;

type Pair = [f64; 2];

fn show_arguments(name: &str, x: [f64; 2]) -> String {
    match name {
        "atan2" => format!("{:?}, {:?}", x[0], x[1]),
        _ => format!("{:?}", x[0]),
    }
}

// In units in the last place: how many numbers there are from the one to the other.
fn apart(a: f64, b: f64) -> f64 {
    let place = |x: f64| match x.to_bits() as i64 {
        bits if bits < 0 => -((bits & i64::MAX) as i128),
        bits => bits as i128,
    };
    (place(a) - place(b)).abs() as f64
}

fn step(
    n: usize,
    g: &mut Generator,
    name: &str,
    inputs: &str,
    next: fn(&mut Generator) -> Pair,
    both: fn(Pair) -> Pair,
) {
    let (mut units, mut absolute, mut at) = (Vec::new(), 0f64, String::new());
    let mut greatest = 0.0;
    for _ in 0..n {
        let x = next(g);
        let [ours, rust] = both(x);
        let distance = apart(ours, rust);
        if distance > greatest {
            (greatest, at) = (distance, show_arguments(name, x));
        }
        absolute = absolute.max((ours - rust).abs());
        units.push(distance);
    }
    let equal = share(&units);
    let [half, most, nearly] = quantiles(&mut units);
    println!("| {name} | {inputs} | {equal} | {half} | {most} | {nearly} | {greatest} | {at} | {absolute:.1e} |");
}

pub fn write(n: usize, g: &mut Generator) {
    println!(
        "| step | inputs | equal | 50 % | 99 % | 99.9 % | greatest | at | greatest, absolute |"
    );
    println!("|---|---|---|---|---|---|---|---|---|");
    let ten = |g: &mut Generator| [g.between(-10.0, 10.0), 0.0];
    let four = |g: &mut Generator| within(g, 4.0);
    let positive = |g: &mut Generator| [f64::from_bits(g.bits() >> 1).min(f64::MAX), 0.0];
    step(n, g, "sin", "±10", ten, |x| [steps::sin(x[0]), x[0].sin()]);
    step(n, g, "cos", "±10", ten, |x| [steps::cos(x[0]), x[0].cos()]);
    step(n, g, "tan", "±10", ten, |x| [steps::tan(x[0]), x[0].tan()]);
    step(n, g, "atan", "±10", ten, |x| {
        [steps::atan(x[0]), x[0].atan()]
    });
    step(n, g, "atan2", "y and x, ±4", four, |x| {
        [steps::atan2(x[0], x[1]), x[0].atan2(x[1])]
    });
    step(n, g, "sqrt", "0 and above", positive, |x| {
        [steps::sqrt(x[0]), x[0].sqrt()]
    });
}
