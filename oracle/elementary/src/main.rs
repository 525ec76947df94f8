// Writes the oracle's answers to standard output, or with the word `test` tries its own steps and rounds.

#[path = "../../common/generator.rs"]
mod generator;
mod inputs;
#[allow(dead_code)]
#[path = "../../common/list.rs"]
mod list;
mod root_inputs;
mod rounds;
mod rounds_selftest;
mod selftest;
mod steps;
#[path = "../../common/values.rs"]
mod values;

use generator::Generator;
use list::List;

fn records(list: &mut List, number: u8, function: fn(f64) -> f64, arguments: &[f64]) {
    for x in arguments {
        list.answered(number, &[*x], &[function(*x)]);
    }
}

// Of a sine, a cosine, a tangent or both: 19 where the angle is outside.
fn angle_records(list: &mut List, number: u8, function: fn(f64) -> Vec<f64>, angles: &[f64]) {
    for x in angles {
        if steps::outside(*x) {
            list.refused(number, 19, &[*x]);
        } else {
            list.answered(number, &[*x], &function(*x));
        }
    }
}

fn both(x: f64) -> Vec<f64> {
    let both = steps::sin_cos(x);
    vec![both.sin, both.cos]
}

fn answers() -> List {
    let mut g = Generator::new(1);
    let mut list = List::new();
    let plain = inputs::plain(&mut g);
    records(&mut list, 1, steps::abs, &plain);
    records(&mut list, 2, steps::max_zero, &plain);
    let wholes = inputs::wholes(&mut g);
    records(&mut list, 3, steps::floor, &wholes);
    records(&mut list, 4, steps::round, &wholes);
    records(&mut list, 5, steps::sqrt, &inputs::roots(&mut g));
    let mut angles = inputs::angles(&mut g);
    angles.extend(inputs::to_the_limit(&mut Generator::new(9)));
    angle_records(&mut list, 6, |x| vec![steps::sin(x)], &angles);
    angle_records(&mut list, 7, |x| vec![steps::cos(x)], &angles);
    angle_records(&mut list, 8, |x| vec![steps::tan(x)], &angles);
    records(&mut list, 9, steps::core, &inputs::quotients(&mut g));
    records(&mut list, 10, steps::atan, &inputs::tangents(&mut g));
    for (y, x) in inputs::points(&mut g) {
        list.answered(11, &[y, x], &[steps::atan2(y, x)]);
    }
    angle_records(&mut list, 12, both, &angles);
    // the Rust's own: there is no step for it
    for (x, y) in inputs::divisions(&mut Generator::new(13)) {
        list.answered(13, &[x, y], &[x % y]);
    }
    // the roots and the rounds, as whole numbers, of Paper 2's numbers
    let numbers = root_inputs::all(&mut Generator::new(1));
    records(&mut list, 5, steps::sqrt, &numbers);
    let rounds = |x| f64::from_bits(rounds::sqrt_rounds(x).into());
    records(&mut list, 14, rounds, &numbers);
    list
}

fn main() {
    let tests = || {
        selftest::run();
        rounds_selftest::run();
    };
    list::run(tests, answers);
}
