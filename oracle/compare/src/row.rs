// The distances of a call's answers from the plain Rust's, and the line that they make.

use crate::plain::Given;
use std::f64::consts::PI;

// Of the sphere with the ellipsoid's surface, in metres.
pub const RADIUS: f64 = 6_371_007.181;

// What is between two answers.
#[derive(Clone, Copy, PartialEq)]
pub enum Unit {
    // on the sphere, of two pairs in radians or in degrees
    Radians,
    Degrees,
    // on the face
    Face,
    // of origins: nothing but whether they are the same
    Origin,
}

// A small distance on the sphere: along the parallel, the shorter way round, and along the meridian.
fn metres(turn: f64, rise: f64, parallel: f64) -> f64 {
    let turn = (turn % (2.0 * PI)).abs();
    let turn = turn.min(2.0 * PI - turn);
    RADIUS * (turn * parallel).hypot(rise)
}

fn distance(unit: Unit, a: &[f64], b: &[f64]) -> f64 {
    let apart = |i: usize| a[i] - b[i];
    match unit {
        Unit::Radians => metres(apart(0), apart(1), b[1].sin()),
        Unit::Degrees => {
            let parallel = b[1].to_radians().cos();
            metres(apart(0).to_radians(), apart(1).to_radians(), parallel)
        }
        Unit::Face => apart(0).hypot(apart(1)),
        Unit::Origin => 0.0,
    }
}

// One line of the table of the calls.
pub struct Row {
    call: &'static str,
    inputs: &'static str,
    unit: Unit,
    on_a_set: bool,
    distances: Vec<f64>,
    // the greatest, with its arguments
    greatest: (f64, Vec<f64>),
    origins: usize,
    triangles: usize,
    // the first input that shows each
    shown: Vec<(&'static str, Vec<f64>)>,
    // where one of the two has no answer
    single: usize,
}

impl Row {
    pub fn new(call: &'static str, inputs: &'static str, unit: Unit, on_a_set: bool) -> Row {
        Row {
            call,
            inputs,
            unit,
            on_a_set,
            distances: Vec::new(),
            greatest: (0.0, Vec::new()),
            origins: 0,
            triangles: 0,
            shown: Vec::new(),
            single: 0,
        }
    }

    // Place and nearest have an origin first; points on two faces have no distance.
    pub fn add(&mut self, x: &[f64], ours: Option<Given>, rust: Option<Given>) {
        let (Some((mut a, slot)), Some((mut b, other))) = (ours, rust) else {
            self.single += 1;
            return;
        };
        if slot != other {
            self.triangles += 1;
            self.shows("triangle", x);
        }
        if a.len() != 2 {
            if a.remove(0).to_bits() != b.remove(0).to_bits() {
                self.origins += 1;
                self.shows("origin", x);
                return;
            }
        }
        let distance = distance(self.unit, &a, &b);
        if distance > self.greatest.0 {
            self.greatest = (distance, x.to_vec());
        }
        self.distances.push(distance);
    }

    fn shows(&mut self, what: &'static str, x: &[f64]) {
        if self.shown.iter().all(|(shown, _)| *shown != what) {
            self.shown.push((what, x.to_vec()));
        }
    }

    // Writes the line, and gives what it shows by an input.
    pub fn write(mut self, n: usize) -> Vec<String> {
        let counted = self.distances.len() + self.origins + self.single;
        assert_eq!(counted, n, "each input is counted");
        let mut cells = vec![self.call.to_string(), self.inputs.to_string()];
        cells.extend(self.distances());
        let when = |has: bool, count: usize| {
            if has {
                count.to_string()
            } else {
                String::new()
            }
        };
        cells.push(when(
            ["place", "nearest"].contains(&self.call),
            self.origins,
        ));
        cells.push(when(self.on_a_set, self.triangles));
        cells.push(self.single.to_string());
        println!("| {} |", cells.join(" | "));
        let text = |(what, x): &(_, Vec<f64>)| format!("{}, other {what} at {:?}", self.call, x);
        self.shown.iter().map(text).collect()
    }

    // How many are equal, the quantiles, the greatest and where it is.
    fn distances(&mut self) -> Vec<String> {
        if self.unit == Unit::Origin {
            return vec![String::new(); 6];
        }
        let name = if self.unit == Unit::Face { "" } else { " m" };
        let equal = share(&self.distances);
        let quantiles = quantiles(&mut self.distances).map(|x| format!("{x:.1e}{name}"));
        let (greatest, x) = &self.greatest;
        let id = x.get(2).map(|id| format!(", on {}", id.to_bits()));
        let at = match x[..] {
            [] => String::new(),
            _ => format!("{:?}, {:?}{}", x[0], x[1], id.unwrap_or_default()),
        };
        let greatest = format!("{greatest:.1e}{name}");
        [vec![equal], quantiles.to_vec(), vec![greatest, at]].concat()
    }
}

// How many are 0.
pub fn share(list: &[f64]) -> String {
    let equal = list.iter().filter(|x| **x == 0.0).count();
    format!("{:.2} %", 100.0 * equal as f64 / list.len() as f64)
}

pub fn quantiles(list: &mut [f64]) -> [f64; 3] {
    list.sort_by(f64::total_cmp);
    [0.5, 0.99, 0.999].map(|q| match list.len() {
        0 => f64::NAN,
        n => list[((n - 1) as f64 * q) as usize],
    })
}
