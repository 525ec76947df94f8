// How far the library's answers are from the plain Rust's, as tables in Markdown.

use crate::calls::{Call, Forward, Inverse, Place, Unplace};
use crate::common::arguments::within;
use crate::common::fields::{spherical, whole};
use crate::common::generator::Generator;
use crate::common::places::{borders, meridians};
use crate::common::values::moved;
use crate::draw::globe;
use crate::inputs::lon_lat_of;
use crate::plain::{self, Ours, Plain, NO_SLOT};
use crate::row::{Row, Unit};
use crate::series_distance;
use crate::step_distance;
use a5::core::constants::{DISTANCE_TO_EDGE, TWO_PI_OVER_5};
use a5::core::origin::find_nearest_origin;
use std::f64::consts::PI;

fn sphere(g: &mut Generator) -> [f64; 2] {
    [g.between(-PI, PI), g.between(-1.0, 1.0).acos()]
}

// Where origins tie, or nearly: the borders of faces and the meridians -93 + 18k, with neighbours.
fn ties(g: &mut Generator, list: &[[f64; 2]]) -> [f64; 2] {
    loop {
        let p = list[g.whole(0, list.len() as i64) as usize];
        let p = p.map(|x| moved(x, g.whole(-2, 3)));
        // a zero's neighbour may be no number
        if p.iter().all(|x| x.abs() <= 8.0) {
            return p;
        }
    }
}

fn ties_in_degrees(g: &mut Generator, list: &[[f64; 2]]) -> [f64; 2] {
    loop {
        let place = lon_lat_of(ties(g, list));
        if place[1].abs() <= 90.0 {
            return place;
        }
    }
}

fn on_the_face(g: &mut Generator) -> [f64; 2] {
    loop {
        let p: [f64; 2] = within(g, 0.8);
        let across = |k: i32| {
            let gamma = k as f64 * TWO_PI_OVER_5.get();
            p[0] * gamma.cos() + p[1] * gamma.sin()
        };
        if (0..5).all(|k| across(k) <= DISTANCE_TO_EDGE) {
            return p;
        }
    }
}

struct Table {
    n: usize,
    g: Generator,
    ours: Ours,
    plain: Plain,
    // inputs at which origin or triangle differ
    shown: Vec<String>,
}

impl Table {
    // A call on a set.
    fn call(
        &mut self,
        call: Call,
        inputs: &'static str,
        mut next: impl FnMut(&mut Generator) -> Vec<f64>,
    ) {
        let (name, unit) = match call {
            Forward => ("forward", Unit::Face),
            Inverse => ("inverse", Unit::Radians),
            Place => ("place", Unit::Face),
            Unplace => ("unplace", Unit::Degrees),
        };
        let mut row = Row::new(name, inputs, unit, true);
        for _ in 0..self.n {
            let x = next(&mut self.g);
            row.add(&x, self.ours.call(call, &x), self.plain.call(call, &x));
        }
        self.shown.extend(row.write(self.n));
    }

    // The calls that take no set. The arguments are in their ranges.
    fn alone(
        &mut self,
        call: &'static str,
        inputs: &'static str,
        mut next: impl FnMut(&mut Generator) -> [f64; 2],
    ) {
        let unit = match call {
            "nearest" => Unit::Origin,
            "from_lon_lat" => Unit::Radians,
            _ => Unit::Degrees,
        };
        let mut row = Row::new(call, inputs, unit, false);
        for _ in 0..self.n {
            let x = next(&mut self.g);
            let library = &mut self.ours.library;
            let (ours, rust) = match unit {
                Unit::Origin => (library.nearest(x), plain::nearest(x)),
                Unit::Radians => (library.from_lon_lat(x), plain::from_lon_lat(x)),
                _ => (library.to_lon_lat(x), plain::to_lon_lat(&x)),
            };
            let ours = (ours.status == 0).then_some((ours.numbers, NO_SLOT));
            row.add(&x, ours, Some((rust, NO_SLOT)));
        }
        self.shown.extend(row.write(self.n));
    }

    fn calls(&mut self) {
        println!("| call | inputs | equal | 50 % | 99 % | 99.9 % | greatest | at | other origin | other triangle | one has no answer |");
        println!("|---|---|---|---|---|---|---|---|---|---|---|");
        let list = [borders(), meridians()].concat();
        self.alone("from_lon_lat", "the globe", globe);
        self.alone("to_lon_lat", "the sphere", sphere);
        self.alone("nearest", "the sphere", sphere);
        self.alone("nearest", "ties and borders", |g| ties(g, &list));
        self.call(Place, "the globe", |g| globe(g).to_vec());
        self.call(Place, "ties and borders", |g| {
            ties_in_degrees(g, &list).to_vec()
        });
        self.call(Forward, "the sphere, nearest origin", |g| {
            let p = sphere(g);
            let id = find_nearest_origin(spherical(p)).id;
            vec![p[0], p[1], whole(id as usize)]
        });
        self.call(Forward, "the sphere, any origin", |g| {
            let p = sphere(g);
            vec![p[0], p[1], whole(g.whole(0, 12) as usize)]
        });
        for call in [Inverse, Unplace] {
            let any =
                |g: &mut Generator, p: [f64; 2]| vec![p[0], p[1], whole(g.whole(0, 12) as usize)];
            self.call(call, "the face", |g| {
                let p = on_the_face(g);
                any(g, p)
            });
            self.call(call, "x and y to ±1.2", |g| {
                let p = within(g, 1.2);
                any(g, p)
            });
            self.call(call, "x and y to ±4", |g| {
                let p = within(g, 4.0);
                any(g, p)
            });
        }
    }
}

pub fn run(n: usize, seed: u64) {
    let mut table = Table {
        n,
        g: Generator::new(seed),
        ours: Ours::new(),
        plain: Plain::new(),
        shown: Vec::new(),
    };
    println!("Calls, {n} inputs a line, seed {seed}. Distances on the sphere in metres, on the face in its units.\n");
    table.calls();
    println!("\n{}", table.shown.join("\n"));
    println!("\nSteps, {n} inputs a line, in units in the last place.\n");
    step_distance::write(n, &mut table.g);
    series_distance::write(n, &mut table.g);
}
