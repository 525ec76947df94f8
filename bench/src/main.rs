// Times the proved library against the given Rust on the same points, and writes a table.

mod agree;
mod forms;
mod placed;
#[allow(dead_code)]
#[path = "../../oracle/common/generator.rs"]
mod generator;

use a5_faces::{Face, LonLat, Place, PlaceResult, Sides};
use forms::{Form, Ours, Plain, Stepped};
use generator::Generator;
use std::hint::black_box;
use std::time::Instant;

// A run is short, so that on a busy machine most are not interrupted. It takes the next so many of the points.
const POINTS: usize = 5000;
const A_RUN: usize = 250;
const RUNS: usize = 401;
// So many positions in a list.
pub const LIST: usize = 300;
// So many in an outline on one face.
pub const OUTLINE: usize = 64;
// the library, without a table and with the built-in rows as a table, and the Rust in both forms
const FORMS: usize = 4;
// the calls that take a table
const WITH: [&str; 7] = [
    "open",
    "nearest",
    "forward",
    "place",
    "list",
    "list singly",
    "unplace",
];

const CALLS: [&str; 16] = [
    "open",
    "nearest",
    "from_lon_lat",
    "to_lon_lat",
    "forward",
    "place",
    "list",
    "list singly",
    "region",
    "region singly",
    "unplace",
    "sine",
    "sine far",
    "remainder",
    "sqrt",
    "sqrt exact",
];

// Sine within a turn is at the points' own theta, beyond it at theta and so much more: some six turns. The remainder is
// that of a longitude times so much, by a turn in degrees.
pub const FAR: f64 = 40.0;
pub const TIMES: f64 = 1000.0;

// Roots one behind the other, as the calls take them: each is the root of the last one times so much and more, and no such
// number is a square.
fn roots(sqrt: impl Fn(f64) -> f64) -> f64 {
    let mut x = black_box(1.3);
    let start = Instant::now();
    for _ in 0..A_RUN {
        x = sqrt(x * 1.7 + 0.3);
    }
    black_box(x);
    start.elapsed().as_nanos() as f64 / A_RUN as f64
}

// The same at the squares of 1 to 250: each waits for the last root, by a zero that is made of it.
fn exact_roots(sqrt: impl Fn(f64) -> f64) -> f64 {
    let mut x = black_box(0.0);
    let start = Instant::now();
    for n in 1..=A_RUN {
        let square = (n * n) as f64;
        x = sqrt(square + x * 0.0);
    }
    black_box(x);
    start.elapsed().as_nanos() as f64 / A_RUN as f64
}

// Longitude and latitude of points that lie evenly over the sphere.
fn points() -> Vec<[f64; 2]> {
    let mut generator = Generator::new(1);
    let point = |_| {
        let longitude = generator.between(-180.0, 180.0);
        let latitude = generator.between(-1.0, 1.0).asin().to_degrees();
        [longitude, latitude]
    };
    (0..POINTS).map(point).collect()
}

// Nanoseconds for each call, at one point after another.
fn time<P: Copy, A>(points: &[P], mut call: impl FnMut(P) -> A) -> f64 {
    let start = Instant::now();
    for p in black_box(points) {
        black_box(call(*p));
    }
    start.elapsed().as_nanos() as f64 / points.len() as f64
}

// Nanoseconds for each position of a list.
fn time_list(positions: &[LonLat], call: impl FnOnce(&[LonLat], &mut [PlaceResult])) -> f64 {
    let mut results = [PlaceResult::default(); LIST];
    let start = Instant::now();
    call(black_box(positions), black_box(&mut results));
    black_box(&results);
    start.elapsed().as_nanos() as f64 / LIST as f64
}

// Nanoseconds for each position of an outline.
fn time_region(
    positions: &[LonLat],
    call: impl FnOnce(&[LonLat], &mut [Face]) -> (u8, Sides),
) -> f64 {
    let mut points = [Face { x: 0.0, y: 0.0 }; OUTLINE];
    let start = Instant::now();
    black_box(call(black_box(positions), black_box(&mut points)));
    black_box(&points);
    start.elapsed().as_nanos() as f64 / OUTLINE as f64
}

// The same points in each call's own terms.
struct Points {
    degrees: Vec<[f64; 2]>,
    positions: Vec<LonLat>,
    radians: Vec<[f64; 2]>,
    // with the nearest origin
    forwards: Vec<([f64; 2], u8)>,
    places: Vec<Place>,
    // round the middle of a face
    outline: Vec<LonLat>,
}

// One run of each call at the points from a number on.
fn run(form: &mut impl Form, points: &Points, at: usize) -> [f64; CALLS.len()] {
    let degrees = &points.degrees[at..at + A_RUN];
    let radians = &points.radians[at..at + A_RUN];
    let forwards = &points.forwards[at..at + A_RUN];
    let places = &points.places[at..at + A_RUN];
    let list = &points.positions[at.min(POINTS - LIST)..][..LIST];
    [
        time(&[()], |()| form.open()),
        time(radians, |p| form.nearest(p[0], p[1])),
        time(degrees, |p| form.from_lon_lat(p[0], p[1])),
        time(radians, |p| form.to_lon_lat(p[0], p[1])),
        time(forwards, |(p, id)| form.forward(p[0], p[1], id)),
        time(degrees, |p| form.place(p[0], p[1])),
        time_list(list, |p, r| form.place_list(p, r)),
        time_list(list, |p, r| form.place_each(p, r)),
        time_region(&points.outline, |p, r| form.region(p, r)),
        time_region(&points.outline, |p, r| form.region_each(p, r)),
        time(places, |p| form.unplace(p)),
        time(radians, |p| form.sine(p[0])),
        time(radians, |p| form.sine(p[0] + FAR)),
        time(degrees, |p| form.remainder(p[0] * TIMES, 360.0)),
        roots(|x| form.sqrt(x)),
        exact_roots(|x| form.sqrt(x)),
    ]
}

fn median(mut times: Vec<f64>) -> f64 {
    times.sort_by(f64::total_cmp);
    times[times.len() / 2]
}

// A set is used once every point was placed on it.
fn use_set(form: &mut impl Form, points: &Points) {
    for p in &points.degrees {
        black_box(form.place(p[0], p[1]));
    }
}

// For each form, the runs of each call. The forms take turns, and each round begins with another.
fn interleaved(points: &Points) -> [Vec<[f64; CALLS.len()]>; FORMS] {
    let mut times = [const { Vec::new() }; FORMS];
    let (mut ours, mut stepped, mut plain) = (Ours::new(), Stepped::new(), Plain::new());
    let mut with = Ours::with_table();
    use_set(&mut ours, points);
    use_set(&mut with, points);
    use_set(&mut stepped, points);
    use_set(&mut plain, points);
    for turn in 0..FORMS * RUNS {
        let round = turn / FORMS;
        let at = round * A_RUN % POINTS;
        let form = (turn + round) % FORMS;
        times[form].push(match form {
            0 => run(&mut ours, points, at),
            1 => run(&mut stepped, points, at),
            2 => run(&mut with, points, at),
            _ => run(&mut plain, points, at),
        });
    }
    times
}

fn in_all_terms(degrees: Vec<[f64; 2]>) -> Points {
    let mut library = Ours::new();
    let radians: Vec<[f64; 2]> = degrees
        .iter()
        .map(|p| library.from_lon_lat(p[0], p[1]))
        .collect();
    let places: Vec<Place> = degrees.iter().map(|p| library.place(p[0], p[1])).collect();
    let ids = places.iter().map(|place| place.origin);
    let position = |p: &[f64; 2]| LonLat {
        longitude: p[0],
        latitude: p[1],
    };
    let positions = degrees.iter().map(position).collect();
    let share = |k: usize| 0.4 * (k % OUTLINE) as f64 / OUTLINE as f64 - 0.2;
    let on_face = (0..OUTLINE).map(|k| Place {
        origin: 5,
        face: Face {
            x: share(k * 37),
            y: share(k * 23),
        },
    });
    let outline = on_face.map(|p| position(&library.unplace(p))).collect();
    Points {
        forwards: radians.iter().copied().zip(ids).collect(),
        degrees,
        positions,
        radians,
        places,
        outline,
    }
}

fn main() {
    let points = in_all_terms(points());
    agree::check(&points.degrees, &points.radians);
    agree::check_list(&points.positions[..LIST]);
    agree::check_region(&points.outline);
    let times = interleaved(&points);
    println!("ns a call: medians of {RUNS} interleaved runs");
    println!("call             ours  stepped    plain  ours/stepped  ours/plain    with  with/ours  with/plain");
    for (call, name) in CALLS.iter().enumerate() {
        let [ours, stepped, with, plain] =
            [0, 1, 2, 3].map(|form| median(times[form].iter().map(|run| run[call]).collect()));
        print!(
            "{name:<12} {ours:>8.0} {stepped:>8.0} {plain:>8.0} {:>13.2} {:>11.2}",
            ours / stepped,
            ours / plain
        );
        if WITH.contains(name) {
            print!(" {with:>7.0} {:>10.2} {:>11.2}", with / ours, with / plain);
        }
        println!();
    }
}
