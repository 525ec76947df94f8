// The list's tables, which its records name by number: first those that open a set, then those that pass 21 and 22 and don't, then
// those that are refused.

use crate::common::fields::of_spherical;
use crate::common::generator::Generator;
use crate::common::values::moved;
use a5::core::constants::{TWO_PI, TWO_PI_OVER_5};
use a5::core::origin::get_origins;
use a5::core::utils::Origin;
use a5::steps::{atan2, cos, sin, sqrt};

pub type Rows = Vec<f64>;

pub struct Tables {
    pub all: Vec<Rows>,
    // how many open a set, and how many pass
    pub open: usize,
    pub pass: usize,
}

// The Rust's own origins as rows: axis theta, axis phi, four quaternion numbers, angle.
pub fn built_in() -> Rows {
    let row = |o: &Origin| {
        let ([x, y, z, w], axis) = (o.quat, of_spherical(o.axis));
        [axis[0], axis[1], x, y, z, w, o.angle.get()]
    };
    get_origins().iter().flat_map(row).collect()
}

fn product(p: [f64; 4], q: [f64; 4]) -> [f64; 4] {
    let ([a, b, c, d], [x, y, z, w]) = (p, q);
    [
        d * x + a * w + b * z - c * y,
        d * y + b * w + c * x - a * z,
        d * z + c * w + a * y - b * x,
        d * w - a * x - b * y - c * z,
    ]
}

fn unit(q: [f64; 4]) -> [f64; 4] {
    let length = sqrt(q.iter().map(|x| x * x).sum());
    q.map(|x| (x / length).clamp(-1.0, 1.0))
}

fn any_unit(g: &mut Generator) -> [f64; 4] {
    unit(std::array::from_fn(|_| g.between(-1.0, 1.0)))
}

// The built-in rows, turned: the quaternion, and the axis, which is where the quaternion takes the pole; the angle stays.
fn turned(turn: [f64; 4]) -> Rows {
    let mut rows = built_in();
    for row in rows.chunks_mut(7) {
        let q = unit(product(turn, [row[2], row[3], row[4], row[5]]));
        let [x, y, z, w] = q;
        let pole = product(product(q, [0.0, 0.0, 1.0, 0.0]), [-x, -y, -z, w]);
        row[0] = atan2(pole[1], pole[0]);
        row[1] = atan2(sqrt(pole[0] * pole[0] + pole[1] * pole[1]), pole[2]);
        row[2..6].copy_from_slice(&q);
    }
    rows
}

// By so many radians round some axis.
fn turned_by(g: &mut Generator, radians: f64) -> Rows {
    let [x, y, z, _] = any_unit(g);
    let length = sqrt(x * x + y * y + z * z);
    let [x, y, z] = [x, y, z].map(|n| n / length * sin(radians / 2.0));
    turned([x, y, z, cos(radians / 2.0)])
}

// The same solid by other numbers: opposite quaternions, whole turns of theta, fifths of a turn of the angle, which take gamma below
// −2π in the first rows.
fn by_other_numbers(rows: &Rows) -> Rows {
    let mut rows = rows.clone();
    for (k, row) in rows.chunks_mut(7).enumerate() {
        if k % 2 == 0 {
            row[2..6].iter_mut().for_each(|x| *x = -*x);
        }
        row[0] += if row[0] > 0.0 {
            -TWO_PI.get()
        } else {
            TWO_PI.get()
        };
        row[6] += TWO_PI_OVER_5.get() * (5.0 - k as f64);
    }
    rows
}

fn exchanged(rows: &Rows, first: usize, second: usize, columns: usize) -> Rows {
    let mut rows = rows.clone();
    (0..columns).for_each(|k| rows.swap(7 * first + k, 7 * second + k));
    rows
}

pub fn with(rows: &Rows, place: usize, number: f64) -> Rows {
    let mut rows = rows.clone();
    rows[place] = number;
    rows
}

// A row's quaternion so much longer that its squares are off 1 by about so much.
fn longer(rows: &Rows, row: usize, off: f64) -> Rows {
    let mut rows = rows.clone();
    let quaternion = &mut rows[7 * row + 2..7 * row + 6];
    quaternion.iter_mut().for_each(|x| *x *= 1.0 + off / 2.0);
    rows
}

fn any_rows(g: &mut Generator) -> Rows {
    let mut row = || {
        let [x, y, z, w] = any_unit(g);
        let [theta, phi, angle] = std::array::from_fn(|_| g.between(-8.0, 8.0));
        [theta, phi, x, y, z, w, angle]
    };
    (0..12).flat_map(|_| row()).collect()
}

// Turned, one of them a little and one hardly; by other numbers; rows exchanged, and axes alone, so that an axis isn't its
// quaternion's; an axis elsewhere, of whose face no triangle is found; quaternions nearly off 22's limit; −0 for 0.
fn opening(g: &mut Generator) -> Vec<Rows> {
    let own = built_in();
    let some = turned(any_unit(g));
    let mut nearly = some.clone();
    (0..12).for_each(|row| nearly = longer(&nearly, row, [9.9e-13, -9.9e-13][row % 2]));
    vec![
        own.clone(),
        some.clone(),
        turned(any_unit(g)),
        turned_by(g, 1e-3),
        turned_by(g, 1e-11),
        by_other_numbers(&some),
        exchanged(&some, 3, 8, 7),
        exchanged(&some, 2, 7, 2),
        with(&own, 1, 0.25),
        nearly,
        own.iter()
            .map(|x| if *x == 0.0 { -0.0 } else { *x })
            .collect(),
    ]
}

// 7: an angle that isn't a whole number of fifths from its own, a row twice, any rows.
fn passing(g: &mut Generator) -> Vec<Rows> {
    let own = built_in();
    let mut twice = own.clone();
    twice.copy_within(28..35, 35);
    vec![with(&own, 6, 1.0), twice, any_rows(g), any_rows(g)]
}

// 21: what isn't finite, and beside each end of each range, in first, last and other rows. 22: off its limit by little and by much, on
// either side. Both: 22 in the first row and 21 in the last.
fn refused(g: &mut Generator) -> Vec<Rows> {
    let own = built_in();
    let some = turned(any_unit(g));
    let beyond = |x: f64| moved(x, 1);
    vec![
        with(&own, 83, f64::NAN),
        with(&some, 0, f64::INFINITY),
        with(&some, 38, f64::NEG_INFINITY),
        with(&own, 7, beyond(8.0)),
        with(&some, 50, beyond(-8.0)),
        with(&own, 34, beyond(8.0)),
        with(&some, 79, beyond(1.0)),
        with(&own, 4, beyond(-1.0)),
        vec![f64::NAN; 84],
        longer(&some, 0, 1.01e-12),
        longer(&some, 11, -1.01e-12),
        with(&own, 82, 0.5),
        vec![0.0; 84],
        with(&with(&own, 5, 0.5), 83, beyond(8.0)),
    ]
}

pub fn tables(g: &mut Generator) -> Tables {
    let mut all = opening(g);
    let open = all.len();
    all.extend(passing(g));
    let pass = all.len();
    all.extend(refused(g));
    Tables { all, open, pass }
}
