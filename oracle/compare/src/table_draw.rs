// Tables at random: turned ones, those that pass and don't fit, every kind of fault, and the limits.

use crate::common::generator::Generator;
use crate::common::values::moved;
use a5::core::origin::get_origins;
use std::f64::consts::{PI, TAU};

pub type Rows = Vec<f64>;

const LIMITS: [f64; 7] = [8.0, 8.0, 1.0, 1.0, 1.0, 1.0, 8.0];

// The Rust's own origins as rows.
pub fn built_in() -> Rows {
    let row = |o: &a5::core::utils::Origin| {
        let [x, y, z, w] = o.quat;
        [
            o.axis.theta().get(),
            o.axis.phi().get(),
            x,
            y,
            z,
            w,
            o.angle.get(),
        ]
    };
    get_origins().iter().flat_map(row).collect()
}

fn product(p: [f64; 4], q: [f64; 4]) -> [f64; 4] {
    let ([a, b, c, d], [x, y, z, w]) = (p, q);
    [
        d * x + a * w + b * z - c * y,
        d * y + b * w + c * x - a * z,
        d * z + c * w + a * y - b * x,
        d * w - a * x - b * y - c * z,
    ]
}

fn unit(g: &mut Generator) -> [f64; 4] {
    let q: [f64; 4] = std::array::from_fn(|_| g.between(-1.0, 1.0));
    let length = q.iter().map(|x| x * x).sum::<f64>().sqrt();
    q.map(|x| (x / length).clamp(-1.0, 1.0))
}

// The built-in rows, turned: the quaternion and the axis, which is where the quaternion takes the pole; the angle stays.
fn turned_by(turn: [f64; 4]) -> Rows {
    let mut rows = built_in();
    for row in rows.chunks_mut(7) {
        let q = product(turn, [row[2], row[3], row[4], row[5]]);
        let length = q.iter().map(|x| x * x).sum::<f64>().sqrt();
        let [x, y, z, w] = q.map(|x| (x / length).clamp(-1.0, 1.0));
        let pole = product(product([x, y, z, w], [0.0, 0.0, 1.0, 0.0]), [-x, -y, -z, w]);
        row[0] = pole[1].atan2(pole[0]);
        row[1] = pole[2].clamp(-1.0, 1.0).acos();
        row[2..6].copy_from_slice(&[x, y, z, w]);
    }
    rows
}

pub fn turned(g: &mut Generator) -> Rows {
    turned_by(unit(g))
}

fn small(g: &mut Generator) -> f64 {
    let size = 10f64.powi(-g.whole(0, 18) as i32);
    g.between(-size, size)
}

fn slightly_turned(g: &mut Generator) -> Rows {
    let (half, [x, y, z, _]) = (small(g) / 2.0, unit(g));
    let length = (x * x + y * y + z * z).sqrt();
    let [x, y, z] = [x, y, z].map(|n| n / length * half.sin());
    turned_by([x, y, z, half.cos()])
}

// The same solid by other numbers: a quaternion's opposite, whole turns of theta, fifths of a turn of the angle, which takes gamma
// below −2π.
fn same_solid(g: &mut Generator) -> Rows {
    let mut rows = turned(g);
    for row in rows.chunks_mut(7) {
        if g.whole(0, 2) == 0 {
            row[2..6].iter_mut().for_each(|x| *x = -*x);
        }
        let theta = row[0] + TAU * g.whole(-1, 2) as f64;
        if theta.abs() <= 8.0 {
            row[0] = theta;
        }
        let angle = row[6] + TAU / 5.0 * g.whole(-6, 7) as f64;
        if angle.abs() <= 8.0 {
            row[6] = angle;
        }
    }
    rows
}

fn sound(g: &mut Generator) -> Rows {
    (0..12)
        .flat_map(|_| {
            let q = unit(g);
            let [theta, phi, angle] = std::array::from_fn(|_| g.between(-8.0, 8.0));
            [theta, phi, q[0], q[1], q[2], q[3], angle]
        })
        .collect()
}

// A number that no table has, or that only just passes.
fn fault(g: &mut Generator, limit: f64) -> f64 {
    let nan = f64::from_bits(0x7ff0_0000_0000_0000 | g.bits() >> 12 | 1 | g.bits() << 63);
    let end = moved(limit, g.whole(-1, 3));
    match g.whole(0, 9) {
        0 => nan,
        1 => [f64::INFINITY, -f64::INFINITY][g.whole(0, 2) as usize],
        2 => g.any(),
        3 => g.subnormal(),
        4 => -0.0,
        5 => limit,
        6 => -limit,
        7 => end,
        _ => -end,
    }
}

// Off unit length by about 1e-12.
fn nearly_unit(g: &mut Generator, row: &mut [f64]) {
    let size = [1e-12, -1e-12, 1e-15, 2e-12][g.whole(0, 4) as usize] * (1.0 + small(g) / 100.0);
    let scale = 1.0 + size / 2.0;
    row[2..6].iter_mut().for_each(|x| *x *= scale);
}

pub fn any(g: &mut Generator) -> Rows {
    let mut rows = match g.whole(0, 8) {
        0 => built_in(),
        1 => slightly_turned(g),
        2 => same_solid(g),
        _ => turned(g),
    };
    let (i, j) = (g.whole(0, 12) as usize, g.whole(0, 12) as usize);
    let (at, column) = (7 * i, g.whole(0, 7) as usize);
    match g.whole(0, 20) {
        // two rows, or their axes alone, exchanged
        0 => (0..7).for_each(|k| rows.swap(at + k, 7 * j + k)),
        1 => (0..2).for_each(|k| rows.swap(at + k, 7 * j + k)),
        2 => rows.copy_within(7 * j..7 * j + 7, at),
        // one number moved; an axis or an angle anywhere
        3 => rows[at + column] = moved(rows[at + column], g.whole(-3, 4)),
        4 => rows[at + column] += small(g),
        5 => rows[at + g.whole(0, 2) as usize] = g.between(-8.0, 8.0),
        6 => rows[at + 6] = g.between(-8.0, 8.0),
        7 => rows[at + 6] += PI / 5.0 * g.whole(-3, 4) as f64,
        8 => nearly_unit(g, &mut rows[at..at + 7]),
        9 => rows.chunks_mut(7).for_each(|row| nearly_unit(g, row)),
        10 | 11 => rows[at + column] = fault(g, LIMITS[column]),
        // 22 in one row and 21 in another
        12 => {
            rows[at + 2] = g.between(-1.0, 1.0);
            rows[7 * j + column] = fault(g, LIMITS[column]);
        }
        13 => rows = sound(g),
        14 => {
            for row in rows.chunks_mut(7) {
                [row[0], row[1], row[6]] = std::array::from_fn(|_| fault(g, 8.0).clamp(-8.0, 8.0));
                row[2..6].fill(0.0);
                row[2 + g.whole(0, 4) as usize] = [1.0, -1.0][g.whole(0, 2) as usize];
            }
        }
        _ => {}
    }
    rows
}

// As many numbers as are lent: mostly 84.
pub fn lent(g: &mut Generator, rows: &Rows) -> Rows {
    let mut rows = rows.clone();
    if g.whole(0, 40) == 0 {
        let n = [0, 1, 83, 85, g.whole(0, 100)][g.whole(0, 5) as usize];
        rows.resize(n as usize, 0.5);
    }
    rows
}
