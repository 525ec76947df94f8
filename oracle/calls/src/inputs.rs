// The arguments of the calls on a set that nobody else writes.

use crate::calls::{Call, Forward, Inverse, Place, Unplace};
use crate::common::arguments::{pairs, subnormal, within};
use crate::common::fields::{cartesian, of_lon_lat, of_spherical, of_triangle, spherical, whole};
use crate::common::generator::Generator;
use crate::common::places::{around, borders};
use crate::common::values::{both_signs, moved, near};
use crate::refused;
use crate::set::empty_projection;
use a5::coordinate_systems::Face;
use a5::core::constants::{DISTANCE_TO_EDGE, PI_OVER_5, TWO_PI_OVER_5};
use a5::core::coordinate_transforms::{to_cartesian, to_lon_lat, to_spherical};
use a5::core::origin::{find_nearest_origin, get_origins, haversine};
use a5::steps::{atan, cos, sin, sqrt};
use std::f64::consts::PI;

// A call with its arguments; an origin's id is a whole number, after the two others.
pub type Asked = (Call, Vec<f64>);

pub fn forward(p: [f64; 2], id: usize) -> Asked {
    (Forward, vec![p[0], p[1], whole(id)])
}

pub fn inverse(p: [f64; 2], id: usize) -> Asked {
    (Inverse, vec![p[0], p[1], whole(id)])
}

pub fn unplace(p: [f64; 2], id: usize) -> Asked {
    (Unplace, vec![p[0], p[1], whole(id)])
}

pub fn place(p: [f64; 2]) -> Asked {
    (Place, p.to_vec())
}

fn turned(rho: f64, gamma: f64) -> [f64; 2] {
    [rho * cos(gamma), rho * sin(gamma)]
}

// A point in the triangle of an index, and where it lies on the sphere.
pub fn point_in(g: &mut Generator, index: usize, reflected: bool) -> [f64; 2] {
    let gamma = (index as f64 + g.between(0.05, 0.95)) * PI_OVER_5.get();
    let rho = if reflected {
        g.between(0.77, 1.1)
    } else {
        g.between(0.05, 0.6)
    };
    turned(rho, gamma)
}

pub fn position_of(p: [f64; 2], id: usize) -> [f64; 2] {
    let found = empty_projection().inverse(Face::new(p[0], p[1]), id as u8);
    of_spherical(found.expect("an answer"))
}

pub fn lon_lat_of(p: [f64; 2]) -> [f64; 2] {
    of_lon_lat(to_lon_lat(spherical(p)))
}

// Every origin and index, reflected and not: forward, inverse and unplace; place where the point is on the face.
pub fn every_triangle(g: &mut Generator) -> Vec<Asked> {
    let mut list = Vec::new();
    for id in 0..12 {
        for index in 0..10 {
            for reflected in [false, true] {
                let p = point_in(g, index, reflected);
                let position = position_of(p, id);
                list.push(inverse(p, id));
                list.push(forward(position, id));
                list.push(if reflected {
                    unplace(p, id)
                } else {
                    place(lon_lat_of(position))
                });
            }
        }
    }
    list
}

// The globe; the meridians -93 + 18k, on which origins tie; the ends of longitude, ±180 and the poles; the borders of faces.
fn places(g: &mut Generator) -> Vec<Asked> {
    let mut list = Vec::new();
    for _ in 0..300 {
        let z = g.between(-1.0, 1.0);
        let latitude = atan(z / sqrt(1.0 - z * z)) / PI * 180.0;
        list.push([g.between(-180.0, 180.0), latitude]);
    }
    for _ in 0..50 {
        list.push([g.between(-360.0, 360.0), g.between(-90.0, 90.0)]);
    }
    for k in 0..20 {
        for latitude in -6..=6 {
            list.push([-93.0 + 18.0 * k as f64, 15.0 * latitude as f64]);
        }
    }
    let ends = both_signs(&[0.0, 93.0, 180.0, moved(180.0, -1), moved(180.0, 1), 360.0]);
    let latitudes = both_signs(&[0.0, 90.0, moved(90.0, -1), 26.5, 52.6]);
    list.extend(pairs(&ends, &latitudes));
    list.extend(borders().into_iter().map(lon_lat_of));
    list.into_iter().map(place).collect()
}

// The two origins nearest to a position.
pub fn nearest_two(p: [f64; 2]) -> [usize; 2] {
    let first = find_nearest_origin(spherical(p)).id;
    let others = get_origins().iter().filter(|o| o.id != first);
    let distance = |id: u8| haversine(spherical(p), get_origins()[id as usize].axis);
    let second = others
        .min_by(|a, b| distance(a.id).total_cmp(&distance(b.id)))
        .expect("twelve origins");
    [first as usize, second.id as usize]
}

fn opposite(p: [f64; 2]) -> [f64; 2] {
    let v: [f64; 3] = to_cartesian(spherical(p)).into();
    of_spherical(to_spherical(cartesian(&v.map(|x| -x))))
}

// The sphere, from any origin and from the nearest; borders, from both sides; the axes and their antipodes, with neighbours;
// the ends of theta and phi.
fn positions(g: &mut Generator) -> Vec<Asked> {
    let mut list = Vec::new();
    for _ in 0..150 {
        let p = [g.between(-PI, PI), g.between(0.0, PI)];
        list.push(forward(p, g.whole(0, 12) as usize));
        list.extend(nearest_two(p).map(|id| forward(p, id)));
    }
    for (k, p) in borders().into_iter().enumerate() {
        let [first, second] = nearest_two(p);
        list.push(forward(p, first));
        if k % 3 == 0 {
            list.push(forward(p, second));
        }
    }
    for origin in get_origins() {
        let axis = of_spherical(origin.axis);
        let far = [axis[0] + PI, PI - axis[1]];
        for p in [axis, far, opposite(axis)] {
            list.extend(
                around(p)
                    .into_iter()
                    .map(|p| forward(p, origin.id as usize)),
            );
        }
    }
    let ends = both_signs(&[0.0, PI, moved(PI, -1), 8.0]);
    for (k, p) in pairs(&ends, &ends).into_iter().enumerate() {
        list.push(forward(p, k % 12));
    }
    list
}

// The corners of the thirty triangles, each once.
fn corners() -> Vec<[f64; 2]> {
    let mut rust = empty_projection();
    let mut list: Vec<[f64; 2]> = Vec::new();
    for slot in 0..30 {
        let t = of_triangle(rust.oracle_face_triangle(slot));
        for p in t.chunks(2) {
            let is_near = |q: &[f64; 2]| (q[0] - p[0]).abs() + (q[1] - p[1]).abs() < 1e-9;
            if !list.iter().any(is_near) {
                list.push([p[0], p[1]]);
            }
        }
    }
    list
}

// Corners; the borders between triangles and the edge of the face, with neighbours; within the face, about it, and far; zeros
// and the ends of x and y; tiny.
fn points(g: &mut Generator) -> Vec<[f64; 2]> {
    let mut list: Vec<[f64; 2]> = corners().into_iter().flat_map(around).collect();
    for k in 0..10 {
        for _ in 0..3 {
            let p = turned(g.between(0.0, 1.2), k as f64 * PI_OVER_5.get());
            list.extend(near(p[1]).map(|y| [p[0], y]));
            let beta = g.between(-PI / 5.0, PI / 5.0);
            let rho = DISTANCE_TO_EDGE / cos(beta);
            let turn = k as f64 * TWO_PI_OVER_5.get();
            list.extend(near(rho).map(|rho| turned(rho, turn + beta)));
        }
    }
    list.extend(near(DISTANCE_TO_EDGE).map(|x| [x, 0.0]));
    for size in [0.6, 1.2, 4.0] {
        for _ in 0..120 {
            list.push(within(g, size));
        }
    }
    let ends = both_signs(&[0.0, 4.0, moved(4.0, -1), 0.5]);
    list.extend(pairs(&ends, &ends));
    for _ in 0..10 {
        list.push(subnormal(g));
    }
    list
}

fn shuffle(g: &mut Generator, list: &mut [Asked]) {
    for i in (1..list.len()).rev() {
        list.swap(i, g.whole(0, i as i64 + 1) as usize);
    }
}

pub fn all(g: &mut Generator) -> Vec<Asked> {
    let mut list = every_triangle(g);
    list.extend(places(g));
    list.extend(positions(g));
    for p in points(g) {
        let id = g.whole(0, 12) as usize;
        list.push(if g.whole(0, 2) == 0 {
            inverse(p, id)
        } else {
            unplace(p, id)
        });
    }
    list.extend(refused::arguments());
    shuffle(g, &mut list);
    list
}

// Some of the same on a set that was used and opened again.
pub fn few(g: &mut Generator) -> Vec<Asked> {
    let mut list = all(g);
    list.truncate(60);
    list
}
