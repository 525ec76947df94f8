// Arguments, one call at a time: half over the domain, half from the oracle's list of the calls on a set, each number of it as it
// stands or moved by units in the last place.

use crate::calls::{Call, Forward, Place};
use crate::common::arguments::{within, SMALLEST};
use crate::common::fields::{cartesian, of_spherical, whole};
use crate::common::generator::Generator;
use crate::common::places::{borders, meridians, rows};
use crate::common::sizes::{FACE_SLOTS, OLD_SPHERE_STORE, RIGHT, SPHERE_SLOTS};
use crate::common::values::{moved, specials};
use crate::inputs::{self, nearest_two};
use crate::library::BEHIND;
use crate::set::Set;
use a5::core::constants::{DISTANCE_TO_EDGE, PI_OVER_5, TWO_PI_OVER_5};
use a5::core::coordinate_transforms::to_spherical;
use std::f64::consts::PI;

// So many draws, and the list is made anew.
const RENEWED: u32 = 20_000;

pub struct Draw {
    pub g: Generator,
    // the list's arguments, a part for each call
    listed: [Vec<Vec<f64>>; 4],
    left: u32,
    specials: Vec<f64>,
    // positions on the borders of faces, and where origins tie
    borders: Vec<[f64; 2]>,
    // the ends of half an edge of the dodecahedron
    edges: Vec<[[f64; 3]; 2]>,
    // every slot as defined
    pub defined: Set,
}

// Of a face's tenth on the sphere: the angle from the area share is so much times the share.
const AREA: f64 = PI / 30.0;

// Each vertex with the midpoints of its three edges.
fn edges() -> Vec<[[f64; 3]; 2]> {
    let rows = rows();
    let mut list = Vec::new();
    for p in &rows[12..32] {
        for q in &rows[32..] {
            if (0..3).map(|i| p[i] * q[i]).sum::<f64>() > 0.9 {
                list.push([*p, *q]);
            }
        }
    }
    assert_eq!(list.len(), 60);
    list
}

// Longitude and latitude, evenly over the globe.
pub fn globe(g: &mut Generator) -> [f64; 2] {
    let latitude = g.between(-1.0, 1.0).asin().to_degrees();
    [g.between(-180.0, 180.0), latitude]
}

impl Draw {
    pub fn new(seed: u64) -> Draw {
        let mut draw = Draw {
            g: Generator::new(seed),
            listed: Default::default(),
            left: 0,
            specials: specials(),
            borders: [borders(), meridians()].concat(),
            edges: edges(),
            defined: Set::defined(),
        };
        draw.renew();
        draw
    }

    fn renew(&mut self) {
        self.listed = Default::default();
        for (call, x) in inputs::all(&mut self.g) {
            self.listed[call as usize].push(x);
        }
        self.left = RENEWED;
    }

    fn pick(&mut self, count: usize) -> usize {
        self.g.whole(0, count as i64) as usize
    }

    fn one_in(&mut self, n: i64) -> bool {
        self.g.whole(0, n) == 0
    }

    // As it stands, a few units away, or farther: inverse's 1 - 1e-14 is some 45 units from a corner.
    fn nearby(&mut self, x: f64) -> f64 {
        match self.g.whole(0, 4) {
            0 => x,
            1 | 2 => moved(x, self.g.whole(-3, 4)),
            _ => {
                let far = 1 << self.g.whole(0, 24);
                moved(x, self.g.whole(-far, far + 1))
            }
        }
    }

    fn both_nearby(&mut self, p: [f64; 2]) -> [f64; 2] {
        p.map(|x| self.nearby(x))
    }

    // 10 to a power from -18 up to 0, of either sign.
    fn small(&mut self) -> f64 {
        let size = 10f64.powi(-self.g.whole(0, 19) as i32);
        self.g.between(-size, size)
    }

    // A number of any kind; limit is its range.
    fn wild(&mut self, limit: f64) -> f64 {
        match self.g.whole(0, 8) {
            0 => self.g.any(),
            1 => self.g.subnormal(),
            2 => [0.0, -0.0, SMALLEST, -SMALLEST][self.pick(4)],
            3 => self.specials[self.g.whole(0, self.specials.len() as i64) as usize],
            4 => {
                let end = self.nearby(limit);
                [end, -end][self.pick(2)]
            }
            5 => [f64::NAN, f64::INFINITY, -f64::INFINITY, f64::MAX][self.pick(4)],
            6 => self.small(),
            _ => self.g.between(-limit, limit),
        }
    }

    // Longitude and latitude.
    pub fn degrees(&mut self) -> [f64; 2] {
        match self.g.whole(0, 8) {
            0..=2 => globe(&mut self.g),
            3 => [self.g.between(-360.0, 360.0), self.g.between(-90.0, 90.0)],
            // where origins tie
            4 => {
                let meridian = -93.0 + 18.0 * self.g.whole(-14, 26) as f64;
                [self.nearby(meridian), self.g.between(-90.0, 90.0)]
            }
            // near a pole, near 180 or 360
            5 => {
                let pole = [90.0, -90.0][self.pick(2)];
                [self.g.between(-360.0, 360.0), pole + self.small()]
            }
            6 => {
                let end = [-360.0, -180.0, 0.0, 180.0, 360.0][self.pick(5)];
                [end + self.small(), self.g.between(-90.0, 90.0)]
            }
            _ => [self.wild(360.0), self.wild(90.0)],
        }
    }

    // Somewhere on an edge of the dodecahedron.
    fn edge(&mut self) -> [f64; 2] {
        let (k, t) = (self.pick(self.edges.len()), self.g.unit());
        let [p, q] = self.edges[k];
        let point: [f64; 3] = std::array::from_fn(|i| p[i] + t * (q[i] - p[i]));
        of_spherical(to_spherical(cartesian(&point)))
    }

    // Theta and phi.
    pub fn radians(&mut self) -> [f64; 2] {
        match self.g.whole(0, 8) {
            0 | 1 => {
                let phi = self.g.between(-1.0, 1.0).acos();
                [self.g.between(-PI, PI), phi]
            }
            2 => within(&mut self.g, 8.0),
            3 => {
                let p = self.edge();
                self.both_nearby(p)
            }
            4 => {
                let p = self.borders[self.g.whole(0, self.borders.len() as i64) as usize];
                self.both_nearby(p)
            }
            // on a tying meridian; near a pole
            5 => {
                let theta = self.g.whole(-25, 26) as f64 * PI / 10.0;
                [self.nearby(theta), self.g.between(-8.0, 8.0)]
            }
            6 => {
                let pole = PI * self.g.whole(-2, 3) as f64;
                [self.g.between(-8.0, 8.0), pole + self.small()]
            }
            _ => [self.wild(8.0), self.wild(8.0)],
        }
    }

    fn turned(rho: f64, gamma: f64) -> [f64; 2] {
        [rho * gamma.cos(), rho * gamma.sin()]
    }

    // Beside the line through the first corner of a face triangle of the set, parallel to the side across: where the angle from
    // the area share passes ±64, and from there on either side by any power of ten. Of a reflected triangle mostly: of an
    // unreflected one only foreign hands bring the line near.
    fn beside_the_line(&mut self, set: &Set) -> [f64; 2] {
        let slot = if self.one_in(4) {
            self.pick(FACE_SLOTS)
        } else {
            10 + self.pick(10)
        };
        let sides = self.g.between(-1.0, 1.0);
        // 1 less u, going from the line to the middle of the side: each half of it is added to v and to w
        let half = [0.5, -0.5][self.pick(2)];
        let rho = sides.abs() / (64.0 / AREA + half) * (1.0 + self.small());
        let x = set
            .face_slot(slot)
            .or(self.defined.face_slot(slot))
            .expect("all are filled");
        std::array::from_fn(|i| {
            let (a, b, c) = (x[i], x[2 + i], x[4 + i]);
            a + sides * (c - b) + rho * ((b + c) / 2.0 - a)
        })
    }

    // X and y, on a set.
    fn face(&mut self, set: &Set) -> [f64; 2] {
        match self.g.whole(0, 10) {
            8 | 9 => self.beside_the_line(set),
            0 | 1 => within(&mut self.g, 0.8),
            2 => within(&mut self.g, 1.3),
            3 => within(&mut self.g, 4.0),
            // the border between two triangles
            4 => {
                let gamma = self.g.whole(-10, 11) as f64 * PI_OVER_5.get();
                let p = Self::turned(self.g.between(0.0, 4.2), gamma);
                self.both_nearby(p)
            }
            // the face's edge, and the line on which it lies
            5 => {
                let beta = self.g.between(-1.2, 1.2);
                let gamma = beta + self.g.whole(-2, 3) as f64 * TWO_PI_OVER_5.get();
                let p = Self::turned(DISTANCE_TO_EDGE / beta.cos(), gamma);
                self.both_nearby(p)
            }
            6 => [self.small(), self.small()],
            _ => [self.wild(4.0), self.wild(4.0)],
        }
    }

    fn origin(&mut self) -> usize {
        let end = if self.one_in(24) { 256 } else { 12 };
        self.pick(end)
    }

    fn over_the_domain(&mut self, call: Call, set: &Set) -> Vec<f64> {
        if call == Place {
            return self.degrees().to_vec();
        }
        if call != Forward {
            let p = self.face(set);
            return vec![p[0], p[1], whole(self.origin())];
        }
        let p = self.radians();
        let within = p.iter().all(|x| x.abs() <= 8.0);
        let id = match self.g.whole(0, 3) {
            0 => self.origin(),
            turn if within => nearest_two(p)[turn as usize - 1],
            _ => self.origin(),
        };
        vec![p[0], p[1], whole(id)]
    }

    // For a call on a set, which matters to inverse and unplace.
    pub fn arguments(&mut self, call: Call, set: &Set) -> Vec<f64> {
        if self.one_in(2) {
            return self.over_the_domain(call, set);
        }
        self.left -= 1;
        if self.left == 0 {
            self.renew();
        }
        let at = self.pick(self.listed[call as usize].len());
        let mut x = self.listed[call as usize][at].clone();
        for i in 0..2 {
            x[i] = self.nearby(x[i]);
        }
        x
    }

    // Lengths: mostly right. A sphere store is also as long as it was before Paper 6.
    pub fn lengths(&mut self, rarely: i64) -> [usize; 3] {
        let mut lent = RIGHT;
        while self.one_in(rarely) {
            let k = self.pick(3);
            let size = RIGHT[k];
            let any = self.pick(size + BEHIND + 1);
            lent[k] = match self.pick(6) {
                5 if k == 2 => OLD_SPHERE_STORE,
                n => [0, 1, size - 1, size + 1, any, any][n],
            };
        }
        lent
    }

    // A store's kind and a slot's number.
    pub fn slot(&mut self) -> (u8, usize) {
        let kind = match self.g.whole(0, 9) {
            8 => self.pick(256) as u8,
            n => n as u8 % 2,
        };
        let slot = match self.g.whole(0, 8) {
            0 => {
                let [face, sphere] = [FACE_SLOTS, SPHERE_SLOTS];
                let (last, beyond) = ([face - 1, face, sphere - 1], [sphere, sphere + 1]);
                let list = [&last[..], &beyond, &[0, usize::MAX, 1 << 63]].concat();
                list[self.pick(8)]
            }
            1 => self.g.bits() as usize,
            2 | 3 => self.pick(FACE_SLOTS + 2),
            _ => self.pick(SPHERE_SLOTS + 4),
        };
        (kind, slot)
    }
}
