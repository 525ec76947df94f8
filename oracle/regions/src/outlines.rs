// Positions by the face on which they lie.

use crate::calls::{call, Place};
use crate::common::fields::of_whole;
use crate::common::generator::Generator;
use crate::common::places::borders;
use crate::common::sizes::RIGHT;
use crate::inputs::{in_triangle, lon_lat_of, Position};
use crate::set::Set;

pub struct Faces {
    pub g: Generator,
    defined: Set,
    // by origin, those where faces meet
    borders: Vec<Vec<Position>>,
}

impl Faces {
    pub fn new(g: Generator, defined: &Set) -> Faces {
        let mut by_origin = vec![Vec::new(); 12];
        for position in borders().into_iter().map(lon_lat_of) {
            // a point of the sphere that has no latitude is refused
            if let Ok(placed) = call(Place, &mut Set::opened(), RIGHT, &position) {
                by_origin[of_whole(placed[0])].push(position);
            }
        }
        Faces {
            g,
            defined: defined.clone(),
            borders: by_origin,
        }
    }

    // In a triangle of an origin's face.
    pub fn within(&mut self, slot: usize) -> Position {
        in_triangle(&mut self.g, &self.defined, slot)
    }

    // In one of an origin's triangles, or on its face's border, where a triangle may be reflected.
    pub fn on(&mut self, origin: usize) -> Position {
        let borders = &self.borders[origin];
        match self.g.whole(0, 3) {
            0 => borders[self.g.whole(0, borders.len() as i64) as usize],
            _ => {
                let index = self.g.whole(0, 10) as usize;
                self.within(10 * origin + index)
            }
        }
    }

    // An outline on an origin's face.
    pub fn outline(&mut self, origin: usize, count: usize) -> Vec<Position> {
        (0..count).map(|_| self.on(origin)).collect()
    }
}
