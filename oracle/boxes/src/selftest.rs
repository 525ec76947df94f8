// The oracle's own tests: points taken in turn give the sides that the list alone tells, and a rearranged list gives the
// same numbers.

use crate::boxes::{self, NEW};
use crate::generator::Generator;
use crate::inputs;

fn in_turn(points: &[[f64; 2]]) -> Option<[f64; 4]> {
    let after = points.iter().fold(NEW, |b, p| boxes::taken(b, *p).1);
    (!after.empty).then_some(after.sides)
}

fn bits(sides: Option<[f64; 4]>) -> Option<[u64; 4]> {
    sides.map(|s| s.map(f64::to_bits))
}

fn shuffled(g: &mut Generator, mut points: Vec<[f64; 2]>) -> Vec<[f64; 2]> {
    for i in (1..points.len()).rev() {
        points.swap(i, g.whole(0, i as i64 + 1) as usize);
    }
    points
}

pub fn run() {
    let mut g = Generator::new(4);
    let ends = inputs::points();
    for turn in 0..20_000 {
        let points: Vec<[f64; 2]> = (0..g.whole(0, 9))
            .map(|_| match g.whole(0, 3) {
                0 => ends[g.whole(0, ends.len() as i64) as usize],
                1 => inputs::close_together(&mut g),
                _ => inputs::anywhere(&mut g),
            })
            .collect();
        let sides = in_turn(&points);
        assert_eq!(bits(sides), bits(boxes::sides_of(&points)), "turn {turn}");
        assert_eq!(sides, in_turn(&shuffled(&mut g, points)), "turn {turn}");
    }
}
