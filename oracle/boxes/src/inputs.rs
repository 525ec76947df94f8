// The boxes and points that the library is asked at.

use crate::boxes::Caption;
use crate::generator::Generator;
use crate::values::{both_signs, moved};

// Signed zeros, the smallest numbers, the limits with their neighbours, and what is not finite.
fn ends() -> Vec<f64> {
    let tiny = f64::from_bits(1);
    both_signs(&[
        0.0,
        tiny,
        1.0,
        moved(4.0, -1),
        4.0,
        moved(4.0, 1),
        f64::MAX,
        f64::INFINITY,
        f64::NAN,
    ])
}

// Each of them with each.
pub fn points() -> Vec<[f64; 2]> {
    let ends = ends();
    let pairs = |x: &f64| ends.iter().map(|y| [*x, *y]).collect::<Vec<_>>();
    ends.iter().flat_map(pairs).collect()
}

// Coordinates of which many are equal, some as numbers only.
pub fn close_together(g: &mut Generator) -> [f64; 2] {
    let list = [-4.0, -1.0, -0.0, 0.0, 1.0, 4.0];
    [(); 2].map(|()| list[g.whole(0, list.len() as i64) as usize])
}

pub fn anywhere(g: &mut Generator) -> [f64; 2] {
    [(); 2].map(|()| g.between(-4.5, 4.5))
}

// Sides that no points make: any number, a NaN too, the least above the greatest, and the point's own with neighbours.
pub fn foreign(g: &mut Generator, point: [f64; 2]) -> Caption {
    let mut sides = [0.0; 4];
    for (side, x) in sides.iter_mut().enumerate() {
        let own = point[side / 2];
        *x = match g.whole(0, 6) {
            0 => g.any(),
            1 => moved(own, g.whole(-1, 2)),
            2 => -own,
            3 => ends()[g.whole(0, 18) as usize],
            4 => g.subnormal(),
            _ => g.between(-4.0, 4.0),
        };
    }
    let empty = g.whole(0, 4) == 0;
    Caption { sides, empty }
}
