// The caption box, by document 02's Paper 3. The given Rust has none: this is the paper, sentence by sentence.

#[derive(Clone, Copy)]
pub struct Caption {
    // least x, greatest x, least y, greatest y
    pub sides: [f64; 4],
    pub empty: bool,
}

// "A new box is empty and its corners mean nothing until the first point." Here they are +0.0.
pub const NEW: Caption = Caption {
    sides: [0.0; 4],
    empty: true,
};

// "Non-finite points get 5, those beyond ±4 get 6, in 01's order": each number for 5 and then 6 before the next one.
pub fn refusal(point: [f64; 2]) -> Option<u8> {
    for x in point {
        if x.is_nan() || x.is_infinite() {
            return Some(5);
        }
        if x > 4.0 || x < -4.0 {
            return Some(6);
        }
    }
    None
}

// The coordinate of a point that a side looks at, and whether it is "strictly beyond" another: below for the two least
// sides, above for the two greatest.
fn coordinate(side: usize, point: [f64; 2]) -> f64 {
    point[side / 2]
}

fn beyond(side: usize, x: f64, other: f64) -> bool {
    match side % 2 {
        0 => x < other,
        _ => x > other,
    }
}

// One more point, "here without the ±4 limit". "A later point replaces a side exactly when its coordinate is strictly
// beyond it."
pub fn grown(caption: Caption, point: [f64; 2]) -> Caption {
    let mut sides = caption.sides;
    for (side, old) in sides.iter_mut().enumerate() {
        let x = coordinate(side, point);
        if caption.empty || beyond(side, x, *old) {
            *old = x;
        }
    }
    let empty = false;
    Caption { sides, empty }
}

// The refusal, if there is one, and the box afterwards: "the box then keeps its sides".
pub fn taken(caption: Caption, point: [f64; 2]) -> (Option<u8>, Caption) {
    match refusal(point) {
        Some(number) => (Some(number), caption),
        None => (None, grown(caption, point)),
    }
}

// The sides after a list of points on a new box, from the list alone: "its four sides are the least and greatest
// coordinates taken in", of equal ones the first. None where nothing was taken in.
pub fn sides_of(points: &[[f64; 2]]) -> Option<[f64; 4]> {
    let taken_in: Vec<[f64; 2]> = points
        .iter()
        .copied()
        .filter(|p| refusal(*p).is_none())
        .collect();
    let side = |side: usize| {
        let all: Vec<f64> = taken_in.iter().map(|p| coordinate(side, *p)).collect();
        all.iter()
            .copied()
            .find(|x| !all.iter().any(|other| beyond(side, *other, *x)))
    };
    Some([side(0)?, side(1)?, side(2)?, side(3)?])
}
