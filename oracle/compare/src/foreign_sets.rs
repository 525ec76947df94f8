// Sets that foreign hands have written, at random: each slot and each row for itself.

use crate::common::generator::Generator;
use crate::common::sizes::{FACE_WIDTH, SPHERE_COORDINATES, SPHERE_WIDTH};
use crate::common::sphere_slot::with_cross_product;
use crate::common::values::moved;
use crate::set::Set;

fn mark(g: &mut Generator) -> f64 {
    let list = [
        0.0,
        -0.0,
        2.0,
        -1.0,
        moved(1.0, 1),
        moved(1.0, -1),
        f64::NAN,
        f64::INFINITY,
    ];
    match g.whole(0, 10) {
        8 => g.any(),
        9 => g.subnormal(),
        k => list[k as usize],
    }
}

fn anything(g: &mut Generator) -> f64 {
    match g.whole(0, 12) {
        0 => g.any(),
        1 => g.subnormal(),
        2 => [f64::NAN, f64::INFINITY, -f64::INFINITY, -0.0][g.whole(0, 4) as usize],
        _ => g.between(-1.5, 1.5),
    }
}

// b × c of a sphere slot alone: anything, c × b, twice as large, a number of it moved by units in the last place.
fn cross_product(g: &mut Generator, bxc: &mut [f64]) {
    match g.whole(0, 4) {
        0 => bxc.iter_mut().for_each(|x| *x = anything(g)),
        1 => bxc.iter_mut().for_each(|x| *x = -*x),
        2 => bxc.iter_mut().for_each(|x| *x *= 2.0),
        _ => {
            let at = g.whole(0, 3) as usize;
            bxc[at] = moved(bxc[at], g.whole(-3, 4));
        }
    }
}

// A sphere slot: as any slot, where b × c is left or that of the slot's own b and c; or b × c alone.
fn sphere_slot(g: &mut Generator, numbers: &mut [f64]) {
    let (triangle, bxc) = numbers.split_at_mut(1 + SPHERE_COORDINATES);
    let turn = g.whole(0, 3);
    if turn == 0 {
        return cross_product(g, bxc);
    }
    slot(g, triangle);
    if turn == 1 {
        bxc.copy_from_slice(&with_cross_product(&triangle[1..])[SPHERE_COORDINATES..]);
    }
}

// A slot's mark and coordinates, which are those defined for it before.
fn slot(g: &mut Generator, numbers: &mut [f64]) {
    let part = (numbers.len() - 1) / 3;
    let at = 1 + g.whole(0, numbers.len() as i64 - 1) as usize;
    match g.whole(0, 10) {
        0 => numbers.fill(0.0),
        1 => numbers[0] = mark(g),
        2 => {
            numbers[0] = mark(g);
            numbers[1..].iter_mut().for_each(|x| *x = anything(g));
        }
        3 => numbers[1..].iter_mut().for_each(|x| *x = anything(g)),
        4 => numbers[1..].rotate_left(part),
        5 => numbers[1..]
            .iter_mut()
            .for_each(|x| *x += g.between(-1e-7, 1e-7)),
        6 => numbers[at] = anything(g),
        7 => numbers[at] = moved(numbers[at], g.whole(-3, 4)),
        8 => numbers[1..].iter_mut().for_each(|x| *x *= 2.0),
        _ => numbers[1 + part..].rotate_left(part),
    }
}

fn row(g: &mut Generator, frame: &mut [f64]) {
    let (k, other) = (3 * g.whole(0, 62) as usize, 3 * g.whole(0, 62) as usize);
    let size = 10f64.powi(-g.whole(0, 17) as i32);
    match g.whole(0, 6) {
        0 => frame[k..k + 3].fill(0.0),
        1 => frame.copy_within(other..other + 3, k),
        2 => frame[k..k + 3].iter_mut().for_each(|x| *x = anything(g)),
        // about as far as a lookup may miss it
        3 => frame[k + g.whole(0, 3) as usize] += 1e-5 * g.between(1.0 - 1e-10, 1.0 + 1e-10),
        _ => frame[k..k + 3]
            .iter_mut()
            .for_each(|x| *x += g.between(-size, size)),
    }
}

// From the defined set: some slots empty, some foreign; and of two sets one with some rows changed.
pub fn any(g: &mut Generator, defined: &Set) -> Set {
    let mut set = defined.clone();
    let (empty, foreign) = (g.between(0.0, 1.0), g.between(0.0, 1.0));
    let mut each = |numbers: &mut [f64], other: fn(&mut Generator, &mut [f64])| {
        if g.unit() < empty {
            numbers.fill(0.0);
        } else if g.unit() < foreign {
            other(g, numbers);
        }
    };
    set.face
        .chunks_mut(FACE_WIDTH)
        .for_each(|numbers| each(numbers, slot));
    set.sphere
        .chunks_mut(SPHERE_WIDTH)
        .for_each(|numbers| each(numbers, sphere_slot));
    // rows 0, 32 and 12 go into every answer: mostly they are left
    for _ in 0..g.whole(0, 2) * g.whole(1, 8) {
        row(g, &mut set.frame);
    }
    set
}
