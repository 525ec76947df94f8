// Writes the box's answers to standard output, or with the word `test` tries the oracle itself.

mod boxes;
#[allow(dead_code)]
#[path = "../../common/generator.rs"]
mod generator;
mod inputs;
#[allow(dead_code)]
#[path = "../../common/list.rs"]
mod list;
mod selftest;
#[allow(dead_code)]
#[path = "../../common/values.rs"]
mod values;

use boxes::{Caption, NEW};
use generator::Generator;
use list::List;

fn flag(empty: bool) -> f64 {
    match empty {
        true => 1.0,
        false => 0.0,
    }
}

// Half of a box: the sides of x (0) or of y (1), and 1.0 where it is empty.
fn half(caption: Caption, which: usize) -> [f64; 3] {
    let [least, greatest] = [caption.sides[2 * which], caption.sides[2 * which + 1]];
    [least, greatest, flag(caption.empty)]
}

// The outcome of one point on a box, in three records, and the box without the check, in two.
fn records(list: &mut List, caption: Caption, point: [f64; 2]) -> Caption {
    let [a, b, c, d] = caption.sides;
    let arguments = [a, b, c, d, flag(caption.empty), point[0], point[1]];
    let (refusal, after) = boxes::taken(caption, point);
    match refusal {
        Some(number) => list.refused(2, number, &arguments),
        None => list.answered(2, &arguments, &[]),
    }
    list.answered(3, &arguments, &half(after, 0));
    list.answered(4, &arguments, &half(after, 1));
    let grown = boxes::grown(caption, point);
    list.answered(5, &arguments, &half(grown, 0));
    list.answered(6, &arguments, &half(grown, 1));
    after
}

// One box from new, which takes the points in turn.
fn in_turn(list: &mut List, points: &[[f64; 2]]) {
    let mut caption = NEW;
    for point in points {
        caption = records(list, caption, *point);
    }
}

fn answers() -> List {
    let mut g = Generator::new(3);
    let mut list = List::new();
    for which in [0, 1] {
        list.answered(1, &[which as f64], &half(NEW, which));
    }
    in_turn(&mut list, &inputs::points());
    for _ in 0..20 {
        let points: Vec<[f64; 2]> = (0..12).map(|_| inputs::close_together(&mut g)).collect();
        in_turn(&mut list, &points);
    }
    for _ in 0..4 {
        let points: Vec<[f64; 2]> = (0..20).map(|_| inputs::anywhere(&mut g)).collect();
        in_turn(&mut list, &points);
    }
    for point in inputs::points() {
        let caption = inputs::foreign(&mut g, point);
        records(&mut list, caption, point);
    }
    for _ in 0..300 {
        let point = inputs::anywhere(&mut g);
        let caption = inputs::foreign(&mut g, point);
        records(&mut list, caption, point);
    }
    list
}

fn main() {
    list::run(selftest::run, answers);
}
