// Writes the fixed geometry of the given Rust, with document 01's elementary steps in it, and the answers of the functions
// that work on it, to standard output; or with the word `test` tries it on what document 01 says of single points.

mod calls;
#[path = "../../common/mod.rs"]
mod common;
mod inputs;
mod selftest;
mod steps;

use common::fields::whole;
use common::generator::Generator;
use common::list::{self, List};
use common::sizes::{FACE_STORE, FRAME, SPHERE_STORE};

// The tables: twelve origins of seven numbers, thirty triangles of three corners, 62 rows, and both stores, three numbers
// to a record. "Open writes the frame and fills both stores with 0.0."
fn tables(list: &mut List) {
    list.step(1, steps::origin, &inputs::grid(12, 7));
    list.step(2, steps::face_triangle, &inputs::grid(30, 3));
    list.step(3, steps::frame, &inputs::range(FRAME / 3));
    list.step(4, |_| [0.0; 3], &inputs::range(FACE_STORE / 3));
    list.step(5, |_| [0.0; 3], &inputs::range(SPHERE_STORE / 3));
}

fn answers() -> List {
    let mut g = Generator::new(4);
    let mut list = List::new();
    let l = &mut list;
    tables(l);
    l.call(6, |x| calls::open(x).map(|()| []), &inputs::lengths());
    l.step(7, |x| calls::changed(x).map(whole), &inputs::lengths());
    l.call(8, calls::nearest, &inputs::nearest(&mut g));
    l.call(9, steps::haversine, &inputs::two_points(&mut g));
    l.call(
        9,
        steps::haversine,
        &inputs::two_far_points(&mut Generator::new(11)),
    );
    l.step(10, steps::transform_quat, &inputs::turns(&mut g));
    l.step(11, steps::triangle_index, &inputs::index_points(&mut g));
    l.step(12, steps::normalize_gamma, &inputs::gammas(&mut g));
    l.step(13, steps::should_reflect, &inputs::edge_points(&mut g));
    list
}

fn main() {
    list::run(selftest::run, answers);
}
