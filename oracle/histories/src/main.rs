// Writes the vertices of the triangles that the given Rust, with document 01's elementary steps in it, has for each of the
// thirty face slots and the 240 sphere slots, and b × c of the latter, to standard output; or with the word `test` tries what
// the documents say of them.

#[path = "../../common/mod.rs"]
mod common;

use a5::core::coordinate_transforms::to_cartesian;
use a5::core::origin::get_origins;
use a5::projections::dodecahedron::DodecahedronProjection;
use common::fields::{of_whole, whole};
use common::list::{self, List};
use common::sizes::{FACE_SLOTS, SPHERE_SLOTS};

fn slots(count: usize) -> Vec<[f64; 2]> {
    (0..3 * count)
        .map(|n| [whole(n / 3), whole(n % 3)])
        .collect()
}

fn projection() -> &'static mut DodecahedronProjection {
    DodecahedronProjection::get_thread_local()
}

fn face_vertex(x: [f64; 2]) -> [f64; 2] {
    let [slot, vertex] = x.map(of_whole);
    let t = projection().oracle_face_triangle(slot);
    [t.a, t.b, t.c][vertex].into()
}

fn sphere_vertex(x: [f64; 2]) -> [f64; 3] {
    let [slot, vertex] = x.map(of_whole);
    let t = projection().oracle_spherical_triangle(slot);
    [t.a, t.b, t.c][vertex].into()
}

fn cross_product(x: [f64; 1]) -> [f64; 3] {
    let t = projection().oracle_spherical_triangle(of_whole(x[0]));
    t.bxc.into()
}

// A triangle's first vertex is a face's centre: of an unreflected slot its own origin's, of a reflected one another's. b × c
// stands upright on both: nearly, since it is rounded.
fn test() {
    for slot in 0..SPHERE_SLOTS {
        let own: [f64; 3] = to_cartesian(get_origins()[slot % 120 / 10].axis).into();
        let first = sphere_vertex([whole(slot), whole(0)]);
        let apart = (0..3).map(|i| (own[i] - first[i]).abs()).sum::<f64>();
        assert_eq!(apart < 1e-9, slot < 120, "slot {slot}");
        let bxc = cross_product([whole(slot)]);
        for vertex in 0..3 {
            let v = sphere_vertex([whole(slot), whole(vertex)]);
            let dot = (0..3).map(|i| bxc[i] * v[i]).sum::<f64>();
            assert_eq!(
                dot.abs() < 1e-15,
                vertex > 0,
                "slot {slot}, vertex {vertex}"
            );
        }
    }
}

fn answers() -> List {
    let mut list = List::new();
    list.step(1, face_vertex, &slots(FACE_SLOTS));
    list.step(2, sphere_vertex, &slots(SPHERE_SLOTS));
    let spheres: Vec<[f64; 1]> = (0..SPHERE_SLOTS).map(|slot| [whole(slot)]).collect();
    list.step(3, cross_product, &spheres);
    list
}

fn main() {
    list::run(test, answers);
}
