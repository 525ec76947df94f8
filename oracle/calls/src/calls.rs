// The four calls on a set. What is worked out is the Rust's: its own forward and inverse, with the set's frame and triangles
// in it. The refusals and what stands in the stores afterwards are document 01's, under its words.

use crate::common::fields::{
    cartesian, lon_lat, of_lon_lat, of_spherical, of_triangle, of_whole, spherical, whole,
};
use crate::common::places::rows;
use crate::common::refusals::{
    self, check, finite, lengths, of_error, origin, FACE_LIMITS, LON_LAT_LIMITS, SPHERICAL_LIMITS,
};
use crate::common::sizes::{FACE_SLOTS, SPHERE_SLOTS};
use crate::common::sphere_slot::{of_spherical_triangle, spherical_triangle};
use crate::set::{empty_projection, Set};
use a5::coordinate_systems::{Face, Spherical};
use a5::core::coordinate_transforms::{from_lon_lat, to_lon_lat};
use a5::core::origin::{find_nearest_origin, oracle_with_table};
use a5::projections::crs::CRS;
use a5::projections::dodecahedron::DodecahedronProjection;

#[derive(Clone, Copy, Debug, PartialEq)]
pub enum Call {
    Forward,
    Inverse,
    Place,
    Unplace,
}

pub use Call::{Forward, Inverse, Place, Unplace};

// What the Rust's projection is asked, once the call has looked at its arguments.
enum Question {
    Forward(Spherical, u8),
    Inverse(Face, u8),
}

fn pair(x: &[f64]) -> [f64; 2] {
    [x[0], x[1]]
}

// "Those that apply are tried in table order, but each number is tried for 5 and then 6 before the next one: longitude,
// latitude; theta, phi; x, y." "Place is from_lon_lat, find_nearest_origin, forward; unplace is inverse, to_lon_lat."
fn question(call: Call, x: &[f64]) -> Result<Question, u8> {
    match call {
        Forward => {
            let id = origin(of_whole(x[2]))?;
            check(pair(x), SPHERICAL_LIMITS)?;
            Ok(Question::Forward(spherical(pair(x)), id))
        }
        Inverse | Unplace => {
            let id = origin(of_whole(x[2]))?;
            check(pair(x), FACE_LIMITS)?;
            Ok(Question::Inverse(Face::new(x[0], x[1]), id))
        }
        Place => {
            check(pair(x), LON_LAT_LIMITS)?;
            let position = from_lon_lat(lon_lat(pair(x)));
            let id = find_nearest_origin(position).id;
            Ok(Question::Forward(position, id))
        }
    }
}

// 8 and 19 are all that the Rust can fail by here.
fn ask(rust: &mut DodecahedronProjection, question: &Question) -> Result<[f64; 2], u8> {
    match question {
        Question::Forward(position, id) => rust
            .forward(*position, *id)
            .map(<[f64; 2]>::from)
            .map_err(of_error),
        Question::Inverse(point, id) => rust
            .inverse(*point, *id)
            .map(of_spherical)
            .map_err(of_error),
    }
}

// The final answer. "5, 6 and 9 look there only at the composition's own arguments and its final answer."
fn answer(call: Call, question: &Question, worked: [f64; 2]) -> Result<Vec<f64>, u8> {
    let mut answer = worked;
    if call == Unplace {
        answer = of_lon_lat(to_lon_lat(spherical(worked)));
    }
    finite(answer)?;
    match (call, question) {
        (Place, Question::Forward(_, id)) => Ok(vec![whole(*id as usize), answer[0], answer[1]]),
        _ => Ok(answer.to_vec()),
    }
}

fn places<T>(cache: &[Option<T>]) -> Vec<usize> {
    (0..cache.len()).filter(|i| cache[*i].is_some()).collect()
}

// The face slots and the sphere slot that a call uses: those that a projection of the Rust without triangles fills. "An
// unreflected call uses face slot i and its sphere slot; a reflected one uses 10+i, 20+i and its sphere slot." What is answered
// on foreign contents may be 19 there, and has filled them all the same.
fn used(question: &Question) -> (Vec<usize>, usize) {
    let mut rust = empty_projection();
    if let Err(refusal) = ask(&mut rust, question) {
        assert_eq!(refusal, 19, "an opened set has every vertex");
    }
    has(&rust)
}

// The same with a table, with which a frame may lack vertices: every sphere slot is filled, so that no vertex is looked for, and the
// one face slot that the call then fills says which triangle it takes. "Sphere slot is 10·origin + index, plus 120 if reflected."
fn used_with(question: &Question) -> (Vec<usize>, usize) {
    let any = spherical_triangle(&[1.0; 12]);
    let (faces, spheres) = (vec![None; FACE_SLOTS], vec![Some(any); SPHERE_SLOTS]);
    let rows = rows().iter().map(|row| cartesian(row)).collect();
    let mut rust = DodecahedronProjection::oracle_with(CRS::oracle_with(rows), faces, spheres);
    let _ = ask(&mut rust, question);
    let (Question::Forward(_, id) | Question::Inverse(_, id)) = question;
    match places(rust.oracle_face_triangles())[..] {
        [i] if i < 10 => (vec![i], 10 * *id as usize + i),
        [i] => (vec![i, i + 10], 10 * *id as usize + i - 10 + 120),
        _ => panic!("one face slot"),
    }
}

// The slots of the only triangles that a projection has.
fn has(rust: &DodecahedronProjection) -> (Vec<usize>, usize) {
    let faces = places(rust.oracle_face_triangles());
    let spheres = places(rust.oracle_spherical_triangles());
    assert!(faces.len() == 1 && faces[0] < 10 || faces.len() == 2 && faces[1] == faces[0] + 10);
    assert_eq!(spheres.len(), 1);
    (faces, spheres[0])
}

// "Empty used slots are written on success." The triangles are those that the Rust has by then, a sphere triangle with its b × c;
// a slot 20+i that it did not need, since its sphere slot was filled, it is asked for.
fn keep(
    set: &mut Set,
    rust: &mut DodecahedronProjection,
    question: &Question,
    used: fn(&Question) -> (Vec<usize>, usize),
) {
    // without a filled slot the projection had no triangles before it was asked
    let (faces, sphere) = if set.is_empty() {
        has(rust)
    } else {
        used(question)
    };
    for slot in faces {
        if set.face_slot(slot).is_none() {
            let t = rust.oracle_face_triangle(slot);
            set.put_face(slot, 1.0, &of_triangle(t));
        }
    }
    if set.sphere_slot(sphere).is_none() {
        let t = rust.oracle_spherical_triangles()[sphere].expect("the call took it");
        set.put_sphere(sphere, 1.0, &of_spherical_triangle(t));
    }
}

// A call on a set of which so many numbers are lent. "A refusal leaves every lent buffer bit for bit unchanged."
pub fn call(call: Call, set: &mut Set, lent: [usize; 3], x: &[f64]) -> Result<Vec<f64>, u8> {
    lengths(lent)?;
    let question = question(call, x)?;
    let mut rust = set.projection();
    let worked = ask(&mut rust, &question)?;
    let answer = answer(call, &question, worked)?;
    keep(set, &mut rust, &question, used);
    Ok(answer)
}

// The same with a table of which so many numbers are lent. "Each tests it by 21 and 22 right after 3."
pub fn call_with(
    table: &[f64],
    call: Call,
    set: &mut Set,
    lent: [usize; 3],
    x: &[f64],
) -> Result<Vec<f64>, u8> {
    refusals::table_length(table.len())?;
    lengths(lent)?;
    refusals::table(table)?;
    oracle_with_table(table, || {
        let question = question(call, x)?;
        let mut rust = set.projection();
        let worked = ask(&mut rust, &question)?;
        let answer = answer(call, &question, worked)?;
        keep(set, &mut rust, &question, used_with);
        Ok(answer)
    })
}

// The same answer from a projection that the Rust itself has kept since it was made, without marks and slots.
pub fn of_kept(call: Call, rust: &mut DodecahedronProjection, x: &[f64]) -> Result<Vec<f64>, u8> {
    let question = question(call, x)?;
    let worked = ask(rust, &question)?;
    answer(call, &question, worked)
}
