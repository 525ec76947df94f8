//! Places two lightning strikes on their faces, brings them back, and shows a triangle that the set keeps for later.

use a5_faces::{LonLat, Refusal, Set, Store, FACE_SLOTS, SPHERE_SLOTS};

fn there_and_back(set: &mut Set, position: LonLat) -> Result<(), Refusal> {
    let place = set.place(position)?;
    let back = set.unplace(place)?;
    println!("{position:?} is {place:?}, back at {back:?}");
    Ok(())
}

fn main() -> Result<(), Refusal> {
    let mut set = Set::new()?;
    for (longitude, latitude) in [(16.3725, 48.2083), (-93.0, 45.0)] {
        there_and_back(
            &mut set,
            LonLat {
                longitude,
                latitude,
            },
        )?;
    }
    for (store, slots) in [(Store::Face, FACE_SLOTS), (Store::Sphere, SPHERE_SLOTS)] {
        for slot in 0..slots {
            if let Some(coordinates) = set.show(store, slot)? {
                println!("{store:?} slot {slot}: {coordinates:.4?}");
            }
        }
    }
    Ok(())
}
