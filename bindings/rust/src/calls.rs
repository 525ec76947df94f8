//! The calls on slices. A set is the frame, the face store and the sphere store, lent in this order; a slice of another
//! length than it should have is refused.
//!
//! Every `unsafe` here is sound for one reason. The library's functions take every number and all contents. Beside that
//! they are owed pointers that are aligned and not null, with as many numbers behind them as the length says, and that
//! nothing lent overlaps or is used elsewhere meanwhile: Rust's references and slices are just that.

// Each is inlined, so that a caller has the library's own call and nothing beside it.

use crate::raw;
use crate::{Face, LonLat, Place, PlaceResult, Refusal, Sides, Spherical, Store};

// 0 is an answer. The library is proved to return a number of the table otherwise.
#[inline]
pub(crate) fn given<T>(status: u8, answer: T) -> Result<T, Refusal> {
    match status {
        0 => Ok(answer),
        n => Err(Refusal::from_number(n).expect("a number of the table")),
    }
}

#[inline]
fn kind(store: Store) -> u8 {
    match store {
        Store::Face => 0,
        Store::Sphere => 1,
    }
}

/// Writes the frame and fills both stores with 0.0.
#[inline]
pub fn open(frame: &mut [f64], face: &mut [f64], sphere: &mut [f64]) -> Result<(), Refusal> {
    let status = unsafe {
        raw::a5_open(
            frame.as_mut_ptr(),
            frame.len(),
            face.as_mut_ptr(),
            face.len(),
            sphere.as_mut_ptr(),
            sphere.len(),
        )
    };
    given(status, ())
}

// A call on a set: two numbers, then M, which is an origin or where place writes one; and two numbers as the answer.
type OnSet<M> = unsafe extern "C" fn(
    *const f64,
    usize,
    *mut f64,
    usize,
    *mut f64,
    usize,
    f64,
    f64,
    M,
    *mut [f64; 2],
) -> u8;

#[inline]
fn on_set<M>(
    call: OnSet<M>,
    (frame, face, sphere): (&[f64], &mut [f64], &mut [f64]),
    numbers: [f64; 2],
    more: M,
) -> Result<[f64; 2], Refusal> {
    let mut to = [0.0; 2];
    let status = unsafe {
        call(
            frame.as_ptr(),
            frame.len(),
            face.as_mut_ptr(),
            face.len(),
            sphere.as_mut_ptr(),
            sphere.len(),
            numbers[0],
            numbers[1],
            more,
            &mut to,
        )
    };
    given(status, to)
}

/// The point of a position on the face of an origin.
#[inline]
pub fn forward(
    frame: &[f64],
    face: &mut [f64],
    sphere: &mut [f64],
    position: Spherical,
    origin: u8,
) -> Result<Face, Refusal> {
    let numbers = [position.theta, position.phi];
    let to = on_set(raw::a5_forward, (frame, face, sphere), numbers, origin);
    to.map(|[x, y]| Face { x, y })
}

/// The position of a point on the face of an origin.
#[inline]
pub fn inverse(
    frame: &[f64],
    face: &mut [f64],
    sphere: &mut [f64],
    place: Place,
) -> Result<Spherical, Refusal> {
    let numbers = [place.face.x, place.face.y];
    let to = on_set(
        raw::a5_inverse,
        (frame, face, sphere),
        numbers,
        place.origin,
    );
    to.map(|[theta, phi]| Spherical { theta, phi })
}

/// The nearest origin of a longitude and latitude, and the point on its face.
#[inline]
pub fn place(
    frame: &[f64],
    face: &mut [f64],
    sphere: &mut [f64],
    position: LonLat,
) -> Result<Place, Refusal> {
    let mut origin = 0;
    let numbers = [position.longitude, position.latitude];
    let to = on_set(raw::a5_place, (frame, face, sphere), numbers, &mut origin);
    to.map(|[x, y]| Place {
        origin,
        face: Face { x, y },
    })
}

/// Places the positions from first to last, and fills a result for each: a refused one has that in its result, and the next
/// one follows. Another number of results is refused, and then none is written.
#[inline]
pub fn place_list(
    frame: &[f64],
    face: &mut [f64],
    sphere: &mut [f64],
    positions: &[LonLat],
    results: &mut [PlaceResult],
) -> Result<(), Refusal> {
    let status = unsafe {
        raw::a5_place_list(
            frame.as_ptr(),
            frame.len(),
            face.as_mut_ptr(),
            face.len(),
            sphere.as_mut_ptr(),
            sphere.len(),
            positions.as_ptr().cast(),
            positions.len(),
            results.as_mut_ptr().cast(),
            results.len(),
        )
    };
    given(status, ())
}

// Before a region is worked out: what stands where its box goes.
const NO_BOX: raw::Caption = raw::Caption {
    least_x: 0.0,
    greatest_x: 0.0,
    least_y: 0.0,
    greatest_y: 0.0,
    empty: true,
};

/// An outline of 1 to 256 positions on one face: the origin that is nearest to each of them, and the sides of the box round
/// their face points, which go to `points`, of which there must be as many. Where it is refused, nothing is written.
#[inline]
pub fn region(
    frame: &[f64],
    face: &mut [f64],
    sphere: &mut [f64],
    positions: &[LonLat],
    points: &mut [Face],
) -> Result<(u8, Sides), Refusal> {
    let (mut origin, mut caption) = (0, NO_BOX);
    let status = unsafe {
        raw::a5_region(
            frame.as_ptr(),
            frame.len(),
            face.as_mut_ptr(),
            face.len(),
            sphere.as_mut_ptr(),
            sphere.len(),
            positions.as_ptr().cast(),
            positions.len(),
            points.as_mut_ptr().cast(),
            points.len(),
            &mut origin,
            &mut caption,
        )
    };
    given(status, (origin, Sides::of(caption)))
}

/// The longitude and latitude of a point on the face of an origin.
#[inline]
pub fn unplace(
    frame: &[f64],
    face: &mut [f64],
    sphere: &mut [f64],
    place: Place,
) -> Result<LonLat, Refusal> {
    let numbers = [place.face.x, place.face.y];
    let to = on_set(
        raw::a5_unplace,
        (frame, face, sphere),
        numbers,
        place.origin,
    );
    to.map(|[longitude, latitude]| LonLat {
        longitude,
        latitude,
    })
}

// A call with a table, 84 numbers or it is refused, and as above.
type OnSetWith<M> = unsafe extern "C" fn(
    *const f64,
    usize,
    *const f64,
    usize,
    *mut f64,
    usize,
    *mut f64,
    usize,
    f64,
    f64,
    M,
    *mut [f64; 2],
) -> u8;

#[inline]
fn on_set_with<M>(
    call: OnSetWith<M>,
    table: &[f64],
    (frame, face, sphere): (&[f64], &mut [f64], &mut [f64]),
    numbers: [f64; 2],
    more: M,
) -> Result<[f64; 2], Refusal> {
    let mut to = [0.0; 2];
    let status = unsafe {
        call(
            table.as_ptr(),
            table.len(),
            frame.as_ptr(),
            frame.len(),
            face.as_mut_ptr(),
            face.len(),
            sphere.as_mut_ptr(),
            sphere.len(),
            numbers[0],
            numbers[1],
            more,
            &mut to,
        )
    };
    given(status, to)
}

/// [`open`] with the origins of a table.
#[inline]
pub fn open_with(
    table: &[f64],
    frame: &mut [f64],
    face: &mut [f64],
    sphere: &mut [f64],
) -> Result<(), Refusal> {
    let status = unsafe {
        raw::a5_open_with(
            table.as_ptr(),
            table.len(),
            frame.as_mut_ptr(),
            frame.len(),
            face.as_mut_ptr(),
            face.len(),
            sphere.as_mut_ptr(),
            sphere.len(),
        )
    };
    given(status, ())
}

/// [`forward`] with the origins of a table.
#[inline]
pub fn forward_with(
    table: &[f64],
    frame: &[f64],
    face: &mut [f64],
    sphere: &mut [f64],
    position: Spherical,
    origin: u8,
) -> Result<Face, Refusal> {
    let (set, numbers) = ((frame, face, sphere), [position.theta, position.phi]);
    let to = on_set_with(raw::a5_forward_with, table, set, numbers, origin);
    to.map(|[x, y]| Face { x, y })
}

/// [`inverse`] with the origins of a table.
#[inline]
pub fn inverse_with(
    table: &[f64],
    frame: &[f64],
    face: &mut [f64],
    sphere: &mut [f64],
    place: Place,
) -> Result<Spherical, Refusal> {
    let (set, numbers) = ((frame, face, sphere), [place.face.x, place.face.y]);
    let to = on_set_with(raw::a5_inverse_with, table, set, numbers, place.origin);
    to.map(|[theta, phi]| Spherical { theta, phi })
}

/// [`place`] with the origins of a table.
#[inline]
pub fn place_with(
    table: &[f64],
    frame: &[f64],
    face: &mut [f64],
    sphere: &mut [f64],
    position: LonLat,
) -> Result<Place, Refusal> {
    let mut origin = 0;
    let (set, numbers) = (
        (frame, face, sphere),
        [position.longitude, position.latitude],
    );
    let to = on_set_with(raw::a5_place_with, table, set, numbers, &mut origin);
    to.map(|[x, y]| Place {
        origin,
        face: Face { x, y },
    })
}

/// [`place_list`] with the origins of a table.
#[inline]
pub fn place_list_with(
    table: &[f64],
    frame: &[f64],
    face: &mut [f64],
    sphere: &mut [f64],
    positions: &[LonLat],
    results: &mut [PlaceResult],
) -> Result<(), Refusal> {
    let status = unsafe {
        raw::a5_place_list_with(
            table.as_ptr(),
            table.len(),
            frame.as_ptr(),
            frame.len(),
            face.as_mut_ptr(),
            face.len(),
            sphere.as_mut_ptr(),
            sphere.len(),
            positions.as_ptr().cast(),
            positions.len(),
            results.as_mut_ptr().cast(),
            results.len(),
        )
    };
    given(status, ())
}

/// [`region`] with the origins of a table.
#[inline]
pub fn region_with(
    table: &[f64],
    frame: &[f64],
    face: &mut [f64],
    sphere: &mut [f64],
    positions: &[LonLat],
    points: &mut [Face],
) -> Result<(u8, Sides), Refusal> {
    let (mut origin, mut caption) = (0, NO_BOX);
    let status = unsafe {
        raw::a5_region_with(
            table.as_ptr(),
            table.len(),
            frame.as_ptr(),
            frame.len(),
            face.as_mut_ptr(),
            face.len(),
            sphere.as_mut_ptr(),
            sphere.len(),
            positions.as_ptr().cast(),
            positions.len(),
            points.as_mut_ptr().cast(),
            points.len(),
            &mut origin,
            &mut caption,
        )
    };
    given(status, (origin, Sides::of(caption)))
}

/// [`unplace`] with the origins of a table.
#[inline]
pub fn unplace_with(
    table: &[f64],
    frame: &[f64],
    face: &mut [f64],
    sphere: &mut [f64],
    place: Place,
) -> Result<LonLat, Refusal> {
    let (set, numbers) = ((frame, face, sphere), [place.face.x, place.face.y]);
    let to = on_set_with(raw::a5_unplace_with, table, set, numbers, place.origin);
    to.map(|[longitude, latitude]| LonLat {
        longitude,
        latitude,
    })
}

/// A step of a [`Panel`](crate::Panel)'s registers, of which there must be [`BLOCK`](crate::BLOCK): what is refused here is the step
/// itself, and then the registers stay as they were.
#[inline]
pub fn panel_step(
    frame: &[f64],
    face: &mut [f64],
    sphere: &mut [f64],
    block: &mut [u8],
) -> Result<(), Refusal> {
    let status = unsafe {
        raw::a5_panel_step(
            frame.as_ptr(),
            frame.len(),
            face.as_mut_ptr(),
            face.len(),
            sphere.as_mut_ptr(),
            sphere.len(),
            block.as_mut_ptr(),
            block.len(),
        )
    };
    given(status, ())
}

/// [`panel_step`] with the origins of a table.
#[inline]
pub fn panel_step_with(
    table: &[f64],
    frame: &[f64],
    face: &mut [f64],
    sphere: &mut [f64],
    block: &mut [u8],
) -> Result<(), Refusal> {
    let status = unsafe {
        raw::a5_panel_step_with(
            table.as_ptr(),
            table.len(),
            frame.as_ptr(),
            frame.len(),
            face.as_mut_ptr(),
            face.len(),
            sphere.as_mut_ptr(),
            sphere.len(),
            block.as_mut_ptr(),
            block.len(),
        )
    };
    given(status, ())
}

/// [`nearest`] with the origins of a table.
#[inline]
pub fn nearest_with(table: &[f64], position: Spherical) -> Result<u8, Refusal> {
    let mut id = 0;
    let (theta, phi) = (position.theta, position.phi);
    let status = unsafe { raw::a5_nearest_with(table.as_ptr(), table.len(), theta, phi, &mut id) };
    given(status, id)
}

/// The numbers of a table file go to `table`.
#[inline]
pub fn table_load(bytes: &[u8], table: &mut [f64; 84]) -> Result<(), Refusal> {
    given(
        unsafe { raw::a5_table_load(bytes.as_ptr(), bytes.len(), table) },
        (),
    )
}

/// The file of a table goes to `bytes`, of which there must be [`TABLE_FILE`](crate::TABLE_FILE).
#[inline]
pub fn table_save(table: &[f64], bytes: &mut [u8]) -> Result<(), Refusal> {
    let status =
        unsafe { raw::a5_table_save(table.as_ptr(), table.len(), bytes.as_mut_ptr(), bytes.len()) };
    given(status, ())
}

/// The coordinates of a filled slot, six or nine; `None` where the slot is empty.
#[inline]
pub fn show<'a>(
    face: &'a [f64],
    sphere: &'a [f64],
    store: Store,
    slot: usize,
) -> Result<Option<&'a [f64]>, Refusal> {
    let mut part = [0; 2];
    let status = unsafe {
        raw::a5_show(
            face.as_ptr(),
            face.len(),
            sphere.as_ptr(),
            sphere.len(),
            kind(store),
            slot,
            &mut part,
        )
    };
    given(status, part).map(|[offset, length]| {
        let named = match store {
            Store::Face => face,
            Store::Sphere => sphere,
        };
        (length > 0).then(|| &named[offset..offset + length])
    })
}

/// Show's companion: whether the slot is filled.
#[inline]
pub fn slot_state(
    face: &[f64],
    sphere: &[f64],
    store: Store,
    slot: usize,
) -> Result<bool, Refusal> {
    let mut filled = 0;
    let status = unsafe {
        raw::a5_slot_state(
            face.as_ptr(),
            face.len(),
            sphere.as_ptr(),
            sphere.len(),
            kind(store),
            slot,
            &mut filled,
        )
    };
    given(status, filled == 1)
}

/// The number of the origin nearest to a position.
#[inline]
pub fn nearest(position: Spherical) -> Result<u8, Refusal> {
    let mut id = 0;
    let status = unsafe { raw::a5_nearest(position.theta, position.phi, &mut id) };
    given(status, id)
}

/// From longitude and latitude to the authalic sphere.
#[inline]
pub fn from_lon_lat(position: LonLat) -> Result<Spherical, Refusal> {
    let mut to = [0.0; 2];
    let status = unsafe { raw::a5_from_lon_lat(position.longitude, position.latitude, &mut to) };
    let [theta, phi] = to;
    given(status, Spherical { theta, phi })
}

/// From the authalic sphere to longitude and latitude.
#[inline]
pub fn to_lon_lat(position: Spherical) -> Result<LonLat, Refusal> {
    let mut to = [0.0; 2];
    let status = unsafe { raw::a5_to_lon_lat(position.theta, position.phi, &mut to) };
    let [longitude, latitude] = to;
    given(
        status,
        LonLat {
            longitude,
            latitude,
        },
    )
}

/// Hands out a turn's place calls to sixteen channels, as [`fair_turns`](crate::fair_turns()) does, to places that the
/// caller keeps.
#[inline]
pub fn fair_turns(wishes: &[u16], grants: &mut [u16]) -> Result<(), Refusal> {
    let status = unsafe {
        raw::a5_fair_turns(
            wishes.as_ptr(),
            wishes.len(),
            grants.as_mut_ptr(),
            grants.len(),
        )
    };
    given(status, ())
}
