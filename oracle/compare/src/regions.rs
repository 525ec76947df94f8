// Outlines on one face, with the built-in table and with others: positions close together, so that most have one nearest origin,
// one far away or refused among them, at times at the last place; none, one, 256 and more; as many point places or one more or
// less; wrong lengths. The points and what lies behind them, the origin, the box and what stands around it, and all numbers of the
// set must be the same.

use crate::calls::{self, Place};
use crate::common::fields::whole;
use crate::common::refusals::{lengths, table, table_length};
use crate::common::sizes::RIGHT;
use crate::counts::{Asked, Counts, Where, REGION, REGION_WITH};
use crate::draw::Draw;
use crate::foreign_sets;
use crate::library::{of_byte, Buffers, Library, BYTE_BEFORE};
use crate::outcome::{Outcome, BEFORE};
use crate::raw;
use crate::region_oracle::{region, Region};
use crate::set::Set;
use crate::table_draw::{self, Rows};

// So many outlines, more or less, and one of 255 to 258 positions.
const A_LONG_ONE: i64 = 100;

// A box as it is lent, between two numbers that no call may touch.
#[repr(C)]
struct Lent {
    before: f64,
    caption: raw::Caption,
    behind: f64,
}

const AROUND: [f64; 2] = [3.25, -3.25];

const LENT: Lent = Lent {
    before: AROUND[0],
    caption: raw::Caption {
        least_x: BEFORE,
        greatest_x: BEFORE,
        least_y: BEFORE,
        greatest_y: BEFORE,
        empty: true,
    },
    behind: AROUND[1],
};

// What stands around the box and behind the points first, then the box, the origin and the points.
fn numbers(
    around: [f64; 2],
    behind: [f64; 2],
    empty: u8,
    sides: [f64; 4],
    origin: u8,
    points: &[[f64; 2]],
) -> Vec<f64> {
    let first = [around[0], around[1], behind[0], behind[1]];
    let points = points.concat();
    [
        &first[..],
        &[whole(empty as usize)],
        &sides,
        &[of_byte(origin)],
        &points,
    ]
    .concat()
}

impl Library {
    // What the functions are owed is pointers to as many numbers, positions and points as each length says, an origin and a box.
    fn region(
        &mut self,
        buffers: &mut Buffers,
        rows: Option<&[f64]>,
        lent: [usize; 3],
        positions: &[[f64; 2]],
        places: usize,
    ) -> Outcome {
        let mut points = vec![[BEFORE; 2]; places + 1];
        let (mut origin, mut at) = (BYTE_BEFORE, LENT);
        let [frame, face, sphere] = &mut buffers.numbers;
        let (frame, face, sphere) = (frame.as_ptr(), face.as_mut_ptr(), sphere.as_mut_ptr());
        let (p, n, q) = (positions.as_ptr(), positions.len(), points.as_mut_ptr());
        let ([a, b, c], o, x) = (lent, &mut origin, &mut at.caption);
        let (call, status) = match rows {
            None => {
                let function = raw::a5_region;
                let status =
                    unsafe { function(frame, a, face, b, sphere, c, p, n, q, places, o, x) };
                (REGION, status)
            }
            Some(rows) => {
                let (function, t, k) = (raw::a5_region_with, rows.as_ptr(), rows.len());
                let status =
                    unsafe { function(t, k, frame, a, face, b, sphere, c, p, n, q, places, o, x) };
                (REGION_WITH, status)
            }
        };
        let caption = &at.caption;
        // the byte itself, so that one that is no bool shows
        let empty = unsafe { *(&raw const caption.empty).cast::<u8>() };
        let sides = [
            caption.least_x,
            caption.greatest_x,
            caption.least_y,
            caption.greatest_y,
        ];
        let behind = points.pop().expect("one behind");
        let numbers = numbers(
            [at.before, at.behind],
            behind,
            empty,
            sides,
            origin,
            &points,
        );
        self.ended(call, status, numbers, Some(buffers))
    }
}

fn expected(given: &Result<Region, u8>, places: usize) -> Outcome {
    let left = vec![[BEFORE; 2]; places];
    let numbers = match given {
        Ok(r) => numbers(
            AROUND,
            [BEFORE; 2],
            r.caption.empty as u8,
            r.caption.sides,
            r.origin,
            &r.points,
        ),
        Err(_) => numbers(AROUND, [BEFORE; 2], 1, [BEFORE; 4], BYTE_BEFORE, &left),
    };
    Outcome {
        status: given.as_ref().err().copied().unwrap_or(0),
        numbers,
    }
}

// A set on both sides, and the library that is asked on it.
struct Side {
    place: Where,
    library: Library,
    set: Set,
    buffers: Buffers,
}

impl Side {
    fn new(place: Where, library: Library) -> Side {
        let set = Set::opened();
        Side {
            place,
            library,
            buffers: Buffers::of(&set),
            set,
        }
    }

    fn lend(&mut self, set: &Set) {
        self.set.clone_from(set);
        self.buffers.take(set);
    }

    fn region(
        &mut self,
        counts: &mut Counts,
        rows: Option<&[f64]>,
        (positions, places): (&[[f64; 2]], usize),
        lent: [usize; 3],
    ) {
        let buffers = &mut self.buffers;
        let ours = self.library.region(buffers, rows, lent, positions, places);
        let (call, given) = match rows {
            None => {
                let before = lengths(lent);
                let place = |set: &mut Set, x: &[f64; 2]| calls::call(Place, set, RIGHT, x);
                let given = region(&mut self.set, before, positions, places, place);
                (REGION, given)
            }
            // "Refusal 20" first of all, 21 and 22 "right after 3"
            Some(rows) => {
                let before = table_length(rows.len()).and_then(|()| lengths(lent));
                let before = before.and_then(|()| table(rows));
                let place =
                    |set: &mut Set, x: &[f64; 2]| calls::call_with(rows, Place, set, RIGHT, x);
                let given = region(&mut self.set, before, positions, places, place);
                (REGION_WITH, given)
            }
        };
        let rust = expected(&given, places);
        let arguments = [
            &[whole(places)],
            positions.concat().as_slice(),
            rows.unwrap_or(&[]),
        ]
        .concat();
        let asked = Asked {
            call,
            place: self.place,
            arguments: &arguments,
            lent: Some(lent),
        };
        counts.compare(asked, &ours, &rust);
        counts.compare_buffers(asked, self.buffers.differing(&self.set));
    }
}

// How many positions: mostly a few, none at times, and now and then about as many as a region may have.
fn count(draw: &mut Draw) -> usize {
    let n = match draw.g.whole(0, A_LONG_ONE) {
        0 => draw.g.whole(255, 259),
        _ => draw.g.whole(0, 9),
    };
    n as usize
}

// Round a place anywhere, as far as a tenth of a degree or ten degrees; one of them far away, or anything.
fn outline(draw: &mut Draw, set: &Set) -> Vec<[f64; 2]> {
    let x = draw.arguments(Place, set);
    let size = 10f64.powi(draw.g.whole(-1, 2) as i32);
    let mut list: Vec<[f64; 2]> = (0..count(draw))
        .map(|_| {
            let [east, north] = [draw.g.between(-size, size), draw.g.between(-size, size)];
            [x[0] + east, x[1] + north]
        })
        .collect();
    if draw.g.whole(0, 3) == 0 && !list.is_empty() {
        let last = list.len() - 1;
        let at = match draw.g.whole(0, 2) {
            0 => last,
            _ => draw.g.whole(0, last as i64 + 1) as usize,
        };
        list[at] = draw.degrees();
    }
    list
}

// Point places: mostly as many as positions.
fn places(draw: &mut Draw, positions: usize) -> usize {
    match draw.g.whole(0, 16) {
        0 => positions + 1,
        1 => positions.saturating_sub(1),
        _ => positions,
    }
}

pub struct Regions {
    pub counts: Counts,
    sides: [Side; 3],
    // the table that the sets were last opened with, and the set as it was then
    own: Rows,
    newly: Set,
}

impl Regions {
    pub fn new(library: impl Fn(Where) -> Library) -> Regions {
        let side = |place| Side::new(place, library(place));
        Regions {
            counts: Counts::default(),
            sides: [side(Where::Kept), side(Where::Opened), side(Where::Foreign)],
            own: table_draw::built_in(),
            newly: Set::opened(),
        }
    }

    // Another table, if a set opens with it; the built-in one half of the time.
    fn renew(&mut self, draw: &mut Draw) {
        let rows = match draw.g.whole(0, 2) {
            0 => table_draw::built_in(),
            _ => table_draw::turned(&mut draw.g),
        };
        if let Ok(set) = Set::opened_with(&rows) {
            self.own = rows;
            self.newly = set;
            self.sides[0].lend(&self.newly);
        }
    }

    // An outline on the three sets in turn, without a table and with one: mostly the set's own.
    pub fn turn(&mut self, draw: &mut Draw, turn: u64) {
        if turn % 24 == 0 {
            self.renew(draw);
        }
        let side = &mut self.sides[turn as usize % 3];
        for with in [false, true] {
            match turn % 3 {
                1 => side.lend(&self.newly),
                2 => side.lend(&foreign_sets::any(&mut draw.g, &draw.defined)),
                _ => {}
            }
            let rows = match draw.g.whole(0, 12) {
                0 => table_draw::any(&mut draw.g),
                _ => table_draw::lent(&mut draw.g, &self.own),
            };
            let positions = outline(draw, &side.set);
            let asked = (&positions[..], places(draw, positions.len()));
            let (rows, lent) = (with.then_some(&rows[..]), draw.lengths(20));
            side.region(&mut self.counts, rows, asked, lent);
        }
    }
}
