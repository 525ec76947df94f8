// Lists of positions: none, one, several and now and then hundreds, refused positions among the others, as many results or one
// more or less, and wrong lengths. Results, what lies behind them and all numbers of the set must be the same. With a table too, on
// the sets of `tables`.

use crate::calls::Place;
use crate::common::fields::whole;
use crate::common::sizes::RIGHT;
use crate::counts::{Where, PLACE_LIST, PLACE_LIST_WITH};
use crate::draw::Draw;
use crate::library::{of_byte, Buffers, Library, BYTE_BEFORE};
use crate::list_oracle::{place_list, Placed};
use crate::outcome::{Outcome, BEFORE};
use crate::raw;
use crate::script::Script;
use crate::set::Set;

// So many lists, more or less, and one of hundreds.
const A_LONG_ONE: i64 = 200;

// What a result holds before the call.
pub const LENT: Placed = Placed {
    refusal: BYTE_BEFORE,
    origin: BYTE_BEFORE,
    x: BEFORE,
    y: BEFORE,
};

fn of_raw(r: &raw::Placed) -> Placed {
    let raw::Placed {
        refusal,
        origin,
        x,
        y,
    } = *r;
    Placed {
        refusal,
        origin,
        x,
        y,
    }
}

// The result behind those that are lent first, and then theirs. A refused call leaves what stood there.
pub fn numbers(behind: Placed, results: &[Placed]) -> Vec<f64> {
    let all = [behind].into_iter().chain(results.iter().copied());
    all.flat_map(|r| [of_byte(r.refusal), of_byte(r.origin), r.x, r.y])
        .collect()
}

impl Library {
    // What the functions are owed is pointers to as many numbers, positions and results as each length says.
    pub fn place_list(
        &mut self,
        buffers: &mut Buffers,
        table: Option<&[f64]>,
        lent: [usize; 3],
        positions: &[[f64; 2]],
        results: usize,
    ) -> Outcome {
        let before = raw::Placed {
            refusal: LENT.refusal,
            origin: LENT.origin,
            x: LENT.x,
            y: LENT.y,
        };
        let mut held = vec![before; results + 1];
        let [frame, face, sphere] = &mut buffers.numbers;
        let (frame, face, sphere) = (frame.as_ptr(), face.as_mut_ptr(), sphere.as_mut_ptr());
        let (p, n, r, m) = (
            positions.as_ptr(),
            positions.len(),
            held.as_mut_ptr(),
            results,
        );
        let [a, b, c] = lent;
        let (list, list_with) = (raw::a5_place_list, raw::a5_place_list_with);
        let (call, status) = match table.map(|rows| (rows.as_ptr(), rows.len())) {
            None => {
                let status = unsafe { list(frame, a, face, b, sphere, c, p, n, r, m) };
                (PLACE_LIST, status)
            }
            Some((rows, k)) => {
                let status =
                    unsafe { list_with(rows, k, frame, a, face, b, sphere, c, p, n, r, m) };
                (PLACE_LIST_WITH, status)
            }
        };
        let held: Vec<Placed> = held.iter().map(of_raw).collect();
        let numbers = numbers(held[results], &held[..results]);
        self.ended(call, status, numbers, Some(buffers))
    }
}

impl Script {
    fn place_list(&mut self, positions: &[[f64; 2]], results: usize, lent: [usize; 3]) {
        let ours = self
            .library
            .place_list(&mut self.buffers, None, lent, positions, results);
        let mut expected = vec![LENT; results];
        let given = place_list(lent, positions, &mut expected, |x| {
            self.rust(Place, RIGHT, x)
        });
        let rust = Outcome {
            status: given.err().unwrap_or(0),
            numbers: numbers(LENT, &expected),
        };
        let arguments = [&[whole(results)], positions.concat().as_slice()].concat();
        self.compare(self.asked(PLACE_LIST, &arguments, lent), &ours, &rust);
    }
}

// Positions, and how many results are lent for them.
pub fn any(draw: &mut Draw, set: &Set) -> (Vec<[f64; 2]>, usize) {
    let count = match draw.g.whole(0, A_LONG_ONE) {
        0 => draw.g.whole(100, 400),
        _ => draw.g.whole(0, 8),
    };
    let positions: Vec<[f64; 2]> = (0..count)
        .map(|_| {
            let x = draw.arguments(Place, set);
            [x[0], x[1]]
        })
        .collect();
    let results = match draw.g.whole(0, 10) {
        0 => count + 1,
        1 => (count - 1).max(0),
        _ => count,
    };
    (positions, results as usize)
}

pub fn turn(script: &mut Script, draw: &mut Draw) {
    if script.place == Where::Opened {
        script.renew();
    }
    let (positions, results) = any(draw, &script.set);
    script.place_list(&positions, results, draw.lengths(10));
}
