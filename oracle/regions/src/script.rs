// The calls of the list, each with the records of what it leaves. The program that replays it has as many points as positions.

use crate::calls::{self, Place};
use crate::common::fields::{bits, whole};
use crate::common::refusals::{lengths, table as passes};
use crate::common::sizes::RIGHT;
use crate::regions::{self, Region};
use crate::set::Set;
pub use crate::stage::Stage as Script;
use crate::stage::BUILT_IN;
use crate::tables::Tables;
use a5::core::origin::oracle_with_table;

// The records' numbers, beside open's. 4 is the program's count of compared buffers.
const REGION: u8 = 1;
const REGION_WITH: u8 = 3;
const POINT: u8 = 5;
const BOX: u8 = 6;
const NO_CALLS: u8 = 7;

// How many positions and points the program has.
pub const MOST: usize = 300;

// What each of its points holds before a call.
const BEFORE: [f64; 2] = [0.5, -0.5];

// The list as it begins, with its notes alone.
pub fn new(tables: Tables) -> Script {
    Script::new(tables, MOST, NO_CALLS)
}

impl Script {
    // Every point that is lent, the one behind, and the box of an answer: the sides of x, then those of y.
    fn left(&mut self, given: &Result<Region, u8>, places: usize) {
        let mut points = vec![BEFORE; MOST.min(places + 1)];
        if let Ok(region) = given {
            points[..places].copy_from_slice(&region.points);
        }
        for (k, point) in points.iter().enumerate() {
            self.list.answered(POINT, &[whole(k)], point);
        }
        if let Ok(region) = given {
            let empty = whole(region.caption.empty as usize);
            for (half, sides) in region.caption.sides.chunks(2).enumerate() {
                let answers = [sides[0], sides[1], empty];
                self.list.answered(BOX, &[whole(half)], &answers);
            }
        }
    }

    // On a set that only calls with one table have written, what the Rust itself has kept since open gives the same points.
    fn compare_kept(&mut self, table: usize, positions: &[[f64; 2]], region: &Region) {
        let Some((own, rust)) = &mut self.kept else {
            return;
        };
        if *own != table {
            self.kept = None;
            return;
        }
        for (position, point) in positions.iter().zip(&region.points) {
            let placed = oracle_with_table(&self.tables.all[table], || {
                calls::of_kept(Place, rust, position).expect("an answer")
            });
            let wanted = [whole(region.origin as usize), point[0], point[1]];
            assert_eq!(bits(&placed), bits(&wanted));
        }
    }

    fn record(&mut self, number: u8, arguments: &[usize], given: &Result<Region, u8>) {
        let arguments: Vec<f64> = arguments.iter().map(|n| whole(*n)).collect();
        match given {
            Ok(region) => {
                let origin = whole(region.origin as usize);
                self.list.answered(number, &arguments, &[origin]);
            }
            Err(refusal) => self.list.refused(number, *refusal, &arguments),
        }
    }

    // A call of so many point places on so much of each buffer.
    pub fn region(
        &mut self,
        positions: &[[f64; 2]],
        places: usize,
        lent: [usize; 3],
    ) -> Result<Region, u8> {
        self.stand(positions);
        let before = self.set.clone();
        let place = |set: &mut Set, x: &[f64; 2]| calls::call(Place, set, RIGHT, x);
        let given = regions::region(&mut self.set, lengths(lent), positions, places, place);
        if let Ok(region) = &given {
            self.compare_kept(BUILT_IN, positions, region);
        }
        self.written(&before);
        let arguments = [positions.len(), places, lent[0], lent[1], lent[2]];
        self.record(REGION, &arguments, &given);
        self.left(&given, places);
        given
    }

    // The same with a table. "Each tests it by 21 and 22 right after 3."
    pub fn region_with(
        &mut self,
        table: usize,
        positions: &[[f64; 2]],
        places: usize,
        lent: [usize; 3],
    ) -> Result<Region, u8> {
        self.stand(positions);
        let before = self.set.clone();
        let rows = &self.tables.all[table];
        let place = |set: &mut Set, x: &[f64; 2]| calls::call_with(rows, Place, set, RIGHT, x);
        let tried = lengths(lent).and_then(|_| passes(rows));
        let given = regions::region(&mut self.set, tried, positions, places, place);
        if let Ok(region) = &given {
            self.compare_kept(table, positions, region);
        }
        self.written(&before);
        let arguments = [positions.len(), places, lent[0], lent[1], lent[2], table];
        self.record(REGION_WITH, &arguments, &given);
        self.left(&given, places);
        given
    }

    // With as many point places as positions.
    pub fn outline(&mut self, positions: &[[f64; 2]]) -> Result<Region, u8> {
        self.region(positions, positions.len(), RIGHT)
    }

    pub fn outline_with(&mut self, table: usize, positions: &[[f64; 2]]) -> Result<Region, u8> {
        self.region_with(table, positions, positions.len(), RIGHT)
    }
}
