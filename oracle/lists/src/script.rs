// The calls of the list, each with the records of what it leaves. The program that replays it has room for as many results as positions.

use crate::calls::{self, Place};
use crate::common::fields::whole;
use crate::common::sizes::RIGHT;
use crate::lists::{self, Placed};
pub use crate::stage::Stage as Script;
use crate::stage::BUILT_IN;
use crate::tables::Tables;
use a5::core::origin::oracle_with_table;

// The records' numbers, beside open's. 4 is the program's count of compared buffers.
const PLACE_LIST: u8 = 1;
const PLACE_LIST_WITH: u8 = 3;
const RESULT: u8 = 5;
const NO_CALLS: u8 = 6;

// How many positions and results the program has.
pub const MOST: usize = 400;

// What each of its results holds before a call.
const BEFORE: Placed = Placed {
    refusal: 165,
    origin: 90,
    x: 0.5,
    y: -0.5,
};

fn fields(placed: &Placed) -> [u64; 4] {
    let [refusal, origin] = [placed.refusal, placed.origin].map(u64::from);
    [refusal, origin, placed.x.to_bits(), placed.y.to_bits()]
}

// The list as it begins, with its notes alone.
pub fn new(tables: Tables) -> Script {
    Script::new(tables, MOST, NO_CALLS)
}

impl Script {
    // Every result that is lent, and the one behind.
    fn results(&mut self, results: &[Placed]) {
        let behind = if results.len() < MOST {
            &[BEFORE][..]
        } else {
            &[]
        };
        for (k, result) in results.iter().chain(behind).enumerate() {
            let answers = [whole(result.origin as usize), result.x, result.y];
            self.list
                .record(RESULT, result.refusal, &[whole(k)], &answers);
        }
    }

    // On a set that only calls with one table have written, what the Rust itself has kept since open gives the same results, position by
    // position.
    fn compare_kept(&mut self, table: usize, positions: &[[f64; 2]], results: &[Placed]) {
        let Some((own, rust)) = &mut self.kept else {
            return;
        };
        if *own != table {
            self.kept = None;
            return;
        }
        let rows = &self.tables.all[table];
        let mut others = vec![BEFORE; results.len()];
        let _ = lists::place_list_with(rows, RIGHT, positions, &mut others, |x| {
            oracle_with_table(rows, || calls::of_kept(Place, rust, x))
        });
        let all = |list: &[Placed]| -> Vec<[u64; 4]> { list.iter().map(fields).collect() };
        assert_eq!(all(results), all(&others));
    }

    fn record(&mut self, number: u8, arguments: &[usize], given: Result<(), u8>) -> u8 {
        let arguments: Vec<f64> = arguments.iter().map(|n| whole(*n)).collect();
        let status = given.err().unwrap_or(0);
        self.list.record(number, status, &arguments, &[]);
        status
    }

    // A call of so many results on so much of each buffer. Gives its status.
    pub fn place_list(&mut self, positions: &[[f64; 2]], count: usize, lent: [usize; 3]) -> u8 {
        self.stand(positions);
        let before = self.set.clone();
        let mut results = vec![BEFORE; count];
        let set = &mut self.set;
        let given = lists::place_list(lent, positions, &mut results, |x| {
            calls::call(Place, set, RIGHT, x)
        });
        if given.is_ok() {
            self.compare_kept(BUILT_IN, positions, &results);
        }
        self.written(&before);
        let arguments = [positions.len(), count, lent[0], lent[1], lent[2]];
        let status = self.record(PLACE_LIST, &arguments, given);
        self.results(&results);
        status
    }

    // The same with a table.
    pub fn place_list_with(
        &mut self,
        table: usize,
        positions: &[[f64; 2]],
        count: usize,
        lent: [usize; 3],
    ) -> u8 {
        self.stand(positions);
        let before = self.set.clone();
        let mut results = vec![BEFORE; count];
        let (set, rows) = (&mut self.set, &self.tables.all[table]);
        let given = lists::place_list_with(rows, lent, positions, &mut results, |x| {
            calls::call_with(rows, Place, set, RIGHT, x)
        });
        if given.is_ok() {
            self.compare_kept(table, positions, &results);
        }
        self.written(&before);
        let arguments = [positions.len(), count, lent[0], lent[1], lent[2], table];
        let status = self.record(PLACE_LIST_WITH, &arguments, given);
        self.results(&results);
        status
    }
}
