// What Paper 10 says, tried on the list's tables.

use crate::common::fields::bits;
use crate::common::generator::Generator;
use crate::common::refusals::table;
use crate::set::Set;
use crate::tables::{built_in, tables};

// The first table is the Rust's own, and opens the same frame as without one. Each of the others opens a set, is refused by open
// with 7, or by 21 or 22, as its place in the list says; 21 is tried over all rows before 22.
fn outcomes() {
    let tables = tables(&mut Generator::new(10));
    assert_eq!(bits(&tables.all[0]), bits(&built_in()));
    let own = Set::opened_with(&tables.all[0]).expect("62 rows");
    assert_eq!(bits(&own.frame), bits(&Set::opened().frame));
    for (k, rows) in tables.all.iter().enumerate() {
        assert_eq!(rows.len(), 84);
        if k < tables.pass {
            let opened = table(rows).and_then(|_| Set::opened_with(rows));
            let expected = if k < tables.open { None } else { Some(7) };
            assert_eq!(opened.err(), expected, "table {k}");
        }
    }
    let refused: Vec<u8> = tables.all[tables.pass..]
        .iter()
        .map(|rows| table(rows).expect_err("a fault"))
        .collect();
    assert_eq!(
        refused,
        [21, 21, 21, 21, 21, 21, 21, 21, 21, 22, 22, 22, 22, 21]
    );
}

pub fn run() {
    outcomes();
}
