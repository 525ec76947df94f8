// Writes what the calls with a table give and leave to standard output, by the given Rust with document 01's elementary steps in it and
// a table's rows for its origins; or with the word `test` tries what Paper 10 says of tables.

#[path = "../../calls/src/calls.rs"]
#[allow(dead_code)]
mod calls;
#[path = "../../common/mod.rs"]
mod common;
mod inputs;
#[path = "../../calls/src/notes.rs"]
mod notes;
mod parts;
mod script;
mod selftest;
#[path = "../../calls/src/set.rs"]
#[allow(dead_code)]
mod set;
mod tables;

use common::generator::Generator;
use common::list::{self, List};
use script::Script;

fn answers() -> List {
    let mut g = Generator::new(10);
    let mut script = Script::new(tables::tables(&mut g));
    let s = &mut script;
    for table in 0..s.tables.open {
        parts::newly_opened(s, &mut g, table);
        parts::kept(s, &mut g, table);
    }
    for table in s.tables.open..s.tables.pass {
        parts::not_opening(s, &mut g, table);
    }
    parts::refused_tables(s);
    parts::lengths(s);
    parts::refused_arguments(s);
    parts::outside(s);
    for table in [1, 5, 7] {
        parts::foreign(s, &mut g, table);
    }
    parts::in_turn(s, &mut g);
    script.list
}

fn main() {
    list::run(selftest::run, answers);
}
