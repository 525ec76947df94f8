// Writes what lists of positions give and leave to standard output, by Paper 1's words over the given Rust with document 01's elementary
// steps in it; or with the word `test` tries what the paper says.

#[allow(dead_code)]
#[path = "../../calls/src/calls.rs"]
mod calls;
#[path = "../../common/mod.rs"]
mod common;
mod inputs;
mod lists;
#[path = "../../calls/src/notes.rs"]
mod notes;
mod parts;
mod script;
mod selftest;
#[allow(dead_code)]
#[path = "../../calls/src/set.rs"]
mod set;
mod stage;
mod table_parts;
#[path = "../../table_calls/src/tables.rs"]
mod tables;
#[allow(dead_code)]
#[path = "../../table_calls/src/inputs.rs"]
mod targets;

use common::generator::Generator;
use common::list::{self, List};

fn answers() -> List {
    let mut g = Generator::new(1);
    let mut script = script::new(tables::tables(&mut Generator::new(10)));
    let s = &mut script;
    parts::opened(s, &mut g);
    parts::kept(s, &mut g);
    parts::refused(s, &mut g);
    parts::foreign(s, &mut g);
    parts::no_frame(s, &mut g);
    table_parts::opened(s, &mut g);
    table_parts::not_opening(s, &mut g);
    table_parts::refused(s, &mut g);
    table_parts::lengths(s, &mut g);
    table_parts::foreign(s, &mut g);
    table_parts::no_frame(s, &mut g);
    script.list
}

fn main() {
    list::run(selftest::run, answers);
}
