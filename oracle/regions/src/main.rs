// Writes what outlines give and leave to standard output, by Paper 4's words over the given Rust with document 01's elementary steps in
// it; or with the word `test` tries what the paper says.

#[allow(dead_code)]
#[path = "../../boxes/src/boxes.rs"]
mod box_oracle;
#[allow(dead_code)]
#[path = "../../calls/src/calls.rs"]
mod calls;
#[path = "../../common/mod.rs"]
mod common;
#[allow(dead_code)]
#[path = "../../lists/src/inputs.rs"]
mod inputs;
#[path = "../../calls/src/notes.rs"]
mod notes;
mod outlines;
mod parts;
mod regions;
mod script;
mod selftest;
#[allow(dead_code)]
#[path = "../../calls/src/set.rs"]
mod set;
#[path = "../../lists/src/stage.rs"]
mod stage;
mod table_parts;
#[path = "../../table_calls/src/tables.rs"]
mod tables;
#[allow(dead_code)]
#[path = "../../table_calls/src/inputs.rs"]
mod targets;

use common::generator::Generator;
use common::list::{self, List};
use outlines::Faces;

fn answers() -> List {
    let mut script = script::new(tables::tables(&mut Generator::new(10)));
    let s = &mut script;
    let f = &mut Faces::new(Generator::new(1), &s.defined);
    parts::opened(s, f);
    parts::kept(s, f);
    parts::order(s, f);
    parts::long(s, f);
    parts::refused(s, f);
    parts::foreign(s, f);
    parts::beyond(s, f);
    parts::no_frame(s, f);
    let g = &mut f.g;
    table_parts::opened(s, g);
    table_parts::not_opening(s, g);
    table_parts::order(s, g);
    table_parts::refused(s, g);
    table_parts::lengths(s, g);
    table_parts::foreign(s, g);
    table_parts::no_frame(s, g);
    script.list
}

fn main() {
    list::run(selftest::run, answers);
}
