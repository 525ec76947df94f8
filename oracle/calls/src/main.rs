// Writes what the four calls on a set give and leave, by the given Rust with document 01's elementary steps in it, to standard
// output; or with the word `test` tries it on what document 01 says of single points.

mod angle;
mod border;
mod calls;
#[path = "../../common/mod.rs"]
mod common;
mod foreign;
mod inputs;
mod notes;
mod outside;
mod refused;
mod script;
mod selftest;
mod set;

use common::generator::Generator;
use common::list::{self, List};
use common::sizes::RIGHT;
use script::Script;

fn answers() -> List {
    let mut g = Generator::new(5);
    let mut script = Script::new();
    let s = &mut script;
    // each on a newly opened set
    for (call, x) in inputs::every_triangle(&mut g) {
        s.open(RIGHT);
        s.call(call, &x).expect("an answer");
    }
    // one set for all
    s.open(RIGHT);
    for (call, x) in inputs::all(&mut g) {
        let _ = s.call(call, &x);
    }
    assert!(s.set.is_full(), "every slot has been used");
    refused::lengths(s);
    s.open(RIGHT);
    for (call, x) in inputs::few(&mut g) {
        let _ = s.call(call, &x);
    }
    foreign::all(s, &mut g);
    outside::all(s, &mut g);
    script.list
}

fn main() {
    list::run(selftest::run, answers);
}
