// The proved library against the given Rust. Against the Rust with document 01's elementary steps in it: N inputs a call,
// answers, refusals and whole buffers, bit for bit, up to the first difference. With --distance: how far from the Rust as it is.

#[path = "../../boxes/src/boxes.rs"]
mod box_oracle;
mod boxes;
// What the oracle of the calls on a set has is used here as it stands; `script` alone is another, which compares.
#[path = "../../calls/src/angle.rs"]
mod angle;
#[path = "../../calls/src/border.rs"]
mod border;
#[allow(dead_code)]
#[path = "../../calls/src/calls.rs"]
mod calls;
#[path = "../../common/mod.rs"]
mod common;
#[path = "../../coordinates/src/calls.rs"]
mod conversions;
mod counts;
mod differential;
mod distance;
mod draw;
#[path = "../../calls/src/foreign.rs"]
mod foreign;
mod foreign_sets;
#[allow(dead_code)]
#[path = "../../calls/src/inputs.rs"]
mod inputs;
mod library;
#[path = "../../lists/src/lists.rs"]
mod list_oracle;
mod lists;
#[allow(dead_code)]
#[path = "../../geometry/src/calls.rs"]
mod nearest;
mod outcome;
#[path = "../../calls/src/outside.rs"]
mod outside;
#[path = "../../panel/src/panel.rs"]
mod panel_oracle;
mod panels;
mod plain;
#[path = "../../../bindings/rust/src/raw.rs"]
mod raw;
#[path = "../../calls/src/refused.rs"]
mod refused;
#[path = "../../regions/src/regions.rs"]
mod region_oracle;
mod regions;
#[path = "../../elementary/src/root_inputs.rs"]
mod root_inputs;
mod roots;
#[path = "../../elementary/src/rounds.rs"]
mod rounds;
mod row;
mod script;
mod self_test;
mod series_distance;
#[allow(dead_code)]
#[path = "../../calls/src/set.rs"]
mod set;
#[allow(dead_code)]
#[path = "../../sheet/src/sheet.rs"]
mod sheet;
mod sheets;
mod spoil;
mod step_distance;
#[allow(dead_code)]
#[path = "../../elementary/src/steps.rs"]
mod steps;
mod table_draw;
mod tables;
#[allow(dead_code)]
#[path = "../../window/src/window.rs"]
mod window;
#[path = "../../window/src/draw.rs"]
mod window_draw;
mod windows;

#[path = "../../turns/src/inputs.rs"]
mod turn_inputs;
#[path = "../../turns/src/turns.rs"]
mod turns;
mod turns_compared;

// where the files of other oracles look for it
use common::{generator, values};
use spoil::Spoil;

fn number(word: &str) -> u64 {
    word.parse().expect("a whole number")
}

// Three words after N and SEED, which the script does not hand on, name what the self-test has changed.
fn main() {
    let words: Vec<String> = std::env::args().skip(1).collect();
    let words: Vec<&str> = words.iter().map(String::as_str).collect();
    match words[..] {
        ["--self-test"] => self_test::run(),
        ["--distance", n, seed] => distance::run(number(n) as usize, number(seed)),
        [n, seed] => differential::run(number(n), number(seed), None),
        [n, seed, "window", what, place] => {
            windows::run(number(n), number(seed), Some((what, place)));
        }
        [n, seed, "sheet", what, place] => {
            sheets::run(number(n), number(seed), Some((what, place)));
        }
        [n, seed, call, what, place] => {
            let spoil = Spoil::named(call, what, place).expect("a call, what is changed and where");
            differential::run(number(n), number(seed), Some(spoil));
        }
        _ => panic!("the words that the script hands on"),
    }
}
