// Runs this program with one bit or one step changed on the library's side: every such run must end at a difference in that
// call. A run with nothing changed must not.

use crate::counts::{CALLS, PLACES};
use crate::spoil::{FORMED, WHATS};
use crate::{sheets, windows};
use std::process::Command;

// How a run ended, and its first line.
fn ended(words: &[&str]) -> (Option<i32>, String) {
    let program = std::env::current_exe().expect("this program");
    let output = Command::new(program)
        .args(["200", "1"])
        .args(words)
        .output();
    let output = output.expect("it runs");
    let text = String::from_utf8_lossy(&output.stdout).into_owned();
    (
        output.status.code(),
        text.lines().next().unwrap_or("").into(),
    )
}

// Open has no answer and is tried on sets that are opened anew, the calls that take no set have no buffers, show is not
// tried on newly opened sets, only inverse and unplace give 19, and the root refuses nothing. A box has no buffers but something
// behind it, and a new one is never refused. Open leaves no filled slot; b × c differs from what forward and place would form on
// foreign contents alone, and nobody else reads it.
fn can_be(call: &str, what: &str, place: &str) -> bool {
    let buffers = ["frame", "face", "sphere", "behind", "b × c"].contains(&what);
    let is_19 = what.ends_with("at 19");
    match call {
        "forward" | "place" if what == FORMED => place == "foreign",
        _ if what == FORMED => false,
        "open" | "open_with" if what == "b × c" => false,
        "inverse" | "unplace" | "inverse_with" | "unplace_with" => place != "no set",
        _ if is_19 => false,
        "table_save" => place == "no set" && ["status", "left", "behind", "answer"].contains(&what),
        "nearest" | "nearest_with" | "table_load" | "from_lon_lat" | "to_lon_lat" => {
            place == "no set" && !buffers
        }
        "fair_turns" => place == "no set" && (!buffers || what == "behind"),
        "sqrt" | "sqrt_rounds" => place == "no set" && what == "answer",
        "open" | "open_with" => place == "newly opened" && (buffers || what == "status"),
        "box_new" => place == "foreign" && ["answer", "status", "behind"].contains(&what),
        "box_take" => ["foreign", "no set"].contains(&place) && (!buffers || what == "behind"),
        "show" | "slot_state" => ["kept set", "foreign"].contains(&place),
        _ => place != "no set",
    }
}

pub fn run() {
    assert_eq!(ended(&[]).0, Some(0), "nothing is changed");
    let mut tried = 0;
    for call in CALLS {
        for what in WHATS {
            for (_, place) in PLACES.iter().filter(|p| can_be(call, what, p.1)) {
                let (status, line) = ended(&[call, what, place]);
                let found = status == Some(1) && line == format!("DIFFERENCE in {call} ({place})");
                assert!(found, "{call}, {what}, {place}: {status:?} {line}");
                tried += 1;
            }
        }
    }
    for what in windows::WHATS {
        for place in windows::PLACES {
            let (status, line) = ended(&["window", what, place]);
            let found = status == Some(1) && line == format!("DIFFERENCE in window ({place})");
            assert!(found, "window, {what}, {place}: {status:?} {line}");
            tried += 1;
        }
    }
    for what in sheets::WHATS {
        for place in sheets::PLACES {
            let (status, line) = ended(&["sheet", what, place]);
            let found = status == Some(1) && line == format!("DIFFERENCE in sheet ({place})");
            assert!(found, "sheet, {what}, {place}: {status:?} {line}");
            tried += 1;
        }
    }
    println!("{tried} changes on the library's side, each found");
}
