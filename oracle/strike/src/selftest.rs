// What document 01 says of the program, tried on the oracle's session.

use crate::inputs::{record, HEADER, OUTSIDE, SESSION};
use crate::session::lines;

const ANSWERS: &str = "P 0 0000000000000000 0000000000000000
U c057400000000000 4056800000000000
R 4
";

fn is(input: &[u8], expected: &str) {
    let output = String::from_utf8(lines(input)).expect("a line is ASCII");
    assert_eq!(output, expected, "{input:02x?}");
}

fn after_header(bytes: &[u8], expected: &str) {
    is(&[HEADER, bytes].concat(), expected);
}

// The examples of 11, 12 and 13 in the table; "kind 3 with origin 12 gives 12"; "also where its kind is wrong".
pub fn run() {
    is(SESSION, ANSWERS);
    is(&[], "R 11\n");
    is(HEADER, "");
    after_header(&record(3, 0, [0, 0]), "R 12\n");
    after_header(&record(3, 12, [0, 0]), "R 12\n");
    after_header(&record(1, 1, [0, 0]), "R 12\n");
    after_header(&[0; 9], "R 13\n");
    after_header(&record(1, 0, [0, 900000001]), "R 6\n");
    // Paper 7: "Inverse and unplace then refuse."
    for (origin, numbers) in OUTSIDE {
        after_header(&record(2, origin, numbers), "R 19\n");
    }
}
