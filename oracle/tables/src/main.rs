// Writes the oracle's table files to standard output, or with the word `test` tries its own.
//
// A record is the file's length in two bytes, big-endian, the status, 0 for loaded and otherwise the refusal's number, and the
// file; where it is loaded the bits of the 84 numbers follow, eight bytes each, big-endian.

#[allow(dead_code)]
#[path = "../../common/generator.rs"]
mod generator;
mod inputs;
mod selftest;
mod table;

use generator::Generator;
use std::io::Write;

fn record(file: &[u8]) -> Vec<u8> {
    let mut bytes = (file.len() as u16).to_be_bytes().to_vec();
    let loaded = table::load(file);
    bytes.push(loaded.err().unwrap_or(0));
    bytes.extend(file);
    for number in loaded.iter().flatten() {
        bytes.extend(number.to_bits().to_be_bytes());
    }
    bytes
}

fn main() {
    if std::env::args().nth(1).as_deref() == Some("test") {
        return selftest::run();
    }
    let files = inputs::files(&mut Generator::new(1));
    let list: Vec<u8> = files.iter().flat_map(|file| record(file)).collect();
    std::io::stdout()
        .write_all(&list)
        .expect("standard output takes the list");
}
