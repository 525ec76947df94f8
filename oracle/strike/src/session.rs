// A session, from document 01's "The strike program".

use crate::calls;
use crate::inputs::HEADER;
use a5::projections::dodecahedron::DodecahedronProjection;
use std::io::{self, Read, Write};

// "It takes at most 4,294,967,295 records."
const MOST: u64 = 4_294_967_295;

// How many bytes there are, up to a full buffer.
fn fill(input: &mut impl Read, buffer: &mut [u8]) -> io::Result<usize> {
    let mut filled = 0;
    while filled < buffer.len() {
        let more = input.read(&mut buffer[filled..])?;
        if more == 0 {
            break;
        }
        filled += more;
    }
    Ok(filled)
}

fn refuse(output: &mut impl Write, number: u8) -> io::Result<()> {
    writeln!(output, "R {number}")
}

fn number(record: &[u8; 10], at: usize) -> f64 {
    f64::from(i32::from_be_bytes(
        record[at..at + 4].try_into().expect("four bytes"),
    ))
}

// "12: kind not 1 or 2, or kind 1 with non-zero origin byte." "12 precedes every call's number."
fn answer(
    set: &mut DodecahedronProjection,
    record: &[u8; 10],
    output: &mut impl Write,
) -> io::Result<()> {
    let numbers = [number(record, 2), number(record, 6)];
    match (record[0], record[1]) {
        (1, 0) => match calls::place(set, numbers.map(|n| n / 10000000.0)) {
            Ok((id, face)) => {
                let [x, y] = face.map(f64::to_bits);
                writeln!(output, "P {id} {x:016x} {y:016x}")
            }
            Err(n) => refuse(output, n),
        },
        (2, origin) => match calls::unplace(set, numbers.map(|n| n / 1000000000.0), origin) {
            Ok(position) => {
                let [longitude, latitude] = position.map(f64::to_bits);
                writeln!(output, "U {longitude:016x} {latitude:016x}")
            }
            Err(n) => refuse(output, n),
        },
        _ => refuse(output, 12),
    }
}

// "The set is opened before anything is read." "A cut-off record gives only 13." "After R 11 or R 13 it stops."
pub fn run(mut input: impl Read, mut output: impl Write) -> io::Result<()> {
    let mut set = DodecahedronProjection::new().expect("the frame has 62 rows");
    let mut header = [0; 5];
    if fill(&mut input, &mut header)? < 5 || header != *HEADER {
        return refuse(&mut output, 11);
    }
    for _ in 0..MOST {
        let mut record = [0; 10];
        match fill(&mut input, &mut record)? {
            0 => break,
            10 => answer(&mut set, &record, &mut output)?,
            _ => return refuse(&mut output, 13),
        }
    }
    Ok(())
}

pub fn lines(input: &[u8]) -> Vec<u8> {
    let mut output = Vec::new();
    run(input, &mut output).expect("a list takes every line");
    output
}
