// Document 02's Paper 11, under its words. Place and unplace are the caller's: those on a set, or those of a projection which the
// Rust keeps.

use crate::calls::{Call, Place, Unplace};
use crate::common::fields::{of_whole, whole};

// "32 bytes of registers".
pub const BLOCK: usize = 32;

// A command with its inputs, in degrees or on a face.
enum Command {
    Place([f64; 2]),
    Unplace([f64; 2], u8),
}

impl Command {
    // As a call of `calls/`, with its arguments.
    fn asked(&self) -> (Call, Vec<f64>) {
        match *self {
            Command::Place(x) => (Place, x.to_vec()),
            Command::Unplace(x, origin) => (Unplace, vec![x[0], x[1], whole(origin.into())]),
        }
    }
}

// What a command is answered with: an origin where it is place, and two numbers.
struct Answer {
    origin: Option<u8>,
    numbers: [f64; 2],
}

impl Answer {
    // Of such a call's numbers: place's have the origin first.
    fn of(call: Call, numbers: &[f64]) -> Answer {
        match call {
            Place => Answer {
                origin: Some(of_whole(numbers[0]) as u8),
                numbers: [numbers[1], numbers[2]],
            },
            _ => Answer {
                origin: None,
                numbers: [numbers[0], numbers[1]],
            },
        }
    }
}

// "Byte 3 is the interrupt line: 1 if status and mask share a set bit among bits 0 and 1, else 0."
fn interrupt(status: u8, mask: u8) -> u8 {
    (0..2)
        .any(|bit| status >> bit & mask >> bit & 1 == 1)
        .into()
}

// "Bytes 8 to 15 hold the two signed 32-bit inputs, in the strike program's units and byte order."
fn inputs(block: &[u8], unit: f64) -> [f64; 2] {
    let input = |at: usize| i32::from_be_bytes(block[at..at + 4].try_into().expect("four"));
    [8, 12].map(|at| f64::from(input(at)) / unit)
}

// "One step carries out the command and sets byte 0 to 0." `lent` is what the set and the table are refused with: "A set of wrong
// length or a bad table refuses the step itself, whatever the command, .. block unchanged." "(Refusal 23: the register block
// isn't 32 bytes, tried first, block unchanged.)"
pub fn step(
    block: &mut [u8],
    lent: Result<(), u8>,
    call: impl FnOnce(Call, &[f64]) -> Result<Vec<f64>, u8>,
) -> Result<(), u8> {
    if block.len() != BLOCK {
        return Err(23);
    }
    lent?;
    let carried_out = |command: Command| {
        let (asked, x) = command.asked();
        call(asked, &x).map(|numbers| Answer::of(asked, &numbers))
    };
    let given = match block[0] {
        // "With command 0 only the interrupt byte is worked out anew."
        0 => {
            block[3] = interrupt(block[1], block[2]);
            return Ok(());
        }
        1 => carried_out(Command::Place(inputs(block, 10000000.0))),
        2 => carried_out(Command::Unplace(inputs(block, 1000000000.0), block[4])),
        // "Another command value is refused with 12."
        _ => Err(12),
    };
    match given {
        Ok(answer) => {
            // "An answered place writes the origin byte."
            if let Some(origin) = answer.origin {
                block[4] = origin;
            }
            // "Bytes 16 to 31 hold the two result doubles, big-endian."
            block[16..24].copy_from_slice(&answer.numbers[0].to_be_bytes());
            block[24..32].copy_from_slice(&answer.numbers[1].to_be_bytes());
            // "Done clears byte 5."
            block[5] = 0;
            block[1] = 1;
        }
        // "A refusal leaves result and origin bytes and sets byte 5."
        Err(refusal) => {
            block[5] = refusal;
            block[1] = 2;
        }
    }
    block[0] = 0;
    block[3] = interrupt(block[1], block[2]);
    Ok(())
}
