// Steps of the caption panel: one block for the whole run, in which a host writes between steps, on the kept set, on newly opened sets
// and on foreign contents; with the built-in table here, with others in `tables`. Every byte of the block and what lies behind
// it, and all numbers of the set must be the same.

use crate::calls::{Call, Place, Unplace};
use crate::common::refusals::lengths;
use crate::common::sizes::RIGHT;
use crate::counts::{Where, PANEL_STEP, PANEL_STEP_WITH};
use crate::draw::Draw;
use crate::library::{of_bytes, Buffers, Library};
use crate::outcome::Outcome;
use crate::panel_oracle::{step, BLOCK};
use crate::raw;
use crate::script::Script;
use crate::set::Set;

// The block, and bytes behind it that no step may touch.
const ROOM: usize = BLOCK + 2;

#[derive(Clone)]
pub struct Block {
    pub bytes: [u8; ROOM],
    pub lent: usize,
}

impl Block {
    pub fn new() -> Block {
        Block {
            bytes: [0; ROOM],
            lent: BLOCK,
        }
    }

    // A step as the paper has it, with what the set and the table are refused with.
    pub fn stepped(
        &mut self,
        lent: Result<(), u8>,
        call: impl FnOnce(Call, &[f64]) -> Result<Vec<f64>, u8>,
    ) -> Outcome {
        let given = step(&mut self.bytes[..self.lent], lent, call);
        self.outcome(given.err().unwrap_or(0))
    }

    pub fn outcome(&self, status: u8) -> Outcome {
        Outcome {
            status,
            numbers: of_bytes(&self.bytes, self.lent),
        }
    }

    // As whole numbers, for a difference that is shown.
    pub fn arguments(&self) -> Vec<f64> {
        of_bytes(&self.bytes, self.lent)
    }

    // What a host writes: a command, now and then one that there isn't, inputs over the domain or any, an origin, a mask, any bytes.
    pub fn host_writes(&mut self, draw: &mut Draw, set: &Set) {
        for _ in 0..draw.g.whole(0, 4) {
            self.bytes[draw.g.whole(0, ROOM as i64) as usize] = draw.g.bits() as u8;
        }
        let (call, unit) = match draw.g.whole(0, 2) {
            0 => (Place, 1e7),
            _ => (Unplace, 1e9),
        };
        let x = draw.arguments(call, set);
        for (at, number) in [8, 12].into_iter().zip(x) {
            let input = match draw.g.whole(0, 4) {
                0 => draw.g.bits() as i32,
                _ => (number * unit).round() as i32,
            };
            self.bytes[at..at + 4].copy_from_slice(&input.to_be_bytes());
        }
        self.bytes[4] = match draw.g.whole(0, 8) {
            0 => draw.g.bits() as u8,
            _ => draw.g.whole(0, 12) as u8,
        };
        self.bytes[0] = match (draw.g.whole(0, 10), call) {
            (0, _) => 0,
            (1, _) => draw.g.bits() as u8,
            (_, Place) => 1,
            _ => 2,
        };
        self.bytes[2] = draw.g.bits() as u8;
        self.lent = match draw.g.whole(0, 20) {
            0 => draw.g.whole(0, ROOM as i64 + 1) as usize,
            _ => BLOCK,
        };
    }
}

impl Library {
    // What the functions are owed is pointers to as many numbers and bytes as each length says.
    pub fn panel_step(
        &mut self,
        buffers: &mut Buffers,
        table: Option<&[f64]>,
        lent: [usize; 3],
        block: &mut Block,
    ) -> Outcome {
        let [frame, face, sphere] = &mut buffers.numbers;
        let (frame, face, sphere) = (frame.as_ptr(), face.as_mut_ptr(), sphere.as_mut_ptr());
        let ([a, b, c], bytes, n) = (lent, block.bytes.as_mut_ptr(), block.lent);
        let (call, status) = match table {
            None => {
                let step = raw::a5_panel_step;
                let status = unsafe { step(frame, a, face, b, sphere, c, bytes, n) };
                (PANEL_STEP, status)
            }
            Some(t) => {
                let (step, rows, m) = (raw::a5_panel_step_with, t.as_ptr(), t.len());
                let status = unsafe { step(rows, m, frame, a, face, b, sphere, c, bytes, n) };
                (PANEL_STEP_WITH, status)
            }
        };
        self.ended(call, status, block.outcome(status).numbers, Some(buffers))
    }
}

impl Script {
    fn panel_step(&mut self, block: &mut Block, lent: [usize; 3]) {
        let (mut own, arguments) = (block.clone(), block.arguments());
        let buffers = &mut self.buffers;
        let ours = self.library.panel_step(buffers, None, lent, &mut own);
        let rust = block.stepped(lengths(lent), |call, x| self.rust(call, RIGHT, x));
        self.compare(self.asked(PANEL_STEP, &arguments, lent), &ours, &rust);
    }
}

pub fn turn(script: &mut Script, draw: &mut Draw, block: &mut Block) {
    if script.place == Where::Opened {
        script.renew();
    }
    block.host_writes(draw, &script.set);
    script.panel_step(block, draw.lengths(10));
}
