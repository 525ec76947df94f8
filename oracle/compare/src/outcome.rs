// What a call has given: its status, and what then stands in the numbers that were lent for an answer.

use crate::common::fields::bits;

// What stands there before the call. "A refusal" leaves it.
pub const BEFORE: f64 = -7.5;

pub struct Outcome {
    pub status: u8,
    pub numbers: Vec<f64>,
}

impl Outcome {
    // Of the Rust under document 01's refusals, where so many numbers are lent for an answer.
    pub fn of(given: &Result<Vec<f64>, u8>, lent: usize) -> Outcome {
        match given {
            Ok(numbers) => Outcome {
                status: 0,
                numbers: numbers.clone(),
            },
            Err(status) => Outcome {
                status: *status,
                numbers: vec![BEFORE; lent],
            },
        }
    }

    // Bit for bit, also where it is NaN: an answer has none, for it would be refused with 9.
    pub fn same(&self, other: &Outcome) -> bool {
        self.status == other.status && bits(&self.numbers) == bits(&other.numbers)
    }

    pub fn show(&self) -> String {
        let numbers: Vec<String> = self.numbers.iter().map(|x| show(*x)).collect();
        match self.status {
            0 => format!("answered {}", numbers.join(", ")),
            n => format!(
                "refused {n}, with {} left in the answer",
                numbers.join(", ")
            ),
        }
    }
}

// The bits and the decimal of a number. An id or another whole number stands as it is, so small ones are shown as that too.
pub fn show(x: f64) -> String {
    let bits = x.to_bits();
    let also = match bits {
        0..=0xffff => format!(", as a whole number {bits}"),
        _ => String::new(),
    };
    format!("{bits:016x} ({x:?}{also})")
}
