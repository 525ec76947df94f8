// The stored list. A record is four bytes: the function's number, the status (0 answered, otherwise the refusal's number),
// how many arguments, how many answers; then the bits of the arguments and of the answers, eight bytes each, big-endian.
// Every NaN answer is written 7ff8000000000000.

use std::io::Write;

const NAN: u64 = 0x7ff8000000000000;

pub struct List {
    bytes: Vec<u8>,
}

fn bits(answer: &f64) -> u64 {
    if answer.is_nan() {
        NAN
    } else {
        answer.to_bits()
    }
}

impl List {
    pub fn new() -> List {
        List { bytes: Vec::new() }
    }

    // A status with answers: a result of a list has all of its fields, also where it is refused.
    pub fn record(&mut self, number: u8, status: u8, arguments: &[f64], answers: &[f64]) {
        let counts = [arguments.len() as u8, answers.len() as u8];
        self.bytes.extend([number, status, counts[0], counts[1]]);
        for x in arguments {
            self.bytes.extend(x.to_bits().to_be_bytes());
        }
        for x in answers {
            self.bytes.extend(bits(x).to_be_bytes());
        }
    }

    pub fn answered(&mut self, number: u8, arguments: &[f64], answers: &[f64]) {
        self.record(number, 0, arguments, answers);
    }

    pub fn refused(&mut self, number: u8, refusal: u8, arguments: &[f64]) {
        self.record(number, refusal, arguments, &[]);
    }

    // The records of a step, which takes numbers and gives numbers.
    pub fn step<const N: usize, const M: usize>(
        &mut self,
        number: u8,
        function: fn([f64; N]) -> [f64; M],
        arguments: &[[f64; N]],
    ) {
        for x in arguments {
            self.answered(number, x, &function(*x));
        }
    }

    // The records of a call, which may refuse.
    pub fn call<const N: usize, const M: usize>(
        &mut self,
        number: u8,
        function: fn([f64; N]) -> Result<[f64; M], u8>,
        arguments: &[[f64; N]],
    ) {
        for x in arguments {
            match function(*x) {
                Ok(answers) => self.answered(number, x, &answers),
                Err(refusal) => self.refused(number, refusal, x),
            }
        }
    }

    fn write(&self) {
        std::io::stdout()
            .write_all(&self.bytes)
            .expect("standard output takes the list");
    }
}

// An oracle's program: writes the list to standard output, or with the word `test` runs the oracle's own tests.
pub fn run(test: fn(), answers: fn() -> List) {
    if std::env::args().nth(1).as_deref() == Some("test") {
        test();
        return;
    }
    answers().write();
}
