// The strike program on the given Rust. By the word that it is given it writes the stored sessions with the lines that
// answer them (`list`), the long session (`input`) or its lines (`lines`), or COUNT records for timing (`many COUNT`);
// reads a session and answers it (`run`); or tries what document 01 says of the program (`test`).

mod calls;
// Not all of `common`, of which a part needs the stepped form: this program is built on the plain one too.
#[allow(dead_code)]
#[path = "../../common/fields.rs"]
mod fields;
#[allow(dead_code)]
#[path = "../../common/generator.rs"]
mod generator;
mod inputs;
#[allow(dead_code)]
#[path = "../../common/refusals.rs"]
mod refusals;
#[allow(dead_code)]
mod selftest;
mod session;
#[allow(dead_code)]
#[path = "../../common/sizes.rs"]
mod sizes;

use std::io::{self, BufReader, BufWriter, Write};

// Each session is how many bytes it has, in two bytes, the bytes, and the same of its lines. All is big-endian.
fn list() -> Vec<u8> {
    let mut list = Vec::new();
    for input in inputs::sessions() {
        for part in [&input, &session::lines(&input)] {
            list.extend(
                u16::try_from(part.len())
                    .expect("a short session")
                    .to_be_bytes(),
            );
            list.extend(part);
        }
    }
    list
}

fn many(count: u64, mut output: impl Write) -> io::Result<()> {
    output.write_all(inputs::HEADER)?;
    inputs::many(count).try_for_each(|record| output.write_all(&record))
}

fn main() -> io::Result<()> {
    let words: Vec<String> = std::env::args().skip(1).collect();
    let words: Vec<&str> = words.iter().map(String::as_str).collect();
    let mut output = BufWriter::with_capacity(65536, io::stdout().lock());
    match words[..] {
        ["test"] => selftest::run(),
        ["list"] => output.write_all(&list())?,
        ["input"] => output.write_all(&inputs::long())?,
        ["lines"] => output.write_all(&session::lines(&inputs::long()))?,
        ["many", count] => many(count.parse().expect("a count"), &mut output)?,
        ["run"] => session::run(
            BufReader::with_capacity(65536, io::stdin().lock()),
            &mut output,
        )?,
        _ => panic!("test, list, input, lines, many COUNT or run"),
    }
    output.flush()
}
