// Writes the oracle's turns to standard output, or with the word `test` tries its own.
//
// A record is three bytes, how many wishes and how many places for grants are lent and the status, 0 for answered and
// otherwise the refusal's number; then three runs of twenty numbers of two bytes, big-endian: the wishes, what stands in the
// places before the call, and what must stand there after it.

#[allow(dead_code)]
#[path = "../../common/generator.rs"]
mod generator;
mod inputs;
mod selftest;
mod turns;

use generator::Generator;
use inputs::{Wishes, MOST};
use std::io::Write;

// So many numbers there are, lent or not.
const ROOM: usize = 20;

type Room = [u16; ROOM];

fn record(lent: [usize; 2], wishes: Room, before: Room) -> Vec<u8> {
    let [n, m] = lent;
    let mut after = before;
    let status = turns::fair_turns(&wishes[..n], &mut after[..m]).err();
    let mut bytes = vec![n as u8, m as u8, status.unwrap_or(0)];
    for number in [wishes, before, after].concat() {
        bytes.extend(number.to_be_bytes());
    }
    bytes
}

// The wishes with others behind them, which no turn looks at.
fn in_room(wishes: Wishes, behind: u16) -> Room {
    std::array::from_fn(|c| wishes.get(c).copied().unwrap_or(behind))
}

fn list() -> Vec<u8> {
    let mut g = Generator::new(1);
    let mut list = Vec::new();
    let all = inputs::wishes(&mut g);
    for wishes in &all {
        let before = std::array::from_fn(|_| g.whole(0, 65536) as u16);
        list.extend(record([16, 16], in_room(*wishes, MOST), before));
    }
    let lengths = [0, 1, 15, 16, 17, 20];
    for n in lengths {
        for m in lengths.into_iter().filter(|m| [n, *m] != [16, 16]) {
            let wishes = in_room(all[g.whole(0, all.len() as i64) as usize], 5);
            let before = std::array::from_fn(|_| g.whole(0, 65536) as u16);
            list.extend(record([n, m], wishes, before));
        }
    }
    list
}

fn main() {
    if std::env::args().nth(1).as_deref() == Some("test") {
        return selftest::run();
    }
    let mut output = std::io::stdout();
    output
        .write_all(&list())
        .expect("standard output takes the list");
}
