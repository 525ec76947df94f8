// What Paper 11 says, tried on the oracle.

use crate::common::generator::Generator;
use crate::common::sizes::RIGHT;
use crate::{new_projection, step, step_with, tables, Block, Set, ROOM};

// A panel with a mask, a command, an origin and inputs, and 7 in every other byte.
fn asked(mask: u8, command: u8, origin: u8, inputs: [i32; 2]) -> Block {
    let mut block = [7; ROOM];
    (block[0], block[2], block[4]) = (command, mask, origin);
    block[8..12].copy_from_slice(&inputs[0].to_be_bytes());
    block[12..16].copy_from_slice(&inputs[1].to_be_bytes());
    block
}

const LONDON: [i32; 2] = [-1278000, 515074000];

fn carried_out(block: &Block) -> Block {
    let mut after = *block;
    assert_eq!(step(&mut new_projection(), &mut after[..32]), 0);
    // "No step alters byte 2 or bytes 6 to 15."
    assert_eq!(after[2], block[2]);
    assert_eq!(after[6..16], block[6..16]);
    assert_eq!(after[32..], block[32..]);
    after
}

// With the built-in rows as a table a step leaves the same. "A set of wrong length or a bad table refuses the step itself, whatever
// the command, with 1, 2, 3, 21 or 22, block unchanged", after 23.
fn with_a_table() {
    let tables = tables::tables(&mut Generator::new(10));
    let mut set = Set::opened();
    for block in [asked(1, 1, 200, LONDON), asked(2, 2, 4, [0, 900000001])] {
        let mut after = block;
        let own = &tables.all[0];
        assert_eq!(step_with(own, &mut set, RIGHT, &mut after[..32]), 0);
        assert_eq!(after, carried_out(&block));
    }
    let [a, b, c] = RIGHT;
    let unit = &tables.all[tables.pass + 9];
    let range = &tables.all[tables.pass];
    for (table, lent, length, number) in [
        (range, [a - 1, b - 1, c - 1], 31, 23),
        (range, [a - 1, b - 1, c - 1], 32, 1),
        (range, [a, b - 1, c - 1], 32, 2),
        (range, [a, b, c - 1], 32, 3),
        (range, RIGHT, 32, 21),
        (unit, RIGHT, 32, 22),
    ] {
        for command in [0, 1, 2, 3] {
            let block = asked(1, command, 0, LONDON);
            let mut after = block;
            let status = step_with(table, &mut set, lent, &mut after[..length]);
            assert_eq!((status, after), (number, block));
        }
    }
}

pub fn run() {
    with_a_table();
    // place, and unplace of its answer: the position comes back to within a unit
    let after = carried_out(&asked(1, 1, 200, LONDON));
    assert_eq!(after[..2], [0, 1]);
    assert_eq!(after[3], 1);
    assert!(after[4] < 12);
    assert_eq!(after[5], 0);
    let numbers = |block: &Block| {
        [16, 24].map(|at| f64::from_be_bytes(block[at..at + 8].try_into().expect("eight")))
    };
    let point = numbers(&after).map(|x| (x * 1e9).round() as i32);
    let back = carried_out(&asked(2, 2, after[4], point));
    assert_eq!([back[1], back[3], back[4]], [1, 0, after[4]]);
    let position = numbers(&back);
    assert!((position[0] + 0.1278).abs() < 1e-6 && (position[1] - 51.5074).abs() < 1e-6);
    // refused: by place, by unplace, by the command
    for (block, number) in [
        (asked(2, 1, 200, [0, 900000001]), 6),
        (asked(2, 2, 12, [0, 0]), 4),
        (asked(2, 3, 0, [0, 0]), 12),
        (asked(2, 255, 0, [0, 0]), 12),
    ] {
        let after = carried_out(&block);
        assert_eq!([after[0], after[1], after[3], after[5]], [0, 2, 1, number]);
        assert_eq!((after[4], &after[16..]), (block[4], &block[16..]));
    }
    // nothing: only the interrupt byte, by bits 0 and 1 alone
    for (status, mask, line) in [
        (1, 1, 1),
        (2, 2, 1),
        (1, 2, 0),
        (2, 1, 0),
        (3, 2, 1),
        (252, 255, 0),
    ] {
        let mut block = asked(mask, 0, 0, LONDON);
        block[1] = status;
        let mut wanted = block;
        wanted[3] = line;
        assert_eq!(carried_out(&block), wanted);
    }
    // 23: nothing is altered
    for lent in [0, 31, 33] {
        let block = asked(1, 1, 0, LONDON);
        let mut after = block;
        assert_eq!(step(&mut new_projection(), &mut after[..lent]), 23);
        assert_eq!(after, block);
    }
}
