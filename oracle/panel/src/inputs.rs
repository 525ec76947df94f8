// What hosts write, session by session: which bytes, and what.

use crate::common::generator::Generator;

pub type Writes = Vec<(usize, u8)>;

// What is asked: a step, a step with a table, or that the set is opened with a table. A table is told by its number.
#[derive(Clone, Copy)]
pub enum Asked {
    Step,
    StepWith(usize),
    OpenWith(usize),
}

// A host's writes before it, how many bytes of the block are lent, and which buffers are lent without their last number: bit 0
// the frame, bit 1 the face store, bit 2 the sphere store.
pub struct Turn {
    pub asked: Asked,
    pub writes: Writes,
    pub lent: usize,
    pub short: u8,
}

// All bytes there are: those of the block, and two behind it.
pub const ROOM: usize = 34;

pub fn turn(writes: Writes) -> Turn {
    Turn {
        asked: Asked::Step,
        writes,
        lent: 32,
        short: 0,
    }
}

fn input(at: usize, n: i32) -> Writes {
    (at..).zip(n.to_be_bytes()).collect()
}

// A command with its inputs, and nothing else.
pub fn asked(command: u8, inputs: [i32; 2]) -> Writes {
    [
        vec![(0, command)],
        input(8, inputs[0]),
        input(12, inputs[1]),
    ]
    .concat()
}

pub fn on(origin: u8, inputs: [i32; 2]) -> Writes {
    [vec![(4, origin)], asked(2, inputs)].concat()
}

pub fn any_byte(g: &mut Generator) -> u8 {
    g.bits() as u8
}

// Inputs that place and unplace answer: London, and a point of a face; and refused ones.
pub const POSITION: [i32; 2] = [-1278000, 515074000];
pub const POINT: [i32; 2] = [123456789, -234567890];
pub const NO_LATITUDE: [i32; 2] = [0, 900000001];

// Every command value, on a block that the host has filled, the bytes behind it too.
fn commands(g: &mut Generator) -> Vec<Turn> {
    let any = |command, g: &mut Generator| {
        let filled = (0..ROOM).map(|at| (at, any_byte(g)));
        turn(filled.chain([(0, command)]).collect())
    };
    (0..=255).map(|command| any(command, g)).collect()
}

// Every mask, with a status and an interrupt byte that the host has set, and each way to end: nothing, done twice, refused twice.
fn masks(g: &mut Generator) -> Vec<Turn> {
    let ends = [
        vec![(0, 0)],
        asked(1, POSITION),
        on(3, POINT),
        asked(1, NO_LATITUDE),
        asked(3, [0, 0]),
    ];
    let mut turns = Vec::new();
    for mask in 0..=255 {
        for end in &ends {
            let set = vec![(1, any_byte(g)), (2, mask), (3, any_byte(g))];
            turns.push(turn([set, end.clone()].concat()));
        }
    }
    turns
}

// Every status that a host can set, with nothing to do.
fn statuses(g: &mut Generator) -> Vec<Turn> {
    let set = |status, g: &mut Generator| turn(vec![(1, status), (2, any_byte(g))]);
    (0..=255).map(|status| set(status, g)).collect()
}

// Every origin byte, for unplace and for place, which doesn't look at it.
fn origins() -> Vec<Turn> {
    let both = |origin| {
        let place = [vec![(4, origin)], asked(1, POSITION)].concat();
        [turn(on(origin, POINT)), turn(place)]
    };
    (0..=255).flat_map(both).collect()
}

// Inputs at the limits, and one byte of an input at a time.
fn limits() -> Vec<Turn> {
    let ends = [i32::MIN, i32::MIN + 1, -1, 0, 1, i32::MAX - 1, i32::MAX];
    let latitudes = [-900000001, -900000000, 899999999, 900000000, 900000001];
    let mut turns = Vec::new();
    for a in ends {
        turns.extend(latitudes.map(|b| turn(asked(1, [a, b]))));
        for b in ends {
            turns.push(turn(asked(1, [a, b])));
            turns.push(turn(on(5, [a, b])));
        }
    }
    for shift in 0..32 {
        turns.push(turn(asked(1, [1 << shift, 0])));
        turns.push(turn(on(0, [0, 1 << shift])));
    }
    turns
}

// Unplaces that give 19: points too far off the face.
pub const OUTSIDE: [(u8, [i32; 2]); 3] = [
    (7, [1235847662, -125812592]),
    (4, [1235734985, 265693756]),
    (3, [-1134423674, 541134446]),
];

fn outside() -> Vec<Turn> {
    OUTSIDE
        .map(|(origin, point)| turn(on(origin, point)))
        .into()
}

// Answered and refused in turn, single bytes written in between: the command alone is set again, so that a step takes the inputs
// and the origin that the one before has left.
fn in_turn(g: &mut Generator) -> Vec<Turn> {
    let mut turns = Vec::new();
    for _ in 0..300 {
        let [a, b] = [g.bits() as i32, g.whole(-900000000, 900000001) as i32];
        turns.push(turn(asked(1, [a, b])));
        turns.push(turn(vec![(0, 2)]));
        turns.push(turn(vec![(0, any_byte(g) % 4), (15, any_byte(g))]));
        turns.push(turn(vec![(g.whole(0, ROOM as i64) as usize, any_byte(g))]));
    }
    turns
}

// 23, whatever the command.
fn lengths() -> Vec<Turn> {
    let mut turns = Vec::new();
    for lent in [0, 1, 4, 31, 33, 34] {
        for command in [0, 1, 2, 3] {
            let asked = turn(asked(command, POSITION));
            turns.push(Turn { lent, ..asked });
        }
    }
    turns
}

pub fn turns() -> Vec<Turn> {
    let g = &mut Generator::new(11);
    let mut turns = commands(g);
    turns.extend(masks(g));
    turns.extend(statuses(g));
    turns.extend(origins());
    turns.extend(limits());
    turns.extend(outside());
    turns.extend(lengths());
    turns.extend(in_turn(g));
    turns
}
