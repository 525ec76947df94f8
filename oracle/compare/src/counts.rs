// How many outcomes of each call have been compared, and where. A difference ends the program.

use crate::outcome::{show, Outcome};

pub const CALLS: [&str; 29] = [
    "open",
    "forward",
    "inverse",
    "place",
    "unplace",
    "nearest",
    "from_lon_lat",
    "to_lon_lat",
    "show",
    "slot_state",
    "box_new",
    "box_take",
    "fair_turns",
    "sqrt",
    "sqrt_rounds",
    "place_list",
    "open_with",
    "forward_with",
    "inverse_with",
    "place_with",
    "unplace_with",
    "nearest_with",
    "table_load",
    "table_save",
    "place_list_with",
    "region",
    "region_with",
    "panel_step",
    "panel_step_with",
];
pub const OPEN: usize = 0;
// the four calls on a set follow in the order of the enum
pub const FORWARD: usize = 1;
pub const NEAREST: usize = 5;
pub const FROM_LON_LAT: usize = 6;
pub const TO_LON_LAT: usize = 7;
pub const SHOW: usize = 8;
pub const SLOT_STATE: usize = 9;
pub const BOX_NEW: usize = 10;
pub const BOX_TAKE: usize = 11;
pub const FAIR_TURNS: usize = 12;
pub const SQRT: usize = 13;
pub const SQRT_ROUNDS: usize = 14;
pub const PLACE_LIST: usize = 15;
pub const OPEN_WITH: usize = 16;
pub const FORWARD_WITH: usize = 17;
pub const NEAREST_WITH: usize = 21;
pub const TABLE_LOAD: usize = 22;
pub const TABLE_SAVE: usize = 23;
pub const PLACE_LIST_WITH: usize = 24;
pub const REGION: usize = 25;
pub const REGION_WITH: usize = 26;
pub const PANEL_STEP: usize = 27;
pub const PANEL_STEP_WITH: usize = 28;

#[derive(Clone, Copy, PartialEq)]
pub enum Where {
    Kept,
    Opened,
    Foreign,
    Alone,
}

pub const PLACES: [(Where, &str); 4] = [
    (Where::Kept, "kept set"),
    (Where::Opened, "newly opened"),
    (Where::Foreign, "foreign"),
    (Where::Alone, "no set"),
];

// Above every refusal's number.
const NUMBERS: usize = 27;

#[derive(Clone, Default)]
pub struct Counts {
    compared: [[u64; 4]; CALLS.len()],
    // by the refusal's number, then by the place
    refused: [[[u64; 4]; NUMBERS]; CALLS.len()],
    pub buffers: u64,
}

fn stop(call: usize, place: Where, arguments: &[f64], lent: Option<[usize; 3]>, text: &str) -> ! {
    let place = PLACES.iter().find(|p| p.0 == place).expect("a place").1;
    // held to the end: another part of the run may have found one too
    let _held = std::io::stdout().lock();
    println!("DIFFERENCE in {} ({place})", CALLS[call]);
    for x in arguments {
        println!("  argument {}", show(*x));
    }
    if let Some(lent) = lent {
        println!("  lengths lent {lent:?}");
    }
    println!("{text}");
    std::process::exit(1);
}

// A call as it is reported: where, its arguments and the lengths of the buffers that it was lent.
#[derive(Clone, Copy)]
pub struct Asked<'a> {
    pub call: usize,
    pub place: Where,
    pub arguments: &'a [f64],
    pub lent: Option<[usize; 3]>,
}

impl Counts {
    pub fn compare(&mut self, asked: Asked, ours: &Outcome, rust: &Outcome) {
        if !ours.same(rust) {
            let text = format!("  library {}\n  Rust    {}", ours.show(), rust.show());
            stop(asked.call, asked.place, asked.arguments, asked.lent, &text);
        }
        self.compared[asked.call][asked.place as usize] += 1;
        self.refused[asked.call][rust.status as usize][asked.place as usize] += 1;
    }

    // The first number of the buffers that differs, as library::differing tells it.
    pub fn compare_buffers(&mut self, asked: Asked, differing: Option<String>) {
        if let Some(text) = differing {
            stop(asked.call, asked.place, asked.arguments, asked.lent, &text);
        }
        self.buffers += 1;
    }

    pub fn at(&self, call: usize, place: Where) -> u64 {
        self.compared[call][place as usize]
    }

    pub fn add(&mut self, other: &Counts) {
        for call in 0..CALLS.len() {
            for place in 0..4 {
                self.compared[call][place] += other.compared[call][place];
                for number in 0..NUMBERS {
                    self.refused[call][number][place] += other.refused[call][number][place];
                }
            }
        }
        self.buffers += other.buffers;
    }

    // Of 19 also how often on each kind of set.
    fn where_19(&self, call: usize, number: usize) -> String {
        if number != 19 {
            return String::new();
        }
        let count = |place: Where| self.refused[call][19][place as usize];
        let at = PLACES[..3]
            .iter()
            .map(|p| format!("{} {}", p.1, count(p.0)));
        format!(" ({})", at.collect::<Vec<_>>().join(", "))
    }

    // Reached only where nothing differs.
    pub fn write(&self) {
        for (call, name) in CALLS.iter().enumerate() {
            let total: u64 = self.compared[call].iter().sum();
            let places = PLACES.map(|(place, text)| (text.to_string(), self.at(call, place)));
            let refused = (1..NUMBERS).map(|n| {
                let total = self.refused[call][n].iter().sum();
                (format!("refused {n}{}", self.where_19(call, n)), total)
            });
            let parts: Vec<String> = places
                .into_iter()
                .chain(refused)
                .filter(|(_, count)| *count > 0)
                .map(|(text, count)| format!("{text}: {count}"))
                .collect();
            println!("{name}: {total} compared, 0 differ ({})", parts.join(", "));
        }
        println!("whole buffers: {} compared, 0 differ", self.buffers);
    }
}
