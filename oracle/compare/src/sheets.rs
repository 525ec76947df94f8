// The sheet of Paper 13 against the oracle's formatted text: what the call gives, every byte of the page and of what lies
// behind it, and the window, which is only read.

use crate::generator::Generator;
use crate::raw;
use crate::sheet::{self, PAGE};
use crate::window::MOST;
use crate::window_draw::Draw;

// So many additions to one window, and then to a new one; a page is printed before each of them.
const A_WINDOW: u64 = 30_000;
// The bytes of which a page is lent, and what lies there before.
const ROOM: usize = PAGE + 68;
const BEFORE: u8 = 0xa5;

// What the self-test changes on the library's side, and on which window.
pub const WHATS: [&str; 5] = ["status", "left", "page", "behind", "window"];
pub const PLACES: [&str; 2] = ["windows", "foreign counts"];

pub struct Compared {
    place: &'static str,
    spoil: Option<&'static str>,
    printed: u64,
    refused: u64,
}

impl Compared {
    fn stop(&self, window: &raw::Window, text: String) -> ! {
        println!("DIFFERENCE in sheet ({})", self.place);
        println!("  counts {:?}", window.counts);
        println!("  {text}");
        std::process::exit(1);
    }

    fn is_spoiled(&mut self, what: &str, can_be: bool) -> bool {
        let now = can_be && self.spoil == Some(what);
        if now {
            self.spoil = None;
        }
        now
    }

    // One sheet on both sides, on the first bytes of the room.
    fn print(&mut self, window: &mut raw::Window, lent: usize) {
        let mut ours = [BEFORE; ROOM];
        let mut wanted = [BEFORE; ROOM];
        let counts = window.counts;
        let before = parts(window);
        let mut status = unsafe { raw::a5_sheet(window, ours.as_mut_ptr(), lent) };
        let given = sheet::print(&counts, &mut wanted[..lent]);
        status ^= self.is_spoiled("status", true) as u8;
        ours[80] ^= self.is_spoiled("left", given != 0) as u8;
        ours[PAGE - 1] ^= self.is_spoiled("page", given == 0) as u8;
        ours[ROOM - 1] ^= self.is_spoiled("behind", true) as u8;
        window.minutes[7] ^= self.is_spoiled("window", true) as u32;
        if status != given {
            self.stop(window, format!("status: library {status}, wanted {given}"));
        }
        if let Some(i) = (0..ROOM).find(|i| ours[*i] != wanted[*i]) {
            let (line, column) = (i / 81 + 1, i % 81 + 1);
            self.stop(
                window,
                format!("line {line}, column {column}, of {lent} bytes"),
            );
        }
        if parts(window) != before {
            self.stop(window, "the window".into());
        }
        match given {
            0 => self.printed += 1,
            _ => self.refused += 1,
        }
    }

    pub fn write(&self) {
        println!(
            "sheet: {} pages and whole windows compared, 0 differ ({}: printed {}, refused 26: {})",
            self.printed + self.refused,
            self.place,
            self.printed,
            self.refused
        );
    }
}

// All of a window.
fn parts(w: &raw::Window) -> (Vec<u32>, Vec<u8>, [u32; 12], [u32; 3]) {
    let state = [w.first, w.kept, w.last];
    (w.minutes.to_vec(), w.origins.to_vec(), w.counts, state)
}

// Numbers of every length, those about a power of ten, and the greatest.
fn foreign_count(g: &mut Generator) -> u32 {
    let power = 10u32.pow(g.whole(0, 10) as u32);
    match g.whole(0, 5) {
        0 => u32::MAX - g.whole(0, 2) as u32,
        1 => power.wrapping_add(g.whole(0, 3) as u32).wrapping_sub(1),
        2 => g.bits() as u32,
        3 => 0,
        _ => g.bits() as u32 >> g.whole(0, 32),
    }
}

// Mostly a page's length; else one about it, or any that the room has.
fn length(g: &mut Generator) -> usize {
    match g.whole(0, 16) {
        0 => PAGE - 1,
        1 => PAGE + 1,
        2 => g.whole(0, ROOM as i64 + 1) as usize,
        _ => PAGE,
    }
}

// N additions with a page before each, and N pages of foreign counts.
pub fn run(n: u64, seed: u64, spoil: Option<(&str, &str)>) -> [Compared; 2] {
    let spoil_at = |place| {
        let what = spoil.filter(|s| s.1 == place)?.0;
        WHATS.into_iter().find(|w| *w == what)
    };
    let [mut windows, mut strange] = PLACES.map(|place| Compared {
        place,
        spoil: spoil_at(place),
        printed: 0,
        refused: 0,
    });
    let mut draw = Draw::new(seed);
    let mut window = Box::new(raw::Window {
        minutes: [1; MOST],
        origins: [1; MOST],
        counts: [1; 12],
        first: 1,
        kept: 1,
        last: 1,
    });
    let mut foreign = window.clone();
    for turn in 0..n {
        if turn % A_WINDOW == 0 {
            unsafe { raw::a5_window_new(&mut *window) }
            draw.start(0);
        }
        let lent = length(&mut draw.g);
        windows.print(&mut window, lent);
        let strike = draw.strike();
        unsafe { raw::a5_window_add(&mut *window, strike.minute, strike.origin) };
        foreign.counts = std::array::from_fn(|_| foreign_count(&mut draw.g));
        let lent = length(&mut draw.g);
        strange.print(&mut foreign, lent);
    }
    [windows, strange]
}
