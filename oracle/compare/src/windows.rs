// The window of Paper 5 against the oracle that remembers every addition, and on foreign contents against the words of
// docs/DECISIONS.md: what each addition gives, and after it every byte of the window and those behind it.

use crate::generator::Generator;
use crate::raw;
use crate::window::{Strike, Window, MINUTES, MOST};
use crate::window_draw::Draw;

// So many additions to one window, and then to a new one.
const A_WINDOW: u64 = 30_000;
// So many additions to one foreign window.
const A_FOREIGN: u64 = 6;
// What lies behind a window, and in the numbers that are lent for the counts.
const BEHIND: [u8; 32] = [0xa5; 32];
const BEFORE: u32 = 0xa5a5_a5a5;

// What the self-test changes on the library's side, and on which window.
pub const WHATS: [&str; 9] = [
    "status",
    "left",
    "minutes",
    "origins",
    "counts",
    "state",
    "behind",
    "told counts",
    "told kept",
];
pub const PLACES: [&str; 2] = ["long lists", "foreign contents"];

// A window as it is lent.
#[repr(C)]
struct Lent {
    window: raw::Window,
    behind: [u8; 32],
}

fn zeros() -> raw::Window {
    raw::Window {
        minutes: [0; MOST],
        origins: [0; MOST],
        counts: [0; 12],
        first: 0,
        kept: 0,
        last: 0,
    }
}

impl Lent {
    fn new() -> Box<Lent> {
        let window = foreign(&mut Generator::new(1));
        let mut lent = Box::new(Lent {
            window,
            behind: BEHIND,
        });
        unsafe { raw::a5_window_new(&mut lent.window) }
        lent
    }
}

// ---- the window's parts as they should be, whatever they hold: the strikes lie from place `first` modulo 4,096 on, at most
// 4,096 of them; from the oldest on those are dropped that are 180 or more behind; a count does not go below 0, and starts
// again after the greatest number; an origin above 11 has none.

fn add_to(window: &mut raw::Window, strike: Strike) -> u8 {
    if strike.origin > 11 {
        return 4;
    }
    if strike.minute < window.last {
        return 17;
    }
    let place = |i: usize| (window.first as usize + i) % MOST;
    let held = MOST.min(window.kept as usize);
    let is_old = |i: &usize| strike.minute.saturating_sub(window.minutes[place(*i)]) >= MINUTES;
    let gone = (0..held).take_while(is_old).count();
    if held - gone >= MOST {
        return 18;
    }
    let dropped: Vec<u8> = (0..gone).map(|i| window.origins[place(i)]).collect();
    let (oldest, at) = (place(gone), place(held));
    for origin in dropped {
        if let Some(count) = window.counts.get_mut(origin as usize) {
            *count = count.saturating_sub(1);
        }
    }
    let count = &mut window.counts[strike.origin as usize];
    *count = count.wrapping_add(1);
    window.minutes[at] = strike.minute;
    window.origins[at] = strike.origin;
    window.first = oldest as u32;
    window.kept = (held - gone) as u32 + 1;
    window.last = strike.minute;
    0
}

// Any contents: numbers of any size, or a window that lacks little to be one.
fn foreign(g: &mut Generator) -> raw::Window {
    let mut window = zeros();
    let base = g.bits() as u32;
    let near = g.whole(0, 2) == 0;
    for i in 0..MOST {
        window.minutes[i] = match near {
            true => base.wrapping_add(g.whole(0, 300) as u32),
            false => g.bits() as u32,
        };
        window.origins[i] = g.whole(0, if near { 13 } else { 256 }) as u8;
    }
    for count in &mut window.counts {
        *count = [0, 1, u32::MAX, g.bits() as u32, 2000][g.whole(0, 5) as usize];
    }
    window.first = [0, 4095, 4096, u32::MAX, g.bits() as u32][g.whole(0, 5) as usize];
    window.kept =
        [0, 1, 4095, 4096, 4097, u32::MAX, g.bits() as u32 % 5000][g.whole(0, 7) as usize];
    window.last = base;
    window
}

// About the foreign window's minutes, or any.
fn foreign_strike(g: &mut Generator, window: &raw::Window) -> Strike {
    let leap = g.whole(0, 500) as u32;
    let minute = match g.whole(0, 4) {
        0 => g.bits() as u32,
        1 => window.last.wrapping_sub(leap % 3),
        _ => window.last.wrapping_add(leap),
    };
    let origin = g.whole(0, 14) as u8;
    Strike { minute, origin }
}

// ---- the comparison

// One place where windows are compared. The change of the self-test is made once.
pub struct Compared {
    place: &'static str,
    spoil: Option<&'static str>,
    counts: [u64; 19],
}

impl Compared {
    fn stop(&self, strike: Strike, text: String) -> ! {
        println!("DIFFERENCE in window ({})", self.place);
        println!("  {strike:?}");
        println!("  {text}");
        std::process::exit(1);
    }

    // The same of both sides, or the end.
    fn same<T: PartialEq + std::fmt::Debug>(&self, strike: Strike, what: &str, ours: T, wanted: T) {
        if ours != wanted {
            self.stop(
                strike,
                format!("{what}: library {ours:?}, wanted {wanted:?}"),
            );
        }
    }

    fn is_spoiled(&mut self, what: &str, can_be: bool) -> bool {
        let now = can_be && self.spoil == Some(what);
        if now {
            self.spoil = None;
        }
        now
    }

    fn spoil(&mut self, lent: &mut Lent, status: &mut u8) {
        let refused = *status > 0;
        if self.is_spoiled("status", true) {
            *status ^= 1;
        }
        if self.is_spoiled("left", refused) {
            lent.window.minutes[9] ^= 1;
        }
        if self.is_spoiled("minutes", !refused) {
            lent.window.minutes[4095] ^= 1;
        }
        if self.is_spoiled("origins", true) {
            lent.window.origins[0] ^= 1;
        }
        if self.is_spoiled("counts", true) {
            lent.window.counts[11] ^= 1;
        }
        if self.is_spoiled("state", true) {
            lent.window.last ^= 1;
        }
        if self.is_spoiled("behind", true) {
            lent.behind[31] ^= 1;
        }
    }

    // The first field that is not as it should be.
    fn compare_windows(&self, strike: Strike, ours: &Lent, wanted: &raw::Window) {
        let differing = (0..MOST).find(|i| {
            let of = |w: &raw::Window| (w.minutes[*i], w.origins[*i]);
            of(&ours.window) != of(wanted)
        });
        if let Some(i) = differing {
            self.stop(strike, format!("place {i} of the ring"));
        }
        let state = |w: &raw::Window| (w.first, w.kept, w.last);
        self.same(strike, "counts", ours.window.counts, wanted.counts);
        self.same(strike, "state", state(&ours.window), state(wanted));
        self.same(strike, "behind", ours.behind, BEHIND);
    }

    // What the reading calls tell, on this window.
    fn told(&mut self, strike: Strike, lent: &Lent, counts: [u32; 12], kept: u32) {
        let mut told = [BEFORE; 12];
        unsafe { raw::a5_window_counts(&lent.window, &mut told) }
        let mut told_kept = unsafe { raw::a5_window_kept(&lent.window) };
        told[7] ^= self.is_spoiled("told counts", true) as u32;
        told_kept ^= self.is_spoiled("told kept", true) as u32;
        self.same(strike, "counts told", told, counts);
        self.same(strike, "number kept told", told_kept, kept);
    }

    // One addition on both sides. The window's parts should be as `wanted` has them after it.
    fn add(&mut self, lent: &mut Lent, wanted: &mut raw::Window, strike: Strike) -> u8 {
        let mut status =
            unsafe { raw::a5_window_add(&mut lent.window, strike.minute, strike.origin) };
        let given = add_to(wanted, strike);
        self.spoil(lent, &mut status);
        self.same(strike, "status", status, given);
        self.compare_windows(strike, lent, wanted);
        self.told(strike, lent, wanted.counts, wanted.kept);
        self.counts[given as usize] += 1;
        given
    }

    pub fn write(&self) {
        let [added, four, seventeen, eighteen] = [0, 4, 17, 18].map(|n| self.counts[n]);
        let total = added + four + seventeen + eighteen;
        println!(
            "window: {total} additions and whole windows compared, 0 differ ({}: accepted {added}, refused 4: {four}, 17: {seventeen}, 18: {eighteen})",
            self.place
        );
    }
}

// A long list, beside the oracle that remembers every addition.
struct Long {
    lent: Box<Lent>,
    parts: raw::Window,
    oracle: Window,
}

impl Long {
    fn new() -> Long {
        Long {
            lent: Lent::new(),
            parts: zeros(),
            oracle: Window::default(),
        }
    }

    // The strikes of the ring, from first to last, are the kept ones.
    fn ring_is_kept(&self) -> bool {
        let window = &self.lent.window;
        let at = |i: usize| (window.first as usize + i) % MOST;
        let strike = |i: usize| Strike {
            minute: window.minutes[at(i)],
            origin: window.origins[at(i)],
        };
        let kept = self.oracle.kept();
        kept.len() == window.kept as usize && kept.iter().enumerate().all(|(i, s)| *s == strike(i))
    }

    fn add(&mut self, compared: &mut Compared, strike: Strike) {
        let given = compared.add(&mut self.lent, &mut self.parts, strike);
        compared.same(strike, "status", given, self.oracle.add(strike));
        compared.same(
            strike,
            "counts",
            self.lent.window.counts,
            self.oracle.counts(),
        );
        compared.same(
            strike,
            "the ring is what is kept",
            self.ring_is_kept(),
            true,
        );
    }
}

// Minute 0, one near the last minute that there is, or any.
fn start(g: &mut Generator) -> u32 {
    match g.whole(0, 4) {
        0 | 1 => 0,
        2 => u32::MAX - g.whole(0, 2000) as u32,
        _ => g.bits() as u32,
    }
}

// N additions in long lists, and N on foreign contents.
pub fn run(n: u64, seed: u64, spoil: Option<(&str, &str)>) -> [Compared; 2] {
    let spoil_at = |place| {
        let what = spoil.filter(|s| s.1 == place)?.0;
        WHATS.into_iter().find(|w| *w == what)
    };
    let [mut long, mut strange] = PLACES.map(|place| Compared {
        place,
        spoil: spoil_at(place),
        counts: [0; 19],
    });
    let mut draw = Draw::new(seed);
    let mut list = Long::new();
    let mut lent = Lent::new();
    for turn in 0..n {
        if turn % A_WINDOW == 0 {
            list = Long::new();
            let minute = if turn == 0 { 0 } else { start(&mut draw.g) };
            draw.start(minute);
        }
        let strike = draw.strike();
        list.add(&mut long, strike);
        if turn % A_FOREIGN == 0 {
            lent.window = foreign(&mut draw.g);
        }
        let mut wanted = lent.window.clone();
        let strike = foreign_strike(&mut draw.g, &wanted);
        strange.add(&mut lent, &mut wanted, strike);
    }
    [long, strange]
}
