// Times additions to the proved window beside a window on a VecDeque, and writes a table.

use a5_faces::Window;
use std::collections::VecDeque;
use std::hint::black_box;
use std::time::Instant;

// A run is short, so that on a busy machine most are not interrupted.
const A_RUN: u32 = 20_000;
const RUNS: usize = 201;

trait Strikes {
    fn new() -> Self;
    fn add(&mut self, minute: u32, origin: u8) -> bool;
}

impl Strikes for Window {
    fn new() -> Window {
        Window::new()
    }

    #[inline]
    fn add(&mut self, minute: u32, origin: u8) -> bool {
        Window::add(self, minute, origin).is_ok()
    }
}

// The same in the usual Rust.
struct Deque {
    strikes: VecDeque<(u32, u8)>,
    counts: [u32; 12],
    last: u32,
}

impl Strikes for Deque {
    fn new() -> Deque {
        Deque {
            strikes: VecDeque::with_capacity(4096),
            counts: [0; 12],
            last: 0,
        }
    }

    #[inline]
    fn add(&mut self, minute: u32, origin: u8) -> bool {
        if origin > 11 || minute < self.last {
            return false;
        }
        // A full window drops nothing exactly if its oldest strike stays.
        let is_old = |strike: &(u32, u8)| minute - strike.0 >= 180;
        if self.strikes.len() == 4096 && !self.strikes.front().is_some_and(is_old) {
            return false;
        }
        while self.strikes.front().is_some_and(is_old) {
            let (_, origin) = self.strikes.pop_front().expect("it is there");
            self.counts[origin as usize] -= 1;
        }
        self.strikes.push_back((minute, origin));
        self.counts[origin as usize] += 1;
        self.last = minute;
        true
    }
}

// How an addition goes: the minute of the i-th, by what comes of it.
const PACES: [(&str, fn(u32) -> u32); 5] = [
    ("to an empty window: each drops the one before", |i| i * 200),
    ("8 a minute: 1,440 are kept", |i| i / 8),
    ("22 a minute: 3,960 are kept", |i| i / 22),
    ("bursts of 4,000, all dropped at once", |i| i / 4000 * 200),
    ("to a full window, refused", |_| 0),
];

// Nanoseconds an addition, from an additions' number on.
fn time<W: Strikes>(window: &mut W, from: u32, minute: fn(u32) -> u32) -> f64 {
    let start = Instant::now();
    for i in from..from + A_RUN {
        black_box(window.add(minute(i), (i % 12) as u8));
    }
    start.elapsed().as_nanos() as f64 / A_RUN as f64
}

// Nanoseconds of the one addition that drops 4,096.
fn time_drop<W: Strikes>(window: &mut W, from: u32) -> f64 {
    for i in 0..4096 {
        assert!(window.add(from, (i % 12) as u8));
    }
    let start = Instant::now();
    let added = black_box(window.add(from + 180, 0));
    let elapsed = start.elapsed().as_nanos() as f64;
    assert!(added);
    elapsed
}

fn median(mut times: Vec<f64>) -> f64 {
    times.sort_by(f64::total_cmp);
    times[times.len() / 2]
}

fn line(what: &str, ours: Vec<f64>, deque: Vec<f64>) {
    let (ours, deque) = (median(ours), median(deque));
    println!("| {what} | {ours:.1} | {deque:.1} | {:.2} |", ours / deque);
}

fn main() {
    println!("| addition | ours, ns | VecDeque, ns | ratio |");
    println!("|---|---|---|---|");
    for (what, minute) in PACES {
        let (mut ours, mut deque) = (Window::new(), Deque::new());
        let (mut a, mut b) = (Vec::new(), Vec::new());
        // the first run fills them
        for run in 0..=RUNS as u32 {
            let times = (
                time(&mut ours, run * A_RUN, minute),
                time(&mut deque, run * A_RUN, minute),
            );
            if run > 0 {
                a.push(times.0);
                b.push(times.1);
            }
        }
        line(what, a, b);
    }
    let (mut ours, mut deque) = (Window::new(), Deque::new());
    let (mut a, mut b) = (Vec::new(), Vec::new());
    for run in 0..RUNS as u32 {
        a.push(time_drop(&mut ours, run * 1000));
        b.push(time_drop(&mut deque, run * 1000));
    }
    line("the one that drops 4,096 strikes", a, b);
}
