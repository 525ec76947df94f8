// The run: for each of N turns one input of every call, on the set that is kept, on newly opened sets and on foreign contents.

use crate::boxes::Boxes;
use crate::calls::{Call, Forward, Inverse, Place, Unplace};
use crate::common::fields::{lon_lat, of_lon_lat, of_spherical, spherical};
use crate::common::sizes::RIGHT;
use crate::counts::{Asked, Counts, Where, FROM_LON_LAT, NEAREST, TO_LON_LAT};
use crate::draw::Draw;
use crate::foreign;
use crate::foreign_sets;
use crate::library::Library;
use crate::outcome::Outcome;
use crate::panels::{self, Block};
use crate::regions::Regions;
use crate::roots::Roots;
use crate::script::Script;
use crate::set::Set;
use crate::spoil::Spoil;
use crate::tables::Tables;
use crate::turns_compared::Turns;
use crate::{conversions, lists, nearest, outside, refused, sheets, windows};

const FOUR: [Call; 4] = [Forward, Inverse, Place, Unplace];

// So many inputs of each call on one foreign set, and then on the next.
const A_SET: u64 = 4;
// So many turns, and the oracle's own list of foreign contents runs too.
const A_LIST: u64 = 20_000;

const PARTS: u64 = 4;

// The way back from an answer, which has its numbers as the other call takes them.
pub fn back(call: Call, x: &[f64], answer: &[f64]) -> (Call, Vec<f64>) {
    match call {
        Forward => (Inverse, vec![answer[0], answer[1], x[2]]),
        Inverse => (Forward, vec![answer[0], answer[1], x[2]]),
        Place => (Unplace, vec![answer[1], answer[2], answer[0]]),
        Unplace => (Place, answer.to_vec()),
    }
}

// On one set for the whole run, there and back.
fn on_kept(script: &mut Script, draw: &mut Draw, call: Call) {
    let x = draw.arguments(call, &script.set);
    let lent = draw.lengths(60);
    if lent != RIGHT {
        return script.call_lent(call, &x, lent);
    }
    if let Ok(answer) = script.call(call, &x) {
        let (call, x) = back(call, &x, &answer);
        let _ = script.call(call, &x);
    }
}

fn on_opened(script: &mut Script, draw: &mut Draw, call: Call) {
    script.renew();
    let x = draw.arguments(call, &script.set);
    let _ = script.call(call, &x);
}

fn on_foreign(script: &mut Script, draw: &mut Draw, call: Call) {
    let x = draw.arguments(call, &script.set);
    script.call_lent(call, &x, draw.lengths(60));
    let (kind, slot) = draw.slot();
    script.show(kind, slot, draw.lengths(20));
}

// Open on a set with one number everywhere in each buffer.
fn open(script: &mut Script, draw: &mut Draw) {
    script.fill([draw.g.any(), draw.g.any(), draw.g.any()]);
    script.open(draw.lengths(4));
}

// The calls that take no set.
struct Alone {
    library: Library,
    counts: Counts,
}

impl Alone {
    fn compare(&mut self, call: usize, x: [f64; 2], ours: Outcome, rust: Result<Vec<f64>, u8>) {
        let asked = Asked {
            call,
            place: Where::Alone,
            arguments: &x,
            lent: None,
        };
        let rust = Outcome::of(&rust, ours.numbers.len());
        self.counts.compare(asked, &ours, &rust);
    }

    fn from_lon_lat(&mut self, x: [f64; 2]) -> Result<Vec<f64>, u8> {
        let given = conversions::from_lon_lat(lon_lat(x)).map(|s| of_spherical(s).to_vec());
        let ours = self.library.from_lon_lat(x);
        self.compare(FROM_LON_LAT, x, ours, given.clone());
        given
    }

    fn to_lon_lat(&mut self, x: [f64; 2]) -> Result<Vec<f64>, u8> {
        let given = conversions::to_lon_lat(spherical(x)).map(|l| of_lon_lat(l).to_vec());
        let ours = self.library.to_lon_lat(x);
        self.compare(TO_LON_LAT, x, ours, given.clone());
        given
    }

    fn turn(&mut self, draw: &mut Draw, set: &Set) {
        let pair = |x: Vec<f64>| [x[0], x[1]];
        let x = pair(draw.arguments(Forward, set));
        let ours = self.library.nearest(x);
        self.compare(NEAREST, x, ours, nearest::nearest(x).map(|id| id.to_vec()));
        if let Ok(answer) = self.to_lon_lat(x) {
            let _ = self.from_lon_lat(pair(answer));
        }
        let x = pair(draw.arguments(Place, set));
        if let Ok(answer) = self.from_lon_lat(x) {
            let _ = self.to_lon_lat(pair(answer));
        }
    }
}

struct Run {
    draw: Draw,
    kept: Script,
    opened: Script,
    foreign: Script,
    alone: Alone,
    boxes: Boxes,
    turns: Turns,
    roots: Roots,
    tables: Tables,
    regions: Regions,
    block: Block,
}

impl Run {
    fn new(seed: u64, spoil: Option<Spoil>) -> Run {
        let library = |place| Library {
            spoil: spoil.filter(|spoil| spoil.place == place),
        };
        let script = |place| Script::new(place, library(place));
        Run {
            draw: Draw::new(seed),
            kept: script(Where::Kept),
            opened: script(Where::Opened),
            foreign: script(Where::Foreign),
            alone: Alone {
                library: library(Where::Alone),
                counts: Counts::default(),
            },
            boxes: Boxes::new(library(Where::Alone), library(Where::Foreign)),
            turns: Turns::new(seed, library(Where::Alone)),
            roots: Roots::new(seed, library(Where::Alone)),
            tables: Tables::new(library),
            regions: Regions::new(library),
            block: Block::new(),
        }
    }

    fn turn(&mut self, turn: u64) {
        if turn % A_LIST == 0 {
            foreign::all(&mut self.foreign, &mut self.draw.g);
            outside::all(&mut self.foreign, &mut self.draw.g);
            refused::lengths(&mut self.foreign);
            self.turns.listed();
            self.roots.listed();
        }
        open(&mut self.opened, &mut self.draw);
        if turn % A_SET == 0 {
            let set = foreign_sets::any(&mut self.draw.g, &self.draw.defined);
            self.foreign.lend(&set);
        }
        for call in FOUR {
            on_kept(&mut self.kept, &mut self.draw, call);
            on_opened(&mut self.opened, &mut self.draw, call);
            on_foreign(&mut self.foreign, &mut self.draw, call);
        }
        // a list and a step of the panel a turn, on the three in turn
        let script = match turn % 3 {
            0 => &mut self.kept,
            1 => &mut self.opened,
            _ => &mut self.foreign,
        };
        lists::turn(script, &mut self.draw);
        panels::turn(script, &mut self.draw, &mut self.block);
        let (kind, slot) = self.draw.slot();
        self.kept.show(kind, slot, self.draw.lengths(20));
        self.alone.turn(&mut self.draw, &self.kept.set);
        self.boxes.turn(&mut self.draw, &self.kept.set);
        self.turns.any();
        self.roots.any();
        self.tables.turn(&mut self.draw, turn);
        self.regions.turn(&mut self.draw, turn);
    }
}

// A word on standard error at every tenth of a long run.
fn progress(turn: u64, n: u64) {
    if n >= 25_000 && turn % (n / 10) == 0 {
        eprintln!("{turn} of {n}");
    }
}

// So many turns, from a seed, and what they have compared.
fn part(n: u64, seed: u64, spoil: Option<Spoil>, tells: bool) -> Counts {
    let mut run = Run::new(seed, spoil);
    run.kept.open_and_keep();
    for turn in 0..n {
        if tells {
            progress(turn, n);
        }
        run.turn(turn);
    }
    if run.kept.is_full() {
        run.kept.check_kept();
    }
    let mut counts = run.alone.counts;
    counts.add(&run.turns.counts);
    counts.add(&run.roots.counts);
    counts.add(&run.tables.counts);
    counts.add(&run.regions.counts);
    for script in [&run.kept, &run.opened, &run.foreign] {
        counts.add(&script.counts);
    }
    counts.add(&run.boxes.counts);
    counts
}

// In parts side by side, each with sets and a seed of its own; as many on every machine, so that a seed gives the same run there. With
// something changed on the library's side it is one part: that is looked for in few turns.
pub fn run(n: u64, seed: u64, spoil: Option<Spoil>) {
    let parts = if spoil.is_some() { 1 } else { PARTS };
    std::thread::scope(|scope| {
        let windows = scope.spawn(move || windows::run(n, seed, None));
        let sheets = scope.spawn(move || sheets::run(n, seed, None));
        let runs: Vec<_> = (0..parts)
            .map(|k| {
                let turns = (n + k) / parts;
                let seed = seed.wrapping_add(k << 32);
                scope.spawn(move || part(turns, seed, spoil, k == 0))
            })
            .collect();
        let mut counts = Counts::default();
        for run in runs {
            counts.add(&run.join().expect("a part ends"));
        }
        counts.write();
        for compared in windows.join().expect("windows end") {
            compared.write();
        }
        for compared in sheets.join().expect("sheets end") {
            compared.write();
        }
    });
    println!("{n} inputs a call, seed {seed}: no difference");
}
