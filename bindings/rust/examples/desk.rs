//! The desk: reads a feed of strikes, outlines, turns and panel commands, and prints what became of them, the counts of the
//! last three hours by face and by outline, and the as-run sheet. `bindings/c/desk.c` is the same in C and says what a line
//! of the feed is; both print the same.
//!
//!     desk [--table FILE] FEED

use a5_faces::{fair_turns, LonLat, Panel, Place, Refusal, Set, Sides, Table, Window, CHANNELS};
use std::ffi::{OsStr, OsString};
use std::fs::File;
use std::io::{BufRead, BufReader, BufWriter, Read, Write};
use std::process::ExitCode;

const LIST: usize = 512;
const OUTLINES: usize = 64;
const NAME: usize = 24;
const TABLE_FILE: u64 = 677;

struct Outline {
    name: String,
    origin: u8,
    sides: Sides,
}

struct Desk<W: Write> {
    set: Set,
    window: Window,
    // the places of the strikes that the window accepted, in a ring: those that it keeps are the last of them
    accepted: Vec<Place>,
    how_many: usize,
    by_face: [usize; 12],
    // strikes of one minute that wait to be placed, and their lines
    waiting: Vec<LonLat>,
    lines: Vec<usize>,
    minute: u32,
    outlines: Vec<Outline>,
    panel: Panel,
    line: usize,
    strikes: usize,
    bad: usize,
    out: W,
    // whether a line could not be written
    lost: bool,
}

// ---- words of a line

// A number in decimal, as in 12.5 or -3e-2.
fn number(word: Option<&str>) -> Option<f64> {
    let word = word?;
    let decimal = |c| matches!(c, '+' | '-' | '.' | '0'..='9' | 'e' | 'E');
    word.chars().all(decimal).then(|| word.parse().ok())?
}

// A whole number from least to most, which has at most ten digits.
fn whole(word: Option<&str>, least: i64, most: i64) -> Option<i64> {
    let word = word?;
    let digits = word.strip_prefix('-').unwrap_or(word);
    if digits.len() > 10 || !digits.bytes().all(|b| b.is_ascii_digit()) {
        return None;
    }
    word.parse().ok().filter(|n| (least..=most).contains(n))
}

// A name of printable characters.
fn name(word: Option<&str>) -> Option<&str> {
    word.filter(|word| word.len() <= NAME && word.bytes().all(|b| b.is_ascii_graphic()))
}

type Words<'a> = dyn Iterator<Item = &'a str> + 'a;

// Longitude and latitude, and nothing where the words are over.
fn position<'a>(words: &mut Words<'a>) -> Option<Option<LonLat>> {
    let Some(first) = words.next() else {
        return Some(None);
    };
    let (longitude, latitude) = (number(Some(first))?, number(words.next())?);
    Some(Some(LonLat {
        longitude,
        latitude,
    }))
}

impl<W: Write> Desk<W> {
    fn new(set: Set, out: W) -> Desk<W> {
        Desk {
            set,
            window: Window::new(),
            accepted: Vec::with_capacity(Window::MOST as usize),
            how_many: 0,
            by_face: [0; 12],
            waiting: Vec::with_capacity(LIST),
            lines: Vec::with_capacity(LIST),
            minute: 0,
            outlines: Vec::new(),
            panel: Panel::new(),
            line: 0,
            strikes: 0,
            bad: 0,
            out,
            lost: false,
        }
    }

    // Names a bad line, and counts it.
    fn bad(&mut self, line: usize, what: &str) {
        tell(OsStr::new(&format!("line {line}: {what}")));
        self.bad += 1;
    }

    // ---- strikes

    fn keep(&mut self, place: Place) -> Result<(), Refusal> {
        self.window.add(self.minute, place.origin)?;
        let most = Window::MOST as usize;
        if self.accepted.len() < most {
            self.accepted.push(place);
        } else {
            self.accepted[self.how_many % most] = place;
        }
        self.how_many += 1;
        self.by_face[usize::from(place.origin)] += 1;
        Ok(())
    }

    // Places the strikes that wait, in one list.
    fn place_waiting(&mut self) {
        let (waiting, lines) = (
            std::mem::take(&mut self.waiting),
            std::mem::take(&mut self.lines),
        );
        let results = self.set.place_list(&waiting);
        for (result, line) in results.into_iter().zip(lines) {
            if let Err(refusal) = result.and_then(|place| self.keep(place)) {
                self.bad(line, &format!("strike refused with {}", refusal.number()));
            }
        }
    }

    fn strike<'a>(&mut self, first: &str, words: &mut Words<'a>) {
        let minute = whole(Some(first), 0, u32::MAX.into());
        let at = position(words).flatten();
        let (Some(minute), Some(at), None) = (minute, at, words.next()) else {
            self.place_waiting();
            return self.bad(self.line, "no strike, outline, turn or panel command");
        };
        if self.waiting.len() == LIST || minute != i64::from(self.minute) {
            self.place_waiting();
        }
        self.strikes += 1;
        self.minute = minute as u32;
        self.lines.push(self.line);
        self.waiting.push(at);
    }

    // ---- outlines, turns and the panel

    fn outline<'a>(&mut self, words: &mut Words<'a>) -> Result<(), String> {
        let name = name(words.next()).ok_or("no name")?;
        let mut positions = Vec::new();
        while let Some(at) =
            position(words).ok_or(format!("outline {name}: no longitude and latitude"))?
        {
            positions.push(at);
        }
        let refused =
            |refusal: Refusal| format!("outline {name} refused with {}", refusal.number());
        let region = self.set.region(&positions).map_err(refused)?;
        if self.outlines.len() == OUTLINES {
            return Err(format!("outline {name}: there are {OUTLINES} already"));
        }
        let (origin, sides) = (region.origin, region.bounds);
        let Sides {
            least_x,
            greatest_x,
            least_y,
            greatest_y,
        } = sides;
        self.print(&format!(
            "outline {name}: face {origin}, x {least_x:.9} to {greatest_x:.9}, y {least_y:.9} to {greatest_y:.9}"
        ));
        let name = name.to_string();
        self.outlines.push(Outline {
            name,
            origin,
            sides,
        });
        Ok(())
    }

    fn turn<'a>(&mut self, words: &mut Words<'a>) -> Result<(), String> {
        let name = name(words.next()).ok_or("no name")?;
        let mut wishes = Vec::new();
        for word in words {
            let wish =
                whole(Some(word), 0, u16::MAX.into()).ok_or(format!("turn {name}: no wish"))?;
            wishes.push(wish as u16);
        }
        // an array of sixteen cannot be refused
        let refused = |_| format!("turn {name} refused with {}", Refusal::WishCount.number());
        let wishes: [u16; CHANNELS] = wishes.try_into().map_err(refused)?;
        let grants = fair_turns(&wishes);
        let sum = |calls: &[u16]| calls.iter().map(|n| u32::from(*n)).sum::<u32>();
        let (wished, granted) = (sum(&wishes), sum(&grants));
        let crowded = if wished > 256 { ", crowded" } else { "" };
        let grants: Vec<String> = grants.iter().map(u16::to_string).collect();
        let grants = grants.join(" ");
        self.print(&format!(
            "turn {name}: {wished} wished, {granted} granted{crowded}: {grants}"
        ));
        Ok(())
    }

    fn panel<'a>(&mut self, words: &mut Words<'a>) -> Result<(), String> {
        let byte = |word| whole(word, 0, u8::MAX.into());
        let input = |word| whole(word, i32::MIN.into(), i32::MAX.into());
        let (command, origin) = (byte(words.next()), byte(words.next()));
        let inputs = (input(words.next()), input(words.next()));
        let (Some(command), Some(origin), (Some(first), Some(second)), None) =
            (command, origin, inputs, words.next())
        else {
            return Err("no panel command".to_string());
        };
        let registers = self.panel.bytes_mut();
        registers[0] = command as u8;
        registers[2] = 3; // both bits interrupt
        registers[4] = origin as u8;
        registers[8..12].copy_from_slice(&(first as i32).to_be_bytes());
        registers[12..16].copy_from_slice(&(second as i32).to_be_bytes());
        self.set.step(&mut self.panel);
        let r = *self.panel.bytes();
        let result = |at: usize| f64::from_be_bytes(r[at..at + 8].try_into().expect("eight bytes"));
        let (first, second) = (result(16), result(24));
        self.print(&format!(
            "panel {command}: status {}, interrupt {}, origin {}, refusal {}, results {first:.9} {second:.9}",
            r[1], r[3], r[4], r[5]
        ));
        Ok(())
    }

    // ---- the feed

    fn read_line(&mut self, line: &[u8]) {
        self.line += 1;
        if line.contains(&0) {
            self.place_waiting();
            return self.bad(self.line, "no text");
        }
        let text = String::from_utf8_lossy(line);
        let mut words = text
            .split([' ', '\t', '\r', '\n'])
            .filter(|word| !word.is_empty());
        let Some(first) = words.next().filter(|first| !first.starts_with('#')) else {
            return;
        };
        let kind = match first {
            "outline" => Self::outline,
            "turn" => Self::turn,
            "panel" => Self::panel,
            _ => return self.strike(first, &mut words),
        };
        self.place_waiting();
        if let Err(what) = kind(self, &mut words) {
            self.bad(self.line, &what);
        }
    }

    // ---- what is printed

    fn print(&mut self, line: &str) {
        self.lost |= writeln!(self.out, "{line}").is_err();
    }

    fn in_box(&self, outline: &Outline) -> usize {
        let sides = &outline.sides;
        let inside = |i: &usize| {
            let Place { origin, face } = self.accepted[i % Window::MOST as usize];
            origin == outline.origin
                && (sides.least_x..=sides.greatest_x).contains(&face.x)
                && (sides.least_y..=sides.greatest_y).contains(&face.y)
        };
        let kept = self.window.kept() as usize;
        (self.how_many - kept..self.how_many).filter(inside).count()
    }

    fn report(&mut self) {
        let (kept, counts) = (self.window.kept(), self.window.counts());
        self.print(&format!(
            "{} lines, {} strikes, {} accepted, {kept} in the window, {} bad lines",
            self.line, self.strikes, self.how_many, self.bad
        ));
        for (k, count) in counts.into_iter().enumerate() {
            if self.by_face[k] > 0 {
                self.print(&format!(
                    "face {k}: {count} in the window, {} accepted",
                    self.by_face[k]
                ));
            }
        }
        for outline in std::mem::take(&mut self.outlines) {
            let count = self.in_box(&outline);
            self.print(&format!("outline {}: {count} in the window", outline.name));
        }
        let sheet = self.window.sheet();
        self.lost |= write!(self.out, "{sheet}").is_err();
        self.lost |= self.out.flush().is_err();
    }
}

// ---- the beginning

// A line to standard error, a file's name with the bytes that it has; one that can't be written is passed over.
fn tell(what: &OsStr) {
    let mut line = what.as_encoded_bytes().to_vec();
    line.push(b'\n');
    let _ = std::io::stderr().write_all(&line);
}

fn failed(name: impl AsRef<OsStr>, what: &str) -> OsString {
    let mut words = name.as_ref().to_os_string();
    words.push(": ");
    words.push(what);
    words
}

fn table(name: &OsStr) -> Result<Set, OsString> {
    let mut bytes = Vec::new();
    // one byte more than a table file has, so that a longer one is refused
    File::open(name)
        .and_then(|file| file.take(TABLE_FILE + 1).read_to_end(&mut bytes))
        .map_err(|_| failed(name, "can't be read"))?;
    let set = Table::load(&bytes).and_then(Set::new_with);
    set.map_err(|refusal| failed(name, &format!("refused with {}", refusal.number())))
}

fn run(words: &[OsString]) -> Result<(), OsString> {
    let (set, name) = match words {
        [name] => (Set::new().map_err(|refusal| refusal.to_string())?, name),
        [option, file, name] if option == "--table" => (table(file)?, name),
        _ => return Err("usage: desk [--table FILE] FEED".into()),
    };
    let feed = File::open(name).map_err(|_| failed(name, "can't be read"))?;
    let mut feed = BufReader::new(feed);
    let mut desk = Desk::new(set, BufWriter::new(std::io::stdout()));
    let mut line = Vec::new();
    let unread = loop {
        line.clear();
        match feed.read_until(b'\n', &mut line) {
            Ok(0) => break false,
            Ok(_) => desk.read_line(&line),
            Err(_) => break true,
        }
    };
    desk.place_waiting();
    desk.report();
    let unread = unread.then(|| failed(name, "can't be read to its end"));
    if desk.lost {
        unread.iter().for_each(|what| tell(what));
        return Err(failed("standard output", "can't be written"));
    }
    unread.map_or(Ok(()), Err)
}

fn main() -> ExitCode {
    let words: Vec<OsString> = std::env::args_os().skip(1).collect();
    match run(&words) {
        Ok(()) => ExitCode::SUCCESS,
        Err(what) => {
            tell(&what);
            ExitCode::FAILURE
        }
    }
}
