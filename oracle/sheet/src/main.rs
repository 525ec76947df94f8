// The list of the sheet that crate replay_tools is run on: windows with their pages. With the word `test` the oracle's own tests.

#[path = "../../window/src/draw.rs"]
mod draw;
#[allow(dead_code)]
#[path = "../../common/generator.rs"]
mod generator;
mod sheet;
#[allow(dead_code)]
#[path = "../../window/src/window.rs"]
mod window;

use draw::Draw;
use generator::Generator;
use std::io::Write;
use window::{Strike, Window, MOST};

// The room of which a page is lent, and what lies in it before.
const ROOM: usize = 4864;
const BEFORE: u8 = b'#';

// The counts, how many bytes of the room are lent, the status, and the room afterwards.
fn record(list: &mut Vec<u8>, counts: [u32; 12], lent: usize) {
    let mut room = [BEFORE; ROOM];
    let status = sheet::print(&counts, &mut room[..lent]);
    for count in counts {
        list.extend(count.to_be_bytes());
    }
    list.extend((lent as u16).to_be_bytes());
    list.push(status);
    list.extend(room);
}

fn full_of(origin: u8) -> Window {
    let mut window = Window::default();
    for _ in 0..MOST {
        assert_eq!(window.add(Strike { minute: 0, origin }), 0);
    }
    window
}

// After so many additions.
fn mixed(draw: &mut Draw, additions: usize) -> Window {
    let mut window = Window::default();
    draw.start(0);
    for _ in 0..additions {
        window.add(draw.strike());
    }
    window
}

// The greatest count, and those about every power of ten.
fn edges() -> Vec<u32> {
    let powers = (1..10).map(|k| 10u32.pow(k));
    let near = powers.flat_map(|p| [p - 1, p, p + 1]);
    near.chain([0, u32::MAX - 1, u32::MAX]).collect()
}

fn foreign(g: &mut Generator) -> [u32; 12] {
    let edges = edges();
    std::array::from_fn(|_| match g.whole(0, 3) {
        0 => g.bits() as u32,
        1 => edges[g.whole(0, edges.len() as i64) as usize],
        _ => g.bits() as u32 >> g.whole(0, 32),
    })
}

fn answers() -> Vec<u8> {
    let mut list = Vec::new();
    let mut draw = Draw::new(13);
    let mut one = Window::default();
    one.add(Strike {
        minute: 7,
        origin: 11,
    });
    record(&mut list, [0; 12], sheet::PAGE);
    record(&mut list, one.counts(), sheet::PAGE);
    for origin in [0, 9, 10, 11] {
        record(&mut list, full_of(origin).counts(), sheet::PAGE);
    }
    for additions in [1, 9, 10, 100, 1000, 4096, 5000, 6000, 12000, 17000] {
        record(
            &mut list,
            mixed(&mut draw, additions).counts(),
            sheet::PAGE,
        );
    }
    // All greatest: the sum has eleven digits. The least sum of eleven, and the greatest of ten.
    record(&mut list, [u32::MAX; 12], sheet::PAGE);
    record(&mut list, sum_of(10_000_000_000), sheet::PAGE);
    record(&mut list, sum_of(9_999_999_999), sheet::PAGE);
    for count in edges() {
        record(&mut list, [count; 12], sheet::PAGE);
    }
    for lent in [0, 1, 81, 4859, 4861, ROOM] {
        record(&mut list, foreign(&mut draw.g), lent);
    }
    for _ in 0..40 {
        record(&mut list, foreign(&mut draw.g), sheet::PAGE);
    }
    list
}

// Counts with this sum, from origin 0 on as great as they can be.
fn sum_of(sum: u64) -> [u32; 12] {
    let mut left = sum;
    std::array::from_fn(|_| {
        let count = left.min(u32::MAX as u64);
        left -= count;
        count as u32
    })
}

// The paper's places, by hand.
fn test() {
    let page = sheet::text(&mixed(&mut Draw::new(1), 700).counts());
    let lines: Vec<&str> = page.lines().collect();
    assert_eq!((page.len(), lines.len()), (4860, 60));
    assert!(lines.iter().all(|line| line.len() == 80) && page.ends_with('\n'));
    assert_eq!(lines[0].trim_end(), "STORM COUNTS");
    let page = sheet::text(&[0, 1, 2, 3, 4, 5, 6, 7, 8, 9, 4_294_967_295, 11]);
    let lines: Vec<&str> = page.lines().collect();
    assert_eq!(&lines[2][..2], " 0");
    assert_eq!((&lines[12][..2], &lines[12][70..]), ("10", "4294967295"));
    assert_eq!((&lines[13][..2], &lines[13][70..]), ("11", "        11"));
    assert_eq!((&lines[14][..3], &lines[14][70..]), ("ALL", "4294967351"));
    assert!(lines[1].trim().is_empty() && lines[15..].iter().all(|line| line.trim().is_empty()));
    let page = sheet::text(&sum_of(10_000_000_007));
    assert_eq!(&page[14 * 81 + 70..][..10], "0000000007");
    let mut short = [BEFORE; 4859];
    assert_eq!(sheet::print(&[0; 12], &mut short), 26);
    assert_eq!(short, [BEFORE; 4859]);
}

fn main() {
    if std::env::args().nth(1).as_deref() == Some("test") {
        return test();
    }
    std::io::stdout().write_all(&answers()).expect("written");
}
