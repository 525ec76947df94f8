// The list of windows that crate replay_tools is run on: long lists of additions with what each gives, and at times the counts, the number
// kept and some of the kept strikes. With the word `test` the oracle's own tests.

mod draw;
#[allow(dead_code)]
#[path = "../../common/generator.rs"]
mod generator;
#[allow(dead_code)]
#[path = "../../common/list.rs"]
mod list;
mod window;

use draw::Draw;
use list::List;
use window::{Strike, Window, MOST};

// The functions' numbers in the list.
const NEW: u8 = 1;
const ADD: u8 = 2;
const COUNT: u8 = 3;
const STRIKE: u8 = 4;

// A whole number stands in the list by its bits.
fn whole(n: u64) -> f64 {
    f64::from_bits(n)
}

fn look(list: &mut List, draw: &mut Draw, window: &Window) {
    let kept = window.kept();
    for (k, count) in window.counts().into_iter().enumerate() {
        let answers = [whole(count as u64), whole(kept.len() as u64)];
        list.answered(COUNT, &[whole(k as u64)], &answers);
    }
    for _ in 0..kept.len().min(4) {
        let i = draw.g.whole(0, kept.len() as i64) as usize;
        let answers = [whole(kept[i].minute as u64), whole(kept[i].origin as u64)];
        list.answered(STRIKE, &[whole(i as u64)], &answers);
    }
}

// One window with so many additions. The numbers of the arguments are those of the draw.
fn additions(list: &mut List, draw: &mut Draw, start: u32, count: usize) {
    list.answered(NEW, &[whole(0)], &[whole(0)]);
    draw.start(start);
    let mut window = Window::default();
    for i in 0..count {
        let strike = draw.strike();
        let x = [whole(strike.minute as u64), whole(strike.origin as u64)];
        match window.add(strike) {
            0 => list.answered(ADD, &x, &[]),
            refusal => list.refused(ADD, refusal, &x),
        }
        if i % 100 == 99 {
            look(list, draw, &window);
        }
    }
}

fn answers() -> List {
    let mut list = List::new();
    let mut draw = Draw::new(5);
    for (start, count) in [
        (0, 14000),
        (u32::MAX - 40, 2000),
        (3_000_000_000, 500),
        (u32::MAX, 100),
    ] {
        additions(&mut list, &mut draw, start, count);
    }
    list
}

fn strike(minute: u32, origin: u8) -> Strike {
    Strike { minute, origin }
}

// The paper's own cases, and that looking from the last one on finds what looking at all finds.
fn test() {
    let mut window = Window::default();
    for i in 0..MOST {
        assert_eq!(window.add(strike(7, (i % 12) as u8)), 0, "an equal minute");
    }
    assert_eq!(window.add(strike(6, 12)), 4);
    assert_eq!(window.add(strike(6, 11)), 17);
    assert_eq!(window.add(strike(186, 11)), 18);
    assert_eq!(
        (window.kept().len(), window.counts().iter().sum()),
        (MOST, MOST as u32)
    );
    assert_eq!(window.add(strike(187, 11)), 0);
    assert_eq!(window.kept(), [strike(187, 11)]);
    let mut draw = Draw::new(6);
    let mut window = Window::default();
    draw.start(0);
    for _ in 0..20000 {
        window.add(draw.strike());
        assert_eq!(window.kept(), window.kept_of_all());
    }
    assert!(window.accepted() > 2 * MOST);
}

fn main() {
    list::run(test, answers);
}
