//! A window of strikes in Rust: what is kept and counted, the refusals in their order, and the ends of the range.

use a5_faces::{Refusal, Window};

const MOST: usize = Window::MOST as usize;

// The counts, with so many of one origin.
fn only(origin: usize, count: u32) -> [u32; 12] {
    let mut counts = [0; 12];
    counts[origin] = count;
    counts
}

fn full(minute: u32, origin: u8) -> Window {
    let mut window = Window::new();
    for _ in 0..MOST {
        assert_eq!(window.add(minute, origin), Ok(()));
    }
    window
}

#[test]
fn a_new_window_is_empty() {
    let window = Window::new();
    assert_eq!((window.kept(), window.counts()), (0, [0; 12]));
    assert_eq!(Window::default().counts(), [0; 12]);
}

#[test]
fn a_strike_is_kept_for_180_minutes() {
    let mut window = Window::new();
    assert_eq!(window.add(1000, 3), Ok(()));
    assert_eq!(window.add(1179, 4), Ok(()));
    assert_eq!((window.kept(), window.counts()[3]), (2, 1));
    assert_eq!(window.add(1180, 4), Ok(()));
    assert_eq!((window.kept(), window.counts()), (2, only(4, 2)));
    assert_eq!(window.add(1360, 11), Ok(()));
    assert_eq!((window.kept(), window.counts()), (1, only(11, 1)));
}

#[test]
fn refusals_in_their_order() {
    let mut window = full(500, 7);
    let refused = |window: &mut Window, minute, origin, refusal| {
        assert_eq!(window.add(minute, origin), Err(refusal));
        assert_eq!((window.kept(), window.counts()), (4096, only(7, 4096)));
    };
    refused(&mut window, 499, 12, Refusal::UnknownOrigin);
    refused(&mut window, 700, 255, Refusal::UnknownOrigin);
    refused(&mut window, 499, 11, Refusal::EarlierMinute);
    refused(&mut window, 500, 11, Refusal::WindowFull);
    refused(&mut window, 679, 0, Refusal::WindowFull);
    assert_eq!(window.add(680, 0), Ok(()));
    assert_eq!((window.kept(), window.counts()), (1, only(0, 1)));
}

#[test]
fn the_ends_of_the_range() {
    let mut window = Window::new();
    for minute in [0, 0, 179, u32::MAX - 179, u32::MAX, u32::MAX] {
        assert_eq!(window.add(minute, 0), Ok(()));
    }
    assert_eq!(window.kept(), 3);
    assert_eq!(window.add(u32::MAX - 1, 0), Err(Refusal::EarlierMinute));
    assert_eq!(window.add(0, 0), Err(Refusal::EarlierMinute));
    window.clear();
    assert_eq!((window.kept(), window.counts()), (0, [0; 12]));
    assert_eq!(window.add(0, 0), Ok(()));
}

// 100 strikes a minute, so that the ring goes round every 41 minutes and is full from then on.
#[test]
fn the_ring_goes_round() {
    let mut window = Window::new();
    let mut accepted: Vec<u32> = Vec::new();
    for i in 0..200_000 {
        let minute = i / 100;
        let remain = accepted
            .iter()
            .rev()
            .take_while(|m| minute - **m < 180)
            .count();
        let given = window.add(minute, (i % 12) as u8);
        match given {
            Ok(()) => accepted.push(minute),
            Err(refusal) => assert_eq!((refusal, remain), (Refusal::WindowFull, MOST)),
        }
        let kept = if given.is_ok() { remain + 1 } else { remain };
        assert_eq!(window.kept() as usize, kept);
        assert_eq!(window.counts().iter().sum::<u32>() as usize, kept);
    }
    assert!(accepted.len() > 40_000);
}

#[test]
fn a_clone_is_another_window() {
    let mut window = full(5, 2);
    let other = window.clone();
    assert_eq!(window.add(185, 3), Ok(()));
    assert_eq!((window.kept(), other.kept()), (1, 4096));
    assert_eq!(
        format!("{window:?}"),
        "Window { kept: 1, counts: [0, 0, 0, 1, 0, 0, 0, 0, 0, 0, 0, 0], .. }"
    );
    let there = std::thread::spawn(move || other.counts());
    assert_eq!(there.join().unwrap(), only(2, 4096));
}
