//! The as-run sheet in Rust: the page of an empty window, of one strike, of a full window, and how the lines lie.

use a5_faces::{Window, PAGE};

// The page as text, by the rows that aren't blank.
fn page(counts: [u32; 12]) -> String {
    let mut lines = vec!["STORM COUNTS".to_string(), String::new()];
    for (origin, count) in counts.iter().enumerate() {
        lines.push(format!("{origin:2}{count:78}"));
    }
    lines.push(format!("ALL{:77}", counts.iter().sum::<u32>()));
    lines.resize(60, String::new());
    lines.iter().map(|line| format!("{line:80}\n")).collect()
}

#[test]
fn an_empty_window() {
    let sheet = Window::new().sheet();
    assert_eq!(sheet.len(), PAGE);
    assert_eq!(sheet, page([0; 12]));
}

#[test]
fn one_strike() {
    let mut window = Window::new();
    assert_eq!(window.add(5, 10), Ok(()));
    let sheet = window.sheet();
    let lines: Vec<&str> = sheet.lines().collect();
    assert_eq!((&lines[12][..2], &lines[12][70..]), ("10", "         1"));
    assert_eq!((&lines[14][..3], &lines[14][70..]), ("ALL", "         1"));
    assert_eq!(sheet, page(window.counts()));
}

#[test]
fn a_full_window_of_one_origin() {
    let mut window = Window::new();
    for _ in 0..Window::MOST {
        assert_eq!(window.add(0, 7), Ok(()));
    }
    assert_eq!(&window.sheet()[9 * 81..9 * 81 + 81], format!(" 7{:78}\n", 4096));
    assert_eq!(window.sheet(), page(window.counts()));
}

#[test]
fn a_mixed_window() {
    let mut window = Window::new();
    for i in 0..3000u32 {
        assert_eq!(window.add(i / 20, (i * i % 12) as u8), Ok(()));
        if i % 100 == 0 {
            assert_eq!(window.sheet(), page(window.counts()));
        }
    }
    let sheet = window.sheet();
    assert_eq!(sheet.lines().count(), 60);
    assert!(sheet.lines().all(|line| line.len() == 80));
}
