// Paper 13, "The as-run sheet", by its words: the page as formatted text.

// "It has 80 columns and 60 lines, each line ended by a newline."
pub const LINES: usize = 60;
pub const PAGE: usize = 4860;

// A number as it stands in ten columns: of a longer one the last ten digits.
fn digits(n: u64) -> String {
    let text = n.to_string();
    let first = text.len().saturating_sub(10);
    text[first..].into()
}

pub fn text(counts: &[u32; 12]) -> String {
    // "Line 1 is "STORM COUNTS" and spaces. Line 2 is spaces."
    let mut lines = vec![String::from("STORM COUNTS"), String::new()];
    // "origins 0 to 11 in turn in columns 1 to 2 and the window's count of each in columns 71 to 80, both right-aligned"
    for (origin, count) in counts.iter().enumerate() {
        lines.push(format!("{origin:>2}{:>78}", digits(*count as u64)));
    }
    // "Line 15 has "ALL" in columns 1 to 3 and the sum, right-aligned too, in columns 71 to 80."
    let sum = counts.iter().map(|count| *count as u64).sum();
    lines.push(format!("ALL{:>77}", digits(sum)));
    // "The other lines are spaces."
    lines.resize(LINES, String::new());
    lines.iter().map(|line| format!("{line:<80}\n")).collect()
}

// "Refusal 26: the lent page isn't 4,860 bytes, tried first, page unchanged."
pub fn print(counts: &[u32; 12], page: &mut [u8]) -> u8 {
    if page.len() != PAGE {
        return 26;
    }
    page.copy_from_slice(text(counts).as_bytes());
    0
}
