// The calls beside a set in plain Rust: what one would write without the library, with the same promises.

use a5_faces::{Refusal, Sides};
use std::collections::VecDeque;

// A caption box.
#[derive(Default)]
pub struct Bounds(pub Option<Sides>);

impl Bounds {
    pub fn take_in(&mut self, x: f64, y: f64) -> Result<(), Refusal> {
        for n in [x, y] {
            check(n, 4.0)?;
        }
        let sides = self.0.get_or_insert(Sides {
            least_x: x,
            greatest_x: x,
            least_y: y,
            greatest_y: y,
        });
        sides.least_x = sides.least_x.min(x);
        sides.greatest_x = sides.greatest_x.max(x);
        sides.least_y = sides.least_y.min(y);
        sides.greatest_y = sides.greatest_y.max(y);
        Ok(())
    }
}

fn check(n: f64, limit: f64) -> Result<(), Refusal> {
    if !n.is_finite() {
        Err(Refusal::NotFinite)
    } else if n.abs() > limit {
        Err(Refusal::OutOfRange)
    } else {
        Ok(())
    }
}

// A window of strikes.
#[derive(Default)]
pub struct Deque {
    strikes: VecDeque<(u32, u8)>,
    pub counts: [u32; 12],
    last: u32,
}

impl Deque {
    pub fn add(&mut self, minute: u32, origin: u8) -> Result<(), Refusal> {
        if origin > 11 {
            return Err(Refusal::UnknownOrigin);
        }
        if minute < self.last {
            return Err(Refusal::EarlierMinute);
        }
        // A full window drops nothing exactly if its oldest strike stays.
        let is_old = |strike: &(u32, u8)| minute - strike.0 >= 180;
        if self.strikes.len() == 4096 && !self.strikes.front().is_some_and(is_old) {
            return Err(Refusal::WindowFull);
        }
        while self.strikes.front().is_some_and(is_old) {
            let (_, origin) = self.strikes.pop_front().expect("it is there");
            self.counts[origin as usize] -= 1;
        }
        self.strikes.push_back((minute, origin));
        self.counts[origin as usize] += 1;
        self.last = minute;
        Ok(())
    }
}

// The as-run sheet.
pub fn sheet(counts: &[u32; 12]) -> String {
    let mut page = format!("{:<80}\n{:80}\n", "STORM COUNTS", "");
    for (origin, count) in counts.iter().enumerate() {
        page += &format!("{origin:>2}{count:>78}\n");
    }
    let sum: u64 = counts.iter().map(|n| u64::from(*n)).sum();
    page += &format!("ALL{sum:>77}\n");
    for _ in 15..60 {
        page += &format!("{:80}\n", "");
    }
    page
}

// Fair turns, handed out one by one as the paper says it.
pub fn fair_turns(wishes: &[u16; 16]) -> [u16; 16] {
    let mut grants = wishes.map(|wish| wish.min(16));
    let mut left = 256 - grants.iter().sum::<u16>();
    loop {
        let mut handed = false;
        for (grant, wish) in grants.iter_mut().zip(wishes) {
            if left > 0 && *grant < *wish {
                *grant += 1;
                left -= 1;
                handed = true;
            }
        }
        if !handed {
            return grants;
        }
    }
}

// The table file.
pub fn load(file: &[u8]) -> Result<[f64; 84], Refusal> {
    if file.len() != 677 || !file.starts_with(b"EAT\x00\x01") {
        return Err(Refusal::TableFile);
    }
    let mut numbers = [0.0; 84];
    for (number, bytes) in numbers.iter_mut().zip(file[5..].chunks_exact(8)) {
        *number = f64::from_be_bytes(bytes.try_into().expect("eight bytes"));
    }
    for row in numbers.chunks_exact(7) {
        for (k, number) in row.iter().enumerate() {
            let limit = if (2..6).contains(&k) { 1.0 } else { 8.0 };
            check(*number, limit).map_err(|_| Refusal::TableNumber)?;
        }
    }
    for row in numbers.chunks_exact(7) {
        let sum = row[2] * row[2] + row[3] * row[3] + row[4] * row[4] + row[5] * row[5];
        if (sum - 1.0).abs() > 1e-12 {
            return Err(Refusal::TableQuaternion);
        }
    }
    Ok(numbers)
}

pub fn save(numbers: &[f64; 84]) -> [u8; 677] {
    let mut file = [0; 677];
    file[..5].copy_from_slice(b"EAT\x00\x01");
    for (bytes, number) in file[5..].chunks_exact_mut(8).zip(numbers) {
        bytes.copy_from_slice(&number.to_be_bytes());
    }
    file
}
