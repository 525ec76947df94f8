// The oracle's own tests: the paper's numbers, the limits, and that every number is given.

use crate::generator::Generator;
use crate::inputs::{beyond, built_in, files, limit, limits};
use crate::table::{file, load};

pub fn run() {
    let own = built_in();
    assert_eq!(file(&own).len(), 677);
    assert_eq!(load(&file(&own)).map(|table| table.map(f64::to_bits)), Ok(own.map(f64::to_bits)));
    for place in 0..84 {
        let mut other = own;
        other[place] = beyond(limit(place));
        assert_eq!(load(&file(&other)), Err(21));
    }
    // within and off unit length by turns, by whole squares: a sum that differs by more than 1e-12 in exact arithmetic too
    for (k, q) in limits().into_iter().enumerate() {
        let mut other = own;
        other[2..6].copy_from_slice(&q);
        assert_eq!(load(&file(&other)).err(), if k % 2 == 0 { None } else { Some(22) });
        let sum: f64 = q.iter().map(|n| n * n).sum();
        assert!(((sum - 1.0).abs() - 1e-12).abs() < 1e-15, "{q:?} is at the limit");
    }
    let mut counts = [0; 23];
    for f in files(&mut Generator::new(1)) {
        let loaded = load(&f);
        if let Ok(table) = loaded {
            assert_eq!(file(&table), f);
        }
        counts[loaded.err().unwrap_or(0) as usize] += 1;
    }
    assert!([0, 20, 21, 22].iter().all(|n| counts[*n] > 30), "{counts:?}");
}
