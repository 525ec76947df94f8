// Paper 5, "Three hours of strikes", by its words. Every accepted addition is remembered, and what is kept is looked up in
// that list each time.

#[derive(Clone, Copy, Debug, PartialEq)]
pub struct Strike {
    pub minute: u32,
    pub origin: u8,
}

// "We need a window of at most 4,096 strikes". "Directors compare the last 180 minutes."
pub const MOST: usize = 4096;
pub const MINUTES: u32 = 180;

#[derive(Default)]
pub struct Window {
    accepted: Vec<Strike>,
}

impl Window {
    // Those accepted that are not "180 or more behind" a minute, which none of them is after. No accepted minute is earlier
    // than the one before, so the search from the last one on ends at the first that is too old.
    fn recent(&self, minute: u32) -> &[Strike] {
        let old = |s: &Strike| minute - s.minute >= MINUTES;
        let count = self.accepted.iter().rev().take_while(|s| !old(s)).count();
        &self.accepted[self.accepted.len() - count..]
    }

    // "What is kept is defined from the list of accepted additions alone": those less than 180 behind the last.
    pub fn kept(&self) -> &[Strike] {
        match self.accepted.last() {
            Some(last) => self.recent(last.minute),
            None => &[],
        }
    }

    // "The twelve counts must each equal the number of kept strikes with that origin".
    pub fn counts(&self) -> [u32; 12] {
        let mut counts = [0; 12];
        for strike in self.kept() {
            counts[strike.origin as usize] += 1;
        }
        counts
    }

    // "An id above 11 still gets 4, tried first". "17: the minute is earlier than the last accepted one, tried after 4.
    // 18: 4,096 strikes remain after the drop, tried last." "An equal minute is accepted."
    pub fn add(&mut self, strike: Strike) -> u8 {
        if strike.origin > 11 {
            return 4;
        }
        if self
            .accepted
            .last()
            .is_some_and(|last| strike.minute < last.minute)
        {
            return 17;
        }
        if self.recent(strike.minute).len() >= MOST {
            return 18;
        }
        self.accepted.push(strike);
        0
    }

    // So many have been accepted.
    pub fn accepted(&self) -> usize {
        self.accepted.len()
    }

    // For the oracle's own test: the same by looking at every accepted one.
    pub fn kept_of_all(&self) -> Vec<Strike> {
        let last = self.accepted.last().map_or(0, |s| s.minute);
        let is_kept = |s: &&Strike| last - s.minute < MINUTES;
        self.accepted.iter().filter(is_kept).copied().collect()
    }
}
