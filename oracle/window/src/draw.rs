// Long lists of additions: the paces at which a window fills, stays full and empties, and those that are refused.

use crate::generator::Generator;
use crate::window::Strike;

// A pace lasts for so many additions.
const A_PACE: usize = 5000;

pub struct Draw {
    pub g: Generator,
    // the last minute that was drawn, and how many were
    minute: u32,
    drawn: usize,
}

impl Draw {
    pub fn new(seed: u64) -> Draw {
        let g = Generator::new(seed);
        Draw {
            g,
            minute: 0,
            drawn: 0,
        }
    }

    // For a new window.
    pub fn start(&mut self, minute: u32) {
        self.minute = minute;
        self.drawn = 0;
    }

    // How many minutes go by until the next strike: one in 32, so that 4,096 are reached; about as many as leave it near
    // full; none, in bursts with a leap between them; some hours at a time.
    fn pause(&mut self) -> u32 {
        let chance = |g: &mut Generator, n| g.whole(0, n) == 0;
        match self.drawn / A_PACE % 4 {
            0 => chance(&mut self.g, 32) as u32,
            1 => chance(&mut self.g, 23) as u32,
            2 if chance(&mut self.g, 1500) => self.g.whole(170, 190) as u32,
            2 => 0,
            _ if chance(&mut self.g, 40) => self.g.whole(0, 400) as u32,
            _ => chance(&mut self.g, 3) as u32,
        }
    }

    // About one in 40 has an origin above 11, and one in 40 an earlier minute; some have both.
    pub fn strike(&mut self) -> Strike {
        self.drawn += 1;
        let pause = self.pause();
        self.minute = self.minute.saturating_add(pause);
        let mut minute = self.minute;
        if self.g.whole(0, 40) == 0 {
            minute = minute.saturating_sub(self.g.whole(0, 5) as u32);
        }
        let origin = match self.g.whole(0, 40) {
            0 => self.g.whole(12, 256),
            _ => self.g.whole(0, 12),
        };
        Strike {
            minute,
            origin: origin as u8,
        }
    }
}
