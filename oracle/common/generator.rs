// A small generator of numbers (splitmix64), so that the same seed always gives the same list.

pub struct Generator {
    state: u64,
}

impl Generator {
    pub fn new(seed: u64) -> Generator {
        Generator { state: seed }
    }

    pub fn bits(&mut self) -> u64 {
        self.state = self.state.wrapping_add(0x9e3779b97f4a7c15);
        let mut z = self.state;
        z = (z ^ (z >> 30)).wrapping_mul(0xbf58476d1ce4e5b9);
        z = (z ^ (z >> 27)).wrapping_mul(0x94d049bb133111eb);
        z ^ (z >> 31)
    }

    // A whole number from low up to, not including, high.
    pub fn whole(&mut self, low: i64, high: i64) -> i64 {
        low + (self.bits() % (high - low) as u64) as i64
    }

    // From 0 up to, not including, 1.
    pub fn unit(&mut self) -> f64 {
        (self.bits() >> 11) as f64 / 9007199254740992.0
    }

    pub fn between(&mut self, low: f64, high: f64) -> f64 {
        low + (high - low) * self.unit()
    }

    // Any pattern: every exponent is as likely as every other.
    pub fn any(&mut self) -> f64 {
        f64::from_bits(self.bits())
    }

    // Of either sign, with an exponent's field from low up to, not including, high.
    pub fn with_field(&mut self, low: i64, high: i64) -> f64 {
        let field = self.whole(low, high) as u64;
        f64::from_bits(self.bits() & !(0x7ff << 52) | field << 52)
    }

    // A subnormal of either sign, or a zero.
    pub fn subnormal(&mut self) -> f64 {
        let width = self.whole(1, 53);
        f64::from_bits(self.bits() & (1 << 63 | ((1 << width) - 1)))
    }
}
