//! Keys of which the nth is drawn as often as n to the power of minus the skew, without a table: by rejection from a curve
//! that lies above these shares, whose integral is inverted, as `Zipf` of the crate `rand_distr` does.

pub struct Dice(pub u64);

impl Dice {
    /// A number from 0 to 1.
    pub fn roll(&mut self) -> f64 {
        self.0 ^= self.0 << 13;
        self.0 ^= self.0 >> 7;
        self.0 ^= self.0 << 17;
        (self.0.wrapping_mul(0x2545_f491_4f6c_dd1d) >> 11) as f64 / (1u64 << 53) as f64
    }
}

/// The curve is 1 up to 1, and from there on x to the power of minus the skew; the skew isn't 1.
pub struct Zipf {
    skew: f64,
    /// Its integral up to the number of keys.
    area: f64,
}

impl Zipf {
    pub fn new(keys: usize, skew: f64) -> Zipf {
        Zipf { skew, area: ((keys as f64).powf(1.0 - skew) - skew) / (1.0 - skew) }
    }

    /// Where the integral is that share of the whole.
    fn place(&self, share: f64) -> f64 {
        let upto = share * self.area;
        if upto <= 1.0 {
            return upto;
        }
        (upto * (1.0 - self.skew) + self.skew).powf(1.0 / (1.0 - self.skew))
    }

    /// A key from 0 on.
    pub fn draw(&self, dice: &mut Dice) -> u64 {
        loop {
            let place = self.place(dice.roll());
            let number = (place + 1.0).floor();
            let curve = if number > 1.0 { place.powf(-self.skew) } else { 1.0 };
            if dice.roll() * curve < number.powf(-self.skew) {
                return number as u64 - 1;
            }
        }
    }
}
