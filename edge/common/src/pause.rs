//! A pause before something is tried again: the longer the more often it has failed, and drawn at random, so that those who
//! lose a server together don't come back together.
use std::hash::{BuildHasher, RandomState};
use std::time::Duration;

pub struct Pause {
    next: Duration,
    shortest: Duration,
    longest: Duration,
}

impl Pause {
    pub fn new(shortest: Duration, longest: Duration) -> Pause {
        Pause { next: shortest, shortest, longest }
    }

    /// After what was tried has gone well.
    pub fn begin_anew(&mut self) {
        self.next = self.shortest;
    }

    pub fn draw(&mut self) -> Duration {
        self.drawn(random())
    }

    /// From the half of what it may be on.
    fn drawn(&mut self, random: u64) -> Duration {
        let pause = self.next.mul_f64(0.5 + (random % 1000) as f64 / 2000.0);
        self.next = (self.next * 2).min(self.longest);
        pause
    }
}

pub fn random() -> u64 {
    RandomState::new().hash_one(0)
}

#[cfg(test)]
mod tests {
    use super::*;

    #[test]
    fn it_grows_to_its_longest_and_is_drawn() {
        let mut pause = Pause::new(Duration::from_millis(50), Duration::from_secs(5));
        let mut millis = |random: u64| pause.drawn(random).as_micros() as f64 / 1000.0;
        assert_eq!([0, 500, 999, 0].map(&mut millis), [25.0, 75.0, 199.9, 200.0]);
        assert_eq!([0; 5].map(&mut millis), [400.0, 800.0, 1600.0, 2500.0, 2500.0]);
        pause.begin_anew();
        assert_eq!(pause.drawn(0), Duration::from_millis(25));
    }

    #[test]
    fn two_draws_differ() {
        assert!((0..9).any(|_| random() != random()));
    }
}
