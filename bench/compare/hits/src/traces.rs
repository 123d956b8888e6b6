//! Keys that are asked for, one after another: by Zipf's law, with others that come once or for a while, in loops, and by
//! laws that change. The same each time.
use std::cmp::Reverse;
use std::collections::{BinaryHeap, HashMap};

const KEYS: u64 = 100_000;
const GETS: usize = 2_000_000;

/// Keys from here on are no others' and come anew.
const FRESH: u64 = 1 << 40;

/// Numbers by splitmix64.
struct Dice(u64);

impl Dice {
    fn next(&mut self) -> u64 {
        self.0 = self.0.wrapping_add(0x9e37_79b9_7f4a_7c15);
        let mut mixed = self.0;
        mixed = (mixed ^ mixed >> 30).wrapping_mul(0xbf58_476d_1ce4_e5b9);
        mixed = (mixed ^ mixed >> 27).wrapping_mul(0x94d0_49bb_1331_11eb);
        mixed ^ mixed >> 31
    }

    /// From 0 to 1.
    fn roll(&mut self) -> f64 {
        (self.next() >> 11) as f64 / (1u64 << 53) as f64
    }

    fn below(&mut self, bound: u64) -> u64 {
        ((u128::from(self.next()) * u128::from(bound)) >> 64) as u64
    }
}

/// Ranks from 0 on, of which the nth is drawn as often as n to the power of minus the skew.
struct Zipf(Vec<f64>);

impl Zipf {
    fn new(keys: u64, skew: f64) -> Zipf {
        let mut sum = 0.0;
        let mut sums: Vec<f64> = (1..=keys)
            .map(|rank| {
                sum += (rank as f64).powf(-skew);
                sum
            })
            .collect();
        sums.iter_mut().for_each(|upto| *upto /= sum);
        Zipf(sums)
    }

    fn draw(&self, dice: &mut Dice) -> u64 {
        let roll = dice.roll();
        self.0.partition_point(|&upto| upto < roll) as u64
    }
}

fn zipf(skew: f64) -> Vec<u64> {
    let (zipf, mut dice) = (Zipf::new(KEYS, skew), Dice(1));
    (0..GETS).map(|_| zipf.draw(&mut dice)).collect()
}

/// Between so many keys of Zipf's law a scan of so many that come once.
fn scans(skew: f64, dice: u64, between: usize, scan: usize) -> Vec<u64> {
    let (zipf, mut dice, mut fresh) = (Zipf::new(KEYS, skew), Dice(dice), FRESH..);
    let mut trace = Vec::new();
    while trace.len() < GETS {
        trace.extend((0..between).map(|_| zipf.draw(&mut dice)));
        trace.extend(fresh.by_ref().take(scan));
    }
    trace
}

/// Each fourth key comes once.
fn once() -> Vec<u64> {
    let (zipf, mut dice, mut fresh) = (Zipf::new(KEYS, 0.99), Dice(4), FRESH..);
    let draw = |_| match dice.below(4) {
        0 => fresh.next().expect("they have no end"),
        _ => zipf.draw(&mut dice),
    };
    (0..GETS).map(draw).collect()
}

fn looping(keys: usize) -> Vec<u64> {
    (0..keys as u64).cycle().take(GETS).collect()
}

/// Other keys are the popular ones after each 100,000 gets.
fn moving() -> Vec<u64> {
    let (zipf, mut dice) = (Zipf::new(KEYS, 0.99), Dice(5));
    (0..GETS as u64).map(|at| (zipf.draw(&mut dice) + at / 100_000 * 37_003) % KEYS).collect()
}

/// The newest are the popular ones, and each twentieth get brings a new one.
fn news() -> Vec<u64> {
    let (zipf, mut dice) = (Zipf::new(KEYS, 0.99), Dice(6));
    (0..GETS as u64).map(|at| FRESH + at / 20 - zipf.draw(&mut dice)).collect()
}

/// Four fifths of the gets are of a fifth of the pages, and of that fifth again; half of all gets go along pages in a row.
fn pages() -> Vec<u64> {
    let mut dice = Dice(7);
    let mut trace = Vec::new();
    while trace.len() < GETS {
        if dice.below(200) < 198 {
            let place = dice.roll().powf(0.2f64.ln() / 0.8f64.ln());
            trace.push((place * KEYS as f64) as u64 * 7919 % KEYS);
        } else {
            let (first, count) = (dice.below(KEYS), 8 + dice.below(200));
            trace.extend((first..first + count).map(|page| page % KEYS));
        }
    }
    trace
}

/// Loops of 3,000, 12,000 and 30,000 keys and Zipf's law take turns, and each goes on where it was.
fn loops() -> Vec<u64> {
    let (zipf, mut dice) = (Zipf::new(50_000, 0.9), Dice(8));
    let lengths = [3000, 12_000, 30_000];
    let mut places = [0; 3];
    let mut trace = Vec::new();
    while trace.len() < GETS {
        let (turn, count) = (dice.below(4), 200 + dice.below(3000));
        for _ in 0..count {
            let Some(place) = places.get_mut(turn as usize) else {
                trace.push(zipf.draw(&mut dice));
                continue;
            };
            trace.push(1_000_000 * (turn + 1) + *place);
            *place = (*place + 1) % lengths[turn as usize];
        }
    }
    trace
}

/// Half of the gets are of keys that come some five times within some thousand gets and then never again.
fn brief() -> Vec<u64> {
    let (zipf, mut dice, mut fresh) = (Zipf::new(KEYS, 0.9), Dice(9), FRESH..);
    let mut due = BinaryHeap::new();
    let mut trace = Vec::new();
    for now in 1.. {
        if trace.len() >= GETS {
            break;
        }
        if due.peek().is_some_and(|&Reverse((at, _))| at <= now) {
            trace.extend(due.pop().map(|Reverse((_, key))| key));
        } else if dice.below(10) < 8 {
            trace.push(zipf.draw(&mut dice));
        } else {
            let key = fresh.next().expect("they have no end");
            trace.push(key);
            let mut at = now;
            for _ in 0..1 + dice.below(8) {
                at += 1 + dice.below(1500);
                due.push(Reverse((at, key)));
            }
        }
    }
    trace
}

/// By turns of 200,000 gets Zipf's law over keys that move, a loop of 15,000, and news.
fn phases() -> Vec<u64> {
    let (zipf, mut dice) = (Zipf::new(KEYS, 0.9), Dice(10));
    let mut trace = Vec::new();
    for phase in 0..10 {
        for at in 0..200_000 {
            trace.push(match phase % 3 {
                0 => (zipf.draw(&mut dice) + phase / 3 * 50_000) % (2 * KEYS),
                1 => 10 * FRESH + at % 15_000 + phase * 1_000_000,
                _ => FRESH + phase * 10_000_000 + at / 10 - zipf.draw(&mut dice) / 4,
            });
        }
    }
    trace
}

/// The keys by numbers, in the order in which they come first: Caffeine counts keys together whose `Long`s have one hash, as
/// others and fresh ones may.
pub fn numbered(trace: &[u64]) -> Vec<u64> {
    let mut numbers = HashMap::new();
    let mut number_of = |&key| {
        let next = numbers.len() as u64;
        *numbers.entry(key).or_insert(next)
    };
    trace.iter().map(&mut number_of).collect()
}

/// A trace's name and, for a cache of that capacity, its keys.
pub type Trace = (&'static str, fn(usize) -> Vec<u64>);

pub const TRACES: [Trace; 15] = [
    ("Zipf 0.7", |_| zipf(0.7)),
    ("Zipf 0.9", |_| zipf(0.9)),
    ("Zipf 0.99", |_| zipf(0.99)),
    ("Zipf 1.2", |_| zipf(1.2)),
    ("Zipf 0.99, scans of 10,000", |_| scans(0.99, 3, 30_000, 10_000)),
    ("Zipf 0.9, scans of 50,000", |_| scans(0.9, 33, 150_000, 50_000)),
    ("Zipf 0.99, a fourth once", |_| once()),
    ("hot keys move", |_| moving()),
    ("news", |_| news()),
    ("pages", |_| pages()),
    ("loops and Zipf 0.9", |_| loops()),
    ("brief lives and Zipf 0.9", |_| brief()),
    ("phases", |_| phases()),
    ("a loop a tenth too large", |capacity| looping(capacity * 11 / 10)),
    ("a loop twice too large", |capacity| looping(capacity * 2)),
];
