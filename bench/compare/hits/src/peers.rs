//! Other caches' ways to evict: by least recent use, by S3-FIFO, by SIEVE, and by a perfect knowledge of what is used next.
use std::collections::{BinaryHeap, HashMap, VecDeque};

pub fn by_last_use(trace: &[u64], capacity: usize) -> u64 {
    // Of each key that is held its last use; and all uses, of which a key that was used since has others behind.
    let (mut last, mut uses) = (HashMap::new(), VecDeque::new());
    let mut hits = 0;
    for (at, &key) in trace.iter().enumerate() {
        let is_hit = last.insert(key, at).is_some();
        hits += u64::from(is_hit);
        uses.push_back((key, at));
        while last.len() > capacity {
            let (key, at) = uses.pop_front().expect("each key that is held has a use");
            if last[&key] == at {
                last.remove(&key);
            }
        }
        while uses.front().is_some_and(|(key, at)| last.get(key) != Some(at)) {
            uses.pop_front();
        }
    }
    hits
}

pub fn by_next_use(trace: &[u64], capacity: usize) -> u64 {
    let mut next_of = HashMap::new();
    let mut nexts = vec![usize::MAX; trace.len()];
    for (at, key) in trace.iter().enumerate().rev() {
        nexts[at] = next_of.insert(key, at).unwrap_or(usize::MAX);
    }
    // Of each key that is held its next use; and all of them, the last first, of which some are over.
    let (mut held, mut uses) = (HashMap::new(), BinaryHeap::new());
    let mut hits = 0;
    for (at, &key) in trace.iter().enumerate() {
        let is_hit = held.contains_key(&key);
        hits += u64::from(is_hit);
        while !is_hit && held.len() >= capacity {
            let (next, key) = uses.pop().expect("each key that is held has a use");
            if held.get(&key) == Some(&next) {
                held.remove(&key);
            }
        }
        held.insert(key, nexts[at]);
        uses.push((nexts[at], key));
    }
    hits
}

/// A queue from which who was found since goes round again, and else goes: a clock, with marks up to three.
#[derive(Default)]
struct Queue {
    keys: VecDeque<u64>,
    marks: HashMap<u64, u8>,
}

impl Queue {
    fn find(&mut self, key: u64) -> bool {
        let Some(mark) = self.marks.get_mut(&key) else { return false };
        *mark = (*mark + 1).min(3);
        true
    }

    fn push(&mut self, key: u64, mark: u8) {
        self.keys.push_back(key);
        self.marks.insert(key, mark);
    }

    fn pop(&mut self) -> Option<(u64, u8)> {
        let key = self.keys.pop_front()?;
        let mark = self.marks.remove(&key).expect("each key has a mark");
        Some((key, mark))
    }

    fn evict(&mut self) {
        while let Some((key, mark)) = self.pop() {
            if mark == 0 {
                return;
            }
            self.push(key, mark - 1);
        }
    }
}

/// The last keys that went, so many at most.
struct Ghosts {
    most: usize,
    /// Each with the turn at which it went; one that came back since, or went again, stands in it once more.
    keys: VecDeque<(u64, u64)>,
    turns: HashMap<u64, u64>,
    turn: u64,
}

impl Ghosts {
    fn new(most: usize) -> Ghosts {
        Ghosts { most, keys: VecDeque::new(), turns: HashMap::new(), turn: 0 }
    }

    fn push(&mut self, key: u64) {
        self.turn += 1;
        self.keys.push_back((key, self.turn));
        self.turns.insert(key, self.turn);
        while self.turns.len() > self.most {
            let (key, turn) = self.keys.pop_front().expect("each key stands in it");
            if self.turns.get(&key) == Some(&turn) {
                self.turns.remove(&key);
            }
        }
    }

    /// Whether the key was one of them.
    fn take(&mut self, key: u64) -> bool {
        self.turns.remove(&key).is_some()
    }
}

/// S3-FIFO: a tenth of the capacity for who comes, a queue for who was asked for twice more or came back, and as many keys
/// of those that went as that holds.
pub fn by_s3_fifo(trace: &[u64], capacity: usize) -> u64 {
    let small_most = capacity / 10;
    let (mut small, mut main, mut ghosts) = (Queue::default(), Queue::default(), Ghosts::new(capacity - small_most));
    let mut hits = 0;
    for &key in trace {
        if small.find(key) || main.find(key) {
            hits += 1;
            continue;
        }
        while small.keys.len() + main.keys.len() >= capacity {
            if small.keys.len() <= small_most && !main.keys.is_empty() {
                main.evict();
                continue;
            }
            match small.pop() {
                Some((key, 2..)) => main.push(key, 0),
                Some((key, _)) => ghosts.push(key),
                None => main.evict(),
            }
        }
        let is_back = ghosts.take(key);
        if is_back { &mut main } else { &mut small }.push(key, 0);
    }
    hits
}

/// SIEVE: a hand goes from the oldest to the newest over keys that stay in their places, and takes marks as it goes.
pub fn by_sieve(trace: &[u64], capacity: usize) -> u64 {
    let (mut marks, mut passed, mut ahead) = (HashMap::new(), VecDeque::new(), VecDeque::new());
    let mut hits = 0;
    for &key in trace {
        if let Some(mark) = marks.get_mut(&key) {
            *mark = true;
            hits += 1;
            continue;
        }
        while marks.len() >= capacity {
            // The hand stands between those it has passed, oldest first, and those ahead.
            let Some(next) = ahead.pop_front() else {
                std::mem::swap(&mut passed, &mut ahead);
                continue;
            };
            match marks.insert(next, false) {
                Some(true) => passed.push_back(next),
                _ => {
                    marks.remove(&next);
                }
            }
        }
        // Who comes is the newest, which the hand reaches last.
        if ahead.is_empty() {
            std::mem::swap(&mut passed, &mut ahead);
        }
        ahead.push_back(key);
        marks.insert(key, false);
    }
    hits
}
