//! Every order in which three threads can make their steps, but for orders that differ only in steps which touch
//! nothing in common. It goes depth first, and each order is a run of its own from the beginning. Which steps to try
//! before which others follows from the races of the runs before (dynamic partial-order reduction by source sets, and
//! sleep sets).
use std::collections::HashMap;

pub(super) const THREADS: usize = 3;

/// What steps touch, by a number that it has in each run.
pub(super) type Thing = u32;

#[derive(Clone, Copy, Debug, PartialEq, Eq)]
pub(super) struct Touch {
    pub thing: Thing,
    pub writes: bool,
}

impl Touch {
    fn meets(self, other: Touch) -> bool {
        self.thing == other.thing && (self.writes || other.writes)
    }
}

/// A thread's next step.
#[derive(Clone, Copy, Debug, PartialEq, Eq)]
pub(super) struct Next {
    pub touch: Touch,
    /// Whether it can be made now.
    pub can: bool,
    /// Whether it may be gone once another thread touches the same.
    pub passes: bool,
}

/// Of each thread, unless it has ended or sleeps.
pub(super) type Nexts = [Option<Next>; THREADS];

fn touch_of(nexts: &Nexts, thread: usize) -> Touch {
    nexts[thread].expect("it has a step").touch
}

/// Some of the threads.
#[derive(Clone, Copy, Default)]
struct Some3([bool; THREADS]);

impl Some3 {
    fn of(are_in: impl Fn(usize) -> bool) -> Some3 {
        Some3(std::array::from_fn(are_in))
    }

    fn has(self, thread: usize) -> bool {
        self.0[thread]
    }

    fn add(&mut self, thread: usize) {
        self.0[thread] = true;
    }

    fn without(self, others: Some3) -> Some3 {
        Some3::of(|thread| self.has(thread) && !others.has(thread))
    }

    fn first(self) -> Option<usize> {
        self.0.iter().position(|is_in| *is_in)
    }

    fn count(self) -> usize {
        self.0.iter().filter(|is_in| **is_in).count()
    }
}

/// A moment of a run.
struct Node {
    nexts: Nexts,
    chosen: usize,
    /// Whose steps at this moment lead to no order that isn't tried already.
    tried: Some3,
    wanted: Some3,
}

impl Node {
    fn can(nexts: &Nexts) -> Some3 {
        Some3::of(|thread| nexts[thread].is_some_and(|next| next.can))
    }

    /// Whose steps stay tried after the one that was chosen.
    fn still_tried(&self) -> Some3 {
        let made = touch_of(&self.nexts, self.chosen);
        Some3::of(|thread| self.tried.has(thread) && !touch_of(&self.nexts, thread).meets(made))
    }
}

/// How many steps of each thread come before something.
type Clock = [u32; THREADS];

fn join(clock: &mut Clock, other: Clock) {
    clock.iter_mut().zip(other).for_each(|(own, other)| *own = other.max(*own));
}

struct Step {
    thread: usize,
    touch: Touch,
    /// The how manieth of its thread.
    number: u32,
    /// How many of each thread come before what follows it in its thread.
    clock: Clock,
}

impl Step {
    /// Whether it comes before what has that clock.
    fn is_in(&self, clock: &Clock) -> bool {
        clock[self.thread] >= self.number
    }

    /// Whether it comes before a step of that touch, to whose thread that clock has come.
    fn leads_to(&self, clock: &Clock, touch: Touch) -> bool {
        self.is_in(clock) || self.touch.meets(touch)
    }
}

/// What came before the last writes and reads of a thing.
#[derive(Clone, Copy, Default)]
struct Touched {
    writes: Clock,
    all: Clock,
}

/// The run that is under way, and what is to be tried after it.
#[derive(Default)]
pub(super) struct Search {
    nodes: Vec<Node>,
    steps: Vec<Step>,
    clocks: [Clock; THREADS],
    touched: HashMap<Thing, Touched>,
    /// Whether the run repeats an order that was tried: then it only goes on to its end.
    repeats: bool,
    last: usize,
    orders: u64,
}

impl Search {
    /// The thread that makes its step now, if any can.
    pub fn next(&mut self, nexts: Nexts) -> Option<usize> {
        let depth = self.steps.len();
        if !self.repeats && depth == self.nodes.len() {
            self.reach(nexts);
        }
        if self.repeats {
            let chosen = self.prefer(Node::can(&nexts))?;
            self.make(chosen, touch_of(&nexts, chosen));
            return Some(chosen);
        }
        let node = self.nodes.get(depth)?;
        assert_eq!(node.nexts, nexts, "the same steps lead elsewhere");
        let (chosen, touch) = (node.chosen, touch_of(&nexts, node.chosen));
        // Those of the steps before were seen by the runs before.
        if depth + 1 == self.nodes.len() {
            self.want_reversals(chosen, touch);
        }
        self.make(chosen, touch);
        Some(chosen)
    }

    /// What that thread did happens before whatever touches the thing later.
    pub fn gives_up(&mut self, thread: usize, thing: Thing) {
        let clock = self.clocks[thread];
        join(&mut self.touched.entry(thing).or_default().writes, clock);
    }

    /// What one thread did happens before whatever the other does later.
    pub fn lets_go_on(&mut self, thread: usize, other: usize) {
        let clock = self.clocks[thread];
        join(&mut self.clocks[other], clock);
    }

    /// Ends a run: whether another order is left.
    pub fn end(&mut self) -> bool {
        let orders = self.orders + u64::from(!self.repeats);
        let nodes = std::mem::take(&mut self.nodes);
        *self = Search { nodes, orders, ..Search::default() };
        while let Some(node) = self.nodes.last_mut() {
            node.tried.add(node.chosen);
            if let Some(thread) = node.wanted.without(node.tried).first() {
                node.chosen = thread;
                return true;
            }
            self.nodes.pop();
        }
        false
    }

    /// How many orders came so far.
    pub fn orders(&self) -> u64 {
        self.orders
    }

    /// A new moment of the run.
    fn reach(&mut self, nexts: Nexts) {
        let tried = self.nodes.last().map_or(Some3::default(), Node::still_tried);
        let can = Node::can(&nexts);
        let Some(chosen) = self.prefer(can.without(tried)) else {
            self.repeats = can.first().is_some();
            return;
        };
        let touch = touch_of(&nexts, chosen);
        let passes = |next: Next| next.can && next.passes && next.touch.meets(touch);
        let wanted = Some3::of(|thread| thread == chosen || nexts[thread].is_some_and(passes));
        self.nodes.push(Node { nexts, chosen, tried, wanted });
    }

    /// The thread that made the last step, if it is one of them: a change of threads takes longer.
    fn prefer(&self, threads: Some3) -> Option<usize> {
        if threads.has(self.last) {
            Some(self.last)
        } else {
            threads.first()
        }
    }

    /// Has the next step of a thread tried before each one that it races with, too, where no third comes between.
    fn want_reversals(&mut self, thread: usize, touch: Touch) {
        let meets = |step: &Step| step.touch.meets(touch);
        for place in 0..self.steps.len() {
            let (step, later) = (&self.steps[place], &self.steps[place + 1..]);
            let is_free = step.thread != thread && meets(step) && !step.is_in(&self.clocks[thread]);
            if is_free && !later.iter().any(|other| meets(other) && step.is_in(&other.clock)) {
                self.want(place, thread, touch);
            }
        }
    }

    /// Has one tried in place of that step whose own leads to the thread's next one without that step.
    fn want(&mut self, place: usize, thread: usize, touch: Touch) {
        let (step, later) = (&self.steps[place], &self.steps[place + 1..]);
        let free: Vec<_> = later.iter().filter(|other| !step.is_in(&other.clock)).collect();
        let leads = |own: usize| match free.iter().position(|other| other.thread == own) {
            Some(first) => !free[..first].iter().any(|before| before.is_in(&free[first].clock)),
            None => own == thread && !free.iter().any(|before| before.leads_to(&self.clocks[thread], touch)),
        };
        // A step that this one alone lets be made comes after it.
        let can = Node::can(&self.nodes[place].nexts);
        let (leading, wanted) = (Some3::of(|own| can.has(own) && leads(own)), &mut self.nodes[place].wanted);
        if wanted.without(leading).count() == wanted.count() {
            leading.first().into_iter().for_each(|first| wanted.add(first));
        }
    }

    fn make(&mut self, thread: usize, touch: Touch) {
        let (touched, clock) = (self.touched.entry(touch.thing).or_default(), &mut self.clocks[thread]);
        join(clock, touched.writes);
        if touch.writes {
            join(clock, touched.all);
        }
        clock[thread] += 1;
        if touch.writes {
            touched.writes = *clock;
        }
        join(&mut touched.all, *clock);
        self.steps.push(Step { thread, touch, number: clock[thread], clock: *clock });
        self.last = thread;
    }
}
