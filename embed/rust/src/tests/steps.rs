//! Three threads that make one step at a time, in each order of a search. Between its steps a thread goes on alone.
use super::schedule::{Next, Nexts, Search, Thing, Touch, THREADS};
use std::cell::{Cell, RefCell};
use std::collections::HashSet;
use std::panic::{catch_unwind, AssertUnwindSafe};
use std::sync::atomic::{AtomicUsize, Ordering::SeqCst};
use std::sync::{mpsc, Arc, Condvar, Mutex, MutexGuard, PoisonError};
use std::thread::{self, Thread};
use std::time::{Duration, Instant};

/// More steps than any run has, but one that has no end.
const MOST_STEPS: usize = 2000;

/// More runs than any search has.
const MOST_RUNS: usize = 1_000_000;

/// What tells the time.
const CLOCK: Thing = Thing::MAX - 1;

/// What a thread is about to do.
#[derive(Clone, Copy, Debug, PartialEq, Eq)]
pub(super) enum Op {
    Begin,
    Read(Thing),
    Write(Thing),
    /// Once nobody else has it.
    Lock(Thing),
    /// To give the lock up and sleep until the bell rings, or so long.
    Sleep {
        bell: Thing,
        lock: Thing,
        limit: Option<Duration>,
    },
    /// To wake up by the time, or by chance.
    WakeUp {
        bell: Thing,
        lock: Thing,
        limit: Option<Duration>,
    },
    /// To wake one who sleeps, or all.
    Ring {
        bell: Thing,
        all: bool,
    },
    /// Time passes for all.
    Pass(Duration),
    /// Once the flag is set, which that takes down.
    Await(Thing),
    SetFlag(Thing),
}

impl Op {
    fn touch(self) -> Touch {
        let thing = match self {
            Op::Begin => return Touch { thing: 0, writes: false },
            Op::Pass(_) => CLOCK,
            Op::Read(thing) => return Touch { thing, writes: false },
            Op::Write(thing) | Op::Lock(thing) | Op::Await(thing) | Op::SetFlag(thing) => thing,
            Op::Sleep { bell, .. } | Op::WakeUp { bell, .. } | Op::Ring { bell, .. } => bell,
        };
        Touch { thing, writes: true }
    }

    /// Whether another's step may take it away.
    fn passes(self) -> bool {
        matches!(self, Op::WakeUp { .. })
    }
}

/// What three threads do, and what is so at the end.
pub(super) struct Scene {
    pub acts: [Act; THREADS],
    pub end: Act,
}

pub(super) type Act = Box<dyn FnOnce() + Send>;

/// What stands in a run.
struct Run {
    search: Search,
    began: Instant,
    /// None of who goes on just now, or has ended.
    about: [Option<Op>; THREADS],
    locked: HashSet<Thing>,
    flags: HashSet<Thing>,
    /// How long each has slept in all, and how much time has passed for all beside that.
    slept: [Duration; THREADS],
    passed: Duration,
    /// How often sleepers may yet wake up by chance.
    chances: u32,
    going: usize,
    made: Vec<(usize, Op)>,
    failed: Option<String>,
}

impl Run {
    /// One that begins now.
    fn new(search: Search, chances: u32) -> Run {
        Run {
            search,
            began: Instant::now(),
            about: [Some(Op::Begin); THREADS],
            locked: HashSet::new(),
            flags: HashSet::new(),
            slept: Default::default(),
            passed: Duration::ZERO,
            chances,
            going: THREADS,
            made: Vec::new(),
            failed: None,
        }
    }

    fn can(&self, op: Op) -> bool {
        match op {
            Op::Lock(lock) => !self.locked.contains(&lock),
            Op::Await(flag) => self.flags.contains(&flag),
            Op::WakeUp { limit: None, .. } => self.chances > 0,
            _ => true,
        }
    }

    fn nexts(&self) -> Nexts {
        self.about.map(|op| op.map(|op| Next { touch: op.touch(), can: self.can(op), passes: op.passes() }))
    }

    /// Whether somebody's next step can be made, and not by chance alone.
    fn goes_on(&self) -> bool {
        let by_chance = |op: &Op| matches!(op, Op::WakeUp { limit: None, .. });
        self.about.iter().flatten().any(|op| !by_chance(op) && self.can(*op))
    }

    /// Makes steps until a thread goes on by itself: which.
    fn make(&mut self) -> Option<usize> {
        loop {
            if self.failed.is_some() || self.going == 0 {
                return None;
            }
            if !self.goes_on() || self.made.len() == MOST_STEPS {
                let why = if self.goes_on() { "somebody goes on for ever" } else { "somebody waits for ever" };
                self.failed = Some(why.into());
                return None;
            }
            let chosen = self.search.next(self.nexts())?;
            if self.make_one(chosen) {
                return Some(chosen);
            }
        }
    }

    /// Makes a thread's step: whether it goes on after it.
    fn make_one(&mut self, thread: usize) -> bool {
        let op = self.about[thread].take().expect("it is about to make one");
        self.made.push((thread, op));
        match op {
            Op::Begin | Op::Read(_) | Op::Write(_) => {}
            Op::Lock(lock) => _ = self.locked.insert(lock),
            Op::Await(flag) => _ = self.flags.remove(&flag),
            Op::SetFlag(flag) => _ = self.flags.insert(flag),
            Op::Pass(time) => self.passed += time,
            Op::Ring { bell, all } => self.ring(thread, bell, all),
            Op::Sleep { bell, lock, limit } => {
                self.unlock(thread, lock);
                self.about[thread] = Some(Op::WakeUp { bell, lock, limit });
                return false;
            }
            Op::WakeUp { lock, limit, .. } => {
                self.chances -= u32::from(limit.is_none());
                self.slept[thread] += limit.unwrap_or_default();
                self.about[thread] = Some(Op::Lock(lock));
                return false;
            }
        }
        true
    }

    fn unlock(&mut self, thread: usize, lock: Thing) {
        self.locked.remove(&lock);
        self.search.gives_up(thread, lock);
    }

    fn ring(&mut self, thread: usize, bell: Thing, all: bool) {
        for other in 0..THREADS {
            match self.about[other] {
                Some(Op::WakeUp { bell: its_own, lock, .. }) if its_own == bell => {
                    self.about[other] = Some(Op::Lock(lock));
                    self.search.lets_go_on(thread, other);
                    if !all {
                        return;
                    }
                }
                _ => {}
            }
        }
    }
}

/// Where the three threads act.
struct Stage {
    run: Mutex<Run>,
    /// Told once all have ended, or the run has failed.
    over: Condvar,
    turn: AtomicUsize,
}

const NOBODY: usize = THREADS;

impl Stage {
    fn run(&self) -> MutexGuard<'_, Run> {
        self.run.lock().unwrap_or_else(PoisonError::into_inner)
    }

    /// Whoever is next goes on.
    fn go_on(&self, mut run: MutexGuard<'_, Run>, actors: &[Thread; THREADS]) {
        match run.make() {
            Some(next) => {
                self.turn.store(next, SeqCst);
                actors[next].unpark();
            }
            None => self.over.notify_all(),
        }
    }

    fn await_turn(&self, own: usize) {
        while self.turn.load(SeqCst) != own {
            thread::park();
        }
        self.turn.store(NOBODY, SeqCst);
    }
}

/// One of the three, as its thread knows it.
#[derive(Clone)]
struct Actor {
    stage: Arc<Stage>,
    own: usize,
    all: Arc<[Thread; THREADS]>,
}

impl Actor {
    fn make(&self, op: Op) {
        let mut run = self.stage.run();
        run.about[self.own] = Some(op);
        self.stage.go_on(run, &self.all);
        self.stage.await_turn(self.own);
    }

    fn act(&self, act: Act) {
        MADE.set((self.own as Thing + 1) << 20);
        self.stage.await_turn(self.own);
        let fault = catch_unwind(AssertUnwindSafe(act)).err();
        let mut run = self.stage.run();
        run.going -= 1;
        if let Some(why) = fault {
            let text = why.downcast_ref::<String>().cloned();
            let text = text.or_else(|| why.downcast_ref::<&str>().map(|text| text.to_string()));
            run.failed.get_or_insert(text.unwrap_or_default());
        }
        self.stage.go_on(run, &self.all);
    }
}

thread_local! {
    static ACTOR: RefCell<Option<Actor>> = const { RefCell::new(None) };
    /// The last number that something had that this thread made.
    static MADE: Cell<Thing> = const { Cell::new(0) };
}

fn actor() -> Option<Actor> {
    ACTOR.try_with(|actor| actor.borrow().clone()).ok().flatten()
}

/// Whether the thread is one of the three.
pub(super) fn is_actor() -> bool {
    actor().is_some()
}

/// A number for something that steps touch: the same in each run.
pub(super) fn new_thing() -> Thing {
    MADE.try_with(|made| {
        made.set(made.get() + 1);
        made.get()
    })
    .unwrap_or_default()
}

/// Makes a step once it is the thread's turn, if it is one of the three.
pub(super) fn make(op: Op) {
    if let Some(actor) = actor() {
        actor.make(op);
    }
}

/// Gives a lock up, which is no step of its own: nobody else can do anything but wait for it before.
pub(super) fn unlock(lock: Thing) {
    if let Some(actor) = actor() {
        actor.stage.run().unlock(actor.own, lock);
    }
}

/// The time as the thread has it: it moves where the thread has slept as long as it said, or time has passed for all.
pub(super) fn now() -> Instant {
    let Some(actor) = actor() else { return Instant::now() };
    actor.make(Op::Read(CLOCK));
    let run = actor.stage.run();
    run.began + run.slept[actor.own] + run.passed
}

/// The three threads, which end with this.
struct Actors {
    stage: Arc<Stage>,
    acts: Vec<mpsc::Sender<Act>>,
    all: Arc<[Thread; THREADS]>,
}

impl Actors {
    fn new() -> Actors {
        let run = Mutex::new(Run::new(Search::default(), 0));
        let stage = Arc::new(Stage { run, over: Condvar::new(), turn: AtomicUsize::new(NOBODY) });
        let (acts, waiting): (Vec<_>, Vec<_>) = (0..THREADS).map(|_| mpsc::channel()).unzip();
        let (tell, told) = mpsc::channel::<Arc<[Thread; THREADS]>>();
        let told = Arc::new(Mutex::new(told));
        let begin = |(own, waiting): (usize, mpsc::Receiver<Act>)| {
            let (stage, told) = (stage.clone(), told.clone());
            thread::spawn(move || {
                let Ok(all) = told.lock().unwrap_or_else(PoisonError::into_inner).recv() else { return };
                let actor = Actor { stage, own, all };
                ACTOR.set(Some(actor.clone()));
                waiting.into_iter().for_each(|act| actor.act(act));
                ACTOR.set(None);
            })
        };
        let threads: Vec<_> = waiting.into_iter().enumerate().map(|(own, waiting)| begin((own, waiting))).collect();
        let all = Arc::new(std::array::from_fn(|own| threads[own].thread().clone()));
        (0..THREADS).for_each(|_| tell.send(Arc::clone(&all)).expect("they wait for it"));
        Actors { stage, acts, all }
    }

    /// Plays a scene in the next order: whether another is left.
    fn play(&self, scene: Scene, chances: u32) -> bool {
        let mut run = self.stage.run();
        let search = std::mem::take(&mut run.search);
        *run = Run::new(search, chances);
        for (actor, act) in self.acts.iter().zip(scene.acts) {
            actor.send(act).expect("its thread is there");
        }
        self.stage.go_on(run, &self.all);
        let goes_on = |run: &mut Run| run.going > 0 && run.failed.is_none();
        let run = self.stage.over.wait_while(self.stage.run(), goes_on).unwrap_or_else(PoisonError::into_inner);
        if let Some(why) = &run.failed {
            let made: Vec<_> = run.made.iter().map(|(thread, op)| format!("  {thread} {op:?}")).collect();
            let text = format!("{why}, after these steps:\n{}", made.join("\n"));
            drop(run);
            panic!("{text}");
        }
        drop(run);
        (scene.end)();
        self.stage.run().search.end()
    }
}

/// Plays a scene in every order of its steps, where sleepers wake up so often by chance: how many orders there are.
pub(super) fn every_order(chances: u32, scene: impl Fn() -> Scene) -> u64 {
    let actors = Actors::new();
    let has_ended = (0..MOST_RUNS).any(|_| {
        MADE.set(0);
        !actors.play(scene(), chances)
    });
    assert!(has_ended, "it takes more than {MOST_RUNS} runs");
    let orders = actors.stage.run().search.orders();
    orders
}
