//! A front end that never waits for its database: what the cache doesn't hold is queried by a pool, and who asked for
//! it is answered once the pool has said what came.
use nr::{Cache, Request, Sought};
use std::collections::HashMap;
use std::sync::mpsc::{channel, Sender};
use std::sync::{Arc, Mutex};
use std::thread;

const CLIENTS: u64 = 1000;
const USERS: u64 = 40;
const LOADERS: usize = 4;

type Name = Arc<str>;
type Answer = Result<Name, String>;

enum Event {
    Asked { client: u64, user: u64 },
    Queried { user: u64, answer: Answer },
}

/// A stand-in for a database, which takes long.
fn query(user: u64) -> Answer {
    if user == 0 {
        return Err("nobody is user 0".to_string());
    }
    Ok(format!("user {user}").into())
}

/// What a loader of the pool does with a request. One that is dropped has failed as well, and the next that asks for its
/// key gets another.
fn load(request: Request<u64, Name>, events: &Sender<Event>) {
    let user = *request.key();
    let answer = query(user);
    match &answer {
        Ok(name) => _ = request.fill(name.clone()),
        Err(why) => request.fail(why.clone()),
    }
    events.send(Event::Queried { user, answer }).expect("the front end runs");
}

struct Front {
    cache: Cache<u64, Name>,
    pool: Sender<Request<u64, Name>>,
    waiting: HashMap<u64, Vec<u64>>,
    answered: HashMap<u64, Answer>,
}

impl Front {
    fn on(&mut self, event: Event) {
        match event {
            Event::Asked { client, user } => match self.cache.get_or_request(&user) {
                Sought::Held(name) | Sought::Aged(name, _) => _ = self.answered.insert(client, Ok(name)),
                // One request at a time: others who ask for the user wait for its answer.
                Sought::Missing(request) => {
                    self.waiting.entry(user).or_default().push(client);
                    self.pool.send(request).expect("the pool runs");
                }
                Sought::UnderWay(_) => self.waiting.entry(user).or_default().push(client),
            },
            Event::Queried { user, answer } => {
                let clients = self.waiting.remove(&user).unwrap_or_default();
                self.answered.extend(clients.into_iter().map(|client| (client, answer.clone())));
            }
        }
    }
}

fn main() -> Result<(), nr::Fault> {
    let cache = Cache::builder().max_capacity(USERS as usize).threads(1).open()?;
    let (pool, requests) = channel();
    let requests = Mutex::new(requests);
    let (events, inbox) = channel();
    thread::scope(|scope| {
        for _ in 0..LOADERS {
            let (requests, events) = (&requests, events.clone());
            scope.spawn(move || loop {
                let Ok(request) = requests.lock().unwrap().recv() else { break };
                load(request, &events);
            });
        }
        for client in 0..CLIENTS {
            events.send(Event::Asked { client, user: 7 * client % USERS }).expect("the front end runs");
        }
        let mut front = Front { cache, pool, waiting: HashMap::new(), answered: HashMap::new() };
        while front.answered.len() < CLIENTS as usize {
            front.on(inbox.recv().expect("a loader answers"));
        }
        assert!((0..CLIENTS).all(|client| front.answered[&client] == query(7 * client % USERS)));
        let stats = front.cache.stats();
        println!("{} queries have answered {CLIENTS} clients", stats.loads + stats.failures);
    });
    Ok(())
}
