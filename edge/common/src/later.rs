//! What one thread gives later, to who is woken then.
use std::sync::mpsc::{channel, Receiver, Sender};
use std::task::Waker;

/// Gives once. Who waits is woken also where nothing is given.
pub struct Giver<T> {
    to: Sender<T>,
    // It is dropped after the other.
    _bell: Bell,
}

struct Bell(Waker);

impl Drop for Bell {
    fn drop(&mut self) {
        self.0.wake_by_ref();
    }
}

impl<T> Giver<T> {
    /// Who has gone meanwhile has nothing of it.
    pub fn give(self, it: T) {
        _ = self.to.send(it);
    }
}

/// For who is woken by `waker`, and finds there what was given.
pub fn later<T>(waker: &Waker) -> (Giver<T>, Receiver<T>) {
    let (to, given) = channel();
    (Giver { to, _bell: Bell(waker.clone()) }, given)
}

#[cfg(test)]
mod tests {
    use super::*;
    use std::sync::mpsc::TryRecvError;
    use std::sync::{Arc, Mutex};
    use std::task::Wake;

    /// What is found when it wakes.
    #[derive(Default)]
    struct Waits {
        given: Mutex<Option<Receiver<u8>>>,
        found: Mutex<Vec<Result<u8, TryRecvError>>>,
    }

    impl Wake for Waits {
        fn wake(self: Arc<Self>) {
            let found = self.given.lock().unwrap().as_ref().unwrap().try_recv();
            self.found.lock().unwrap().push(found);
        }
    }

    #[test]
    fn who_is_woken_finds_what_was_given_or_that_nothing_comes() {
        let waits = Arc::new(Waits::default());
        for gives in [true, false] {
            let (giver, given) = later(&Waker::from(Arc::clone(&waits)));
            *waits.given.lock().unwrap() = Some(given);
            if gives {
                giver.give(7);
            }
        }
        assert_eq!(*waits.found.lock().unwrap(), [Ok(7), Err(TryRecvError::Disconnected)]);
    }
}
