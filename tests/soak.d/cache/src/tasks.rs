//! Tasks, which the thread that has one runs to its end or cancels.
use std::future::{poll_fn, Future};
use std::pin::pin;
use std::sync::Arc;
use std::task::{Context, Poll, Wake, Waker};
use std::thread::{self, Thread};

struct Unpark(Thread);

impl Wake for Unpark {
    fn wake(self: Arc<Self>) {
        self.0.unpark();
    }
}

/// What a task comes to, or none where it isn't over after so many polls, and is cancelled then.
pub fn run<T>(task: impl Future<Output = T>, mut polls: u64) -> Option<T> {
    let (mut task, waker) = (pin!(task), Waker::from(Arc::new(Unpark(thread::current()))));
    loop {
        if let Poll::Ready(came) = task.as_mut().poll(&mut Context::from_waker(&waker)) {
            return Some(came);
        }
        polls = polls.checked_sub(1).filter(|left| *left > 0)?;
        thread::park();
    }
}

/// Is over after so many polls.
pub async fn yields(mut polls: u64) {
    poll_fn(|context| {
        let Some(left) = polls.checked_sub(1) else { return Poll::Ready(()) };
        polls = left;
        context.waker().wake_by_ref();
        Poll::Pending
    })
    .await;
}
