//! The desks that threads have for themselves: each is kept until its thread ends, or its cache does.
use super::desk::Desk;
use super::shared::Shared;
use std::cell::{RefCell, RefMut};
use std::sync::{Arc, Weak};

thread_local! {
    static KEPT: RefCell<Vec<Kept>> = const { RefCell::new(Vec::new()) };
}

/// What a thread has of the cache that lies there.
struct Kept {
    cache: *const (),
    own: Box<dyn AnyOwn>,
}

/// A thread's desk at a cache, which a call borrows. It goes back to its cache, if that is there still.
struct Own<K, V, S> {
    desk: RefCell<Option<Desk>>,
    cache: Weak<Shared<K, V, S>>,
}

trait AnyOwn {
    /// Whether its cache is there.
    fn is_of_use(&self) -> bool;
}

impl<K, V, S> AnyOwn for Own<K, V, S> {
    fn is_of_use(&self) -> bool {
        self.cache.strong_count() > 0
    }
}

impl<K, V, S> Drop for Own<K, V, S> {
    fn drop(&mut self) {
        if let (Some(desk), Some(cache)) = (self.desk.take(), self.cache.upgrade()) {
            cache.spare().push(desk);
        }
    }
}

/// Calls with the desk that the thread has at a cache, or takes now for itself. With none where all are taken, where a call
/// by the desk is under way, and where the thread is about to end.
pub(super) fn with_desk<K: 'static, V: 'static, S: 'static, R>(
    cache: &Arc<Shared<K, V, S>>,
    call: impl FnOnce(Option<&mut Desk>) -> R,
) -> R {
    match own(cache).and_then(|own| own.desk.try_borrow_mut().ok()) {
        Some(desk) => call(Borrowed(desk).0.as_mut()),
        None => call(None),
    }
}

/// A desk that holds nothing any more once this is dropped.
struct Borrowed<'a>(RefMut<'a, Option<Desk>>);

impl Drop for Borrowed<'_> {
    fn drop(&mut self) {
        self.0.iter_mut().for_each(Desk::let_go);
    }
}

/// What the calling thread has of a cache, from now on where it had nothing and there is a desk.
fn own<K: 'static, V: 'static, S: 'static>(cache: &Arc<Shared<K, V, S>>) -> Option<&Own<K, V, S>> {
    let place = Arc::as_ptr(cache).cast();
    let find = |all: &RefCell<Vec<Kept>>| {
        let mut all = all.borrow_mut();
        if let Some(kept) = all.iter().find(|kept| kept.cache == place) {
            return Some(&raw const *kept.own);
        }
        let desk = RefCell::new(Some(cache.spare_at_once()?));
        let own = Box::new(Own { desk, cache: Arc::downgrade(cache) });
        let at = &raw const *own;
        all.retain(|kept| kept.own.is_of_use());
        all.push(Kept { cache: place, own });
        Some(at as *const dyn AnyOwn)
    };
    let own = KEPT.try_with(find).ok().flatten()?;
    // SAFETY: no cache of another type lies there while this one is known weakly. Its thread keeps it until the cache goes,
    // which the caller has, or until the thread ends.
    Some(unsafe { &*own.cast() })
}
