//! Gets by tasks, of any runtime.
use super::flights::End;
use super::part::{Begun, Failing};
use super::threads::{end_by, failure};
use super::Cache;
use std::borrow::Borrow;
use std::convert::Infallible;
use std::future::Future;
use std::hash::{BuildHasher, Hash};
use std::sync::Arc;

/// No value and no lock is held across an await, and no reader: a thread finds for all its tasks by its own one.
impl<K: Hash + Eq + 'static, V: Clone + 'static, S: BuildHasher + 'static> Cache<K, V, S> {
    /// As [`Cache::get_with`], by a load that is awaited, as are the loads of others. Where the task that loads is cancelled,
    /// one of those that wait loads.
    pub async fn get_with_async<Q>(&self, key: &Q, load: impl Future<Output = V>) -> V
    where
        K: Borrow<Q>,
        Q: Hash + Eq + ToOwned<Owned = K> + ?Sized,
    {
        match self.try_get_with_async(key, async { Ok::<V, Infallible>(load.await) }).await {
            Ok(value) => value,
            Err(never) => match *never {},
        }
    }

    /// As [`Cache::try_get_with`], by a load that is awaited, as are the loads of others. Where the task that loads is
    /// cancelled, one of those that wait loads.
    pub async fn try_get_with_async<Q, E>(&self, key: &Q, load: impl Future<Output = Result<V, E>>) -> Result<V, Arc<E>>
    where
        K: Borrow<Q>,
        Q: Hash + Eq + ToOwned<Owned = K> + ?Sized,
        E: Send + Sync + 'static,
    {
        let at = self.shared.at(key);
        let mut found = self.look(at, key);
        let part = &self.shared.parts()[at.part];
        let own = loop {
            if let Some(value) = found {
                return Ok(value);
            }
            match part.begin(at.id, key, key.to_owned()) {
                Begun::Load(own) => break own,
                Begun::Wait(flight, _) => {
                    part.count(|counted| counted.waits += 1);
                    match flight.ended().await {
                        End::TooHeavy => break part.begin_alone(at.id),
                        end => {
                            if let Some(why) = failure(end) {
                                return self.or_left(at, key, Err(why));
                            }
                        }
                    }
                }
                Begun::Held => {}
            }
            found = self.read(at, key, V::clone);
        };
        // Where the task is cancelled, or the load panics, this ends it.
        let _failing = Failing { part, load: &own };
        let gave = end_by(part, &own, key.to_owned(), None, load.await);
        self.or_left(at, key, gave)
    }
}
