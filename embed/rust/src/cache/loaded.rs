//! Values that have their own time to live.
use super::CacheBuilder;
use std::ops::Deref;
use std::time::Duration;

/// A value, and how long it lives, as its load tells: for a cache with [`CacheBuilder::expire_as_loaded`]. Where the
/// load tells nothing it is made by `From`.
#[derive(Clone, Copy, Debug, Default, PartialEq, Eq)]
pub struct Loaded<V> {
    /// What was loaded.
    pub value: V,
    /// How long after it was put it is found, as far as the cache's own times let it.
    pub time_to_live: Option<Duration>,
}

impl<V> From<V> for Loaded<V> {
    fn from(value: V) -> Loaded<V> {
        Loaded { value, time_to_live: None }
    }
}

impl<V> Deref for Loaded<V> {
    type Target = V;

    fn deref(&self) -> &V {
        &self.value
    }
}

impl<K, V, S> CacheBuilder<K, Loaded<V>, S> {
    /// [`CacheBuilder::expire_after`] by what each load tells.
    ///
    /// ```
    /// use nr::{Cache, Loaded};
    /// use std::time::Duration;
    ///
    /// # fn resolve(host: &str) -> (String, Duration) {
    /// #     (format!("where {host} is"), Duration::from_secs(300))
    /// # }
    /// let hosts: Cache<String, Loaded<String>> = Cache::builder().expire_as_loaded().open()?;
    /// let found = hosts.get_with("example.org", || {
    ///     let (value, lives) = resolve("example.org");
    ///     Loaded { value, time_to_live: Some(lives) }
    /// });
    /// assert_eq!(*found, "where example.org is");
    /// // Where nothing is told the cache's own times count.
    /// hosts.insert("localhost".into(), Loaded::from("here".to_owned()));
    /// # Ok::<(), nr::Fault>(())
    /// ```
    pub fn expire_as_loaded(self) -> CacheBuilder<K, Loaded<V>, S> {
        self.expire_after(|_, loaded: &Loaded<V>| loaded.time_to_live)
    }
}
