//! Gets of many keys by one call.
use super::flights::{End, Flight};
use super::part::{Begun, Load, Part};
use super::threads::{end_by, own_id};
use super::Cache;
use std::borrow::Borrow;
use std::convert::Infallible;
use std::hash::{BuildHasher, Hash};
use std::sync::Arc;

/// What is still missing: what the caller loads, and what others do, with where their keys stand.
struct Missing<'a, K, V> {
    own: Vec<Own<'a, K, V>>,
    others: Vec<(usize, Arc<Flight>)>,
}

/// A load of the caller's, and where its key stands. Dropped before its end it has failed.
struct Own<'a, K, V> {
    place: usize,
    part: &'a Part<K, V>,
    load: Load,
}

impl<K, V> Drop for Own<'_, K, V> {
    fn drop(&mut self) {
        self.part.fail(&self.load);
    }
}

impl<K: Hash + Eq + 'static, V: Clone + 'static, S: BuildHasher + 'static> Cache<K, V, S> {
    /// Clones of the keys' values, where the cache holds them, in the keys' order.
    pub fn get_many<Q>(&self, keys: &[&Q]) -> Vec<Option<V>>
    where
        K: Borrow<Q>,
        Q: Hash + Eq + ?Sized,
    {
        keys.iter().map(|key| self.get(*key)).collect()
    }

    /// Clones of the keys' values, in the keys' order. Those that the cache doesn't hold and nobody loads are loaded by one
    /// call of `load`, which is told them and gives a value for each, in their order; it panics where it gives more or fewer.
    /// Then the loads of others are waited for, and where one of these failed `load` is called again for what it was to load.
    pub fn get_many_with<Q>(&self, keys: &[&Q], mut load: impl FnMut(&[&Q]) -> Vec<V>) -> Vec<V>
    where
        K: Borrow<Q>,
        Q: Hash + Eq + ToOwned<Owned = K> + ?Sized,
    {
        let mut found = self.get_many(keys);
        let mut too_heavy = vec![false; keys.len()];
        while found.iter().any(Option::is_none) {
            let missing = self.missing(keys, &too_heavy, &mut found);
            load_all(keys, missing.own, &mut found, &mut load);
            for (place, flight) in missing.others {
                too_heavy[place] = matches!(flight.wait(None), Some(End::TooHeavy));
            }
            for (value, key) in found.iter_mut().zip(keys).filter(|(value, _)| value.is_none()) {
                *value = self.read(self.shared.at(*key), *key, V::clone);
            }
        }
        found.into_iter().flatten().collect()
    }

    /// Begins the load of each key that has no value yet, unless it has one by now or another loads it. Of those whose values
    /// are too heavy nobody waits for another's.
    fn missing<Q>(&self, keys: &[&Q], too_heavy: &[bool], found: &mut [Option<V>]) -> Missing<'_, K, V>
    where
        K: Borrow<Q>,
        Q: Hash + Eq + ToOwned<Owned = K> + ?Sized,
    {
        let mut missing = Missing { own: Vec::new(), others: Vec::new() };
        for (place, (value, key)) in found.iter_mut().zip(keys).enumerate().filter(|(_, (value, _))| value.is_none()) {
            let at = self.shared.at(*key);
            let part = &self.shared.parts()[at.part];
            if too_heavy[place] {
                missing.own.push(Own { place, part, load: part.begin_alone(at.id) });
                continue;
            }
            match part.begin(at.id, *key, (*key).to_owned()) {
                Begun::Held => *value = self.read(at, *key, V::clone),
                Begun::Load(load) => missing.own.push(Own { place, part, load }),
                Begun::Wait(flight, _) => {
                    part.count(|counted| counted.waits += 1);
                    missing.others.push((place, flight));
                }
            }
        }
        missing
    }
}

/// Loads what is the caller's by one call, and ends each load by its value.
fn load_all<K, V, Q>(
    keys: &[&Q],
    own: Vec<Own<'_, K, V>>,
    found: &mut [Option<V>],
    load: &mut impl FnMut(&[&Q]) -> Vec<V>,
) where
    V: Clone,
    Q: ToOwned<Owned = K> + ?Sized,
{
    if own.is_empty() {
        return;
    }
    let wanted: Vec<&Q> = own.iter().map(|own| keys[own.place]).collect();
    let values = load(&wanted);
    assert_eq!(values.len(), wanted.len(), "a load of many gives a value for each key");
    for (own, value) in own.iter().zip(values) {
        let (key, maker) = (keys[own.place].to_owned(), Some(own_id()));
        found[own.place] = end_by(own.part, &own.load, key, maker, Ok::<V, Infallible>(value)).ok();
    }
}
