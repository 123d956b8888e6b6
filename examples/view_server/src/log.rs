//! What goes wrong: lines on standard error, of each kind at most five a second.
use std::{collections::HashMap, sync::LazyLock, sync::Mutex, time::SystemTime};

/// The second in which the last line of a kind came, and how many came in it.
static KINDS: LazyLock<Mutex<HashMap<&str, (u128, u64)>>> = LazyLock::new(Mutex::default);

pub fn say(kind: &'static str, what: &str) {
    let (time, mut kinds) = (SystemTime::UNIX_EPOCH.elapsed().unwrap_or_default().as_millis(), KINDS.lock().unwrap());
    let (second, lines) = kinds.entry(kind).or_default();
    *lines = if *second == time / 1000 { *lines + 1 } else { 1 };
    *second = time / 1000;
    if *lines <= 5 {
        let rest = if *lines == 5 { ", and so on" } else { "" };
        eprintln!("{second}.{:03} {kind}: {what}{rest}", time % 1000);
    }
}
