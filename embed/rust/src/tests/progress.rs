//! Who waits for a number sees what was written before it was reached.
use super::{asked, ONE};
use crate::*;
use std::{thread, time::Duration};

const LONG: Duration = Duration::from_secs(60);

#[test]
fn a_number_that_is_reached_is_not_waited_for() {
    let progress = Progress::new();
    assert!(progress.wait(0, Duration::ZERO));
    assert!(!progress.wait(1, Duration::ZERO));
    progress.reach(5);
    assert_eq!([5, 6].map(|number| progress.wait(number, Duration::ZERO)), [true, false]);
    progress.reach(4);
    assert_eq!(progress.reached(), 5);
}

#[test]
fn a_restart_may_fall() {
    let progress = Progress::new();
    progress.reach(9);
    progress.restart(3);
    assert_eq!((progress.reached(), progress.wait(4, Duration::from_millis(1))), (3, false));
    progress.reach(4);
    assert!(progress.wait(4, Duration::ZERO));
}

#[test]
fn each_who_waits_finds_what_was_written_before() {
    const READERS: u32 = 4;
    const NUMBERS: u64 = 500;
    let ReaderMap { mut writer, mut readers } = ReaderMap::open(&Shape::new(1, READERS + 2, READERS)).unwrap();
    writer.fill(asked(&mut readers[0], 0), &[Row { a: 0, b: 0 }]).unwrap();
    let lobby: Lobby<()> = Lobby::of(&writer);
    thread::scope(|scope| {
        for mut reader in readers {
            let progress = lobby.progress();
            scope.spawn(move || {
                let mut rows = Rows::new();
                for number in 1..=NUMBERS {
                    assert!(progress.wait(number, LONG));
                    let found = reader.find(0, &mut rows).expect("the key is filled");
                    assert!(found[0].a >= number);
                }
            });
        }
        for number in 1..=NUMBERS {
            writer.replace(0, &[Row { a: number, ..ONE }]).unwrap();
            lobby.progress().reach(number);
        }
    });
}
