//! Texts of any length in a map of values. Two readers borrow them in place while the writer puts new ones, and each text
//! is freed once nobody can see it any more.
use nr::{Asked, ValueMap, ValueReader, ValueWriter};
use std::error::Error;
use std::sync::atomic::{AtomicBool, Ordering::SeqCst};
use std::sync::Arc;
use std::thread;

const KEYS: u32 = 100;
const ROUNDS: usize = 1_000;

/// A text, and one of the pointers by which the program counts the texts that there are.
struct Text {
    words: String,
    _one: Arc<()>,
}

fn text(key: u32, round: usize, texts: &Arc<()>) -> Text {
    Text { words: format!("key {key} {}", "again ".repeat(round % 50)), _one: Arc::clone(texts) }
}

/// Reads each key over and over, and tells how many bytes it read.
fn read(mut reader: ValueReader<Text>, ended: &AtomicBool) -> usize {
    let mut bytes = 0;
    while !ended.load(SeqCst) {
        for key in 0..KEYS {
            let text = reader.find(key).expect("each key is filled");
            assert!(text.words.starts_with(&format!("key {key} ")));
            bytes += text.words.len();
        }
    }
    bytes
}

fn write(writer: &mut ValueWriter<Text>, texts: &Arc<()>) -> Result<(), Box<dyn Error>> {
    for round in 1..ROUNDS {
        for key in 0..KEYS {
            writer.replace(key, text(key, round, texts))?;
        }
    }
    Ok(())
}

fn main() -> Result<(), Box<dyn Error>> {
    let (texts, ended) = (Arc::new(()), AtomicBool::new(false));
    let ValueMap { mut writer, mut readers } = ValueMap::open(KEYS, KEYS + 3, 2)?;
    for key in 0..KEYS {
        let Asked::Send(ticket) = readers[0].ask(key) else { unreachable!("nobody asked before") };
        writer.fill(ticket, text(key, 0, &texts))?;
    }
    thread::scope(|scope| {
        for reader in readers {
            scope.spawn(|| assert!(read(reader, &ended) > 0));
        }
        let written = write(&mut writer, &texts);
        ended.store(true, SeqCst);
        written
    })?;
    // The readers are gone, so what is replaced doesn't wait.
    while writer.reap().is_some() {}
    assert_eq!(Arc::strong_count(&texts) - 1, KEYS as usize);
    drop(writer);
    assert_eq!(Arc::strong_count(&texts), 1);
    println!("each text was freed once");
    Ok(())
}
