//! Draws keys for all of the soak's tests, which read them in native numbers of 32 bits:  keys KEYS SKEW COUNT SEED >FILE
#[path = "../zipf.rs"]
mod zipf;
use std::io::{stdout, BufWriter, Write};
use zipf::{Dice, Zipf};

fn main() -> Result<(), Box<dyn std::error::Error>> {
    let words: Vec<String> = std::env::args().skip(1).collect();
    let [keys, skew, count, seed] = &words[..] else { return Err("keys KEYS SKEW COUNT SEED".into()) };
    let (zipf, mut dice) = (Zipf::new(keys.parse()?, skew.parse()?), Dice(2 * seed.parse::<u64>()? + 1));
    let mut file = BufWriter::new(stdout());
    for _ in 0..count.parse::<u64>()? {
        file.write_all(&(zipf.draw(&mut dice) as u32).to_ne_bytes())?;
    }
    Ok(file.flush()?)
}
