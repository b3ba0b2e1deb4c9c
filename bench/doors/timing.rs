//! What the doors in Rust have in common.
use std::env;
use std::error::Error;
use std::hint::black_box;
use std::time::Instant;

/// Prints the text of a rendering, or the nanoseconds of one in the fastest round, as the command line asks.
pub fn answer<E: Error + 'static>(mut render: impl FnMut() -> Result<String, E>) -> Result<(), Box<dyn Error>> {
    let words: Vec<String> = env::args().collect();
    if words[1] == "print" {
        print!("{}", render()?);
        return Ok(());
    }
    let (rounds, times): (usize, usize) = (words[2].parse()?, words[3].parse()?);
    let mut least = f64::INFINITY;
    for _ in 0..rounds {
        let start = Instant::now();
        for _ in 0..times {
            black_box(render()?);
        }
        least = least.min(start.elapsed().as_nanos() as f64);
    }
    println!("{}", least / times as f64);
    Ok(())
}
