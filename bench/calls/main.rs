//! Calls of the library beside plain Rust that gives the same answers: frames, bits, look-ups, slave machines, the core.

mod core_line;
mod cores;
mod frames;
mod lookups;
#[path = "../measured.rs"]
mod measured;
#[path = "../plain/mod.rs"]
mod plain;
mod segments;

/// The rounds whose medians are the times.
const ROUNDS: usize = 101;

fn main() {
    let mut measuring = measured::Measuring::of(ROUNDS);
    println!("| Call | Instructions | Plain Rust | Ratio | Ratio of times |");
    println!("|---|---|---|---|---|");
    frames::measure(&mut measuring);
    lookups::measure(&mut measuring);
    segments::measure(&mut measuring);
    cores::measure(&mut measuring);
}
