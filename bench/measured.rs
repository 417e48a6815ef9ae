//! Calls in rounds: their instructions by callgrind, and their times.
//!
//! A program runs twice. With `--count` under callgrind it plays two rounds of each thing, and callgrind ends a part of its
//! counts where the clock is read. Alone it plays more rounds for the times, and takes the instructions of the second rounds
//! from the file COUNTS, which has the totals of those parts.

#![allow(dead_code)]

use std::time::Instant;

/// What a thing takes.
#[derive(Clone, Copy)]
pub struct Taken {
    pub instructions: f64,
    pub nanoseconds: f64,
}

pub struct Measuring {
    pub is_counting: bool,
    rounds: usize,
    totals: std::vec::IntoIter<f64>,
}

/// The nanoseconds of some work.
pub fn nanoseconds_of(work: impl FnOnce()) -> u64 {
    let begun = Instant::now();
    work();
    begun.elapsed().as_nanos() as u64
}

fn median(mut times: Vec<u64>) -> f64 {
    times.sort_unstable();
    times[times.len() / 2] as f64
}

impl Measuring {
    /// With so many rounds for the times.
    pub fn of(rounds: usize) -> Measuring {
        let is_counting = std::env::args().any(|word| word == "--count");
        let text = std::env::var("COUNTS").map(|path| std::fs::read_to_string(path).expect("totals")).unwrap_or_default();
        let totals: Vec<f64> = text.lines().map(|total| total.trim().parse().expect("a total")).collect();
        Measuring { is_counting, rounds: if is_counting { 2 } else { rounds }, totals: totals.into_iter() }
    }

    /// The cost of each of so many things. `play` plays a number of rounds, reads the clock before and after each thing, and
    /// returns the nanoseconds of each thing, round by round.
    pub fn all(&mut self, things: usize, play: impl FnOnce(usize) -> Vec<u64>) -> Vec<Taken> {
        let times = play(self.rounds);
        assert_eq!(times.len(), self.rounds * things, "not all was played");
        // two totals a thing, of what is before it and of itself
        let totals: Vec<f64> = self.totals.by_ref().take(4 * things).collect();
        let taken = |thing: usize| Taken {
            instructions: totals.get(2 * (things + thing) + 1).copied().unwrap_or(f64::NAN),
            nanoseconds: median(times.iter().skip(thing).step_by(things).copied().collect()),
        };
        (0..things).map(taken).collect()
    }

    /// What a call takes, of so many calls in a round.
    pub fn call(&mut self, calls: usize, play: impl FnOnce(usize) -> Vec<u64>) -> Taken {
        self.all(1, play)[0].each(calls)
    }
}

impl Taken {
    /// What each of so many takes.
    pub fn each(&self, count: usize) -> Taken {
        Taken { instructions: self.instructions / count as f64, nanoseconds: self.nanoseconds / count as f64 }
    }
}

/// Prints a row: instructions of both sides and their ratio, and the ratio of times.
pub fn print(name: &str, library: Taken, plain: Taken) {
    let ratio = library.instructions / plain.instructions;
    let times = library.nanoseconds / plain.nanoseconds;
    println!("| {name} | {:.0} | {:.0} | {ratio:.2} | {times:.2} |", library.instructions, plain.instructions);
}
