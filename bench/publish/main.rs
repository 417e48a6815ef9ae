//! Publications and views of `hc_publish` beside plain Rust with two copies that atomics choose between: `bench PROGRAM
//! SCRATCH`. Both sides are programs that play a case in rounds and print of each round the nanoseconds, and what all seats
//! see then as one number, which must be the same. This program's plain side is `bench plain CASE SLAVES SEATS TIMES ROUNDS`.

mod line;
#[path = "../plain/mod.rs"]
mod plain;
mod publisher;

use plain::core::Change;
use plain::digest::{digest_of, digest_of_all, digest_of_bytes};
use plain::plan::Plan;
use publisher::{Publisher, Seat, View, open};
use std::process::Command;
use std::time::Instant;

/// The case of views; the others publish.
const VIEWS: u32 = 5;
const ROUNDS: u32 = 31;

/// What is measured: so many things in a round, on a line of so many slaves, beside so many seats.
struct Case {
    name: &'static str,
    number: u32,
    slaves: usize,
    seats: u32,
    times: u32,
    /// How many calls each of the times is.
    calls: u32,
}

/// What a side takes: instructions and nanoseconds of a call, and the digests of its rounds.
struct Taken {
    instructions: f64,
    nanoseconds: f64,
    digests: Vec<String>,
}

fn cases() -> Vec<Case> {
    let case = |name, number, slaves, seats, times, calls| Case { name, number, slaves, seats, times, calls };
    vec![
        case("publish a good answer of 12 bytes, no seat", 0, 64, 0, 100, 2),
        case("publish a good answer of 12 bytes, 8 seats", 0, 64, 8, 100, 2),
        case("publish a good answer of 1,486 bytes, 8 seats", 1, 64, 8, 100, 2),
        case("publish a swap of one row, 64 slaves", 2, 64, 8, 50, 2),
        case("publish a swap of one row, 2,048 slaves", 2, 2048, 8, 50, 2),
        case("publish a swap of 1,000 rows, 2,048 slaves", 3, 2048, 8, 10, 2),
        case("publish 1,000 rows that come or go, 2,048 slaves", 4, 2048, 8, 10, 2),
        case("view and leave", VIEWS, 64, 8, 1000, 1),
    ]
}

fn most_variable(slaves: usize) -> u32 {
    let groups = line::line(slaves);
    let areas = groups.iter().flat_map(|group| &group.slaves).flat_map(|slave| &slave.areas);
    let entries = areas.flat_map(|area| &area.offered).flat_map(|pdo| &pdo.entries);
    entries.map(|entry| entry.0).max().unwrap_or(0) + 2
}

fn digest_of_place(digest: u64, view: &View, variable: u32) -> u64 {
    let Some(place) = view.place(variable) else {
        return digest;
    };
    let dir = 2 - u64::from(place.is_out);
    let numbers = [place.task.into(), place.datagram.into(), place.bit.into(), place.bits.into(), dir];
    digest_of_all(digest_of(digest, variable.into()), &numbers)
}

fn digest_by(view: &View, variables: u32) -> u64 {
    let (outputs, inputs) = view.part();
    let digest = digest_of_all(0, &[view.epoch().into(), outputs.into(), inputs.into()]);
    let digest = (0..16).fold(digest, |digest, datagram| match view.inputs(datagram) {
        Some(bytes) => digest_of_bytes(digest, bytes),
        None => digest_of(digest, 98),
    });
    let asked = (1..variables).filter(|number| number % 7 == 0 || *number < 17);
    asked.fold(digest, |digest, variable| digest_of_place(digest, view, variable))
}

/// The changes of a case, each of the times.
fn changes(plan: &mut Plan, case: u32, times: u32) -> Vec<Change> {
    if case < 2 {
        let length = plan.table(case as u8).all[0].length;
        let answer = || Change::Good { task: case as u8, datagram: 0, bytes: vec![0x5a; length.into()] };
        return (0..2 * times).map(|_| answer()).collect();
    }
    let edits = line::edits(case);
    let mut swap = |edit| {
        let report = plan.apply(edit).expect("an accepted edit");
        Change::Swapped { tasks: report.tasks, rows: report.rows }
    };
    (0..times).flat_map(|_| &edits).map(|edit| swap(edit)).collect()
}

fn show(publisher: &mut Publisher, change: Change) {
    publisher.append(change);
    publisher.publish();
}

fn look(seat: &mut Seat, times: u32) -> u64 {
    (0..times).fold(0, |sum, _| sum + u64::from(std::hint::black_box(&mut *seat).view().epoch()))
}

/// Plays a case in plain Rust, and prints its rounds.
fn play(numbers: &[u32]) {
    let [case, slaves, count, times, rounds] = numbers[..] else {
        panic!("plain CASE SLAVES SEATS TIMES ROUNDS");
    };
    let (slaves, variables) = (slaves as usize, most_variable(slaves as usize));
    let mut plan = Plan::new(&line::line(slaves));
    let (mut publisher, mut seats) = open(&plan, count as usize);
    for _ in 0..rounds {
        let mut changes = if case == VIEWS { Vec::new() } else { changes(&mut plan, case, times) };
        let begun = Instant::now();
        let sum = if case == VIEWS { look(&mut seats[7], times) } else { 0 };
        changes.drain(..).for_each(|change| show(&mut publisher, change));
        let time = begun.elapsed().as_nanos();
        let digest = |seats: &mut [Seat]| seats.iter_mut().fold(0, |digest, seat| digest_of(digest, digest_by(&seat.view(), variables)));
        println!("{time} {}", if case == VIEWS { sum } else { digest(&mut seats) });
    }
}

/// Runs a side, with or without callgrind before it: its rounds' nanoseconds and digests.
fn rounds(before: &[&str], program: &str, words: &[String], given: &str) -> (Vec<f64>, Vec<String>) {
    let all: Vec<&str> = before.iter().copied().chain([program]).chain(words.iter().map(String::as_str)).collect();
    let input = std::fs::File::open(given).expect("the project's text");
    let said = Command::new(all[0]).args(&all[1..]).stdin(input).output().expect("a program that runs");
    assert!(said.status.success(), "{all:?}: {}", String::from_utf8_lossy(&said.stderr));
    let text = String::from_utf8(said.stdout).expect("text");
    text.lines().filter_map(|row| row.split_once(' ')).map(|(time, digest)| (time.parse::<f64>().expect("a time"), digest.into())).unzip()
}

fn taken(case: &Case, program: &str, words: impl Fn(u32) -> Vec<String>, scratch: &str) -> Taken {
    let (given, parts) = (format!("{scratch}/given"), format!("{scratch}/parts"));
    let calls = f64::from(case.times * case.calls);
    let (mut times, digests) = rounds(&[], program, &words(ROUNDS), &given);
    times.sort_by(f64::total_cmp);
    let out = format!("--callgrind-out-file={parts}");
    let callgrind = ["valgrind", "-q", "--tool=callgrind", "--combine-dumps=yes", "--dump-before=*clock_gettime*", &out];
    rounds(&callgrind, program, &words(2), &given);
    // each round is between two readings of the clock
    let text = std::fs::read_to_string(&parts).expect("callgrind's counts");
    let total = text.lines().filter_map(|row| row.strip_prefix("totals: ")).nth(3).expect("the second round");
    Taken { instructions: total.trim().parse::<f64>().expect("a total") / calls, nanoseconds: times[times.len() / 2] / calls, digests }
}

fn main() {
    let words: Vec<String> = std::env::args().skip(1).collect();
    let [first, scratch] = &words[..] else {
        return play(&words[1..].iter().map(|word| word.parse().expect("a number")).collect::<Vec<u32>>());
    };
    let own = std::env::current_exe().expect("this program");
    println!("| Call | Instructions | Plain Rust | Ratio | Ratio of times |");
    println!("|---|---|---|---|---|");
    for case in cases() {
        let Case { name, number, slaves, seats, times, .. } = case;
        std::fs::write(format!("{scratch}/given"), plain::line::text(&line::line(slaves))).expect("the project's text");
        let variables = most_variable(slaves);
        let library = taken(&case, first, |rounds| [number, seats, times, rounds, variables].map(|number| number.to_string()).to_vec(), scratch);
        let numbers = |rounds| [number, slaves as u32, seats, times, rounds].map(|number| number.to_string());
        let plain = |rounds| ["plain".to_string()].into_iter().chain(numbers(rounds)).collect();
        let plain = taken(&case, own.to_str().expect("its name"), plain, scratch);
        assert_eq!(library.digests, plain.digests, "{name}: otherwise");
        let (ratio, time) = (library.instructions / plain.instructions, library.nanoseconds / plain.nanoseconds);
        println!("| {name} | {:.0} | {:.0} | {ratio:.2} | {time:.2} |", library.instructions, plain.instructions);
    }
}
