//! Edits of a core and of a plan, on lines of 8 to 2,048 slaves, beside plain Rust: each edit by itself.
//!
//! After each round all owed blocks are written and all tasks posted, so that an edit finds known blocks and values. First
//! both sides play a round, and write and post after each edit too. Their answers must be equal: epoch, spans, moved blocks
//! and changed rows of an edit; then the owed blocks, the ready tasks and all frames.

mod asked;
#[path = "../measured.rs"]
mod measured;
#[path = "../plain/mod.rs"]
mod plain;

use asked::{Asked, Case, NOTHING, SETTLE, joining, round};
use measured::{Measuring, Taken};
use plain::digest::{digest_of_all, digest_of_changes, digest_of_rows};
use plain::line;
use plain::plan::{Edit, Group, Plan};
use plain::running::Running;
use std::time::Instant;

const SLAVES: [usize; 4] = [8, 64, 512, 2048];
/// The rounds whose medians are the times.
const ROUNDS: usize = 11;
/// What every task posts.
const POSTED: [u8; 65_536] = [0xc3; 65_536];

/// What was measured of something asked: nanoseconds, and what was answered as one number.
#[repr(C)]
#[derive(Clone, Copy, Default)]
struct Played {
    time: u64,
    digest: u64,
}

// What is handed over are slices, each by its first element and its length.
unsafe extern "C" {
    fn core_edits(
        text: *const u8, size: usize, asked: *const Asked, count: usize, untimed: usize, bytes: *const u8, bytes_size: usize,
        played: *mut Played, played_count: usize,
    ) -> usize;
    fn plan_edits(
        text: *const u8, size: usize, asked: *const Asked, count: usize, untimed: usize, played: *mut Played,
        played_count: usize,
    ) -> usize;
}

#[derive(Clone, Copy, PartialEq)]
enum Player {
    Core,
    PlainCore,
    Plan,
    PlainPlan,
}

const PLAYERS: [Player; 4] = [Player::Core, Player::PlainCore, Player::Plan, Player::PlainPlan];

/// A line with its groups, and what is asked of it.
struct Line {
    groups: Vec<Group>,
    text: String,
    asked: Vec<Asked>,
    cases: Vec<Case>,
}

/// The nanoseconds of an edit in plain Rust, unless it is not timed, and the digest of its epoch, spans and moved blocks.
fn timed(is_timed: bool, edit: impl FnOnce() -> [u32; 3]) -> Played {
    let begun = is_timed.then(Instant::now);
    let numbers = edit();
    let time = begun.map_or(0, |begun| begun.elapsed().as_nanos() as u64);
    let [epoch, recut, moved] = numbers.map(u64::from);
    Played { time, digest: digest_of_all(epoch, &[recut, moved]) }
}

impl Line {
    fn new(slaves: usize) -> Line {
        let groups = line::line(slaves);
        let (asked, cases) = round(slaves);
        Line { text: line::text(&groups), groups, asked, cases }
    }

    fn by_library(&self, asked: &[Asked], untimed: usize, is_core: bool) -> Vec<Played> {
        let mut played = vec![Played::default(); asked.len()];
        let (text, size, first, count) = (self.text.as_ptr(), self.text.len(), asked.as_ptr(), asked.len());
        let found = unsafe {
            match is_core {
                true => core_edits(text, size, first, count, untimed, POSTED.as_ptr(), POSTED.len(), played.as_mut_ptr(), count),
                false => plan_edits(text, size, first, count, untimed, played.as_mut_ptr(), count),
            }
        };
        assert_eq!(found, count, "not all was played");
        assert!(played.iter().all(|own| own.time < u64::MAX), "a refused edit");
        played
    }

    fn by_plain_core(&self, asked: &[Asked], untimed: usize) -> Vec<Played> {
        let mut running = Running::open(&self.groups);
        let mut play = |(number, one): (usize, &Asked)| match (one.edit(), one.kind) {
            (Some(edit), _) => {
                let own = timed(untimed <= number, || running.core.edit(&edit).expect("an accepted edit"));
                running.take();
                Played { digest: digest_of_changes(own.digest, &running.changes), ..own }
            }
            (None, SETTLE) => {
                running.settle(&POSTED);
                Played { time: 0, digest: running.digest() }
            }
            _ => timed(true, || [0; 3]),
        };
        asked.iter().enumerate().map(&mut play).collect()
    }

    fn by_plain_plan(&self, asked: &[Asked], untimed: usize) -> Vec<Played> {
        let mut plan = Plan::new(&self.groups);
        let mut apply = |edit: Edit, is_timed| {
            let mut rows = Vec::new();
            let own = timed(is_timed, || {
                let report = plan.apply(&edit).expect("an accepted edit");
                rows = report.rows;
                [report.epoch, report.recut, report.moved]
            });
            Played { digest: digest_of_rows(own.digest, &rows), ..own }
        };
        let mut play = |(number, one): (usize, &Asked)| match (one.edit(), one.kind) {
            (Some(edit), _) => apply(edit, untimed <= number),
            (None, SETTLE) => Played::default(),
            _ => timed(true, || [0; 3]),
        };
        asked.iter().enumerate().map(&mut play).collect()
    }

    fn by(&self, player: Player, asked: &[Asked], untimed: usize) -> Vec<Played> {
        match player {
            Player::Core => self.by_library(asked, untimed, true),
            Player::PlainCore => self.by_plain_core(asked, untimed),
            Player::Plan => self.by_library(asked, untimed, false),
            Player::PlainPlan => self.by_plain_plan(asked, untimed),
        }
    }

    /// Stops where two players answer otherwise.
    fn compare(&self, players: [Player; 2], asked: &[Asked]) {
        let [own, other] = players.map(|player| self.by(player, asked, asked.len()));
        let differs = own.iter().zip(&other).position(|(own, other)| own.digest != other.digest);
        assert!(differs.is_none(), "number {differs:?} of what is asked is answered otherwise: {:?}", differs.map(|at| asked[at]));
    }

    /// The groups come, and each edit is followed by a settling.
    fn compare_all(&self) {
        let settle = Asked::of(SETTLE);
        let edits = self.asked.iter().flat_map(|edit| [*edit, settle]);
        let asked: Vec<Asked> = joining(&self.groups).into_iter().chain([settle]).chain(edits).collect();
        self.compare([Player::Core, Player::PlainCore], &asked);
        self.compare([Player::Plan, Player::PlainPlan], &asked);
    }

    /// The nanoseconds of each edit of so many rounds, and of nothing at the end of each.
    fn times(&self, player: Player, rounds: usize) -> Vec<u64> {
        let before: Vec<Asked> = joining(&self.groups).into_iter().chain([Asked::of(SETTLE)]).collect();
        let round: Vec<Asked> = self.asked.iter().copied().chain([NOTHING, SETTLE].map(Asked::of)).collect();
        let asked = [before.clone(), round.repeat(rounds)].concat();
        let played = self.by(player, &asked, before.len()).split_off(before.len());
        played.chunks(round.len()).flat_map(|row| &row[..round.len() - 1]).map(|own| own.time).collect()
    }

    /// How many blocks each edit moves.
    fn moved(&self) -> Vec<u32> {
        let mut plan = Plan::new(&self.groups);
        let apply = |asked: &Asked| asked.edit().map_or(0, |edit| plan.apply(&edit).expect("an accepted edit").moved);
        let joining = joining(&self.groups);
        joining.iter().chain(&self.asked).map(apply).skip(joining.len()).collect()
    }
}

/// The mean of what edits take, less what nothing takes.
fn mean(taken: &[Taken], edits: &[usize]) -> Taken {
    let nothing = taken[taken.len() - 1];
    let of = |pick: fn(&Taken) -> f64| edits.iter().map(|edit| pick(&taken[*edit])).sum::<f64>() / edits.len() as f64 - pick(&nothing);
    Taken { instructions: of(|own| own.instructions), nanoseconds: of(|own| own.nanoseconds) }
}

fn print(line: &Line, slaves: usize, taken: &[Vec<Taken>]) {
    let moved = line.moved();
    for Case { name, edits } in &line.cases {
        let [core, plain_core, plan, plain_plan] = [0, 1, 2, 3].map(|player: usize| mean(&taken[player], edits));
        let [core_ratio, plan_ratio, to_plan] =
            [(core, plain_core), (plan, plain_plan), (core, plan)].map(|(own, other)| own.instructions / other.instructions);
        println!(
            "| {name} | {slaves} | {} | {:.0} | {:.0} | {core_ratio:.2} | {:.0} | {:.0} | {plan_ratio:.2} | {to_plan:.2} | {:.2} |",
            moved[edits[0]],
            core.instructions,
            plain_core.instructions,
            plan.instructions,
            plain_plan.instructions,
            core.nanoseconds / plain_core.nanoseconds
        );
    }
}

fn main() {
    let mut measuring = Measuring::of(ROUNDS);
    println!("| Edit | Slaves | Blocks moved | Core | Plain Rust | Ratio | Plan | Plain Rust | Ratio | Core to plan | Times, core |");
    println!("|{}", "---|".repeat(11));
    for slaves in SLAVES {
        let line = Line::new(slaves);
        if !measuring.is_counting {
            line.compare_all();
        }
        let things = line.asked.len() + 1;
        let taken: Vec<Vec<Taken>> =
            PLAYERS.iter().map(|player| measuring.all(things, |rounds| line.times(*player, rounds))).collect();
        print(&line, slaves, &taken);
    }
}
