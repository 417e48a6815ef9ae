//! What was met in all scripts, and whether that is enough.

use super::arrivals::KINDS;
use super::model::Taken;
use super::record::{Answer, Item, Outcome};
use crate::shared::counts::Counts;
use crate::shared::documents::FAULTS;
use crate::shared::edits::Refusal;

#[derive(Default)]
pub struct Met {
    pub edits: usize,
    /// Edits that declare a group, and are accepted.
    pub declared: usize,
    pub writes: usize,
    pub sends: usize,
    pub reads: usize,
    /// Refusals by their number; posts and views have their own.
    pub refused: Counts,
    pub posts_refused: Counts,
    pub views_refused: Counts,
    /// Faults of documents by their number.
    pub faults: Counts,
    /// Arrivals by the kind that was drawn.
    pub arrived: [usize; KINDS.len()],
    inputs: usize,
    wrong: usize,
    /// Datagrams that are stale beside others that aren't.
    passed: usize,
    done: usize,
    missed: usize,
    stale: usize,
    pub full_slots: usize,
    pub empty_slots: usize,
    /// Frames of several datagrams that were sent, and datagrams that were sent with another byte than 0.
    pub together: usize,
    pub filled: usize,
    pub posts: usize,
    pub takes: usize,
    /// Posts that were accepted and refused where they were taken.
    accepted: usize,
    outdated: usize,
    pub views: usize,
    pub scans: usize,
    pub names: usize,
    pub programs: usize,
    pub cycles: usize,
    pub pokes: usize,
    pub peeks: usize,
    /// Writes along the line that weren't done.
    pub missed_along: usize,
    /// Datagrams along the line with another counter than the expected one.
    pub wrong_along: usize,
    /// Scripts that end with a line of the tasks' commands that is none.
    pub malformed: usize,
}

impl Met {
    fn arrivals(&self) -> usize {
        self.arrived.iter().sum()
    }

    fn events(&self) -> usize {
        self.edits + self.writes + self.sends + self.reads + self.arrivals() + self.of_tasks() + self.along()
    }

    /// What tasks do: posts, takings and views.
    fn of_tasks(&self) -> usize {
        self.posts + self.takes + self.views
    }

    /// The commands of the simulated line.
    fn along(&self) -> usize {
        self.scans + self.names + self.programs + self.cycles + self.pokes + self.peeks
    }

    pub fn refuse(&mut self, refusal: Refusal) -> Vec<String> {
        self.refused.add(refusal.number);
        vec![refusal.line()]
    }

    pub fn answer(&mut self, answer: &Answer) {
        let Answer::Answered { outcomes, .. } = answer else {
            self.stale += 1;
            return;
        };
        for (item, outcome) in outcomes {
            let is_block = matches!(item, Item::Block { .. });
            let count = match outcome {
                Outcome::Stale => &mut self.passed,
                Outcome::Good if is_block => &mut self.done,
                Outcome::Good => &mut self.inputs,
                Outcome::Wrong { .. } if is_block => &mut self.missed,
                Outcome::Wrong { .. } => &mut self.wrong,
            };
            *count += 1;
        }
    }

    pub fn take(&mut self, taken: Taken) {
        self.takes += 1;
        self.accepted += taken.accepted;
        self.outdated += taken.refused;
    }

    /// Whether the draws met what they are for.
    pub fn is_enough(&self) -> bool {
        let kinds = self.arrived.iter().all(|count| *count >= 200);
        let frames = self.refused.have_each(20..=27, 5);
        let refusals = self.refused.have_each([8, 17, 18], 20) && self.refused.have_each(31..=33, 2);
        let Met { inputs, wrong, passed, done, missed, stale, full_slots, empty_slots, .. } = self;
        let answers = [inputs, wrong, passed, done, missed, stale, full_slots, empty_slots];
        let tasks = [self.posts, self.takes, self.views, self.accepted, self.filled];
        self.events() >= 20_000
            && kinds
            && frames
            && refusals
            && answers.iter().all(|count| **count >= 100)
            && self.together >= 100
            && self.declared >= 100
            && FAULTS.iter().filter(|number| self.faults.of(**number) > 0).count() >= 6
            && tasks.iter().all(|count| *count >= 1000)
            && self.outdated >= 200
            && self.posts_refused.have_each([1, 2, 3, 4, 5, 8], 50)
            && self.views_refused.have_each([1, 2, 3, 4, 8], 20)
            && self.malformed >= 3
            && [self.scans, self.names, self.programs, self.cycles, self.pokes, self.peeks].iter().all(|count| *count >= 100)
            && [self.missed_along, self.wrong_along].iter().all(|count| *count >= 20)
    }

    pub fn print(&self) {
        let Met { edits, writes, sends, reads, inputs, wrong, passed, done, missed, stale, .. } = self;
        println!(
            "{} events: {edits} edits, {writes} writes, {sends} sends, {} arrivals, {reads} reads",
            self.events(),
            self.arrivals()
        );
        let Met { posts, takes, accepted, outdated, views, filled, .. } = self;
        println!(
            "of tasks: {posts} posts, {takes} takings ({accepted} posts accepted, {outdated} refused), {views} views; {filled} datagrams sent with values"
        );
        println!("posts refused by number: {}; views: {}", self.posts_refused, self.views_refused);
        let Met { scans, names, programs, cycles, pokes, peeks, missed_along, wrong_along, .. } = self;
        println!(
            "along the line: {scans} scans, {names} names, {programs} programs ({missed_along} missed), {cycles} cycles ({wrong_along} wrong counts), {pokes} pokes, {peeks} peeks"
        );
        let kinds: Vec<String> =
            KINDS.iter().zip(self.arrived).map(|((_, name), count)| format!("{count} {name}")).collect();
        println!("arrivals: {}", kinds.join(", "));
        println!(
            "answers: {inputs} inputs, {wrong} wrong count, {passed} stale beside others, {done} write done, {missed} write missed, {stale} stale"
        );
        println!("others refused by number: {}", self.refused);
        println!("{} groups declared; {} documents with faults by number: {}", self.declared, self.faults.total(), self.faults);
        println!(
            "{} frames of several datagrams; slots read: {} with data, {} without",
            self.together, self.full_slots, self.empty_slots
        );
        println!("{} scripts end with a malformed line of a task's command", self.malformed);
    }
}
