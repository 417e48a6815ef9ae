//! The program as a plain model: the record, the posts that wait, and the machines of the simulated line. Each command is a
//! call that gives its answer.

use super::machines::{APRD, APWR, Machine, Machines};
use super::posts::{Post, Setting, is_accepted, outputs, post, viewed};
use super::reading::{Arrival, read};
use super::record::{Answer, Entry, Item, Outcome, Sending, answer, line, next_serial, owed, sent_tasks, sent_write, slot};
use crate::shared::edits::{Edit, Refusal, naming_fault};
use crate::shared::frames::Datagram;
use crate::shared::line::Line;
use crate::shared::packing::TASKS;
use crate::shared::printed::{edit_line, hex, layout_lines, place_line, regs_lines, show_line};
use std::rc::Rc;

/// What a command prints, or why it is refused.
pub type Reply = Result<Vec<String>, Refusal>;

pub struct Model {
    pub history: Vec<Entry>,
    /// What tasks see is what stood in the record at the last publishing: so many entries.
    seen: usize,
    publishings: usize,
    /// The publishing with this number, counted from 1, is refused: what was new shows after the next turn.
    pub unpublished: Option<usize>,
    /// The posts of each task that weren't taken yet, the oldest first.
    waiting: [Vec<Post>; TASKS as usize],
    pub machines: Machines,
}

/// The posts that were accepted and refused where they were taken.
#[derive(Clone, Copy, PartialEq)]
pub struct Taken {
    pub accepted: usize,
    pub refused: usize,
}

/// A line for each datagram that an arrival answers, or one.
pub fn answer_lines(answer: &Answer) -> Vec<String> {
    let Answer::Answered { outcomes, .. } = answer else {
        return vec!["stale".to_string()];
    };
    let line = |(item, outcome): &(Item, Outcome)| match (item, outcome) {
        (Item::Process { task, number }, Outcome::Good) => format!("inputs {task} {number}"),
        (Item::Process { .. }, Outcome::Wrong { expected, got }) => format!("wrong count {expected} {got}"),
        (Item::Block { .. }, Outcome::Good) => "write done".to_string(),
        (Item::Block { .. }, Outcome::Wrong { .. }) => "write missed".to_string(),
        (_, Outcome::Stale) => "stale".to_string(),
    };
    outcomes.iter().map(line).collect()
}

pub fn sent_lines(sendings: &[Sending]) -> Vec<String> {
    if sendings.is_empty() {
        return vec!["no frame".to_string()];
    }
    sendings.iter().map(|sending| format!("sent {}: {}", sending.serial, hex(&sending.text()))).collect()
}

impl Model {
    pub fn of(opened: Line) -> Model {
        let machines = Machines::of(&opened, &Machines(Vec::new()));
        let history = vec![Entry::Opened(Rc::new(opened))];
        Model { history, seen: 1, publishings: 0, unpublished: None, waiting: Default::default(), machines }
    }

    /// After each command that changes the record.
    fn publish(&mut self) {
        self.publishings += 1;
        if self.unpublished != Some(self.publishings) {
            self.seen = self.history.len();
        }
    }

    /// After each turn that began with so many publishings: a turn that published nothing publishes what a refused
    /// publishing left.
    pub fn catch_up(&mut self, publishings: usize) {
        if self.publishings == publishings && self.seen < self.history.len() {
            self.publish();
        }
    }

    /// How many publishings there were.
    pub fn publishings(&self) -> usize {
        self.publishings
    }

    /// Whether there was the publishing that was to be refused.
    pub fn met_unpublished(&self) -> bool {
        self.unpublished.is_none_or(|number| number <= self.publishings)
    }

    /// The present line.
    pub fn line(&self) -> &Line {
        line(&self.history)
    }

    pub fn layout(&self) -> Vec<String> {
        layout_lines(self.line().state.epoch, &self.line().layout)
    }

    pub fn regs(&self, station: u16) -> Vec<String> {
        regs_lines(&self.line().state, &self.line().layout, station)
    }

    pub fn place(&self, variable: u32) -> String {
        place_line(&self.line().state, &self.line().layout, variable)
    }

    /// The frame of a datagram as it would be sent next.
    pub fn show(&self, task: u8, number: u8) -> String {
        let data = |_: &_| outputs(&self.history, task, number.into());
        show_line(&self.line().layout, next_serial(&self.history), task, number, data)
    }

    pub fn edit(&mut self, edit: &Edit) -> Reply {
        let (new, recut, moved) = self.line().edited(edit)?;
        let line_printed = edit_line(Ok((new.state.epoch, recut, moved)));
        self.machines = Machines::of(&new, &self.machines);
        self.history.push(Entry::Edited(Rc::new(new)));
        self.publish();
        Ok(vec![line_printed])
    }

    fn send_write(&mut self) -> Result<Sending, Refusal> {
        let sending = sent_write(&self.history)?;
        self.history.push(Entry::Sent(sending.clone()));
        Ok(sending)
    }

    fn send_tasks(&mut self, tasks: &[u8]) -> Result<Vec<Sending>, Refusal> {
        let sendings = sent_tasks(&self.history, tasks)?;
        self.history.extend(sendings.iter().cloned().map(Entry::Sent));
        Ok(sendings)
    }

    /// The write of the first owed block.
    pub fn write(&mut self) -> Result<Sending, Refusal> {
        let sending = self.send_write()?;
        self.publish();
        Ok(sending)
    }

    pub fn send(&mut self, tasks: &[u8]) -> Result<Vec<Sending>, Refusal> {
        let sendings = self.send_tasks(tasks)?;
        self.publish();
        Ok(sendings)
    }

    fn take_in(&mut self, arrival: Arrival) -> Answer {
        let answer = answer(&self.history, &arrival);
        self.history.push(Entry::Came { arrival, answer: answer.clone() });
        answer
    }

    pub fn arrive(&mut self, bytes: &[u8]) -> Result<Answer, Refusal> {
        let arrival = read(bytes).map_err(Refusal::of)?;
        let answer = self.take_in(arrival);
        self.publish();
        Ok(answer)
    }

    pub fn read(&self, task: u8) -> Reply {
        if task >= TASKS {
            return Err(Refusal::of(8));
        }
        let Line { state, layout, .. } = self.line();
        let slot_line = |number| {
            let data = slot(&self.history, task, number);
            format!("slot {number} {}", data.map_or("none".to_string(), hex))
        };
        let datagrams = layout.tasks[usize::from(task)].datagrams.len();
        Ok([format!("epoch {}", state.epoch)].into_iter().chain((0..datagrams).map(slot_line)).collect())
    }

    /// How many posts of a task wait.
    pub fn waiting(&self, task: u8) -> usize {
        self.waiting[usize::from(task)].len()
    }

    pub fn post(&mut self, task: u8, settings: &[Setting]) -> Reply {
        let waiting = if task < TASKS { self.waiting(task) } else { 0 };
        let post = post(line(&self.history[..self.seen]), task, settings, waiting)?;
        self.waiting[usize::from(task)].push(post);
        Ok(vec!["posted".to_string()])
    }

    /// All posts that wait are taken, task 0's first.
    pub fn take(&mut self) -> Taken {
        let mut taken = Taken { accepted: 0, refused: 0 };
        for task in 0..TASKS {
            for post in std::mem::take(&mut self.waiting[usize::from(task)]) {
                if is_accepted(self.line(), task, &post) {
                    self.history.push(Entry::Posted { task, bytes: post.bytes });
                    taken.accepted += 1;
                } else {
                    taken.refused += 1;
                }
            }
        }
        self.publish();
        taken
    }

    pub fn view(&self, task: u8, variable: u32) -> Reply {
        let seen = &self.history[..self.seen];
        let value = viewed(seen, task, variable)?;
        Ok(vec![format!("epoch {} var {variable} value {value}", line(seen).state.epoch)])
    }

    /// The datagrams of a sending as they come back along the line.
    fn along(&mut self, sending: &Sending) -> Arrival {
        let mut datagrams: Vec<Datagram> = sending.datagrams.iter().map(|(_, one, _)| one.clone()).collect();
        self.machines.pass(&mut datagrams);
        Arrival { serial: sending.serial, datagrams }
    }

    /// Owed blocks are written along the line up to the first that isn't: how many were, and how many are owed then.
    pub fn program(&mut self) -> (usize, usize) {
        let mut done = 0;
        while let Ok(sending) = self.send_write() {
            let back = self.along(&sending);
            if answer_lines(&self.take_in(back)) != ["write done"] {
                break;
            }
            done += 1;
        }
        self.publish();
        (done, owed(&self.history).len())
    }

    /// Tasks are sent along the line, and all frames come back: the answer to each.
    pub fn cycle(&mut self, tasks: &[u8]) -> Result<Vec<Answer>, Refusal> {
        let sendings = self.send_tasks(tasks)?;
        let back: Vec<Arrival> = sendings.iter().map(|sending| self.along(sending)).collect();
        let answers = back.into_iter().map(|arrival| self.take_in(arrival)).collect();
        self.publish();
        Ok(answers)
    }

    /// A datagram by a slave's position, as it comes back along the line.
    fn by_position(&mut self, command: u8, position: usize, register: u32, data: [u8; 2]) -> Datagram {
        let address = u32::from((position as u16).wrapping_neg()) | register << 16;
        let mut datagrams = [Datagram::sent(command, address, data.to_vec())];
        self.machines.pass(&mut datagrams);
        let [datagram] = datagrams;
        datagram
    }

    pub fn scan(&mut self) -> Vec<String> {
        let mut lines = Vec::new();
        for position in 0..self.machines.0.len() {
            let back = self.by_position(APRD, position, 0x0012, [0, 0]);
            lines.push(format!("slot {position} alias {}", u16::from_le_bytes([back.data[0], back.data[1]])));
        }
        lines
    }

    pub fn name(&mut self) -> Vec<String> {
        let stations: Vec<u16> = self.machines.0.iter().map(|(station, _)| *station).collect();
        let mut count = 0;
        for (position, station) in stations.into_iter().enumerate() {
            count += usize::from(self.by_position(APWR, position, 0x0010, station.to_le_bytes()).counter == 1);
        }
        vec![format!("named {count}")]
    }

    /// The machine of a slave of the line.
    fn machine(&mut self, station: u16) -> Result<&mut Machine, Refusal> {
        if let Some(number) = naming_fault(&self.line().state, station) {
            return Err(Refusal::of(number));
        }
        Ok(self.machines.0.iter_mut().find(|(own, _)| *own == station).map(|(_, own)| own).expect("a machine"))
    }

    pub fn poke(&mut self, station: u16, at: usize, bytes: &[u8]) -> Reply {
        self.machine(station)?.memory[at..at + bytes.len()].copy_from_slice(bytes);
        Ok(vec!["poked".to_string()])
    }

    pub fn peek(&mut self, station: u16, at: usize, count: usize) -> Reply {
        let bytes = self.machine(station)?.memory[at..at + count].iter().map(|byte| format!(" {byte:02x}"));
        Ok(vec![format!("mem 0x{at:04x}:{}", bytes.collect::<String>())])
    }
}
