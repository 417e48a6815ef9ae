//! The whole list of what was accepted since the opening, the oldest first, and what it says when it is looked back upon.
//! Nothing is kept beside it. Which arrival answers which sending and when a block is owed is this project's profile;
//! docs/meaning/DEFINITIONS.md has it under "Events and their record".

use super::posts::outputs;
use super::reading::Arrival;
use crate::shared::blocks::Block;
use crate::shared::edits::Refusal;
use crate::shared::frames::{Datagram, FPWR, LRW, frame_text};
use crate::shared::line::Line;
use crate::shared::packing::TASKS;
use std::rc::Rc;

/// What a datagram carries: a task's data, by its number, or the block of a slave at a register.
#[derive(Clone, Copy, PartialEq)]
pub enum Item {
    Process { task: u8, number: usize },
    Block { station: u16, register: u16 },
}

/// A frame that was sent: for each datagram what it carries, how it was sent, and the working counter that is expected.
#[derive(Clone)]
pub struct Sending {
    pub serial: u64,
    pub datagrams: Vec<(Item, Datagram, u16)>,
}

/// What a datagram of an answer is.
#[derive(Clone, Copy, PartialEq)]
pub enum Outcome {
    Good,
    Wrong { expected: u16, got: u16 },
    Stale,
}

/// What an arrival is: stale, or the answer to a sending.
#[derive(Clone, PartialEq)]
pub enum Answer {
    Stale,
    Answered { serial: u64, outcomes: Vec<(Item, Outcome)> },
}

pub enum Entry {
    /// The opening, and an accepted edit, each with the line after it.
    Opened(Rc<Line>),
    Edited(Rc<Line>),
    Sent(Sending),
    /// A post that was taken and accepted.
    Posted {
        task: u8,
        bytes: Vec<u8>,
    },
    /// A frame that could be read, with what it was.
    Came {
        arrival: Arrival,
        answer: Answer,
    },
}

/// The present line.
pub fn line(history: &[Entry]) -> &Line {
    let lines = history.iter().rev().filter_map(|entry| match entry {
        Entry::Opened(line) | Entry::Edited(line) => Some(line),
        _ => None,
    });
    lines.into_iter().next().expect("an opening")
}

fn sendings(history: &[Entry]) -> impl Iterator<Item = &Sending> {
    history.iter().filter_map(|entry| match entry {
        Entry::Sent(sending) => Some(sending),
        _ => None,
    })
}

/// The serial of the next sending: how many there were.
pub fn next_serial(history: &[Entry]) -> u64 {
    sendings(history).count() as u64
}

impl Sending {
    pub fn text(&self) -> Vec<u8> {
        let datagrams: Vec<Datagram> = self.datagrams.iter().map(|(_, datagram, _)| datagram.clone()).collect();
        frame_text(self.serial, &datagrams)
    }

    fn carries(&self, item: Item) -> bool {
        self.datagrams.iter().any(|(own, _, _)| *own == item)
    }

    /// Whether an arrival has its serial and, one by one, its commands, addresses and lengths.
    fn fits(&self, arrival: &Arrival) -> bool {
        let head = |one: &Datagram| (one.command, one.address, one.data.len());
        self.serial == arrival.serial
            && self.datagrams.iter().map(|(_, one, _)| head(one)).eq(arrival.datagrams.iter().map(head))
    }
}

/// What an arrival is after a list of entries. It answers the sending that it fits, unless an edit was accepted or a
/// fitting arrival came since. A datagram of it is stale where it was sent again since; else its working counter decides.
pub fn answer(history: &[Entry], arrival: &Arrival) -> Answer {
    let fitting = |entry: &Entry| matches!(entry, Entry::Sent(sending) if sending.fits(arrival));
    let Some(place) = history.iter().position(fitting) else {
        return Answer::Stale;
    };
    let (Entry::Sent(sending), since) = (&history[place], &history[place + 1..]) else {
        return Answer::Stale;
    };
    let ends = |entry: &Entry| match entry {
        Entry::Edited(_) => true,
        Entry::Came { arrival, .. } => sending.fits(arrival),
        _ => false,
    };
    if since.iter().any(ends) {
        return Answer::Stale;
    }
    let outcome = |item: Item, expected: u16, got: u16| {
        if sendings(since).any(|later| later.carries(item)) {
            Outcome::Stale
        } else if got == expected {
            Outcome::Good
        } else {
            Outcome::Wrong { expected, got }
        }
    };
    let pairs = sending.datagrams.iter().zip(&arrival.datagrams);
    let outcomes: Vec<(Item, Outcome)> =
        pairs.map(|((item, _, expected), came)| (*item, outcome(*item, *expected, came.counter))).collect();
    if outcomes.iter().all(|(_, outcome)| *outcome == Outcome::Stale) {
        return Answer::Stale;
    }
    Answer::Answered { serial: sending.serial, outcomes }
}

/// The data of a datagram's last good answer since the last accepted edit.
pub fn slot(history: &[Entry], task: u8, number: usize) -> Option<&[u8]> {
    let in_epoch = history.iter().rev().take_while(|entry| !matches!(entry, Entry::Edited(_)));
    let good = in_epoch.filter_map(|entry| match entry {
        Entry::Came { arrival, answer: Answer::Answered { outcomes, .. } } => {
            let place = outcomes.iter().position(|one| *one == (Item::Process { task, number }, Outcome::Good))?;
            Some(&arrival.datagrams[place].data[..])
        }
        _ => None,
    });
    good.into_iter().next()
}

/// Whether the answer to the write with a serial was good.
fn is_confirmed(since: &[Entry], serial: u64) -> bool {
    since.iter().any(|entry| match entry {
        Entry::Came { answer: Answer::Answered { serial: own, outcomes }, .. } => {
            *own == serial && outcomes.iter().all(|(_, outcome)| *outcome == Outcome::Good)
        }
        _ => false,
    })
}

/// The bytes that a slave of the line is known to have in a block: what was written last since it was connected, where
/// that write had a good answer.
fn known(history: &[Entry], station: u16, register: u16) -> Option<&[u8]> {
    for (place, entry) in history.iter().enumerate().rev() {
        match entry {
            Entry::Sent(sending) if sending.carries(Item::Block { station, register }) => {
                let (_, datagram, _) = &sending.datagrams[0];
                return is_confirmed(&history[place..], sending.serial).then_some(&datagram.data[..]);
            }
            Entry::Edited(_) if !line(&history[..place]).has(station) => return None,
            _ => {}
        }
    }
    None
}

/// The blocks of the line that their slaves aren't known to have, each with its slave's station address.
pub fn owed(history: &[Entry]) -> Vec<&(u16, Block)> {
    let is_owed = |(station, block): &&(u16, Block)| known(history, *station, block.register) != Some(&block.bytes);
    line(history).blocks.iter().filter(is_owed).collect()
}

/// The next frames of tasks: a datagram joins the frame before it where the 2 bytes of the EtherCAT header
/// and 12 bytes and the data of each datagram are at most the 1,500 bytes of an Ethernet frame.
fn frames_of(history: &[Entry], tasks: &[u8]) -> Vec<Sending> {
    let layout = &line(history).layout;
    let mut frames: Vec<Sending> = Vec::new();
    for task in tasks {
        for (number, own) in layout.tasks[usize::from(*task)].datagrams.iter().enumerate() {
            let datagram = Datagram::sent(LRW, own.address, outputs(history, *task, number));
            let bytes = |frame: &Sending| frame.datagrams.iter().map(|(_, one, _)| 12 + one.data.len()).sum::<usize>();
            if frames.last().is_none_or(|last| 2 + bytes(last) + 12 + datagram.data.len() > 1500) {
                let serial = next_serial(history) + frames.len() as u64;
                frames.push(Sending { serial, datagrams: Vec::new() });
            }
            let last = frames.last_mut().expect("a frame");
            last.datagrams.push((Item::Process { task: *task, number }, datagram, own.expected));
        }
    }
    frames
}

/// What sending some tasks comes to: nothing is sent while a block is owed.
pub fn sent_tasks(history: &[Entry], tasks: &[u8]) -> Result<Vec<Sending>, Refusal> {
    if tasks.iter().any(|task| *task >= TASKS) {
        return Err(Refusal::of(8));
    }
    match owed(history).len() {
        0 => Ok(frames_of(history, tasks)),
        count => Err(Refusal::carrying(17, count)),
    }
}

/// The write of the first owed block. A slave that takes it raises the working counter by 1 (ETG.1000.4, 5.4).
pub fn sent_write(history: &[Entry]) -> Result<Sending, Refusal> {
    let owed = owed(history);
    let Some((station, block)) = owed.first() else {
        return Err(Refusal::of(18));
    };
    let (station, register) = (*station, block.register);
    let address = u32::from(station) | u32::from(register) << 16;
    let datagram = Datagram::sent(FPWR, address, block.bytes.clone());
    Ok(Sending { serial: next_serial(history), datagrams: vec![(Item::Block { station, register }, datagram, 1)] })
}
