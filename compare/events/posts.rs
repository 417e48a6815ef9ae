//! What tasks post and view. A post waits with the epoch in which its task made it, and is judged when it is taken; the
//! values that are sent are looked up in the accepted posts. docs/meaning/DEFINITIONS.md has the rules.

use super::record::{Entry, line, slot};
use crate::shared::edits::Refusal;
use crate::shared::line::Line;
use crate::shared::packing::{Place, TASKS};

/// At most so many posts of a task wait.
pub const WAITING: usize = 4;

/// A variable's number, and the value that is posted for it.
pub type Setting = (u32, u64);

/// A post that waits: the epoch that its task viewed, and a byte for each byte of outputs that the task had in it.
pub struct Post {
    pub epoch: u32,
    pub bytes: Vec<u8>,
}

fn bit_of(bytes: &[u8], at: usize) -> u8 {
    bytes[at / 8] >> (at % 8) & 1
}

/// The number in some bits, the least significant one first.
fn number_at(bytes: &[u8], at: usize, bits: u8) -> u64 {
    (0..usize::from(bits)).map(|place| u64::from(bit_of(bytes, at + place)) << place).sum()
}

fn put_number(bytes: &mut [u8], at: usize, bits: u8, number: u64) {
    for place in 0..usize::from(bits) {
        let (byte, mask) = ((at + place) / 8, 1 << ((at + place) % 8));
        bytes[byte] = bytes[byte] & !mask | if number >> place & 1 == 1 { mask } else { 0 };
    }
}

/// The first bit of a place in its task's image.
fn image_bit(line: &Line, place: &Place) -> usize {
    let offset = line.layout.datagram(place.task, place.datagram).map_or(0, |datagram| datagram.offset);
    (8 * offset + place.bit) as usize
}

/// The lowest refusal of a value that a task posts.
fn setting_refusal(line: &Line, task: u8, (variable, value): Setting) -> Option<Refusal> {
    let Some(place) = line.variables().get(&variable) else {
        return Some(Refusal::named(1, "NoSuchVariable"));
    };
    let conditions = [
        (2, "IsInput", !place.is_out),
        (3, "OtherTask", place.task != task),
        (4, "TooWide", place.bits < 64 && value >> place.bits > 0),
    ];
    conditions.into_iter().find(|(_, _, holds)| *holds).map(|(number, name, _)| Refusal::named(number, name))
}

/// What a task posts while so many posts of it wait: the first value that is refused decides. Outputs that aren't named
/// are 0, and of a variable that is named twice the last value stays.
pub fn post(line: &Line, task: u8, settings: &[Setting], waiting: usize) -> Result<Post, Refusal> {
    if task >= TASKS {
        return Err(Refusal::of(8));
    }
    if let Some(refusal) = settings.iter().find_map(|setting| setting_refusal(line, task, *setting)) {
        return Err(refusal);
    }
    if waiting >= WAITING {
        return Err(Refusal::named(5, "NoSpare"));
    }
    let mut bytes = vec![0; line.layout.tasks[usize::from(task)].outputs as usize];
    for (variable, value) in settings {
        let place = &line.variables()[variable];
        put_number(&mut bytes, image_bit(line, place), place.bits, *value);
    }
    Ok(Post { epoch: line.state.epoch, bytes })
}

/// Whether a post is accepted where it is taken: its epoch is the present one, and it has as many bytes as the task has
/// outputs.
pub fn is_accepted(line: &Line, task: u8, post: &Post) -> bool {
    post.epoch == line.state.epoch && post.bytes.len() == line.layout.tasks[usize::from(task)].outputs as usize
}

/// Accepted posts and edits, the newest first, each with the line in front of it.
fn posts_and_edits(history: &[Entry]) -> Vec<(&Line, &Entry)> {
    let mut posts_and_edits = Vec::new();
    let mut present = None;
    for entry in history {
        match (entry, present) {
            (Entry::Posted { .. } | Entry::Edited(_), Some(line)) => posts_and_edits.push((line, entry)),
            _ => {}
        }
        if let Entry::Opened(line) | Entry::Edited(line) = entry {
            present = Some(&**line);
        }
    }
    posts_and_edits.reverse();
    posts_and_edits
}

/// The value of an output variable of the line, from the last accepted post of the task that it then had, as far back as it
/// had a place all along; else 0.
fn output(posts_and_edits: &[(&Line, &Entry)], variable: u32) -> u64 {
    for (line, entry) in posts_and_edits {
        let Some(place) = line.variables().get(&variable) else {
            return 0;
        };
        match entry {
            Entry::Posted { task, bytes } if *task == place.task => {
                return number_at(bytes, image_bit(line, place), place.bits);
            }
            _ => {}
        }
    }
    0
}

/// The data of a task's datagram as it is sent: the values of its output variables in their places, and zeros.
pub fn outputs(history: &[Entry], task: u8, number: usize) -> Vec<u8> {
    let (line, posts_and_edits) = (line(history), posts_and_edits(history));
    let length = line.layout.datagram(task, number).map_or(0, |datagram| datagram.length);
    let mut data = vec![0; length as usize];
    for (variable, place) in line.variables() {
        if place.is_out && place.task == task && place.datagram == number {
            put_number(&mut data, place.bit as usize, place.bits, output(&posts_and_edits, *variable));
        }
    }
    data
}

/// The value of an input variable as a task views it.
pub fn viewed(history: &[Entry], task: u8, variable: u32) -> Result<u64, Refusal> {
    if task >= TASKS {
        return Err(Refusal::of(8));
    }
    let Some(place) = line(history).variables().get(&variable) else {
        return Err(Refusal::named(1, "NoSuchVariable"));
    };
    if place.is_out {
        return Err(Refusal::named(2, "IsOutput"));
    }
    if place.task != task {
        return Err(Refusal::named(3, "OtherTask"));
    }
    let data = slot(history, task, place.datagram).ok_or(Refusal::named(4, "NotAnswered"))?;
    Ok(number_at(data, place.bit as usize, place.bits))
}
