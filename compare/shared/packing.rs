//! The places of a line's areas: each task's list is packed from its front. The rules of packing are this project's
//! profile; docs/meaning/DEFINITIONS.md has them.

use super::records::{Area, Member, Slave};
use std::collections::{BTreeMap, BTreeSet};

pub const TASKS: u8 = 8;
pub const MOST_DATAGRAMS: usize = 16;
/// The bits of the 1,486 data bytes that fit a datagram (ETG.1000.4, 5.3 and 5.4).
pub const MOST_BITS: u32 = 11_888;

/// The name of an area. Keys are ordered by direction, outputs first, then along the line, then as the slave's record has
/// its areas.
#[derive(Clone, Copy, PartialEq, Eq, PartialOrd, Ord, Debug)]
pub struct Key {
    pub is_input: bool,
    pub rank: usize,
    pub area: usize,
}

/// An area with a width, and its place: the number of its datagram, and its first bit in that.
#[derive(Clone, Copy)]
pub struct Placed {
    pub key: Key,
    pub width: u32,
    pub datagram: usize,
    pub bit: u32,
}

#[derive(Clone)]
pub struct Datagram {
    pub address: u32,
    pub length: u32,
    pub expected: u16,
    /// Where it begins in the image of its task.
    pub offset: u32,
}

/// A task's areas in their places, its datagrams, and the bytes of its outputs and of its inputs.
#[derive(Clone)]
pub struct Task {
    pub areas: Vec<Placed>,
    pub datagrams: Vec<Datagram>,
    pub outputs: u32,
    pub inputs: u32,
}

/// What a line is configured as, worked out from nothing.
#[derive(Clone)]
pub struct Layout {
    pub tasks: Vec<Task>,
    /// Each area that has a place, with its task.
    pub places: BTreeMap<Key, (u8, Placed)>,
}

/// The place of a variable: the bit counts in its datagram.
pub struct Place {
    pub task: u8,
    pub datagram: usize,
    pub bit: u32,
    pub bits: u8,
    pub is_out: bool,
}

pub fn key_of(rank: usize, number: usize, area: &Area) -> Key {
    Key { is_input: !area.is_out, rank, area: number }
}

/// The areas of a task that have a width: its outputs along the line, then its inputs along the line.
pub fn task_list(line: &[Member], task: u8) -> Vec<(Key, u32)> {
    let of_line = |is_out: bool| {
        let areas = line.iter().flat_map(|(rank, slave)| slave.areas.iter().enumerate().map(move |one| (*rank, one)));
        let own = areas.filter(move |(_, (_, area))| area.task == task && area.is_out == is_out);
        own.map(|(rank, (number, area))| (key_of(rank, number, area), area.width())).filter(|(_, width)| *width > 0)
    };
    of_line(true).chain(of_line(false)).collect()
}

/// Each area follows the one before it. An area of 8 bits or more, and the first input after an output, begins at a
/// byte border; one that would end beyond the longest datagram begins the next datagram.
pub fn packed(list: &[(Key, u32)]) -> Vec<Placed> {
    let mut areas: Vec<Placed> = Vec::new();
    for (key, width) in list {
        let (key, width) = (*key, *width);
        let (datagram, bit) = match areas.last() {
            None => (0, 0),
            Some(last) => {
                let free = last.bit + last.width;
                let begins_byte = width >= 8 || (key.is_input && !last.key.is_input);
                let bit = if begins_byte { 8 * free.div_ceil(8) } else { free };
                if bit + width <= MOST_BITS { (last.datagram, bit) } else { (last.datagram + 1, 0) }
            }
        };
        areas.push(Placed { key, width, datagram, bit });
    }
    areas
}

/// How many datagrams a task needs.
pub fn datagram_count(areas: &[Placed]) -> usize {
    areas.last().map_or(0, |last| last.datagram + 1)
}

/// The lowest task that needs too many datagrams.
pub fn over_limit_task(line: &[Member]) -> Option<u8> {
    (0..TASKS).find(|task| datagram_count(&packed(&task_list(line, *task))) > MOST_DATAGRAMS)
}

/// The working counter with which a datagram with these areas comes back (ETG.1000.4, 5.4): 2 for each slave that it is
/// written to, and 1 for each that is read, however many FMMUs it meets there.
fn expected_counter(areas: &[&Placed]) -> u16 {
    let met: BTreeSet<(usize, bool)> = areas.iter().map(|area| (area.key.rank, area.key.is_input)).collect();
    met.iter().map(|(_, is_input)| if *is_input { 1 } else { 2 }).sum()
}

fn task_of(line: &[Member], task: u8) -> Task {
    let areas = packed(&task_list(line, task));
    let mut datagrams: Vec<Datagram> = Vec::new();
    for number in 0..datagram_count(&areas) {
        let own: Vec<&Placed> = areas.iter().filter(|area| area.datagram == number).collect();
        datagrams.push(Datagram {
            address: 0x0100_0000 * (u32::from(task) + 1) + 2048 * number as u32,
            length: own.iter().map(|area| (area.bit + area.width).div_ceil(8)).max().unwrap_or(0),
            expected: expected_counter(&own),
            offset: datagrams.iter().map(|datagram| datagram.length).sum(),
        });
    }
    let whole = datagrams.iter().map(|datagram| datagram.length).sum();
    // the first byte of the image that holds an input's bit ends the outputs
    let inputs = areas.iter().filter(|area| area.key.is_input);
    let outputs = inputs.map(|area| datagrams[area.datagram].offset + area.bit / 8).min().unwrap_or(whole);
    Task { areas, datagrams, outputs, inputs: whole - outputs }
}

pub fn layout_of(line: &[Member]) -> Layout {
    let tasks: Vec<Task> = (0..TASKS).map(|task| task_of(line, task)).collect();
    let placed =
        (0..TASKS).zip(&tasks).flat_map(|(task, own)| own.areas.iter().map(move |area| (area.key, (task, *area))));
    let places = placed.collect();
    Layout { tasks, places }
}

impl Layout {
    pub fn datagram(&self, task: u8, number: usize) -> Option<&Datagram> {
        self.tasks[usize::from(task)].datagrams.get(number)
    }

    /// The place of a slave's area; none without a width.
    pub fn place_of(&self, rank: usize, slave: &Slave, number: usize) -> Option<(u8, Placed)> {
        self.places.get(&key_of(rank, number, &slave.areas[number])).copied()
    }

    /// The places of all variables, by their numbers.
    pub fn variables(&self, line: &[Member]) -> BTreeMap<u32, Place> {
        let mut variables = BTreeMap::new();
        for (rank, slave) in line {
            for (number, area) in slave.areas.iter().enumerate() {
                let Some((task, placed)) = self.place_of(*rank, slave, number) else {
                    continue;
                };
                let mut bit = placed.bit;
                for (variable, bits) in area.entries() {
                    if variable > 0 {
                        variables.insert(variable, Place { task, datagram: placed.datagram, bit, bits, is_out: area.is_out });
                    }
                    bit += u32::from(bits);
                }
            }
        }
        variables
    }

    /// The place of a variable: after the entries before it, over the assigned PDOs in assigned order. No place has the
    /// number 0, which is a gap's.
    pub fn place(&self, line: &[Member], variable: u32) -> Option<Place> {
        for (rank, slave) in line {
            for (number, area) in slave.areas.iter().enumerate() {
                let before =
                    area.entries().take_while(|(other, _)| *other != variable).map(|(_, bits)| u32::from(bits));
                let own = area.entries().find(|(other, _)| *other == variable && variable != 0);
                if let (Some((_, bits)), Some((task, placed))) = (own, self.place_of(*rank, slave, number)) {
                    let bit = placed.bit + before.sum::<u32>();
                    return Some(Place { task, datagram: placed.datagram, bit, bits, is_out: area.is_out });
                }
            }
        }
        None
    }
}
