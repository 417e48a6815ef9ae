//! The same plan in plain Rust, written for speed. What an edit asks of an area is in one array of small records,
//! the areas of a task in one sorted array, and the rows in another. An edit changes the records, packs the spans anew
//! that it touches, marks the blocks and areas that became different, and reports the marks.

#[path = "plan_edits.rs"]
mod edits;
#[path = "repair.rs"]
mod repair;

use super::layout::{Area, Block, Pdo, Place, Slave, Table, fmmu_block, sync_block};
use super::rows;
use super::rows::{Change, Row};
use repair::{Key, Placed, Task};
use std::ops::Range;

const AREAS: usize = 8;
const TASKS: usize = 8;

/// The slaves that come and go together; the first group, with alias 0, stays.
#[derive(Clone)]
pub struct Group {
    pub alias: u16,
    pub slaves: Vec<Slave>,
}

#[derive(Clone, Debug)]
pub enum Edit {
    Connect(u16),
    Disconnect(u16),
    Remap { station: u16, area: u8, pdos: Vec<u16> },
    Move { station: u16, area: u8, task: u8 },
}

/// The number of a fault, and the task that is named where a task would need more than 16 datagrams.
pub type Fault = (u8, u8);

/// What an edit did, as the library reports it.
pub struct Report {
    pub epoch: u32,
    pub recut: u32,
    pub moved: u32,
    pub edit: Edit,
    pub tasks: Vec<(u8, Table)>,
    pub rows: Vec<Change>,
    pub blocks: Vec<(u16, u8)>,
}

/// An area: its place, and where its assigned entries are among the entries of all areas.
#[derive(Clone, Copy, Default)]
pub struct Location {
    pub width: u16,
    pub bit: u16,
    phys: u16,
    pub datagram: u8,
    pub task: u8,
    sm: u8,
    pub is_input: bool,
    count: u16,
    first: u32,
}

/// A declared group: its slaves, from one place to another.
struct Declared {
    slaves: Range<usize>,
    is_present: bool,
}

struct Owner {
    station: u16,
    areas: u8,
    group: u16,
}

pub struct Plan {
    groups: Vec<Declared>,
    /// The group with an alias; no group has the number 65,535.
    aliases: Vec<u16>,
    slaves: Vec<Owner>,
    /// The slave with a station address; no slave has the number 65,535.
    stations: Vec<u16>,
    /// Eight for each slave.
    locations: Vec<Location>,
    offered: Vec<Vec<Pdo>>,
    entries: Vec<(u32, u8)>,
    tasks: Vec<Task>,
    rows: Vec<Row>,
    epoch: u32,
    /// What the repairs of an edit place.
    placed: Vec<Placed>,
    /// The areas of a group, by task and direction.
    keys: Vec<Vec<Key>>,
    /// The slaves with marks: which blocks and which areas of each moved.
    marked: Range<usize>,
    moved: Vec<u16>,
    shifted: Vec<u8>,
}

fn pdo_of(offered: &[Pdo], index: u16) -> Option<&Pdo> {
    offered.iter().find(|pdo| pdo.index == index)
}

/// Visits each variable of an area, with its place.
fn each_row(location: &Location, entries: &[(u32, u8)], mut visit: impl FnMut(u32, Place)) {
    let (task, datagram, is_out) = (location.task, location.datagram, !location.is_input);
    let mut bit = location.bit;
    for (variable, bits) in &entries[location.first as usize..][..usize::from(location.count)] {
        if *variable != 0 {
            visit(*variable, Place { task, datagram, bit, bits: *bits, is_out });
        }
        bit += u16::from(*bits);
    }
}

impl Plan {
    /// The plan at its opening: the first group alone is present.
    pub fn new(groups: &[Group]) -> Plan {
        let count = groups.iter().map(|group| group.slaves.len()).sum();
        let mut plan = Plan {
            groups: Vec::new(),
            aliases: vec![u16::MAX; 65_536],
            slaves: Vec::new(),
            stations: vec![u16::MAX; 65_536],
            locations: vec![Location::default(); AREAS * count],
            offered: vec![Vec::new(); AREAS * count],
            entries: Vec::new(),
            tasks: (0..TASKS as u8).map(Task::new).collect(),
            rows: Vec::new(),
            epoch: 0,
            placed: Vec::new(),
            keys: vec![Vec::new(); 2 * TASKS],
            marked: 0..0,
            moved: vec![0; count],
            shifted: vec![0; count],
        };
        groups.iter().for_each(|group| plan.declare(group));
        plan.open();
        plan
    }

    fn declare(&mut self, group: &Group) {
        let number = self.groups.len() as u16;
        let first = self.slaves.len();
        for slave in &group.slaves {
            let place = self.slaves.len();
            self.stations[usize::from(slave.station)] = place as u16;
            self.slaves.push(Owner { station: slave.station, areas: slave.areas.len() as u8, group: number });
            for (location, area) in (AREAS * place..).zip(&slave.areas) {
                self.declare_area(location, area);
            }
        }
        let slaves = first..self.slaves.len();
        self.groups.push(Declared { slaves, is_present: false });
        self.aliases[usize::from(group.alias)] = number;
    }

    /// The entries of an area have room for all that it offers.
    fn declare_area(&mut self, location: usize, area: &Area) {
        let (phys, task, sm, is_input) = (area.phys, area.task, area.sm, !area.is_out);
        let first = self.entries.len() as u32;
        let room: usize = area.offered.iter().map(|pdo| pdo.entries.len()).sum();
        self.entries.resize(self.entries.len() + room, (0, 0));
        self.locations[location] = Location { phys, task, sm, is_input, first, ..Location::default() };
        self.offered[location].clone_from(&area.offered);
        self.assign(location, &area.assigned);
    }

    /// The area gets these PDOs, which it offers.
    fn assign(&mut self, location: usize, pdos: &[u16]) {
        let own = &mut self.locations[location];
        (own.count, own.width) = (0, 0);
        for index in pdos {
            let pdo = pdo_of(&self.offered[location], *index).expect("an offered PDO");
            for entry in &pdo.entries {
                self.entries[own.first as usize + usize::from(own.count)] = *entry;
                own.count += 1;
                own.width += u16::from(entry.1);
            }
        }
    }

    pub fn epoch(&self) -> u32 {
        self.epoch
    }

    pub fn rows(&self) -> &[Row] {
        &self.rows
    }

    pub fn table(&self, task: u8) -> &Table {
        self.tasks[usize::from(task)].table()
    }

    /// The block with a number of the slave at a place.
    pub fn block(&self, place: usize, number: u8) -> Block {
        let location = self.locations[AREAS * place + usize::from(number / 2)];
        let Location { width, bit, phys, datagram, task, sm, is_input, .. } = location;
        let (offered, assigned) = (Vec::new(), Vec::new());
        let area = Area { is_out: !is_input, sm, phys, task, offered, assigned, width, datagram, bit };
        if number % 2 == 0 { sync_block(&area) } else { fmmu_block(number / 2, &area) }
    }

    /// Whether the slave at a place is in the line.
    pub fn is_present(&self, place: usize) -> bool {
        self.groups[usize::from(self.slaves[place].group)].is_present
    }

    /// The slave with a station address, which is declared, by its place among all.
    pub fn place_of(&self, station: u16) -> usize {
        usize::from(self.stations[usize::from(station)])
    }

    /// The station address of the slave at a place, and how many areas it has.
    pub fn slave(&self, place: usize) -> (u16, u8) {
        let Owner { station, areas, .. } = self.slaves[place];
        (station, areas)
    }

    /// The places of the slaves of the group with an alias, which is declared.
    pub fn slaves_of(&self, alias: u16) -> Range<usize> {
        self.groups[usize::from(self.aliases[usize::from(alias)])].slaves.clone()
    }

    /// An area: eight times its slave's place and its number.
    pub fn location(&self, location: usize) -> &Location {
        &self.locations[location]
    }

    /// Visits each variable of an area, with its place.
    pub fn each_variable(&self, location: usize, visit: impl FnMut(u32, Place)) {
        each_row(&self.locations[location], &self.entries, visit);
    }
}
