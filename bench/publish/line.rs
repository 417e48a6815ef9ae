//! The line of the bench, with 64 or 2,048 slaves of eight areas each, and what is asked of it. Task 0 has one datagram
//! of 12 bytes, task 1 one of 1,486; task 2 has an area that can be made a byte wider, and 1,000 variables after it;
//! task 3 has a variable that can change places with a gap. A group of one slave, which isn't present at the opening, has
//! 1,000 variables of one bit.

use crate::plain::layout::{Area, Pdo, Slave, new_pdo};
use crate::plain::plan::{Edit, Group};

const FIRST: u16 = 0x1600;
const SECOND: u16 = 0x1601;
/// The group that comes and goes.
const GUEST: u16 = 7;

/// How many of so many things the one with a number has, where they are shared evenly.
fn share(things: usize, count: usize, number: usize) -> usize {
    things / count + usize::from(number < things % count)
}

struct Maker {
    slaves: usize,
    variables: u32,
}

impl Maker {
    fn pdo(&mut self, index: u16, widths: &[u8]) -> Pdo {
        new_pdo(&mut self.variables, index, widths)
    }

    /// One PDO for so many bits, in entries of 64 bits and the rest.
    fn bits(&mut self, bits: usize) -> Vec<Pdo> {
        let mut widths = vec![64; bits / 64];
        if bits % 64 > 0 {
            widths.push((bits % 64) as u8);
        }
        vec![self.pdo(FIRST, &widths)]
    }

    /// The PDOs of an area: its task, what it offers, and how many of them are assigned.
    fn own(&mut self, place: usize, number: usize) -> (u8, Vec<Pdo>, usize) {
        let slaves = self.slaves;
        match number {
            0 if place == 0 => (0, self.bits(96), 1),
            1 if slaves <= 1486 => (1, self.bits(8 * share(1486, slaves, place)), 1),
            1 => (1, self.bits(share(8 * 1486, slaves, place)), 1),
            2 if place == 0 => (2, vec![self.pdo(FIRST, &[8]), Pdo { index: SECOND, entries: vec![(0, 8)] }], 1),
            2 => (2, vec![self.pdo(FIRST, &vec![8; share(1000, slaves - 1, place - 1)])], 1),
            3 if place == 1 => (3, vec![Pdo { index: FIRST, entries: vec![(0, 8)] }, self.pdo(SECOND, &[8])], 2),
            _ => (4 + (number % 4) as u8, self.bits(8), 1),
        }
    }

    fn area(&self, number: usize, task: u8, offered: Vec<Pdo>, assigned: usize) -> Area {
        let assigned = offered[..assigned].iter().map(|pdo| pdo.index).collect();
        let (is_out, sm, phys) = (number == 4, number as u8, 0x1000 + 256 * number as u16);
        let mut area = Area { is_out, sm, phys, task, offered, assigned, width: 0, datagram: 0, bit: 0 };
        area.measure();
        area
    }

    fn slave(&mut self, place: usize) -> Slave {
        let areas = (0..8).map(|number| {
            let (task, offered, assigned) = self.own(place, number);
            self.area(number, task, offered, assigned)
        });
        Slave { station: 1001 + place as u16, areas: areas.collect() }
    }

    fn guest(&mut self) -> Slave {
        let areas = (0..8).map(|number| {
            let offered = vec![self.pdo(FIRST, &[1; 63]), self.pdo(SECOND, &[1; 62])];
            self.area(number + 8, 3, offered, 2)
        });
        let mut areas: Vec<Area> = areas.collect();
        for (number, area) in areas.iter_mut().enumerate() {
            (area.sm, area.phys) = (number as u8, 0x1000 + 256 * number as u16);
        }
        Slave { station: 1001 + self.slaves as u16, areas }
    }
}

/// The line of so many slaves; the last one is the guest, all others are mandatory.
pub fn line(slaves: usize) -> Vec<Group> {
    let mut maker = Maker { slaves: slaves - 1, variables: 0 };
    let own = (0..slaves - 1).map(|place| maker.slave(place)).collect();
    vec![Group { alias: 0, slaves: own }, Group { alias: GUEST, slaves: vec![maker.guest()] }]
}

/// What a case publishes, if it is no good answer: a variable changes places with a gap and back; 1,000 variables move by a
/// byte and back, or come and go.
pub fn edits(case: u32) -> Vec<Edit> {
    let remap = |station, area, pdos: &[u16]| Edit::Remap { station, area, pdos: pdos.to_vec() };
    match case {
        2 => vec![remap(1002, 3, &[SECOND, FIRST]), remap(1002, 3, &[FIRST, SECOND])],
        3 => vec![remap(1001, 2, &[FIRST, SECOND]), remap(1001, 2, &[FIRST])],
        _ => vec![Edit::Connect(GUEST), Edit::Disconnect(GUEST)],
    }
}
