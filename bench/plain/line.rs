//! The lines of the benchmark and their text. The n-th area of each slave has 11 bytes and is in the n-th task; the
//! first four are outputs, the other inputs. So a task of 2,047 slaves has 22,517 bytes, which 16 datagrams of 135 areas
//! hold, and an edit near the end of the line moves few areas.

use super::layout::{Area, Pdo, Slave, new_pdo};
use super::plan::Group;
use super::project_text::{add_area, add_group, add_slave};

/// The PDO that each area has: 11 bytes in two variables.
pub const OWN: u16 = 0x1600;
/// What some areas offer beside it: as many bytes in two other variables, a byte more, and twice as many.
pub const OTHER: u16 = 0x1601;
pub const WIDER: u16 = 0x1602;
pub const TWICE: u16 = 0x1603;

/// The groups of one slave each: the first of the line, one with ten slaves after it, and the last one with areas; and
/// the ten's other nine, and a slave without areas at the end. On a line of 8 the nine are two.
pub const FIRST: u16 = 1;
pub const NEAR: u16 = 2;
const NINE: u16 = 3;
pub const LAST: u16 = 4;
pub const BARE: u16 = 5;

/// The alias of the first of all other groups, and how many slaves they have.
const OTHERS: u16 = 16;
const TOGETHER: usize = 16;

/// The areas of 11 bytes that a datagram holds.
const IN_DATAGRAM: usize = 135;

/// The areas that edits name, the number 0 of a slave unless it is said otherwise.
pub struct Places {
    /// Whose last area has no PDO.
    pub empty: usize,
    /// Which has as many areas before it as after it.
    pub middle: usize,
    /// Which has at most 100 areas after it in its datagram, the middle one of its task.
    pub hundred: usize,
    /// Which has 49 slaves with areas after it, on a short line all but the first.
    pub fifty: usize,
}

pub fn places(slaves: usize) -> Places {
    let with_areas = slaves - 1;
    let datagram = with_areas / IN_DATAGRAM / 2;
    let hundred = if datagram == 0 { 1 } else { IN_DATAGRAM * datagram + IN_DATAGRAM - 101 };
    Places { empty: 1, middle: with_areas / 2, hundred, fifty: with_areas.saturating_sub(50).max(1) }
}

/// The station address of the slave at a place.
pub fn station(place: usize) -> u16 {
    1001 + place as u16
}

struct Maker {
    slaves: usize,
    place: usize,
    variables: u32,
}

impl Maker {
    fn pdo(&mut self, index: u16, widths: &[u8]) -> Pdo {
        new_pdo(&mut self.variables, index, widths)
    }

    fn area(&mut self, number: u8) -> Area {
        let Places { empty, middle, hundred, .. } = places(self.slaves);
        let mut offered = vec![self.pdo(OWN, &[64, 24])];
        if number == 0 && [0, middle, hundred].contains(&self.place) {
            offered.push(self.pdo(OTHER, &[64, 24]));
            offered.push(self.pdo(WIDER, &[64, 32]));
            offered.push(self.pdo(TWICE, &[64, 64, 48]));
        }
        let assigned = if number == 7 && self.place == empty { Vec::new() } else { vec![OWN] };
        let phys = 0x1000 + 64 * u16::from(number);
        Area { is_out: number < 4, sm: number, phys, task: number, offered, assigned, width: 0, datagram: 0, bit: 0 }
    }

    fn group(&mut self, alias: u16, slaves: usize) -> Group {
        let slaves = (0..slaves).map(|_| {
            let areas = if alias == BARE { 0 } else { 8 };
            let slave = Slave { station: station(self.place), areas: (0..areas).map(|n| self.area(n)).collect() };
            self.place += 1;
            slave
        });
        Group { alias, slaves: slaves.collect() }
    }
}

/// A line of so many slaves; the last one has no areas. The mandatory group has none of them.
pub fn line(slaves: usize) -> Vec<Group> {
    let mut maker = Maker { slaves, place: 0, variables: 0 };
    let mut groups = vec![maker.group(0, 0), maker.group(FIRST, 1)];
    let nine = if slaves < 16 { 2 } else { 9 };
    let most = slaves - nine - 3;
    for alias in OTHERS.. {
        match most - maker.place {
            0 => break,
            left => groups.push(maker.group(alias, left.min(TOGETHER))),
        }
    }
    groups.extend([(NEAR, 1), (NINE, nine), (LAST, 1), (BARE, 1)].map(|(alias, count)| maker.group(alias, count)));
    groups
}

/// A project's text.
pub fn text(groups: &[Group]) -> String {
    let mut text = String::new();
    for Group { alias, slaves } in groups {
        add_group(&mut text, *alias);
        for slave in slaves {
            add_slave(&mut text, *alias, slave.station);
            slave.areas.iter().for_each(|area| add_area(&mut text, *alias, &area.keys()));
        }
    }
    text
}
