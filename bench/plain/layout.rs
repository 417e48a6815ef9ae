//! The areas of a line in plain Rust, with the tables, the places of variables and the register blocks that follow from
//! their places.

use super::project_text::AreaKeys;
pub use super::project_text::Pdo;

/// An area with its PDOs, and its place.
#[derive(Clone)]
pub struct Area {
    pub is_out: bool,
    pub sm: u8,
    pub phys: u16,
    pub task: u8,
    pub offered: Vec<Pdo>,
    pub assigned: Vec<u16>,
    pub width: u16,
    pub datagram: u8,
    pub bit: u16,
}

#[derive(Clone)]
pub struct Slave {
    pub station: u16,
    pub areas: Vec<Area>,
}

/// The place of a variable.
#[derive(Clone, Copy, PartialEq)]
pub struct Place {
    pub task: u8,
    pub datagram: u8,
    pub bit: u16,
    pub bits: u8,
    pub is_out: bool,
}

#[derive(Clone, Copy, PartialEq, Default)]
pub struct Datagram {
    pub address: u32,
    pub length: u16,
    pub expected: u16,
    pub offset: u16,
}

/// The datagrams of a task, and the bytes of its outputs.
#[derive(Clone, Copy, PartialEq, Default)]
pub struct Table {
    pub all: [Datagram; 16],
    pub count: usize,
    pub outputs: u16,
}

/// A register block.
#[derive(Clone, Copy, PartialEq, Default)]
pub struct Block {
    pub register: u16,
    size: u8,
    bytes: [u8; 16],
}

impl Table {
    pub fn datagrams(&self) -> &[Datagram] {
        &self.all[..self.count]
    }
}

impl Block {
    pub fn bytes(&self) -> &[u8] {
        &self.bytes[..usize::from(self.size)]
    }
}

/// A PDO of new variables with these widths; `variables` is the number of the last one.
pub fn new_pdo(variables: &mut u32, index: u16, widths: &[u8]) -> Pdo {
    let entries = widths.iter().map(|bits| {
        *variables += 1;
        (*variables, *bits)
    });
    Pdo { index, entries: entries.collect() }
}

impl Area {
    /// What a project's text says of it.
    pub fn keys(&self) -> AreaKeys<'_> {
        let Area { is_out, sm, phys, task, assigned, offered, .. } = self;
        AreaKeys { is_out: *is_out, sm: *sm, phys: *phys, task: *task, assigned, offered }
    }

    fn pdo(&self, index: u16) -> &[(u32, u8)] {
        self.offered.iter().find(|pdo| pdo.index == index).map_or(&[], |pdo| &pdo.entries)
    }

    /// Works its width out.
    pub fn measure(&mut self) {
        let entries = self.assigned.iter().flat_map(|index| self.pdo(*index));
        self.width = entries.map(|entry| u16::from(entry.1)).sum();
    }

    /// Visits each of its variables, with its place.
    pub fn each_variable(&self, mut visit: impl FnMut(u32, Place)) {
        let mut place = Place { task: self.task, datagram: self.datagram, bit: self.bit, bits: 0, is_out: self.is_out };
        for (variable, bits) in self.assigned.iter().flat_map(|index| self.pdo(*index)) {
            place.bits = *bits;
            if *variable != 0 {
                visit(*variable, place);
            }
            place.bit += u16::from(*bits);
        }
    }
}

pub fn address_of(task: u8, datagram: u8) -> u32 {
    0x0100_0000 * (u32::from(task) + 1) + 2048 * u32::from(datagram)
}

pub fn sync_block(area: &Area) -> Block {
    let ([p0, p1], [l0, l1]) = (area.phys.to_le_bytes(), area.width.div_ceil(8).to_le_bytes());
    let control = if area.is_out { 0x64 } else { 0x20 };
    let mut bytes = [0; 16];
    bytes[..8].copy_from_slice(&[p0, p1, l0, l1, control, 0, u8::from(area.width > 0), 0]);
    Block { register: 0x0800 + 8 * u16::from(area.sm), size: 8, bytes }
}

pub fn fmmu_block(number: u8, area: &Area) -> Block {
    let mut block = Block { register: 0x0600 + 16 * u16::from(number), size: 16, bytes: [0; 16] };
    if area.width > 0 {
        let last = area.bit + area.width - 1;
        let [a0, a1, a2, a3] = (address_of(area.task, area.datagram) + u32::from(area.bit / 8)).to_le_bytes();
        let ([l0, l1], [p0, p1]) = ((last / 8 - area.bit / 8 + 1).to_le_bytes(), area.phys.to_le_bytes());
        let (first, last) = ((area.bit % 8) as u8, (last % 8) as u8);
        let kind = if area.is_out { 2 } else { 1 };
        block.bytes = [a0, a1, a2, a3, l0, l1, first, last, p0, p1, 0, kind, 1, 0, 0, 0];
    }
    block
}
