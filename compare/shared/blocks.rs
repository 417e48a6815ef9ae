//! The register blocks of a line's slaves.

use super::packing::Layout;
use super::records::{Area, Member, Slave};
use std::collections::BTreeSet;

#[derive(Clone, PartialEq, Eq, PartialOrd, Ord)]
pub struct Block {
    /// `sm` or `fmmu`, and its number.
    pub name: (&'static str, usize),
    pub register: u16,
    pub bytes: Vec<u8>,
}

/// The sync manager block of an area (ETG.1000.4, 6.7): start, length in bytes, control, status, activate, PDI control.
/// The control bytes are this project's profile.
fn sync_manager_block(area: &Area) -> Block {
    let width = area.width();
    let mut bytes = area.phys.to_le_bytes().to_vec();
    bytes.extend((width.div_ceil(8) as u16).to_le_bytes());
    bytes.extend([if area.is_out { 0x64 } else { 0x20 }, 0, u8::from(width > 0), 0]);
    Block { name: ("sm", area.sm.into()), register: 0x0800 + 8 * u16::from(area.sm), bytes }
}

/// The FMMU block of a slave's area (ETG.1000.4, 6.6): logical start, length in bytes from the first to the last that the
/// area touches, first and last bit in these, physical start and its bit, type, activate. An area without a width isn't
/// mapped.
fn fmmu_block(layout: &Layout, rank: usize, slave: &Slave, number: usize) -> Block {
    let area = &slave.areas[number];
    let mut bytes = Vec::new();
    if let Some((task, placed)) = layout.place_of(rank, slave, number) {
        let (first, last) = (placed.bit, placed.bit + placed.width - 1);
        let datagram = &layout.tasks[usize::from(task)].datagrams[placed.datagram];
        bytes.extend((datagram.address + first / 8).to_le_bytes());
        bytes.extend(((last / 8 - first / 8 + 1) as u16).to_le_bytes());
        bytes.extend([(first % 8) as u8, (last % 8) as u8]);
        bytes.extend(area.phys.to_le_bytes());
        bytes.extend([0, if area.is_out { 2 } else { 1 }, 1]);
    }
    bytes.resize(16, 0);
    Block { name: ("fmmu", number), register: 0x0600 + 16 * number as u16, bytes }
}

/// A slave's blocks: for each area in record order its sync manager block, then its FMMU block.
pub fn slave_blocks(layout: &Layout, rank: usize, slave: &Slave) -> Vec<Block> {
    let numbers = 0..slave.areas.len();
    numbers.flat_map(|n| [sync_manager_block(&slave.areas[n]), fmmu_block(layout, rank, slave, n)]).collect()
}

/// All blocks of a line, each with the station address of its slave.
pub fn line_blocks(line: &[Member], layout: &Layout) -> Vec<(u16, Block)> {
    let blocks = |(rank, slave): &Member| -> Vec<(u16, Block)> {
        slave_blocks(layout, *rank, slave).into_iter().map(|block| (slave.station, block)).collect()
    };
    line.iter().flat_map(blocks).collect()
}

/// How many blocks of the new line weren't blocks with the same bytes at the same register of the same slave in the old
/// one.
pub fn moved(old: &[(u16, Block)], new: &[(u16, Block)]) -> usize {
    let old: BTreeSet<(u16, u16, &[u8])> =
        old.iter().map(|(station, block)| (*station, block.register, &block.bytes[..])).collect();
    new.iter().filter(|(station, block)| !old.contains(&(*station, block.register, &block.bytes[..]))).count()
}
