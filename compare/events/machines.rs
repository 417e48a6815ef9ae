//! The simulated line: what each slave's memory holds, and what a slave does with a datagram (ETG.1000.4, 5.4 and 6.6, in
//! this project's profile; docs/meaning/DEFINITIONS.md has it). Bits are paired one by one, and nothing is kept of an FMMU.

use crate::shared::frames::{Datagram, FPWR, LRW};
use crate::shared::line::Line;
use std::collections::BTreeMap;

pub const APRD: u8 = 1;
pub const APWR: u8 = 2;

/// The bytes of a slave's memory.
pub const MEMORY: usize = 0x3000;

const STATION: usize = 0x0010;
const ALIAS: usize = 0x0012;

/// A slave's memory.
#[derive(Clone)]
pub struct Machine {
    pub memory: Vec<u8>,
}

/// An active FMMU: whether it is read through and written through, and its pairs of a logical and a memory bit.
struct Fmmu {
    reads: bool,
    writes: bool,
    pairs: Vec<(u64, usize)>,
}

fn bit(bytes: &[u8], at: usize) -> bool {
    bytes[at / 8] >> (at % 8) & 1 == 1
}

fn set_bit(bytes: &mut [u8], at: usize, value: bool) {
    bytes[at / 8] = bytes[at / 8] & !(1 << (at % 8)) | u8::from(value) << (at % 8);
}

impl Machine {
    /// No frame has met it: zeros but for its alias.
    fn started(alias: u16) -> Machine {
        let mut memory = vec![0; MEMORY];
        memory[ALIAS..ALIAS + 2].copy_from_slice(&alias.to_le_bytes());
        Machine { memory }
    }

    pub fn word(&self, at: usize) -> u16 {
        u16::from_le_bytes([self.memory[at], self.memory[at + 1]])
    }

    /// The active FMMUs with the pairs that one of these logical bits has.
    fn fmmus(&self, bits: &std::ops::Range<u64>) -> Vec<Fmmu> {
        let blocks = (0..16).map(|number| &self.memory[0x0600 + 16 * number..0x0610 + 16 * number]);
        let active = blocks.filter(|block| block[12] & 1 == 1);
        let fmmu = |block: &[u8]| {
            let low = |at: usize| u64::from(block[at] & 7);
            let start = u64::from(u32::from_le_bytes([block[0], block[1], block[2], block[3]]));
            let length = u64::from(u16::from_le_bytes([block[4], block[5]]));
            let physical = usize::from(u16::from_le_bytes([block[8], block[9]]));
            let (first, end) = (8 * start + low(6), (8 * (start + length) + low(7) + 1).saturating_sub(8));
            let memory = 8 * physical + low(10) as usize;
            let pairs = (first.max(bits.start)..end.min(bits.end)).map(|one| (one, memory + (one - first) as usize));
            Fmmu { reads: block[11] & 1 == 1, writes: block[11] & 2 == 2, pairs: pairs.filter(|pair| pair.1 < 8 * MEMORY).collect() }
        };
        active.map(fmmu).collect()
    }

    /// Of the pairs of several FMMUs the one with the lowest number decides.
    fn paired(fmmus: &[Fmmu], goes: fn(&Fmmu) -> bool, by_memory: bool) -> BTreeMap<u64, u64> {
        let mut paired = BTreeMap::new();
        for (logical, memory) in fmmus.iter().filter(|fmmu| goes(fmmu)).flat_map(|fmmu| &fmmu.pairs) {
            let (key, value) = if by_memory { (*memory as u64, *logical) } else { (*logical, *memory as u64) };
            paired.entry(key).or_insert(value);
        }
        paired
    }

    fn serve_logical(&mut self, datagram: &mut Datagram) {
        let from = 8 * u64::from(datagram.address);
        let fmmus = self.fmmus(&(from..from + 8 * datagram.data.len() as u64));
        let read = Machine::paired(&fmmus, |fmmu| fmmu.reads, false);
        let written = Machine::paired(&fmmus, |fmmu| fmmu.writes, true);
        let (old, sent, alias) = (self.memory.clone(), datagram.data.clone(), self.word(ALIAS));
        for (logical, memory) in &read {
            set_bit(&mut datagram.data, (logical - from) as usize, bit(&old, *memory as usize));
        }
        for (memory, logical) in &written {
            set_bit(&mut self.memory, *memory as usize, bit(&sent, (logical - from) as usize));
        }
        self.memory[ALIAS..ALIAS + 2].copy_from_slice(&alias.to_le_bytes());
        let count = u16::from(!read.is_empty()) + 2 * u16::from(!written.is_empty());
        datagram.counter = datagram.counter.wrapping_add(count);
    }

    /// Bytes that a frame writes; the alias stays.
    fn write(&mut self, at: usize, bytes: &[u8]) {
        let alias = self.word(ALIAS);
        self.memory[at..at + bytes.len()].copy_from_slice(bytes);
        self.memory[ALIAS..ALIAS + 2].copy_from_slice(&alias.to_le_bytes());
    }

    fn serve(&mut self, datagram: &mut Datagram) {
        let (low, register) = (datagram.address as u16, (datagram.address >> 16) as usize);
        let size = datagram.data.len();
        let within = register + size <= MEMORY;
        match datagram.command {
            APRD if low == 0 && within => {
                datagram.data.copy_from_slice(&self.memory[register..register + size]);
                datagram.counter = datagram.counter.wrapping_add(1);
            }
            APWR if low == 0 && within => {
                self.write(register, &datagram.data);
                datagram.counter = datagram.counter.wrapping_add(1);
            }
            FPWR if low == self.word(STATION) && within => {
                self.write(register, &datagram.data);
                datagram.counter = datagram.counter.wrapping_add(1);
            }
            LRW => self.serve_logical(datagram),
            _ => {}
        }
        if datagram.command == APRD || datagram.command == APWR {
            datagram.address = datagram.address & 0xffff_0000 | u32::from(low.wrapping_add(1));
        }
    }
}

/// The machines of a line's slaves in its order, each with its slave's station address.
pub struct Machines(pub Vec<(u16, Machine)>);

impl Machines {
    /// The machines of a line after an edit: slaves that were there before keep theirs, the others have new ones.
    pub fn of(line: &Line, before: &Machines) -> Machines {
        let mut machines = Vec::new();
        for declared in line.state.declared.iter().filter(|one| one.is_present) {
            for (place, slave) in declared.group.slaves.iter().enumerate() {
                let own = before.0.iter().find(|(station, _)| *station == slave.station).map(|(_, own)| own.clone());
                let alias = if place == 0 { declared.group.alias } else { 0 };
                machines.push((slave.station, own.unwrap_or_else(|| Machine::started(alias))));
            }
        }
        Machines(machines)
    }

    /// A frame's datagrams along the line.
    pub fn pass(&mut self, datagrams: &mut [Datagram]) {
        for (_, machine) in &mut self.0 {
            for datagram in datagrams.iter_mut() {
                machine.serve(datagram);
            }
        }
    }
}
