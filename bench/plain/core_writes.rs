//! Register writes of the plain core, and which tasks wait for them.

use super::{AREAS, Arrived, BLOCKS, Block, Core, NEVER, Outcome, SETUP_SERIAL, TASKS, Writer, frames};

/// A frame of register writes under way: its serial, and its blocks with their addresses.
pub struct Writes {
    pub serial: u64,
    blocks: Vec<(usize, u32)>,
}

/// A register block of a slave, as the line has it and as the slave is known to have it.
#[derive(Clone, Copy)]
pub struct Stored {
    pub station: u16,
    pub block: Block,
    pub known: Option<Block>,
    /// The frame that wrote it last.
    last_write: u64,
    /// The tasks that the register may name by what was written to it.
    held: u8,
    /// It may name any task.
    pub is_unknown: bool,
    /// The tasks that wait for it.
    concerns: u8,
}

impl Stored {
    pub fn of(station: u16) -> Stored {
        let block = Block::default();
        Stored { station, block, known: None, last_write: NEVER, held: 0, is_unknown: true, concerns: 0 }
    }
}

/// The task that an active FMMU names.
fn named_by(block: &Block) -> u8 {
    match block.bytes() {
        [_, _, _, task, _, _, _, _, _, _, _, _, 1, _, _, _] => 1 << (task - 1),
        _ => 0,
    }
}

impl Core {
    fn is_owed(&self, n: usize) -> bool {
        self.owed[n / 64] >> (n % 64) & 1 == 1
    }

    pub(super) fn set_owed(&mut self, n: usize, owed: bool) {
        let (word, bit) = (&mut self.owed[n / 64], 1 << (n % 64));
        self.owed_count -= u32::from(*word & bit != 0);
        *word = if owed { *word | bit } else { *word & !bit };
        self.owed_count += u32::from(owed);
        self.note(n);
    }

    /// The tasks that a block concerns: the one of its area and those that its register may name while it is owed; outside the
    /// line those that its register may name.
    fn concerns(&self, n: usize) -> u8 {
        let (stored, place, number) = (&self.blocks[n], n / BLOCKS, n % BLOCKS);
        if !self.plan.is_present(place) {
            return stored.held;
        }
        if !self.is_owed(n) {
            return 0;
        }
        let area = self.plan.location(AREAS * place + number / 2);
        let own = if area.width > 0 { 1 << area.task } else { 0 };
        let named = if stored.is_unknown { u8::MAX } else { stored.held };
        own | if number % 2 == 1 { named } else { 0 }
    }

    /// Counts the tasks that wait for a block anew.
    pub(super) fn note(&mut self, n: usize) {
        let new = self.concerns(n);
        let old = std::mem::replace(&mut self.blocks[n].concerns, new);
        if old != new {
            for task in 0..TASKS {
                self.waiting[task] += u32::from(new >> task & 1);
                self.waiting[task] -= u32::from(old >> task & 1);
            }
        }
    }

    /// The first owed block of those from one on.
    fn owed_from(&self, first: usize) -> Option<usize> {
        let word = self.owed.get(first / 64)? >> (first % 64);
        if word != 0 {
            return Some(first + word.trailing_zeros() as usize);
        }
        let at = first / 64 + 1;
        let at = at + self.owed.get(at..)?.iter().position(|word| *word != 0)?;
        Some(64 * at + self.owed[at].trailing_zeros() as usize)
    }

    /// Sends the first owed blocks in one frame, at most so many. The bytes of the frame.
    #[inline(never)]
    pub fn write_into(&mut self, most: usize, out: &mut [u8]) -> Result<usize, u8> {
        if self.owed_count == 0 {
            return Err(18);
        }
        if self.serial >= SETUP_SERIAL {
            return Err(19);
        }
        if out.len() < super::LARGEST_FRAME {
            return Err(29);
        }
        // a frame whose blocks were all written again is under way no more
        let blocks = &self.blocks;
        self.writes.retain(|own| own.blocks.iter().any(|(n, _)| blocks[*n].last_write == own.serial));
        let mut own = Writes { serial: self.serial, blocks: std::mem::take(&mut self.spare) };
        let (mut writer, mut next) = (Writer::of(out), self.owed_from(0));
        while let Some(n) = next.filter(|_| own.blocks.len() < most) {
            let stored = &mut self.blocks[n];
            if !writer.has_room(stored.block.bytes().len()) {
                break;
            }
            let address = u32::from(stored.station) | u32::from(stored.block.register) << 16;
            writer.add(5, self.serial, address, stored.block.bytes());
            (stored.known, stored.last_write) = (None, self.serial);
            stored.held |= named_by(&stored.block);
            own.blocks.push((n, address));
            self.note(n);
            next = self.owed_from(n + 1);
        }
        let size = writer.finish(self.serial);
        self.serial += 1;
        self.writes.push(own);
        Ok(size)
    }

    /// The outcome of each write of a returned frame: whether its datagrams are those of the frame.
    fn judge_writes(&self, own: &Writes, region: &[u8], outcomes: &mut Vec<Outcome>) -> Option<()> {
        let mut rest = region;
        for (n, address) in &own.blocks {
            let (head, size, counter, after) = frames::part_of(rest)?;
            let found = u32::from_le_bytes([head[2], head[3], head[4], head[5]]);
            let stored = &self.blocks[*n];
            if head[0] != 5 || found != *address || size != stored.block.bytes().len() {
                return None;
            }
            outcomes.push(match (stored.last_write == own.serial, counter) {
                (false, _) => Outcome::Stale,
                (true, 1) => Outcome::Done,
                (true, _) => Outcome::Missed,
            });
            rest = after;
        }
        rest.is_empty().then_some(())
    }

    /// Register writes come back.
    pub(super) fn take_writes(&mut self, place: usize, region: &[u8], outcomes: &mut Vec<Outcome>) -> Arrived {
        let judged = self.judge_writes(&self.writes[place], region, outcomes);
        if judged.is_none() || outcomes.iter().all(|outcome| matches!(outcome, Outcome::Stale)) {
            outcomes.clear();
            return Arrived::Stale;
        }
        let mut own = self.writes.swap_remove(place);
        for ((n, _), outcome) in own.blocks.iter().zip(outcomes.iter()) {
            let stored = &mut self.blocks[*n];
            if let Outcome::Done = outcome {
                (stored.known, stored.is_unknown) = (Some(stored.block), false);
                (stored.held, stored.last_write) = (named_by(&stored.block), NEVER);
                self.set_owed(*n, false);
            }
        }
        let (is_done, count) = (matches!(outcomes[..], [Outcome::Done]), own.blocks.len());
        own.blocks.clear();
        self.spare = own.blocks;
        if count > 1 {
            return Arrived::Written;
        }
        outcomes.clear();
        if is_done { Arrived::WriteDone } else { Arrived::WriteMissed }
    }

    /// A slave of the line may have lost its registers.
    pub fn forget(&mut self, station: u16) {
        let place = self.plan.place_of(station);
        for n in BLOCKS * place..BLOCKS * place + 2 * usize::from(self.plan.slave(place).1) {
            (self.blocks[n].known, self.blocks[n].last_write) = (None, NEVER);
            self.set_owed(n, true);
        }
    }

    /// The FMMUs of each slave outside the line are zeros.
    pub fn clear_outside(&mut self) {
        for n in (0..self.blocks.len()).filter(|n| !self.plan.is_present(n / BLOCKS)).collect::<Vec<usize>>() {
            (self.blocks[n].held, self.blocks[n].is_unknown) = (0, false);
            self.note(n);
        }
    }
}
