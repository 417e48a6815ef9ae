//! A plain core with the buffers that its calls use again, as bench/library has the library's.

use super::core::{Change, Core, Outcome};
use super::digest::{digest_of, digest_of_bytes, digest_of_changes, digest_of_core, digest_of_outcomes};
use super::plan::Group;

/// The lists of tasks that are sent.
const LISTS: [&[u8]; 4] = [&[0], &[1], &[3, 4, 5, 6, 7], &[0, 1, 2, 3, 4, 5, 6, 7]];

/// A byte of a frame, and its value.
#[repr(C)]
#[derive(Clone, Copy)]
pub struct Patch {
    pub at: u32,
    pub byte: u8,
}

pub struct Running {
    pub core: Core,
    /// The frames that were sent last.
    pub arena: Vec<u8>,
    pub size: usize,
    outcomes: Vec<Outcome>,
    pub changes: Vec<Change>,
    image: Vec<Option<Vec<u8>>>,
}

/// The working counter of each datagram of a frame of register writes becomes 1.
fn put_counters(frame: &mut [u8]) {
    let mut at = 16;
    loop {
        let (counter, more) = (at + 10 + usize::from(frame[at + 6]), frame[at + 7]);
        frame[counter] = 1;
        if more < 0x80 {
            return;
        }
        at = counter + 2;
    }
}

impl Running {
    pub fn open(groups: &[Group]) -> Running {
        let (arena, outcomes, changes) = (vec![0; 200_000], Vec::with_capacity(115), Vec::with_capacity(16));
        Running { core: Core::new(groups), arena, size: 0, outcomes, changes, image: Vec::new() }
    }

    pub fn send(&mut self, list: u8) -> usize {
        self.size = self.core.send_into(LISTS[usize::from(list)], &mut self.arena).unwrap_or(0);
        self.size
    }

    pub fn put_bytes(&mut self, patches: &[Patch]) {
        for Patch { at, byte } in patches {
            self.arena[*at as usize] = *byte;
        }
    }

    pub fn arrive(&mut self) {
        let _ = self.core.arrive_into(&self.arena[..self.size], &mut self.outcomes);
    }

    pub fn take(&mut self) {
        let spare = std::mem::take(&mut self.changes);
        self.changes = self.core.take_changes(spare);
    }

    pub fn write(&mut self, most: usize) {
        self.size = self.core.write_into(most, &mut self.arena).unwrap_or(0);
        put_counters(&mut self.arena);
        self.arrive();
    }

    pub fn write_all(&mut self) {
        while self.core.owed() > 0 {
            self.write(74);
        }
    }

    pub fn post(&mut self, task: u8, bytes: &[u8]) {
        let (outputs, epoch) = (self.core.plan().table(task).outputs, self.core.plan().epoch());
        let _ = self.core.post(task, epoch, &bytes[..usize::from(outputs)]);
    }

    pub fn read(&mut self, task: u8) {
        self.image = self.core.read(task).unwrap_or_default();
    }

    pub fn forget(&mut self) {
        (1001..1009).for_each(|station| self.core.forget(station));
    }

    pub fn settle(&mut self, bytes: &[u8]) {
        self.write_all();
        self.core.clear_outside();
        (0..8).for_each(|task| self.post(task, bytes));
    }

    pub fn digest(&mut self) -> u64 {
        let digest = digest_of_changes(digest_of_outcomes(0, &self.outcomes), &self.changes);
        let digest = (0..8).fold(digest_of_core(digest, &self.core), |digest, task| {
            self.read(task);
            self.image.iter().fold(digest_of(digest, self.image.len() as u64), |digest, slot| match slot {
                Some(bytes) => digest_of_bytes(digest, bytes),
                None => digest_of(digest, 99),
            })
        });
        let size = self.send(3);
        digest_of_bytes(digest, &self.arena[..size])
    }
}
