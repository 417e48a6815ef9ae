//! The core in plain Rust: outputs are kept packed with masks of their variables, an awaited frame is found by its serial, and
//! register blocks are in one array, 16 for each declared slave. A task is ready if no owed block concerns it, and no FMMU of
//! a slave outside the line may name it; both are counted task by task.

#[path = "core_edits.rs"]
mod edits;
#[path = "core_writes.rs"]
mod writes;

use super::frames;
use super::layout::{Block, Table};
use super::plan::{Group, Plan};
use super::rows;
use edits::Seat;
use writes::{Stored, Writes};

pub const TASKS: usize = 8;
const AREAS: usize = 8;
const SLOTS: usize = 16 * TASKS;
/// The blocks for which a declared slave has room.
const BLOCKS: usize = 2 * AREAS;
const LARGEST_FRAME: usize = 1514;
const SETUP_SERIAL: u64 = 0xff_ffff_ffff;
/// Room of a datagram's data, with eight bytes more for runs of bits.
const ROOM: usize = 1496;
const NEVER: u64 = u64::MAX;

#[derive(Clone, Copy)]
pub enum Outcome {
    Inputs { task: u8, datagram: u8 },
    WrongCount { expected: u16, got: u16 },
    Stale,
    Done,
    Missed,
}

#[derive(Clone, Copy, PartialEq)]
pub enum Arrived {
    Answered,
    WriteDone,
    WriteMissed,
    Written,
    Stale,
}

/// A good answer, or an edit with the new tables of its tasks and the variables whose places changed.
pub enum Change {
    Good { task: u8, datagram: u8, bytes: Vec<u8> },
    Swapped { tasks: Vec<(u8, Table)>, rows: Vec<rows::Change> },
}

/// A frame of tasks: its serial, its bytes and its datagrams.
pub struct Sending {
    pub serial: u64,
    pub size: usize,
    count: usize,
    slots: [u8; 115],
}

pub struct Core {
    plan: Plan,
    serial: u64,
    last_sent: [u64; SLOTS],
    frames: Vec<Sending>,
    writes: Vec<Writes>,
    /// The list of a frame of register writes that was answered, for the next one.
    spare: Vec<(usize, u32)>,
    has_data: [bool; SLOTS],
    image: Vec<[u8; ROOM]>,
    sent: Vec<[u8; ROOM]>,
    masks: Vec<[u8; ROOM]>,
    /// Where the outputs of each declared area are in what is sent.
    seats: Vec<Seat>,
    /// What an edit takes from one place to another, of bytes and of masks.
    lifted: [Vec<u8>; 2],
    /// 16 for each declared slave.
    blocks: Vec<Stored>,
    owed: Vec<u64>,
    owed_count: u32,
    /// How many registers each task waits for.
    waiting: [u32; TASKS],
    changes: Vec<Change>,
}

/// A slice that gets frames one after another.
struct Writer<'a> {
    out: &'a mut [u8],
    begun: usize,
    end: usize,
    /// Where the frame's last datagram begins.
    last: usize,
}

impl Writer<'_> {
    fn of(out: &mut [u8]) -> Writer<'_> {
        Writer { out, begun: 0, end: 16, last: 0 }
    }

    fn has_room(&self, length: usize) -> bool {
        self.end - self.begun + 12 + length <= LARGEST_FRAME
    }

    fn add(&mut self, command: u8, serial: u64, address: u32, data: &[u8]) {
        if self.last > self.begun {
            self.out[self.last + 7] |= 0x80;
        }
        let [a0, a1, a2, a3] = address.to_le_bytes();
        let [low, high] = (data.len() as u16).to_le_bytes();
        let text = &mut self.out[self.end..self.end + 12 + data.len()];
        text[..10].copy_from_slice(&[command, serial as u8, a0, a1, a2, a3, low, high, 0, 0]);
        text[10..10 + data.len()].copy_from_slice(data);
        text[10 + data.len()..].copy_from_slice(&[0, 0]);
        self.last = self.end;
        self.end += 12 + data.len();
    }

    /// Ends the frame, and begins another one: how many bytes the frame has.
    fn finish(&mut self, serial: u64) -> usize {
        let size = (self.end - self.begun).max(60);
        let [_, _, _, s4, s3, s2, s1, s0] = serial.to_be_bytes();
        let [low, high] = ((self.end - self.begun - 16) as u16 | 0x1000).to_le_bytes();
        let head = [255, 255, 255, 255, 255, 255, 2, s4, s3, s2, s1, s0, 0x88, 0xa4, low, high];
        self.out[self.begun..self.begun + 16].copy_from_slice(&head);
        self.out[self.end..self.begun + size].fill(0);
        self.begun += size;
        self.end = self.begun + 16;
        size
    }
}

impl Core {
    /// The core at its opening: the first group alone is present, and all its blocks are owed.
    pub fn new(groups: &[Group]) -> Core {
        let slaves = groups.iter().flat_map(|group| &group.slaves);
        let blocks: Vec<Stored> = slaves.flat_map(|slave| [Stored::of(slave.station); BLOCKS]).collect();
        let mut core = Core {
            plan: Plan::new(groups),
            serial: 0,
            last_sent: [NEVER; SLOTS],
            frames: Vec::with_capacity(2 * SLOTS),
            writes: Vec::new(),
            spare: Vec::new(),
            has_data: [false; SLOTS],
            image: vec![[0; ROOM]; SLOTS],
            sent: vec![[0; ROOM]; SLOTS],
            masks: vec![[0; ROOM]; SLOTS],
            seats: vec![Seat::default(); blocks.len() / 2],
            lifted: [Vec::new(), Vec::new()],
            owed: vec![0; blocks.len().div_ceil(64)],
            blocks,
            owed_count: 0,
            waiting: [0; TASKS],
            changes: Vec::new(),
        };
        core.open(groups[0].slaves.len());
        core
    }

    pub fn plan(&self) -> &Plan {
        &self.plan
    }

    pub fn owed(&self) -> u32 {
        self.owed_count
    }

    pub fn next_serial(&self) -> u64 {
        self.serial
    }

    /// The ready tasks, bit by bit.
    pub fn ready(&self) -> u8 {
        (0..TASKS).filter(|task| self.waiting[*task] == 0).fold(0, |ready, task| ready | 1 << task)
    }

    /// The changes since they were taken last; the list that is handed in is used for the next ones.
    pub fn take_changes(&mut self, mut spare: Vec<Change>) -> Vec<Change> {
        spare.clear();
        std::mem::replace(&mut self.changes, spare)
    }

    #[inline(never)]
    pub fn post(&mut self, task: u8, epoch: u32, bytes: &[u8]) -> Result<(), u8> {
        if usize::from(task) >= TASKS {
            return Err(8);
        }
        if epoch != self.plan.epoch() {
            return Err(15);
        }
        let table = self.plan.table(task);
        if bytes.len() != usize::from(table.outputs) {
            return Err(16);
        }
        for (number, datagram) in table.datagrams().iter().enumerate() {
            let slot = 16 * usize::from(task) + number;
            let (length, offset) = (usize::from(datagram.length), usize::from(datagram.offset));
            let (own, mask) = (&mut self.sent[slot][..length], &self.masks[slot][..length]);
            let bytes = bytes.get(offset..).unwrap_or(&[]);
            let count = length.min(bytes.len());
            let (front, rest) = own.split_at_mut(count);
            let (bytes, mask) = (&bytes[..count], &mask[..count]);
            for place in 0..count {
                front[place] = bytes[place] & mask[place];
            }
            rest.fill(0);
        }
        Ok(())
    }

    /// The bytes of the frames of these tasks, and how many frames they are.
    fn sizes(&self, tasks: &[u8]) -> (usize, usize) {
        let (mut size, mut end, mut count) = (0, LARGEST_FRAME, 0);
        for datagram in tasks.iter().flat_map(|task| self.plan.table(*task).datagrams()) {
            let own = 12 + usize::from(datagram.length);
            if end + own > LARGEST_FRAME {
                size += if count > 0 { end.max(60) } else { 0 };
                (end, count) = (16, count + 1);
            }
            end += own;
        }
        (size + if count > 0 { end.max(60) } else { 0 }, count)
    }

    /// Sends ready tasks: their frames one after another in a slice. How many bytes they have.
    #[inline(never)]
    pub fn send_into(&mut self, tasks: &[u8], out: &mut [u8]) -> Result<usize, u8> {
        if tasks.iter().any(|task| usize::from(*task) >= TASKS) {
            return Err(8);
        }
        if tasks.iter().any(|task| self.waiting[usize::from(*task)] > 0) {
            return Err(17);
        }
        let (size, count) = self.sizes(tasks);
        if SETUP_SERIAL < self.serial + count as u64 {
            return Err(19);
        }
        if out.len() < size {
            return Err(29);
        }
        self.put_frames(tasks, &mut Writer::of(out));
        if self.frames.len() > SLOTS {
            self.drop_answered();
        }
        Ok(size)
    }

    fn put_frames(&mut self, tasks: &[u8], writer: &mut Writer) {
        let mut frame = Sending { serial: self.serial, size: 0, count: 0, slots: [0; 115] };
        for task in tasks {
            for (number, datagram) in self.plan.table(*task).datagrams().iter().enumerate() {
                let (slot, length) = (16 * usize::from(*task) + number, usize::from(datagram.length));
                if frame.count > 0 && !writer.has_room(length) {
                    let serial = frame.serial + 1;
                    frame.size = writer.finish(frame.serial);
                    self.frames.push(std::mem::replace(&mut frame, Sending { serial, size: 0, count: 0, slots: [0; 115] }));
                }
                writer.add(12, frame.serial, datagram.address, &self.sent[slot][..length]);
                self.last_sent[slot] = frame.serial;
                frame.slots[frame.count] = slot as u8;
                frame.count += 1;
            }
        }
        if frame.count > 0 {
            self.serial = frame.serial + 1;
            frame.size = writer.finish(frame.serial);
            self.frames.push(frame);
        }
    }

    /// Drops the frames that no datagram was sent in last; it is called so seldom that a sending pays for few of them.
    fn drop_answered(&mut self) {
        let last_sent = &self.last_sent;
        self.frames.retain(|frame| frame.slots[..frame.count].iter().any(|slot| last_sent[usize::from(*slot)] == frame.serial));
    }

    /// What the datagrams of a returned frame are: whether they are those of the frame.
    fn judge(&self, frame: &Sending, region: &[u8], outcomes: &mut Vec<Outcome>) -> Option<()> {
        let mut rest = region;
        for slot in &frame.slots[..frame.count] {
            let (head, size, counter, after) = frames::part_of(rest)?;
            let (task, number) = (slot / 16, slot % 16);
            let datagram = &self.plan.table(task).all[usize::from(number)];
            let address = u32::from_le_bytes([head[2], head[3], head[4], head[5]]);
            if head[0] != 12 || address != datagram.address || size != usize::from(datagram.length) {
                return None;
            }
            outcomes.push(if self.last_sent[usize::from(*slot)] != frame.serial {
                Outcome::Stale
            } else if counter != datagram.expected {
                Outcome::WrongCount { expected: datagram.expected, got: counter }
            } else {
                Outcome::Inputs { task, datagram: number }
            });
            rest = after;
        }
        rest.is_empty().then_some(())
    }

    /// A frame comes back: what it is, with an outcome for each datagram.
    #[inline(never)]
    pub fn arrive_into(&mut self, bytes: &[u8], outcomes: &mut Vec<Outcome>) -> Result<Arrived, u8> {
        outcomes.clear();
        let (serial, region) = frames::whole_frame(bytes).map_err(|fault| fault as u8 + 19)?;
        if let Some(place) = self.writes.iter().position(|own| own.serial == serial) {
            return Ok(self.take_writes(place, region, outcomes));
        }
        let place = self.frames.partition_point(|frame| frame.serial < serial);
        let Some(frame) = self.frames.get(place).filter(|frame| frame.serial == serial) else {
            return Ok(Arrived::Stale);
        };
        let is_last = frame.slots[..frame.count].iter().any(|slot| self.last_sent[usize::from(*slot)] == serial);
        if !is_last || self.judge(frame, region, outcomes).is_none() {
            outcomes.clear();
            return Ok(Arrived::Stale);
        }
        self.take(place, region, outcomes);
        Ok(Arrived::Answered)
    }

    /// Takes the inputs of good answers.
    fn take(&mut self, place: usize, region: &[u8], outcomes: &[Outcome]) {
        let frame = &self.frames[place];
        let mut rest = region;
        for (slot, outcome) in frame.slots[..frame.count].iter().zip(outcomes) {
            let Some((_, size, _, after)) = frames::part_of(rest) else {
                return;
            };
            let slot = usize::from(*slot);
            if let Outcome::Inputs { task, datagram } = *outcome {
                let data = &rest[10..10 + size];
                self.image[slot][..size].copy_from_slice(data);
                self.has_data[slot] = true;
                self.changes.push(Change::Good { task, datagram, bytes: data.to_vec() });
            }
            if self.last_sent[slot] == frame.serial {
                self.last_sent[slot] = NEVER;
            }
            rest = after;
        }
    }

    /// The data of a task's datagrams.
    #[inline(never)]
    pub fn read(&self, task: u8) -> Result<Vec<Option<Vec<u8>>>, u8> {
        if usize::from(task) >= TASKS {
            return Err(8);
        }
        let datagrams = self.plan.table(task).datagrams();
        let mut slots = Vec::with_capacity(datagrams.len());
        for (number, datagram) in datagrams.iter().enumerate() {
            let slot = 16 * usize::from(task) + number;
            slots.push(self.has_data[slot].then(|| self.image[slot][..usize::from(datagram.length)].to_vec()));
        }
        Ok(slots)
    }
}
