//! The same in plain Rust, written for speed: two copies that atomics choose between. The publisher changes the copy that
//! isn't shown, shows it, and waits for the seats that look at the other one, which takes the same changes in at the next
//! publishing.

use crate::plain::core::Change;
use crate::plain::layout::{Place, Table};
use crate::plain::plan::Plan;
use crate::plain::rows::{self, Row};
use std::cell::UnsafeCell;
use std::sync::Arc;
use std::sync::atomic::{AtomicU64, AtomicUsize, Ordering};

const TASKS: usize = 8;
const DATAGRAMS: usize = 16;
/// Room of a datagram's data, with eight bytes more for values.
const ROOM: usize = 1496;

/// A datagram's data, or none.
struct Slot {
    size: Option<u16>,
    bytes: [u8; ROOM],
}

/// What is shown of the line.
pub struct Copy {
    epoch: u32,
    tasks: [Table; TASKS],
    rows: Vec<Row>,
    slots: Vec<Slot>,
}

/// A word in a line of the cache of its own.
#[repr(align(128))]
#[derive(Default)]
struct Turn(AtomicU64);

struct Shared {
    copies: [UnsafeCell<Copy>; 2],
    shown: AtomicUsize,
    /// Odd while its seat looks.
    turns: [Turn; TASKS],
}

// The copy that is shown is only read, and the other one is the publisher's alone.
unsafe impl Sync for Shared {}

pub struct Publisher {
    shared: Arc<Shared>,
    seats: usize,
    shown: usize,
    pending: Vec<Change>,
    /// What the copy that isn't shown lacks.
    lacking: Vec<Change>,
}

pub struct Seat {
    shared: Arc<Shared>,
    task: u8,
    turn: u64,
}

pub struct View<'a> {
    copy: &'a Copy,
    task: u8,
    turn: &'a AtomicU64,
    left: u64,
}

impl Copy {
    fn of(plan: &Plan) -> Copy {
        let tasks = std::array::from_fn(|task| *plan.table(task as u8));
        let slots = (0..TASKS * DATAGRAMS).map(|_| Slot { size: None, bytes: [0; ROOM] }).collect();
        Copy { epoch: 0, tasks, rows: plan.rows().to_vec(), slots }
    }

    fn take_in(&mut self, change: &Change) {
        match change {
            Change::Good { task, datagram, bytes } => {
                let slot = &mut self.slots[DATAGRAMS * usize::from(*task) + usize::from(*datagram)];
                slot.bytes[..bytes.len()].copy_from_slice(bytes);
                slot.size = Some(bytes.len() as u16);
            }
            Change::Swapped { tasks, rows } => {
                rows::change(&mut self.rows, rows);
                tasks.iter().for_each(|(task, table)| self.tasks[usize::from(*task)] = *table);
                self.slots.iter_mut().for_each(|slot| slot.size = None);
                self.epoch += 1;
            }
        }
    }

    fn place(&self, variable: u32) -> Option<Place> {
        let below = self.rows.partition_point(|row| row.0 < variable);
        self.rows.get(below).filter(|row| row.0 == variable).map(|row| row.1)
    }
}

/// A publisher of a plan at its opening, and so many seats.
pub fn open(plan: &Plan, seats: usize) -> (Publisher, Vec<Seat>) {
    let copies = [Copy::of(plan), Copy::of(plan)].map(UnsafeCell::new);
    let shared = Arc::new(Shared { copies, shown: AtomicUsize::new(0), turns: Default::default() });
    let publisher = Publisher {
        shared: shared.clone(),
        seats,
        shown: 0,
        pending: Vec::with_capacity(16),
        lacking: Vec::with_capacity(16),
    };
    let seat = |task| Seat { shared: shared.clone(), task: task as u8, turn: 0 };
    (publisher, (0..seats).map(seat).collect())
}

impl Publisher {
    pub fn append(&mut self, change: Change) {
        self.pending.push(change);
    }

    #[inline(never)]
    pub fn publish(&mut self) {
        let spare = 1 - self.shown;
        let copy = unsafe { &mut *self.shared.copies[spare].get() };
        self.lacking.drain(..).for_each(|change| copy.take_in(&change));
        self.pending.iter().for_each(|change| copy.take_in(change));
        std::mem::swap(&mut self.pending, &mut self.lacking);
        self.shared.shown.store(spare, Ordering::SeqCst);
        self.shown = spare;
        for Turn(turn) in &self.shared.turns[..self.seats] {
            let seen = turn.load(Ordering::SeqCst);
            while seen % 2 == 1 && turn.load(Ordering::Acquire) == seen {
                std::thread::yield_now();
            }
        }
    }
}

impl Seat {
    #[inline(never)]
    pub fn view(&mut self) -> View<'_> {
        let turn = &self.shared.turns[usize::from(self.task)].0;
        turn.store(self.turn + 1, Ordering::SeqCst);
        self.turn += 2;
        let copy = unsafe { &*self.shared.copies[self.shared.shown.load(Ordering::SeqCst)].get() };
        View { copy, task: self.task, turn, left: self.turn }
    }
}

impl Drop for View<'_> {
    fn drop(&mut self) {
        self.turn.store(self.left, Ordering::Release);
    }
}

impl View<'_> {
    pub fn epoch(&self) -> u32 {
        self.copy.epoch
    }

    /// The bytes of the task's outputs and of its inputs.
    pub fn part(&self) -> (u16, u16) {
        let table = &self.copy.tasks[usize::from(self.task)];
        let all = table.datagrams().last().map_or(0, |last| last.offset + last.length);
        (table.outputs, all - table.outputs)
    }

    pub fn place(&self, variable: u32) -> Option<Place> {
        self.copy.place(variable)
    }

    pub fn inputs(&self, datagram: u8) -> Option<&[u8]> {
        let slot = &self.copy.slots[DATAGRAMS * usize::from(self.task) + usize::from(datagram)];
        slot.size.map(|size| &slot.bytes[..usize::from(size)])
    }
}
