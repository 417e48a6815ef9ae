//! Zangjulf's core from plain Rust: the configuration and process image of an EtherCAT line that changes while it runs.
//!
//! Each call is one of the C library (`include/zangjulf.h`), which is proved; this crate adds names and types, and no
//! thread, clock or socket. A [`Line`] belongs to one thread at a time, and may move between threads. A [`Seat`] is for a task's
//! thread beside it, a [`Look`] for one that only looks. Only opening a line takes memory of Rust's own; what calls answer is lent from
//! the caller's slices or from the line.
//!
//! A cycle of the owner, with a tool that comes while the axes go on:
//!
//! ```
//! # fn main() -> Result<(), Box<dyn std::error::Error>> {
//! use zangjulf::{Arrival, Edit, Line, OutcomeKind};
//! let mut line = Line::open(include_bytes!("../../../examples/own_tasks.toml"))?;
//! // in place of a wire: the coupler, two axes, the machine's inputs and outputs, the gripper
//! let mut slaves = [1001, 1002, 1003, 1004, 2001].map(|station| zangjulf::Slave::new(0, station));
//! let mut pass = |frame: &[u8]| {
//!     let mut returned = frame.to_vec();
//!     slaves.iter_mut().for_each(|slave| slave.process(&mut returned));
//!     returned
//! };
//! let (mut out, mut writes) = (vec![0; zangjulf::FRAMES], [0; zangjulf::FRAME]);
//! for cycle in 0..5 {
//!     if cycle == 2 {
//!         let frame = zangjulf::fmmu_off(2001, 2, &mut writes)?;
//!         assert_eq!(pass(frame)[58], 1);
//!         line.edit(&Edit::Connect(100))?;
//!         line.cleared(2001)?;
//!     }
//!     let tasks: Vec<u8> = (0..3).filter(|task| line.ready() >> task & 1 == 1).collect();
//!     if !tasks.is_empty() {
//!         let sent = line.send(&tasks, &mut out)?;
//!         for frame in sent.frames {
//!             let returned = pass(frame);
//!             let Arrival::Tasks { mut outcomes, .. } = line.arrive(&returned)? else { panic!("an answer") };
//!             assert!(outcomes.all(|outcome| outcome.kind == OutcomeKind::Inputs));
//!         }
//!     }
//!     if line.owed() > 0 {
//!         let returned = pass(line.next_writes(&mut writes)?.frame);
//!         line.arrive(&returned)?;
//!     }
//! }
//! // the axes were sent in each cycle but the first one, the gripper from cycle 3 on
//! assert_eq!(line.counters(0, 0).map(|counters| counters.good), Some(4));
//! assert_eq!(line.counters(2, 0).map(|counters| counters.good), Some(2));
//! # Ok(())
//! # }
//! ```

mod answers;
mod editing;
mod exchange;
mod faults;
mod ffi;
#[cfg(test)]
mod layout;
mod line;
mod locating;
mod readiness;
mod seat;
mod slave;
mod values;

pub use answers::{
    Block, BlockOutcome, BlockOutcomeKind, Cost, Counters, Datagram, Dir, Edit, Image, ImageSizes, LineState, Outcome, OutcomeKind,
    OwedBlock, Place, State, Taken, View, Waits, Write, Writes,
};
pub use exchange::{Arrival, BlockOutcomes, Frames, Outcomes, Sent};
pub use faults::Fault;
pub use line::Line;
pub use locating::{locate, Key, Location, Spot};
pub use seat::{Look, Seat};
pub use slave::Slave;
pub use values::{alias_read, fmmu_off, get_bits, is_mine, put_bits, station_write};

/// The most bytes of a frame; the fewest are 60.
pub const FRAME: usize = 1514;

/// Bytes that hold any sending of tasks.
pub const FRAMES: usize = 128 * FRAME;

/// Bytes that hold any task's image.
pub const IMAGE: usize = 16 * 1486;

/// The most seats of a line that only look.
pub const LOOKERS: u32 = 64;

/// The bytes of a simulated slave's memory.
pub const SLAVE_MEMORY: usize = 12_288;

/// The first byte of the source address of a master's own EtherCAT frames, beside the library's.
pub const OTHER_SOURCE: u8 = 0x06;

/// The version of the library that is linked: its three numbers.
///
/// ```
/// assert_eq!(zangjulf::version(), (0, 2, 0));
/// ```
pub fn version() -> (u32, u32, u32) {
    let (mut major, mut minor, mut patch) = (0, 0, 0);
    unsafe { ffi::zangjulf_version(&mut major, &mut minor, &mut patch) };
    (major, minor, patch)
}
