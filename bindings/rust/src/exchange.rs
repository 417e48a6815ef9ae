//! Register writes and process data: what is sent, and what arrives.

use crate::faults::{Detail, Fault};
use crate::ffi;
use crate::line::{done, Line};
use crate::answers::{BlockOutcome, BlockOutcomeKind, Image, Outcome, OutcomeKind, State, Write, Writes};

/// What a frame that came back answers.
#[derive(Clone, Debug)]
pub enum Arrival<'a> {
    /// A sending of tasks.
    Tasks {
        /// The serial of the frame.
        serial: u64,
        /// What it is for each datagram, in the frame's order.
        outcomes: Outcomes<'a>,
    },
    /// A frame of register writes, of one block or of several.
    Blocks {
        /// The serial of the frame.
        serial: u64,
        /// What it is for each block, in the frame's order.
        blocks: BlockOutcomes<'a>,
    },
    /// Nothing that is awaited.
    Stale {
        /// The serial that the frame bears.
        serial: u64,
    },
}

/// What was sent of tasks.
#[derive(Clone, Debug)]
pub struct Sent<'a> {
    /// The serial of the first frame; the others have the next ones.
    pub first_serial: u64,
    /// The frames, one after another.
    pub frames: Frames<'a>,
}

/// What an arrival is for each datagram.
#[derive(Clone, Debug)]
pub struct Outcomes<'a> {
    left: std::slice::Iter<'a, ffi::Outcome>,
}

impl Iterator for Outcomes<'_> {
    type Item = Outcome;

    fn next(&mut self) -> Option<Outcome> {
        let it = self.left.next()?;
        Some(Outcome {
            kind: match it.kind {
                1 => OutcomeKind::Inputs,
                2 => OutcomeKind::WrongCount,
                _ => OutcomeKind::SentAgain,
            },
            task: it.task,
            datagram: it.datagram,
            expected: it.expected,
            got: it.got,
            at: it.at,
            length: it.length,
        })
    }

    fn size_hint(&self) -> (usize, Option<usize>) {
        self.left.size_hint()
    }
}

impl ExactSizeIterator for Outcomes<'_> {}

/// What an arrival is for each register block.
#[derive(Clone, Debug)]
pub struct BlockOutcomes<'a> {
    left: std::slice::Iter<'a, ffi::Outcome>,
}

impl Iterator for BlockOutcomes<'_> {
    type Item = BlockOutcome;

    fn next(&mut self) -> Option<BlockOutcome> {
        let it = self.left.next()?;
        Some(BlockOutcome {
            kind: match it.kind {
                4 => BlockOutcomeKind::Written,
                5 => BlockOutcomeKind::Missed,
                _ => BlockOutcomeKind::SentAgain,
            },
            station: it.station,
            start: it.start,
            got: it.got,
        })
    }

    fn size_hint(&self) -> (usize, Option<usize>) {
        self.left.size_hint()
    }
}

impl ExactSizeIterator for BlockOutcomes<'_> {}

/// Frames one after another, each of its own size.
#[derive(Clone, Debug)]
pub struct Frames<'a> {
    left: &'a [u8],
}

impl<'a> Iterator for Frames<'a> {
    type Item = &'a [u8];

    fn next(&mut self) -> Option<&'a [u8]> {
        if self.left.is_empty() {
            return None;
        }
        let length = usize::from(u16::from_le_bytes([self.left[14], self.left[15]]) % 2048);
        let (frame, others) = self.left.split_at((16 + length).max(60));
        self.left = others;
        Some(frame)
    }
}

impl Line {
    /// A task, 0 to 7, posts its outputs, made for an epoch: as many bytes as it has output bytes. `NoSuchTask`; `StalePost` for an
    /// epoch to come, or before the last edit that changed the task; `PostLength`; then nothing changed.
    ///
    /// ```
    /// # fn main() -> Result<(), Box<dyn std::error::Error>> {
    /// # let mut line = zangjulf::Line::open(include_bytes!("../../../examples/tool_changer.toml"))?;
    /// // task 1 has one byte of outputs
    /// line.post(1, 0, &[0b0101])?;
    /// assert_eq!(line.post(1, 0, &[]), Err(zangjulf::Fault::PostLength));
    /// assert_eq!(line.post(1, 7, &[0]), Err(zangjulf::Fault::StalePost));
    /// // the touch probe is in task 0
    /// line.edit(&zangjulf::Edit::Connect(102))?;
    /// line.post(1, 0, &[0b0101])?;
    /// # Ok(())
    /// # }
    /// ```
    pub fn post(&mut self, task: u8, epoch: u32, bytes: &[u8]) -> Result<(), Fault> {
        done(unsafe { ffi::zangjulf_post(&mut self.handle, task, epoch, bytes.as_ptr(), bytes.len()) }, 0)
    }

    /// Sends the first owed register block: its frame is at the front of `out`; 60 bytes are enough. The next call sends a block that
    /// is still owed again. `NothingOwed`, `SerialsSpent`, `Room` with the bytes needed; then nothing changed,
    /// `out` neither.
    ///
    /// ```
    /// # fn main() -> Result<(), Box<dyn std::error::Error>> {
    /// # let mut line = zangjulf::Line::open(include_bytes!("../../../examples/tool_changer.toml"))?;
    /// let mut out = [0; zangjulf::FRAME];
    /// let write = line.next_write(&mut out)?;
    /// assert_eq!((write.block.station, write.block.start), (1002, 0x0810));
    /// // EtherCAT's EtherType
    /// assert_eq!(write.frame[12..14], [0x88, 0xa4]);
    /// # Ok(())
    /// # }
    /// ```
    pub fn next_write<'a>(&mut self, out: &'a mut [u8]) -> Result<Write<'a>, Fault> {
        let mut write = ffi::Write::default();
        let number = unsafe { ffi::zangjulf_next_write(&mut self.handle, out.as_mut_ptr(), out.len(), &mut write) };
        done(number, write.size as usize)?;
        Ok(Write { frame: &out[..write.size as usize], block: write.block })
    }

    /// Sends the first owed register blocks in one frame, as many as it holds: the frame is at the front of `out`, for which
    /// [`crate::FRAME`] bytes are enough. The next call sends blocks that are still owed again, and then an answer to the earlier frame
    /// confirms none of them: wait for a frame longer than a round trip takes. `NothingOwed`, `SerialsSpent`, `Room` with the bytes
    /// needed; then nothing changed, `out` neither.
    ///
    /// ```
    /// # fn main() -> Result<(), Box<dyn std::error::Error>> {
    /// # let mut line = zangjulf::Line::open(include_bytes!("../../../examples/tool_changer.toml"))?;
    /// # let mut slaves = [1001, 1002, 1003, 1004].map(|station| zangjulf::Slave::new(0, station));
    /// use zangjulf::{Arrival, BlockOutcomeKind};
    /// let mut out = [0; zangjulf::FRAME];
    /// let writes = line.next_writes(&mut out)?;
    /// assert_eq!(writes.blocks, 12);
    /// let mut frame = writes.frame.to_vec();
    /// slaves.iter_mut().for_each(|slave| slave.process(&mut frame));
    /// let Arrival::Blocks { serial: 0, mut blocks } = line.arrive(&frame)? else { panic!("register writes") };
    /// assert!(blocks.all(|block| block.kind == BlockOutcomeKind::Written));
    /// assert_eq!(line.owed(), 0);
    /// # Ok(())
    /// # }
    /// ```
    pub fn next_writes<'a>(&mut self, out: &'a mut [u8]) -> Result<Writes<'a>, Fault> {
        let mut writes = ffi::Writes::default();
        let number = unsafe { ffi::zangjulf_next_writes(&mut self.handle, out.as_mut_ptr(), out.len(), &mut writes) };
        done(number, writes.size as usize)?;
        Ok(Writes { frame: &out[..writes.size as usize], blocks: writes.blocks })
    }

    /// Sends the first owed register blocks that are not under way in one frame, as many as it holds: the frame is at the front of
    /// `out`, for which [`crate::FRAME`] bytes are enough. Earlier frames stay under way, and each answer counts for its own blocks. A
    /// frame that does not come back is sent again by [`Line::next_writes`]. `NothingOwed`, `UnderWay`, `SerialsSpent`, `Room` with the
    /// bytes needed, `Memory`; then nothing changed, `out` neither.
    ///
    /// ```
    /// # fn main() -> Result<(), Box<dyn std::error::Error>> {
    /// # let mut line = zangjulf::Line::open(include_bytes!("../../../examples/tool_changer.toml"))?;
    /// # let mut slaves = [1001, 1002, 1003, 1004].map(|station| zangjulf::Slave::new(0, station));
    /// use zangjulf::Fault;
    /// let (mut first, mut others) = ([0; zangjulf::FRAME], [0; zangjulf::FRAME]);
    /// let mut first = line.next_write(&mut first)?.frame.to_vec();
    /// let mut others = line.further_writes(&mut others)?.frame.to_vec();
    /// let Err(Fault::UnderWay) = line.further_writes(&mut [0; zangjulf::FRAME]) else { panic!("two frames are under way") };
    /// for frame in [&mut others, &mut first] {
    ///     slaves.iter_mut().for_each(|slave| slave.process(frame));
    ///     line.arrive(frame)?;
    /// }
    /// assert_eq!(line.owed(), 0);
    /// # Ok(())
    /// # }
    /// ```
    pub fn further_writes<'a>(&mut self, out: &'a mut [u8]) -> Result<Writes<'a>, Fault> {
        let mut writes = ffi::Writes::default();
        let number = unsafe { ffi::zangjulf_further_writes(&mut self.handle, out.as_mut_ptr(), out.len(), &mut writes) };
        done(number, writes.size as usize)?;
        Ok(Writes { frame: &out[..writes.size as usize], blocks: writes.blocks })
    }

    /// A slave of the line may have lost its registers, as one that was switched off and on: each of its register blocks is owed again,
    /// and nothing else changes. A write that was sent to it before confirms nothing any more. `UnknownStation`, `Absent`; then nothing
    /// changed.
    ///
    /// ```
    /// # fn main() -> Result<(), Box<dyn std::error::Error>> {
    /// # let mut line = zangjulf::Line::open(include_bytes!("../../../examples/tool_changer.toml"))?;
    /// # let mut slaves = [1001, 1002, 1003, 1004].map(|station| zangjulf::Slave::new(0, station));
    /// # let mut out = [0; zangjulf::FRAME];
    /// let mut frame = line.next_writes(&mut out)?.frame.to_vec();
    /// slaves.iter_mut().for_each(|slave| slave.process(&mut frame));
    /// line.arrive(&frame)?;
    /// // axis X has an output and an input area, two blocks each
    /// line.slave_lost(1002)?;
    /// assert_eq!(line.owed(), 4);
    /// assert_eq!(line.slave_lost(2001), Err(zangjulf::Fault::Absent));
    /// # Ok(())
    /// # }
    /// ```
    pub fn slave_lost(&mut self, station: u16) -> Result<(), Fault> {
        done(unsafe { ffi::zangjulf_slave_lost(&mut self.handle, station) }, 0)
    }

    /// Sends ready tasks, 1 to 8 and none twice: their frames are at the front of `out`, for which [`crate::FRAMES`] bytes are enough.
    /// A task is ready if no owed register block concerns it, and no slave outside the line may take part in it. So a tool that comes
    /// and is cleared makes its own task wait alone. `NoSuchTask`; `Waits` with the first task that does, and why; `SerialsSpent`;
    /// `Room` with the bytes needed; `Misused` of other tasks; then nothing is sent, and nothing changed, `out` neither.
    ///
    /// ```
    /// # fn main() -> Result<(), Box<dyn std::error::Error>> {
    /// # let mut line = zangjulf::Line::open(include_bytes!("../../../examples/own_tasks.toml"))?;
    /// # let mut slaves = [1001, 1002, 1003, 1004].map(|station| zangjulf::Slave::new(0, station));
    /// use zangjulf::{Edit, Fault};
    /// let mut out = vec![0; zangjulf::FRAMES];
    /// let mut frame = line.next_writes(&mut out)?.frame.to_vec();
    /// slaves.iter_mut().for_each(|slave| slave.process(&mut frame));
    /// line.arrive(&frame)?;
    /// // the gripper comes: anything may be in its FMMUs, until they are zeros
    /// let cost = line.edit(&Edit::Connect(100))?;
    /// assert_eq!((line.ready(), line.held_by(0, 0), cost.waits), (0, Some(2001), 1 << 2));
    /// line.cleared(2001)?;
    /// // its own task waits for its four blocks, and the others are sent
    /// let Err(Fault::Waits(why)) = line.send(&[2], &mut out) else { panic!("the gripper's task waits") };
    /// assert_eq!((why.task, why.blocks, why.outside), (2, 4, 0));
    /// let sent = line.send(&[0, 1], &mut out)?;
    /// assert_eq!(sent.first_serial, 1);
    /// assert_eq!(sent.frames.map(|frame| frame.len()).sum::<usize>(), 68);
    /// # Ok(())
    /// # }
    /// ```
    pub fn send<'a>(&mut self, tasks: &[u8], out: &'a mut [u8]) -> Result<Sent<'a>, Fault> {
        let mut sent = ffi::Sent::default();
        let (bytes, length) = (out.as_mut_ptr(), out.len());
        let (handle, none) = (&mut self.handle, std::ptr::null_mut());
        let number =
            unsafe { ffi::zangjulf_send(handle, tasks.as_ptr(), tasks.len(), bytes, length, none, 0, &mut sent) };
        match number {
            0 => Ok(Sent { first_serial: sent.first_serial, frames: Frames { left: &out[..sent.size as usize] } }),
            fault => Err(Fault::of(fault, Detail { number: sent.size as usize, waits: sent.waits })),
        }
    }

    /// The frame of one datagram of a task as it would be sent next, at the front of `out`; none where there is none. `Room`.
    ///
    /// ```
    /// # fn main() -> Result<(), Box<dyn std::error::Error>> {
    /// # let line = zangjulf::Line::open(include_bytes!("../../../examples/tool_changer.toml"))?;
    /// let mut out = [0; zangjulf::FRAME];
    /// let frame = line.preview(0, 0, &mut out)?.expect("task 0 has a datagram");
    /// // its logical address
    /// assert_eq!(frame[18..22], 0x0100_0000_u32.to_le_bytes());
    /// # Ok(())
    /// # }
    /// ```
    pub fn preview<'a>(&self, task: u8, datagram: u8, out: &'a mut [u8]) -> Result<Option<&'a [u8]>, Fault> {
        let mut size = 0;
        let (bytes, length) = (out.as_mut_ptr(), out.len());
        match unsafe { ffi::zangjulf_preview(&self.handle, task, datagram, bytes, length, &mut size) } {
            0 => Ok(Some(&out[..size])),
            100 => Ok(None),
            fault => done(fault, size).map(|()| None),
        }
    }

    /// Takes a frame that came back: any bytes, without the check sequence. `Short` to `IndexMismatch` of one that can't be read; then
    /// nothing changed. The outcomes are lent from the line.
    ///
    /// ```
    /// # fn main() -> Result<(), Box<dyn std::error::Error>> {
    /// # let mut line = zangjulf::Line::open(include_bytes!("../../../examples/tool_changer.toml"))?;
    /// use zangjulf::{Arrival, BlockOutcomeKind};
    /// let mut out = [0; zangjulf::FRAME];
    /// let sent = line.next_write(&mut out)?.frame;
    /// // it comes back as it was sent: no slave took it
    /// let Arrival::Blocks { serial: 0, mut blocks } = line.arrive(sent)? else { panic!("a register write") };
    /// let block = blocks.next().expect("one block");
    /// assert_eq!((block.kind, block.station, block.start), (BlockOutcomeKind::Missed, 1002, 0x0810));
    /// assert!(matches!(line.arrive(sent)?, Arrival::Stale { serial: 0 }));
    /// assert_eq!(line.arrive(&[]).err(), Some(zangjulf::Fault::Short));
    /// # Ok(())
    /// # }
    /// ```
    pub fn arrive(&mut self, bytes: &[u8]) -> Result<Arrival<'_>, Fault> {
        let mut it = ffi::Arrival::default();
        let (outcomes, room) = (self.outcomes.as_mut_ptr(), self.outcomes.len());
        let handle = &mut self.handle;
        let number =
            unsafe { ffi::zangjulf_arrive(handle, bytes.as_ptr(), bytes.len(), outcomes, room, &mut it) };
        done(number, 0)?;
        let (serial, left) = (it.serial, self.outcomes[..usize::from(it.datagrams)].iter());
        Ok(match it.kind {
            1 => Arrival::Tasks { serial, outcomes: Outcomes { left } },
            2 => Arrival::Blocks { serial, blocks: BlockOutcomes { left } },
            _ => Arrival::Stale { serial },
        })
    }

    /// What a task, 0 to 7, reads: of each of its datagrams the data of its last good answer since the last edit that changed the task,
    /// at the datagram's offset in `out`, for which [`crate::IMAGE`] bytes are enough. `NoSuchTask`, `Room`.
    ///
    /// ```
    /// # fn main() -> Result<(), Box<dyn std::error::Error>> {
    /// # let line = zangjulf::Line::open(include_bytes!("../../../examples/tool_changer.toml"))?;
    /// let mut out = vec![0; zangjulf::IMAGE];
    /// let image = line.read(0, &mut out)?;
    /// // nothing has arrived yet
    /// assert_eq!((image.epoch, image.datagrams, image.bytes), (0, 1, &[0; 26][..]));
    /// assert_eq!((image.state, image.serial(0)), (zangjulf::State::NoData, None));
    /// # Ok(())
    /// # }
    /// ```
    pub fn read<'a>(&self, task: u8, out: &'a mut [u8]) -> Result<Image<'a>, Fault> {
        let mut serials = [0; 16];
        let mut it = ffi::Image::default();
        let (bytes, length) = (out.as_mut_ptr(), out.len());
        let number = unsafe {
            ffi::zangjulf_read(&self.handle, task, bytes, length, serials.as_mut_ptr(), serials.len(), &mut it)
        };
        done(number, 0)?;
        Ok(Image {
            first_serial: it.first_serial,
            state: State::of(it.state),
            epoch: it.epoch,
            task_epoch: it.task_epoch,
            datagrams: it.datagrams,
            bytes: &out[..it.size as usize],
            has: it.has,
            serials,
        })
    }
}
