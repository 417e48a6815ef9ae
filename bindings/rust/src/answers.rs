//! What calls are asked, and what they answer.

/// The direction of a variable.
#[derive(Clone, Copy, Debug, PartialEq, Eq)]
pub enum Dir {
    /// From the master to the slave.
    Out,
    /// From the slave to the master.
    In,
}

/// Where a variable is placed.
#[derive(Clone, Copy, Debug, PartialEq, Eq)]
pub struct Place {
    /// The task, 0 to 7.
    pub task: u8,
    /// Its datagram's number in the task, 0 to 15.
    pub datagram: u8,
    /// Its first bit in the datagram's data, counted from the least significant bit of byte 0.
    pub bit: u16,
    /// Its bits, 1 to 64.
    pub bits: u8,
    /// Its direction.
    pub dir: Dir,
    /// Its first bit in its task's image: of what the task posts, and of what it reads.
    pub image_bit: u32,
}

/// A datagram of a task.
#[repr(C)]
#[derive(Clone, Copy, Debug, Default, PartialEq, Eq)]
pub struct Datagram {
    /// Its logical address.
    pub address: u32,
    /// The bytes of its data, 1 to 1,486.
    pub length: u16,
    /// Its expected working counter.
    pub expected: u16,
    /// The bytes of the task's earlier datagrams.
    pub offset: u16,
}

/// The bytes of a task's image.
#[repr(C)]
#[derive(Clone, Copy, Debug, Default, PartialEq, Eq)]
pub struct ImageSizes {
    /// Its outputs, which come first: as many bytes as a post has.
    pub outputs: u16,
    /// Its inputs.
    pub inputs: u16,
}

/// A register block.
#[repr(C)]
#[derive(Clone, Copy, Debug, Default, PartialEq, Eq)]
pub struct Block {
    /// Its first register.
    pub start: u16,
    /// Its bytes: 8 of a sync manager, 16 of an FMMU.
    pub size: usize,
}

/// A register block that is owed.
#[repr(C)]
#[derive(Clone, Copy, Debug, Default, PartialEq, Eq)]
pub struct OwedBlock {
    /// The slave's station address.
    pub station: u16,
    /// Its first register.
    pub start: u16,
    /// Its bytes: 8 of a sync manager, 16 of an FMMU.
    pub size: u8,
    pub(crate) reserved: [u8; 3],
}

/// A register write that was sent.
#[derive(Clone, Copy, Debug, PartialEq, Eq)]
pub struct Write<'a> {
    /// Its frame.
    pub frame: &'a [u8],
    /// The block that it writes.
    pub block: OwedBlock,
}

/// Register writes that were sent in one frame.
#[derive(Clone, Copy, Debug, PartialEq, Eq)]
pub struct Writes<'a> {
    /// Their frame.
    pub frame: &'a [u8],
    /// How many register blocks it writes, 1 to 74.
    pub blocks: u32,
}

/// What an edit does.
#[repr(C)]
#[derive(Clone, Copy, Debug, Default, PartialEq, Eq)]
pub struct Cost {
    /// The epoch that begins with it.
    pub epoch: u32,
    /// How many datagrams are cut anew, an emptied task counting one: all others carry the same areas at the same bits as
    /// before, perhaps under another number.
    pub recut: u32,
    /// How many register blocks of the new line weren't blocks of the old line with the same bytes at the same register.
    pub moved: u32,
    /// How many variables have another place, appear or go.
    pub places: u32,
    pub(crate) crowded: u8,
    /// The tasks that wait after it, once each slave that comes is cleared: bit t is 1 if task t does.
    pub waits: u8,
    pub(crate) reserved: [u8; 2],
}

/// An edit of the line.
#[derive(Clone, Copy, Debug, PartialEq, Eq)]
pub enum Edit<'a> {
    /// The group with this alias joins the line. See the frame of [`fmmu_off`](crate::fmmu_off) to each of its slaves come back with
    /// counter 1 before, and call [`Line::cleared`](crate::Line::cleared) for each after it.
    Connect(u16),
    /// The group with this alias leaves the line. Send [`fmmu_off`](crate::fmmu_off) to its slaves before, or unplug them, and call
    /// [`Line::cleared`](crate::Line::cleared) or [`Line::unplugged`](crate::Line::unplugged) for each after it. Until then the tasks
    /// that they may take part in wait.
    Disconnect(u16),
    /// An area of a present slave gets these PDOs assigned, in this order.
    Remap {
        /// The slave's station address.
        station: u16,
        /// The area's place in the slave's record, from 0.
        area: u8,
        /// The indexes of the PDOs.
        pdos: &'a [u16],
    },
    /// An area of a present slave moves to a task.
    MoveArea {
        /// The slave's station address.
        station: u16,
        /// The area's place in the slave's record, from 0.
        area: u8,
        /// The task, 0 to 7.
        task: u8,
    },
    /// The group of this text is declared after the others; it is absent until it is connected.
    Declare(&'a [u8]),
}

/// What an arrival is for a datagram.
#[derive(Clone, Copy, Debug, PartialEq, Eq)]
pub enum OutcomeKind {
    /// Its data are what its task reads now.
    Inputs,
    /// It came back with another working counter, and what its task reads is as it was.
    WrongCount,
    /// It was sent again since, and what its task reads is as it was.
    SentAgain,
}

/// A datagram that arrived.
#[derive(Clone, Copy, Debug, PartialEq, Eq)]
pub struct Outcome {
    /// What the arrival is for it.
    pub kind: OutcomeKind,
    /// Its task, 0 to 7.
    pub task: u8,
    /// Its number in the task, 0 to 15.
    pub datagram: u8,
    /// The expected working counter.
    pub expected: u16,
    /// The one that it came back with.
    pub got: u16,
    /// Where its data begin in the frame.
    pub at: u16,
    /// The bytes of its data.
    pub length: u16,
}

impl Outcome {
    /// Its data in the frame that arrived, also of a wrong counter; none where the frame is another one and too short.
    pub fn data<'a>(&self, frame: &'a [u8]) -> Option<&'a [u8]> {
        let at = usize::from(self.at);
        frame.get(at..at + usize::from(self.length))
    }
}

/// What an arrival is for a register block.
#[derive(Clone, Copy, Debug, PartialEq, Eq)]
pub enum BlockOutcomeKind {
    /// The block is written, and owed no more.
    Written,
    /// No slave took it: it stays owed.
    Missed,
    /// It was sent again since, or its slave was lost or cleared, and nothing changed by it.
    SentAgain,
}

/// A register block whose write arrived.
#[derive(Clone, Copy, Debug, PartialEq, Eq)]
pub struct BlockOutcome {
    /// What the arrival is for it.
    pub kind: BlockOutcomeKind,
    /// The slave's station address.
    pub station: u16,
    /// Its first register.
    pub start: u16,
    /// The working counter that it came back with; 1 is expected.
    pub got: u16,
}

/// How a task's data compare with its last sending.
#[derive(Clone, Copy, Debug, PartialEq, Eq)]
pub enum State {
    /// None of the task's datagrams has data of the last sending.
    NoData,
    /// Some have, and some have not.
    Incomplete,
    /// All have; a task without datagrams is complete.
    Complete,
}

impl State {
    pub(crate) fn of(number: u8) -> State {
        match number {
            0 => State::NoData,
            1 => State::Incomplete,
            _ => State::Complete,
        }
    }
}

/// Whether a seat's line, and its place in it, are still there.
#[derive(Clone, Copy, Debug, PartialEq, Eq)]
pub enum LineState {
    /// The line is open.
    Open,
    /// The line was closed: this is the seat's last image.
    Closed,
    /// The task, or the number of a seat that only looks, has got another seat: this is the seat's last image.
    Replaced,
}

/// Why a task waits.
#[repr(C)]
#[derive(Clone, Copy, Debug, Default, PartialEq, Eq)]
pub struct Waits {
    /// How many owed register blocks concern it.
    pub blocks: u32,
    /// How many FMMUs of slaves outside the line may map it.
    pub outside: u32,
    /// The task, 0 to 7.
    pub task: u8,
    pub(crate) reserved: [u8; 3],
}

/// What a task reads.
#[derive(Clone, Copy, Debug, PartialEq, Eq)]
pub struct Image<'a> {
    /// The first serial of the task's last sending, 0 before one.
    pub first_serial: u64,
    /// How its data compare with that sending.
    pub state: State,
    /// The present epoch: it counts the edits.
    pub epoch: u32,
    /// The epoch of the last edit that changed the task, 0 if none did.
    pub task_epoch: u32,
    /// How many datagrams the task has, at most 16.
    pub datagrams: u16,
    /// The data of each, at its offset; zeros where it has none.
    pub bytes: &'a [u8],
    pub(crate) has: u16,
    pub(crate) serials: [u64; 16],
}

impl Image<'_> {
    /// The serial of the sending that a datagram's data answer; none where it has no data.
    pub fn serial(&self, datagram: u8) -> Option<u64> {
        serial_in(self.has, &self.serials, datagram)
    }
}

/// An image that a seat views.
#[derive(Clone, Copy, Debug, PartialEq, Eq)]
pub struct View<'a> {
    /// How many images the seat was shown, with this one, from 1.
    pub showing: u64,
    /// The first serial of the task's last sending, 0 before one.
    pub first_serial: u64,
    /// How the data compare with that sending.
    pub state: State,
    /// The number of the seat's post that was taken last when the image was shown, 0 before one.
    pub taken: u64,
    /// Whether that post was refused.
    pub is_refused: bool,
    /// Whether line and seat are still there.
    pub line: LineState,
    /// The epoch in which the image was shown.
    pub epoch: u32,
    /// The task's epoch then: posts are for an epoch from this one to `epoch`.
    pub task_epoch: u32,
    /// The data of each datagram, at its offset; zeros where it has none.
    pub bytes: &'a [u8],
    /// The task's output bytes, which come first: as many bytes as a post has.
    pub outputs: usize,
    /// How many datagrams the task has, at most 16.
    pub datagrams: u16,
    pub(crate) has: u16,
    pub(crate) serials: [u64; 16],
}

impl View<'_> {
    /// The serial of the sending that a datagram's data answer; none where it has no data.
    pub fn serial(&self, datagram: u8) -> Option<u64> {
        serial_in(self.has, &self.serials, datagram)
    }
}

/// The serial of a datagram's data, none where it has none.
fn serial_in(has: u16, serials: &[u64; 16], datagram: u8) -> Option<u64> {
    let serial = serials.get(usize::from(datagram))?;
    (has >> datagram & 1 == 1).then_some(*serial)
}

/// What became of the posts that were taken.
#[repr(C)]
#[derive(Clone, Copy, Debug, Default, PartialEq, Eq)]
pub struct Taken {
    pub(crate) accepted: u8,
    pub(crate) refused: u8,
    pub(crate) reserved: [u8; 6],
}

impl Taken {
    /// Whether a post of a task was accepted.
    pub fn is_accepted(&self, task: u8) -> bool {
        task < 8 && self.accepted >> task & 1 == 1
    }

    /// Whether a post of a task was refused.
    pub fn is_refused(&self, task: u8) -> bool {
        task < 8 && self.refused >> task & 1 == 1
    }
}

/// How often a datagram was sent, and what arrivals were for it, since the line was opened.
#[repr(C)]
#[derive(Clone, Copy, Debug, Default, PartialEq, Eq)]
pub struct Counters {
    /// Sendings.
    pub sent: u64,
    /// Good answers.
    pub good: u64,
    /// Answers with another working counter.
    pub wrong: u64,
    /// Answers to a sending that wasn't the last one.
    pub again: u64,
}
