//! An open line: opening, closing, and what can be looked up.

use crate::faults::{Detail, Fault};
use crate::ffi;
use crate::answers::{Block, Counters, Datagram, Dir, ImageSizes, OwedBlock, Place};

/// A line that is open. It is closed when it is dropped: its seats are shown a last image that says so.
///
/// A line belongs to one thread at a time, and may move between threads (`Send`, not `Sync`). Tasks have a [`Seat`](crate::Seat) each,
/// and threads that only look have a [`Look`](crate::Look).
#[derive(Debug)]
pub struct Line {
    pub(crate) handle: ffi::Handle,
    /// room for the outcomes of any frame
    pub(crate) outcomes: Box<[ffi::Outcome; 115]>,
}

// What a handle holds is memory of its own, and no thread's identity counts, which is proved of the library's handle (`Send`).
unsafe impl Send for Line {}

impl Drop for Line {
    fn drop(&mut self) {
        unsafe { ffi::zangjulf_close(&mut self.handle) };
    }
}

/// Ok where a call is done; else its fault, with what goes with it.
pub(crate) fn done(number: u8, detail: usize) -> Result<(), Fault> {
    match number {
        0 => Ok(()),
        number => Err(Fault::of(number, Detail { number: detail, ..Detail::default() })),
    }
}

/// A place as the library writes it.
fn place_of(place: &ffi::Place) -> Place {
    Place {
        task: place.task,
        datagram: place.datagram,
        bit: place.bit,
        bits: place.bits,
        dir: if place.is_input { Dir::In } else { Dir::Out },
        image_bit: place.image_bit,
    }
}

impl Line {
    /// Opens the project of a text: the mandatory group alone is present, and the line has no seats that only look. The faults of a
    /// project, `TooManyDatagrams` with the lowest such task, `Memory`.
    ///
    /// ```
    /// # fn main() -> Result<(), Box<dyn std::error::Error>> {
    /// let text = std::fs::read("../../examples/tool_changer.toml")?;
    /// let line = zangjulf::Line::open(&text)?;
    /// assert_eq!(line.epoch(), 0);
    ///
    /// let refused = zangjulf::Line::open(b"[[").unwrap_err();
    /// assert_eq!(refused, zangjulf::Fault::ProjectNotToml);
    /// assert_eq!(refused.to_string(), "the text is no TOML document in UTF-8");
    /// # Ok(())
    /// # }
    /// ```
    pub fn open(text: &[u8]) -> Result<Line, Fault> {
        Line::open_with_lookers(text, 0)
    }

    /// Opens the project of a text as [`Line::open`] does, with so many seats that only look, 64 at most ([`Line::look`]). `Misused` of
    /// more.
    ///
    /// ```
    /// # fn main() -> Result<(), Box<dyn std::error::Error>> {
    /// let text = include_bytes!("../../../examples/tool_changer.toml");
    /// let mut line = zangjulf::Line::open_with_lookers(text, 1)?;
    /// let mut look = line.look(0, 1)?;
    /// assert_eq!(look.view(&mut [0; 2])?.showing, 1);
    /// assert_eq!(line.look(1, 1).unwrap_err(), zangjulf::Fault::Misused);
    /// # Ok(())
    /// # }
    /// ```
    ///
    /// # Panics
    ///
    /// Where the library that is linked has another binary interface than this crate was written for.
    pub fn open_with_lookers(text: &[u8], lookers: u32) -> Result<Line, Fault> {
        let linked = unsafe { ffi::zangjulf_abi() };
        assert_eq!(linked, ffi::ABI, "the library that is linked has another binary interface");
        let handle = ffi::Handle { mark: 0, at: std::ptr::null_mut() };
        let mut line = Line { handle, outcomes: Box::new([ffi::Outcome::default(); 115]) };
        let options = ffi::Options { size: std::mem::size_of::<ffi::Options>() as u32, lookers };
        let mut task = 0;
        let number = unsafe { ffi::zangjulf_open(&mut line.handle, &options, text.as_ptr(), text.len(), &mut task) };
        done(number, usize::from(task))?;
        Ok(line)
    }

    /// The number of accepted edits.
    ///
    /// ```
    /// # fn main() -> Result<(), Box<dyn std::error::Error>> {
    /// # let mut line = zangjulf::Line::open(include_bytes!("../../../examples/tool_changer.toml"))?;
    /// line.edit(&zangjulf::Edit::Connect(200))?;
    /// assert_eq!(line.epoch(), 1);
    /// # Ok(())
    /// # }
    /// ```
    pub fn epoch(&self) -> u32 {
        let mut epoch = 0;
        unsafe { ffi::zangjulf_epoch(&self.handle, &mut epoch) };
        epoch
    }

    /// The serial of the next frame.
    ///
    /// ```
    /// # fn main() -> Result<(), Box<dyn std::error::Error>> {
    /// # let mut line = zangjulf::Line::open(include_bytes!("../../../examples/tool_changer.toml"))?;
    /// assert_eq!(line.next_serial(), 0);
    /// line.next_write(&mut [0; zangjulf::FRAME])?;
    /// assert_eq!(line.next_serial(), 1);
    /// # Ok(())
    /// # }
    /// ```
    pub fn next_serial(&self) -> u64 {
        let mut serial = 0;
        unsafe { ffi::zangjulf_next_serial(&self.handle, &mut serial) };
        serial
    }

    /// How many register blocks are owed.
    ///
    /// ```
    /// # fn main() -> Result<(), Box<dyn std::error::Error>> {
    /// # let line = zangjulf::Line::open(include_bytes!("../../../examples/tool_changer.toml"))?;
    /// // an area has two register blocks, its sync manager and its FMMU
    /// assert_eq!(line.owed(), 12);
    /// # Ok(())
    /// # }
    /// ```
    pub fn owed(&self) -> u32 {
        let mut count = 0;
        unsafe { ffi::zangjulf_owed(&self.handle, &mut count) };
        count
    }

    /// The owed block with an index, from 0, in the order of writing.
    ///
    /// ```
    /// # fn main() -> Result<(), Box<dyn std::error::Error>> {
    /// # let line = zangjulf::Line::open(include_bytes!("../../../examples/tool_changer.toml"))?;
    /// // sync manager 2 of axis X
    /// let block = line.owed_block(0).expect("twelve are owed");
    /// assert_eq!((block.station, block.start, block.size), (1002, 0x0810, 8));
    /// assert_eq!(line.owed_block(12), None);
    /// # Ok(())
    /// # }
    /// ```
    pub fn owed_block(&self, index: u32) -> Option<OwedBlock> {
        let mut block = OwedBlock::default();
        let number = unsafe { ffi::zangjulf_owed_block(&self.handle, index, &mut block) };
        (number == 0).then_some(block)
    }

    /// Where a variable is placed in the present line.
    ///
    /// ```
    /// # fn main() -> Result<(), Box<dyn std::error::Error>> {
    /// # let line = zangjulf::Line::open(include_bytes!("../../../examples/tool_changer.toml"))?;
    /// // the target position of axis X comes after its control word of 16 bits
    /// let place = line.place(2).expect("axis X is always there");
    /// assert_eq!((place.task, place.datagram, place.bit, place.bits), (0, 0, 16, 32));
    /// // the gripper isn't in the line yet
    /// assert_eq!(line.place(101), None);
    /// # Ok(())
    /// # }
    /// ```
    pub fn place(&self, variable: u32) -> Option<Place> {
        let mut place = ffi::Place::default();
        let number = unsafe { ffi::zangjulf_place(&self.handle, variable, &mut place) };
        (number == 0).then(|| place_of(&place))
    }

    /// The places of variables, as a table after an edit: of each at its index in `places`, none where the line has none for it.
    /// `Misused` if `places` is shorter than `variables`; then it is as it was.
    ///
    /// ```
    /// # fn main() -> Result<(), Box<dyn std::error::Error>> {
    /// # let line = zangjulf::Line::open(include_bytes!("../../../examples/tool_changer.toml"))?;
    /// let mut places = [None; 2];
    /// line.places(&[2, 101], &mut places)?;
    /// assert_eq!(places, [line.place(2), None]);
    /// assert_eq!(line.places(&[2, 101], &mut places[..1]), Err(zangjulf::Fault::Misused));
    /// # Ok(())
    /// # }
    /// ```
    pub fn places(&self, variables: &[u32], places: &mut [Option<Place>]) -> Result<(), Fault> {
        if places.len() < variables.len() {
            return Err(Fault::Misused);
        }
        let mut some = [ffi::Place::default(); 32];
        for (asked, found) in variables.chunks(some.len()).zip(places.chunks_mut(some.len())) {
            let (variables, room) = (asked.as_ptr(), some.len());
            done(unsafe { ffi::zangjulf_places(&self.handle, variables, asked.len(), some.as_mut_ptr(), room) }, 0)?;
            for (place, it) in found.iter_mut().zip(&some[..asked.len()]) {
                *place = (it.bits > 0).then(|| place_of(it));
            }
        }
        Ok(())
    }

    /// The datagram of a task with a number.
    ///
    /// ```
    /// # fn main() -> Result<(), Box<dyn std::error::Error>> {
    /// # let line = zangjulf::Line::open(include_bytes!("../../../examples/tool_changer.toml"))?;
    /// let datagram = line.datagram(0, 0).expect("task 0 has one datagram");
    /// assert_eq!((datagram.address, datagram.length), (0x0100_0000, 26));
    /// assert_eq!(line.datagram(0, 1), None);
    /// # Ok(())
    /// # }
    /// ```
    pub fn datagram(&self, task: u8, datagram: u8) -> Option<Datagram> {
        let mut found = Datagram::default();
        let number = unsafe { ffi::zangjulf_datagram(&self.handle, task, datagram, &mut found) };
        (number == 0).then_some(found)
    }

    /// The bytes of a task's image; 0 and 0 where there is no such task.
    ///
    /// ```
    /// # fn main() -> Result<(), Box<dyn std::error::Error>> {
    /// # let line = zangjulf::Line::open(include_bytes!("../../../examples/tool_changer.toml"))?;
    /// let sizes = line.image_sizes(1);
    /// assert_eq!((sizes.outputs, sizes.inputs), (1, 1));
    /// # Ok(())
    /// # }
    /// ```
    pub fn image_sizes(&self, task: u8) -> ImageSizes {
        let mut sizes = ImageSizes::default();
        unsafe { ffi::zangjulf_image_sizes(&self.handle, task, &mut sizes) };
        sizes
    }

    /// The station address of the slave at a position.
    ///
    /// ```
    /// # fn main() -> Result<(), Box<dyn std::error::Error>> {
    /// # let line = zangjulf::Line::open(include_bytes!("../../../examples/tool_changer.toml"))?;
    /// assert_eq!(line.station(0), Some(1001));
    /// assert_eq!(line.station(4), None);
    /// # Ok(())
    /// # }
    /// ```
    pub fn station(&self, position: u32) -> Option<u16> {
        let mut station = 0;
        let number = unsafe { ffi::zangjulf_station(&self.handle, position, &mut station) };
        (number == 0).then_some(station)
    }

    /// The position of the slave with a station address. `UnknownStation`, `Absent`.
    ///
    /// ```
    /// # fn main() -> Result<(), Box<dyn std::error::Error>> {
    /// # let line = zangjulf::Line::open(include_bytes!("../../../examples/tool_changer.toml"))?;
    /// assert_eq!(line.position(1004), Ok(3));
    /// assert_eq!(line.position(2001), Err(zangjulf::Fault::Absent));
    /// # Ok(())
    /// # }
    /// ```
    pub fn position(&self, station: u16) -> Result<u32, Fault> {
        let mut position = 0;
        let number = unsafe { ffi::zangjulf_position(&self.handle, station, &mut position) };
        done(number, 0)?;
        Ok(position)
    }

    /// What the slave with a station address adds to the expected working counter of a datagram of a task: 2 if the datagram carries
    /// outputs of it, plus 1 if it carries inputs. None if there is no such datagram, or no such slave in the line.
    ///
    /// ```
    /// # fn main() -> Result<(), Box<dyn std::error::Error>> {
    /// # let line = zangjulf::Line::open(include_bytes!("../../../examples/tool_changer.toml"))?;
    /// // axis X has outputs and inputs there, and the bus coupler has neither
    /// assert_eq!(line.expected_of(0, 0, 1002), Some(3));
    /// assert_eq!(line.expected_of(0, 0, 1001), Some(0));
    /// assert_eq!(line.expected_of(0, 0, 2001), None);
    /// # Ok(())
    /// # }
    /// ```
    pub fn expected_of(&self, task: u8, datagram: u8, station: u16) -> Option<u16> {
        let mut expected = 0;
        let number = unsafe { ffi::zangjulf_expected_of(&self.handle, task, datagram, station, &mut expected) };
        (number == 0).then_some(expected)
    }

    /// The register block with a number of the slave with a station address, its bytes at the front of `out`; 16 bytes are
    /// enough. None where there is no such slave in the line, or it has fewer blocks. `Room`.
    ///
    /// ```
    /// # fn main() -> Result<(), Box<dyn std::error::Error>> {
    /// # let line = zangjulf::Line::open(include_bytes!("../../../examples/tool_changer.toml"))?;
    /// let mut bytes = [0; 16];
    /// let block = line.block(1002, 0, &mut bytes)?.expect("axis X has four");
    /// // sync manager 2 holds the outputs, 6 bytes from 0x1100 on
    /// assert_eq!((block.start, block.size), (0x0810, 8));
    /// assert_eq!(bytes[..4], [0x00, 0x11, 0x06, 0x00]);
    /// # Ok(())
    /// # }
    /// ```
    pub fn block(&self, station: u16, number: u8, out: &mut [u8]) -> Result<Option<Block>, Fault> {
        let mut block = Block::default();
        let answer =
            unsafe { ffi::zangjulf_block(&self.handle, station, number, out.as_mut_ptr(), out.len(), &mut block) };
        match answer {
            0 => Ok(Some(block)),
            100 => Ok(None),
            fault => done(fault, block.size).map(|()| None),
        }
    }

    /// How often a datagram, by task and number, was sent, and what arrivals were for it, since the line was opened; none if the task
    /// is over 7, or the datagram over 15.
    ///
    /// ```
    /// # fn main() -> Result<(), Box<dyn std::error::Error>> {
    /// # let line = zangjulf::Line::open(include_bytes!("../../../examples/tool_changer.toml"))?;
    /// let counters = line.counters(0, 0).expect("a datagram's");
    /// assert_eq!((counters.sent, counters.good), (0, 0));
    /// assert_eq!(line.counters(8, 0), None);
    /// # Ok(())
    /// # }
    /// ```
    pub fn counters(&self, task: u8, datagram: u8) -> Option<Counters> {
        let mut counters = Counters::default();
        let number = unsafe { ffi::zangjulf_counters(&self.handle, task, datagram, &mut counters) };
        (number == 0).then_some(counters)
    }
}
