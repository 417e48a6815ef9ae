//! Which tasks wait, for which slaves, and what ends it.

use crate::faults::Fault;
use crate::ffi;
use crate::line::{done, Line};

impl Line {
    /// The ready tasks: bit t is 1 if task t is ready.
    ///
    /// ```
    /// # fn main() -> Result<(), Box<dyn std::error::Error>> {
    /// # let line = zangjulf::Line::open(include_bytes!("../../../examples/tool_changer.toml"))?;
    /// // nothing is known of the registers yet
    /// assert_eq!(line.ready(), 0);
    /// # Ok(())
    /// # }
    /// ```
    pub fn ready(&self) -> u8 {
        let mut tasks = 0;
        unsafe { ffi::zangjulf_ready(&self.handle, &mut tasks) };
        tasks
    }

    /// The station address of the slave with a number, from 0, among those that hold a task up: first those of the line, in line
    /// order, then those outside it, in declared order. None if fewer do, or there is no such task.
    ///
    /// ```
    /// # fn main() -> Result<(), Box<dyn std::error::Error>> {
    /// # let line = zangjulf::Line::open(include_bytes!("../../../examples/tool_changer.toml"))?;
    /// let holders: Vec<u16> = (0..).map_while(|number| line.held_by(1, number)).collect();
    /// assert_eq!(holders, [1002, 1003, 1004]);
    /// assert_eq!(line.held_by(8, 0), None);
    /// # Ok(())
    /// # }
    /// ```
    pub fn held_by(&self, task: u8, number: u32) -> Option<u16> {
        let mut station = 0;
        let answer = unsafe { ffi::zangjulf_held_by(&self.handle, task, number, &mut station) };
        (answer == 0).then_some(station)
    }

    /// The FMMUs of the slave with a station address are zeros now, and no write that was sent to it earlier will still pass it. Say it
    /// once the frame of [`crate::fmmu_off`] came back with counter 1, or after the slave powered up; of a tool that comes after its
    /// connection, which makes its registers unknown. The blocks of a slave in the line are owed again, as after [`Line::slave_lost`].
    /// `UnknownStation`; then nothing changed.
    ///
    /// ```
    /// # fn main() -> Result<(), Box<dyn std::error::Error>> {
    /// # let mut line = zangjulf::Line::open(include_bytes!("../../../examples/tool_changer.toml"))?;
    /// for station in [1002, 1003] {
    ///     line.cleared(station)?;
    /// }
    /// // the machine's inputs and outputs may still hold anything
    /// assert_eq!(line.held_by(2, 0), Some(1004));
    /// assert_eq!(line.cleared(1), Err(zangjulf::Fault::UnknownStation));
    /// # Ok(())
    /// # }
    /// ```
    pub fn cleared(&mut self, station: u16) -> Result<(), Fault> {
        done(unsafe { ffi::zangjulf_cleared(&mut self.handle, station) }, 0)
    }

    /// The slave with a station address, outside the line, is off the wire: it holds no task up until its group is connected again.
    /// `UnknownStation`; `AlreadyPresent` if the slave is in the line; then nothing changed.
    ///
    /// ```
    /// # fn main() -> Result<(), Box<dyn std::error::Error>> {
    /// # let mut line = zangjulf::Line::open(include_bytes!("../../../examples/tool_changer.toml"))?;
    /// line.unplugged(2001)?;
    /// assert_eq!(line.unplugged(1002), Err(zangjulf::Fault::AlreadyPresent));
    /// # Ok(())
    /// # }
    /// ```
    pub fn unplugged(&mut self, station: u16) -> Result<(), Fault> {
        done(unsafe { ffi::zangjulf_unplugged(&mut self.handle, station) }, 0)
    }
}
