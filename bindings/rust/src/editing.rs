//! Edits of a line.

use crate::faults::Fault;
use crate::ffi;
use crate::line::{done, Line};
use crate::answers::{Cost, Edit};

impl Line {
    /// Carries an edit out, or with `asks` only answers what it would do.
    fn serve(&mut self, edit: &Edit<'_>, asks: bool) -> Result<Cost, Fault> {
        let mut cost = Cost::default();
        let handle = &mut self.handle;
        let number = unsafe {
            match *edit {
                Edit::Connect(alias) => ffi::zangjulf_connect(handle, alias, asks, &mut cost),
                Edit::Disconnect(alias) => ffi::zangjulf_disconnect(handle, alias, asks, &mut cost),
                Edit::Remap { station, area, pdos } => {
                    ffi::zangjulf_remap(handle, station, area, pdos.as_ptr(), pdos.len(), asks, &mut cost)
                }
                Edit::MoveArea { station, area, task } => {
                    ffi::zangjulf_move_area(handle, station, area, task, asks, &mut cost)
                }
                Edit::Declare(text) => {
                    ffi::zangjulf_declare(handle, text.as_ptr(), text.len(), asks, &mut cost)
                }
            }
        };
        done(number, usize::from(cost.crowded))?;
        Ok(cost)
    }

    /// Carries an edit out: what it did, and which tasks wait after it ([`Cost::waits`]). `UnknownAlias` to `EpochsSpent` and
    /// `AliasTaken` to `TooManySlaves`, the lowest that holds; a project's fault if a declared text is no group's; `Memory`; then
    /// nothing changed.
    ///
    /// ```
    /// # fn main() -> Result<(), Box<dyn std::error::Error>> {
    /// # let mut line = zangjulf::Line::open(include_bytes!("../../../examples/tool_changer.toml"))?;
    /// let done = line.edit(&zangjulf::Edit::Connect(100))?;
    /// assert_eq!(done.epoch, 1);
    /// // every block is owed still, so all tasks wait that have one
    /// assert_eq!(done.waits & 0b11, 0b11);
    /// let again = line.edit(&zangjulf::Edit::Connect(100));
    /// assert_eq!(again, Err(zangjulf::Fault::AlreadyPresent));
    /// # Ok(())
    /// # }
    /// ```
    pub fn edit(&mut self, edit: &Edit<'_>) -> Result<Cost, Fault> {
        self.serve(edit, false)
    }

    /// What an edit would do, or the fault that it would be refused with; nothing changes.
    ///
    /// ```
    /// # fn main() -> Result<(), Box<dyn std::error::Error>> {
    /// # let mut line = zangjulf::Line::open(include_bytes!("../../../examples/tool_changer.toml"))?;
    /// let gripper = zangjulf::Edit::Connect(100);
    /// let cost = line.cost(&gripper)?;
    /// assert_eq!(line.epoch(), 0);
    /// assert_eq!(line.edit(&gripper), Ok(cost));
    /// # Ok(())
    /// # }
    /// ```
    pub fn cost(&mut self, edit: &Edit<'_>) -> Result<Cost, Fault> {
        self.serve(edit, true)
    }
}
