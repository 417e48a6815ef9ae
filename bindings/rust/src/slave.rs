//! A slave to simulate a line by.

use crate::{ffi, SLAVE_MEMORY};

/// A simulated slave.
#[derive(Clone, Debug)]
pub struct Slave {
    memory: Vec<u8>,
}

impl Slave {
    /// One that no frame has met, with a configured station alias and a station address, 0 where none was given to it yet.
    ///
    /// ```
    /// let mut slave = zangjulf::Slave::new(100, 1002);
    /// assert_eq!(slave.memory()[0x12..0x14], [100, 0]);
    /// assert_eq!(slave.memory()[0x10..0x12], 1002_u16.to_le_bytes());
    /// ```
    pub fn new(alias: u16, station: u16) -> Slave {
        let mut memory = vec![0; SLAVE_MEMORY];
        unsafe { ffi::zangjulf_slave_start(memory.as_mut_ptr(), memory.len(), alias) };
        memory[0x10..0x12].copy_from_slice(&station.to_le_bytes());
        Slave { memory }
    }

    /// It does with a frame what a slave does, in the frame's place; one that can't be read stays as it is.
    ///
    /// ```
    /// # fn main() -> Result<(), Box<dyn std::error::Error>> {
    /// # let mut line = zangjulf::Line::open(include_bytes!("../../../examples/tool_changer.toml"))?;
    /// let mut slave = zangjulf::Slave::new(0, 1002);
    /// let mut out = [0; zangjulf::FRAME];
    /// let mut frame = line.next_write(&mut out)?.frame.to_vec();
    /// slave.process(&mut frame);
    /// assert!(matches!(line.arrive(&frame)?, zangjulf::Arrival::Blocks { .. }));
    /// assert_eq!(line.owed(), 11);
    /// # Ok(())
    /// # }
    /// ```
    pub fn process(&mut self, frame: &mut [u8]) {
        let (memory, frame_at) = (self.memory.as_mut_ptr(), frame.as_mut_ptr());
        unsafe { ffi::zangjulf_slave_process(memory, self.memory.len(), frame_at, frame.len()) };
    }

    /// Its memory, 12,288 bytes from register 0 on.
    ///
    /// ```
    /// let mut slave = zangjulf::Slave::new(0, 0);
    /// assert_eq!(slave.memory().len(), zangjulf::SLAVE_MEMORY);
    /// ```
    pub fn memory(&mut self) -> &mut [u8] {
        &mut self.memory
    }
}
