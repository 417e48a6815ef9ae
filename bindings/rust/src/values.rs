//! Values of variables and bits in bytes, and a master's frames beside a line's.

use crate::faults::Fault;
use crate::ffi;
use crate::line::{done, Line};

impl Line {
    /// Puts a value into a task's outputs, which will be posted for an epoch, at the place of an output variable; every other bit stays.
    /// `Nothing` if the line has no place for the variable, `StalePost` if the epoch is below the task's epoch or above the present one,
    /// `IsInput`, `TooWide`, `Room`; then the outputs are as they were.
    ///
    /// ```
    /// # fn main() -> Result<(), Box<dyn std::error::Error>> {
    /// # let line = zangjulf::Line::open(include_bytes!("../../../examples/tool_changer.toml"))?;
    /// let mut outputs = vec![0; usize::from(line.image_sizes(0).outputs)];
    /// // the target position of axis X, after 16 bits
    /// line.put_value(2, line.epoch(), 0x0102_0304, &mut outputs)?;
    /// assert_eq!(outputs[..6], [0, 0, 4, 3, 2, 1]);
    /// assert_eq!(line.put_value(12, 0, 1, &mut outputs), Err(zangjulf::Fault::IsInput));
    /// assert_eq!(line.put_value(2, 1, 1, &mut outputs), Err(zangjulf::Fault::StalePost));
    /// # Ok(())
    /// # }
    /// ```
    pub fn put_value(&self, variable: u32, epoch: u32, value: u64, outputs: &mut [u8]) -> Result<(), Fault> {
        let (bytes, length) = (outputs.as_mut_ptr(), outputs.len());
        done(unsafe { ffi::zangjulf_put_value(&self.handle, variable, epoch, value, bytes, length) }, 0)
    }

    /// The value of a variable in its task's image of an epoch, as [`Line::read`] returns both. `Nothing` if the line has no place for
    /// the variable, `StalePost` if the epoch is below the task's epoch or above the present one, `Room`.
    ///
    /// ```
    /// # fn main() -> Result<(), Box<dyn std::error::Error>> {
    /// # let line = zangjulf::Line::open(include_bytes!("../../../examples/tool_changer.toml"))?;
    /// let mut data = vec![0; zangjulf::IMAGE];
    /// let image = line.read(0, &mut data)?;
    /// // the position of axis X; the image says whether its datagram has data
    /// assert_eq!(line.value(12, image.epoch, image.bytes)?, 0);
    /// assert_eq!(line.value(101, image.epoch, image.bytes), Err(zangjulf::Fault::Nothing));
    /// # Ok(())
    /// # }
    /// ```
    pub fn value(&self, variable: u32, epoch: u32, image: &[u8]) -> Result<u64, Fault> {
        let mut value = 0;
        let (bytes, length) = (image.as_ptr(), image.len());
        done(unsafe { ffi::zangjulf_get_value(&self.handle, variable, epoch, bytes, length, &mut value) }, 0)?;
        Ok(value)
    }
}

/// The number in 1 to 64 bits of bytes, from a bit on; bits are counted from the least significant bit of the first byte.
/// `Misused` where they don't lie within the bytes.
///
/// ```
/// # fn main() -> Result<(), Box<dyn std::error::Error>> {
/// assert_eq!(zangjulf::get_bits(&[0b1010_0000, 0b11], 5, 4)?, 0b1101);
/// assert_eq!(zangjulf::get_bits(&[0], 5, 4), Err(zangjulf::Fault::Misused));
/// # Ok(())
/// # }
/// ```
pub fn get_bits(bytes: &[u8], bit: usize, bits: u8) -> Result<u64, Fault> {
    let mut value = 0;
    done(unsafe { ffi::zangjulf_get_bits(bytes.as_ptr(), bytes.len(), bit, bits, &mut value) }, 0)?;
    Ok(value)
}

/// Replaces 1 to 64 bits of bytes, from a bit on, by the bits of a number; every other bit stays. `Misused` where they don't
/// lie within the bytes, `TooWide`; then the bytes are as they were.
///
/// ```
/// # fn main() -> Result<(), Box<dyn std::error::Error>> {
/// let mut bytes = [0, 0xff];
/// zangjulf::put_bits(&mut bytes, 5, 4, 0b1101)?;
/// assert_eq!(bytes, [0b1010_0000, 0xff]);
/// assert_eq!(zangjulf::put_bits(&mut bytes, 5, 4, 16), Err(zangjulf::Fault::TooWide));
/// # Ok(())
/// # }
/// ```
pub fn put_bits(bytes: &mut [u8], bit: usize, bits: u8, value: u64) -> Result<(), Fault> {
    done(unsafe { ffi::zangjulf_put_bits(bytes.as_mut_ptr(), bytes.len(), bit, bits, value) }, 0)
}

/// Whether a frame may be one that the library wrote, as sent or as it came back. A master's own EtherCAT frames bear
/// [`crate::OTHER_SOURCE`] as the first byte of their source address.
///
/// ```
/// # fn main() -> Result<(), Box<dyn std::error::Error>> {
/// # let mut line = zangjulf::Line::open(include_bytes!("../../../examples/tool_changer.toml"))?;
/// let mut out = [0; zangjulf::FRAME];
/// assert!(zangjulf::is_mine(line.next_write(&mut out)?.frame));
/// assert!(!zangjulf::is_mine(&[0; 60]));
/// # Ok(())
/// # }
/// ```
pub fn is_mine(frame: &[u8]) -> bool {
    unsafe { ffi::zangjulf_is_mine(frame.as_ptr(), frame.len()) }
}

/// The frame that reads the station alias of the slave at a position, from 0, at the front of `out`; 60 bytes are enough. The
/// alias is in bytes 26 and 27 of what returns, low byte first, and the working counter after it is 1 where a slave answered.
/// `Room`.
///
/// ```
/// # fn main() -> Result<(), Box<dyn std::error::Error>> {
/// let mut out = [0; 60];
/// zangjulf::alias_read(0, &mut out)?;
/// zangjulf::Slave::new(100, 0).process(&mut out);
/// assert_eq!(out[26..30], [100, 0, 1, 0]);
/// # Ok(())
/// # }
/// ```
pub fn alias_read(position: u16, out: &mut [u8]) -> Result<&[u8], Fault> {
    let mut size = 0;
    done(unsafe { ffi::zangjulf_alias_read(position, out.as_mut_ptr(), out.len(), &mut size) }, 0)?;
    Ok(&out[..size])
}

/// The frame that gives the slave at a position, from 0, its station address, at the front of `out`; 60 bytes are enough.
/// `Room`.
///
/// ```
/// # fn main() -> Result<(), Box<dyn std::error::Error>> {
/// let mut out = [0; 60];
/// zangjulf::station_write(0, 1002, &mut out)?;
/// let mut slave = zangjulf::Slave::new(0, 0);
/// slave.process(&mut out);
/// assert_eq!(slave.memory()[0x10..0x12], 1002_u16.to_le_bytes());
/// # Ok(())
/// # }
/// ```
pub fn station_write(position: u16, station: u16, out: &mut [u8]) -> Result<&[u8], Fault> {
    let mut size = 0;
    done(unsafe { ffi::zangjulf_station_write(position, station, out.as_mut_ptr(), out.len(), &mut size) }, 0)?;
    Ok(&out[..size])
}

/// The frame that switches off the first `count` FMMUs, 1 to 16, of the slave with a station address, as many as it has areas, at the
/// front of `out`; 284 bytes are enough. Its working counter is 1 in what returns if the slave took it. Send it before
/// [`Edit::Connect`](crate::Edit::Connect), and before [`Edit::Disconnect`](crate::Edit::Disconnect) while the slave still answers, and
/// call [`Line::cleared`] after the edit. `Misused` for another count, `Room`.
///
/// ```
/// # fn main() -> Result<(), Box<dyn std::error::Error>> {
/// let mut slave = zangjulf::Slave::new(0, 2001);
/// slave.memory()[0x600..0x620].fill(1);
/// let mut out = [0; 284];
/// let size = zangjulf::fmmu_off(2001, 2, &mut out)?.len();
/// slave.process(&mut out[..size]);
/// assert_eq!(slave.memory()[0x600..0x620], [0; 32]);
/// assert_eq!(out[58..60], [1, 0]);
/// assert_eq!(zangjulf::fmmu_off(2001, 17, &mut out), Err(zangjulf::Fault::Misused));
/// # Ok(())
/// # }
/// ```
pub fn fmmu_off(station: u16, count: u8, out: &mut [u8]) -> Result<&[u8], Fault> {
    let mut size = 0;
    done(unsafe { ffi::zangjulf_fmmu_off(station, count, out.as_mut_ptr(), out.len(), &mut size) }, 0)?;
    Ok(&out[..size])
}
