//! A frame that arrives, read or refused: the rules of ETG.1000.4, 5.3 and 5.4, in the order that this project's
//! profile judges them in.

use crate::shared::frames::{Datagram, FPWR, LRW};

/// A frame that can be read.
#[derive(Clone, PartialEq)]
pub struct Arrival {
    pub serial: u64,
    pub datagrams: Vec<Datagram>,
}

/// The commands that read and write by position.
const APRD: u8 = 1;
const APWR: u8 = 2;

fn word(bytes: &[u8], at: usize) -> u16 {
    u16::from_le_bytes([bytes[at], bytes[at + 1]])
}

/// The bytes of the datagrams, one after another, where they fill the bytes that the header counts: each has 1 to 1,486
/// bytes of data, bits 11 to 13 of its length field are clear, and each but the last is followed by another one.
fn cut(mut bytes: &[u8]) -> Option<Vec<&[u8]>> {
    let mut datagrams = Vec::new();
    loop {
        if bytes.len() < 12 {
            return None;
        }
        let field = word(bytes, 6);
        let size = usize::from(field & 0x07ff);
        if size < 1 || size > 1486 || field & 0x3800 != 0 || bytes.len() < 12 + size {
            return None;
        }
        let (own, after) = bytes.split_at(12 + size);
        datagrams.push(own);
        if after.is_empty() {
            return Some(datagrams);
        }
        if field & 0x8000 == 0 {
            return None;
        }
        bytes = after;
    }
}

/// What is in a frame, or the number of the first refusal whose condition holds.
pub fn read(frame: &[u8]) -> Result<Arrival, usize> {
    if frame.len() < 28 {
        return Err(20);
    }
    if frame[12..14] != [0x88, 0xa4] {
        return Err(21);
    }
    let header = word(frame, 14);
    if header & 0xf800 != 0x1000 {
        return Err(22);
    }
    let size = usize::from(header & 0x07ff);
    let region = frame.get(16..16 + size).filter(|_| size <= 1498);
    let Some(cut) = region.and_then(cut) else {
        return Err(23);
    };
    if cut.iter().any(|bytes| word(bytes, 6) & 0x4000 != 0) {
        return Err(24);
    }
    if cut.last().is_some_and(|bytes| word(bytes, 6) & 0x8000 != 0) {
        return Err(25);
    }
    if cut.iter().any(|bytes| ![APRD, APWR, FPWR, LRW].contains(&bytes[0])) {
        return Err(26);
    }
    let serial = frame[7..12].iter().fold(0, |serial, byte| 256 * serial + u64::from(*byte));
    if cut.iter().any(|bytes| u64::from(bytes[1]) != serial % 256) {
        return Err(27);
    }
    let datagrams = cut.iter().map(|bytes| Datagram {
        command: bytes[0],
        address: u32::from_le_bytes([bytes[2], bytes[3], bytes[4], bytes[5]]),
        interrupt: word(bytes, 8),
        data: bytes[10..bytes.len() - 2].to_vec(),
        counter: word(bytes, bytes.len() - 2),
    });
    Ok(Arrival { serial, datagrams: datagrams.collect() })
}
