//! Frames in plain Rust: a reader that judges a frame whole before it returns a part, and a writer that copies each byte once.

/// A datagram to be written; the library's export has one of the same layout.
#[repr(C)]
#[derive(Clone, Copy)]
pub struct Wanted {
    pub address: u32,
    pub size: u16,
}

/// A part, mixed into a digest.
fn digest_of(digest: u64, start: usize, head: &[u8; 10], size: usize, counter: u16) -> u64 {
    let address = u32::from_le_bytes([head[2], head[3], head[4], head[5]]);
    let interrupt = u16::from_le_bytes([head[8], head[9]]);
    let fields = u64::from(address) ^ (u64::from(counter) << 32) ^ (u64::from(interrupt) << 48);
    let place = (start as u64) ^ ((size as u64) << 16) ^ (u64::from(head[0]) << 40);
    digest.wrapping_mul(0x9e37_79b9_7f4a_7c15) ^ fields ^ (place << 8)
}

/// The serial and the bytes of the datagrams, or the number of the fault that shows before them.
fn region_of(frame: &[u8]) -> Result<(u64, &[u8]), u64> {
    if frame.len() < 28 {
        return Err(1);
    }
    let Some((head, rest)) = frame.split_first_chunk::<16>() else {
        return Err(1);
    };
    if u16::from_be_bytes([head[12], head[13]]) != 0x88a4 {
        return Err(2);
    }
    let word = u16::from_le_bytes([head[14], head[15]]);
    if word >> 11 != 2 {
        return Err(3);
    }
    let size = word & 0x7ff;
    if size == 0 || 1498 < size || rest.len() < usize::from(size) {
        return Err(4);
    }
    let serial = u64::from_be_bytes([0, 0, 0, head[7], head[8], head[9], head[10], head[11]]);
    Ok((serial, &rest[..usize::from(size)]))
}

/// A whole datagram's first ten bytes, its number of data bytes, its working counter, and what comes after it.
fn whole_of(bytes: &[u8]) -> Option<(&[u8; 10], usize, u16, &[u8])> {
    let (head, rest) = bytes.split_first_chunk::<10>()?;
    let field = u16::from_le_bytes([head[6], head[7]]);
    let size = usize::from(field & 0x7ff);
    if size == 0 || 1486 < size || field & 0x3800 != 0 || rest.len() < size + 2 {
        return None;
    }
    let (counter, after) = rest[size..].split_first_chunk::<2>()?;
    Some((head, size, u16::from_le_bytes(*counter), after))
}

/// What the conditions of a frame look at, datagram by datagram.
struct Seen {
    fields: u16,
    last: u16,
    unknown: bool,
    mismatch: bool,
}

impl Seen {
    fn new() -> Seen {
        Seen { fields: 0, last: 0x8000, unknown: false, mismatch: false }
    }

    fn note(&mut self, head: &[u8; 10], index: u8) {
        let field = u16::from_le_bytes([head[6], head[7]]);
        self.fields |= field;
        self.last = field;
        self.unknown |= !matches!(head[0], 1 | 2 | 5 | 12);
        self.mismatch |= head[1] != index;
    }

    fn fault(&self) -> Option<u64> {
        if self.fields & 0x4000 != 0 {
            Some(5)
        } else if self.last & 0x8000 != 0 {
            Some(6)
        } else if self.unknown {
            Some(7)
        } else if self.mismatch {
            Some(8)
        } else {
            None
        }
    }
}

/// How many datagrams there are, or the number of the first fault.
fn judged(region: &[u8], index: u8) -> Result<u64, u64> {
    let (mut seen, mut rest, mut count) = (Seen::new(), region, 0);
    while !rest.is_empty() {
        if seen.last & 0x8000 == 0 {
            return Err(4);
        }
        let Some((head, _, _, after)) = whole_of(rest) else {
            return Err(4);
        };
        seen.note(head, index);
        (rest, count) = (after, count + 1);
    }
    match seen.fault() {
        Some(fault) => Err(fault),
        None => Ok(count),
    }
}

/// The serial and the bytes of the datagrams of a frame that is whole, or the number of its first fault.
pub fn whole_frame(frame: &[u8]) -> Result<(u64, &[u8]), u64> {
    let (serial, region) = region_of(frame)?;
    judged(region, serial as u8)?;
    Ok((serial, region))
}

/// The part at the front of whole datagrams, and what comes after it.
pub fn part_of(bytes: &[u8]) -> Option<(&[u8; 10], usize, u16, &[u8])> {
    let (head, rest) = bytes.split_first_chunk::<10>()?;
    let size = usize::from(u16::from_le_bytes([head[6], head[7]]) & 0x7ff);
    let (counter, after) = rest.get(size..)?.split_first_chunk::<2>()?;
    Some((head, size, u16::from_le_bytes(*counter), after))
}

/// Judges the frame, then hands out its parts.
#[inline(never)]
pub fn read(frame: &[u8]) -> u64 {
    let (serial, region) = match region_of(frame) {
        Ok(found) => found,
        Err(fault) => return fault,
    };
    let count = match judged(region, serial as u8) {
        Ok(count) => count,
        Err(fault) => return fault,
    };
    let (mut digest, mut start, mut rest) = (0, 16, region);
    while let Some((head, size, counter, after)) = part_of(rest) {
        digest = digest_of(digest, start, head, size, counter);
        (rest, start) = (after, start + 12 + size);
    }
    digest.wrapping_add(serial).wrapping_add(count)
}

/// Writes the head of a frame into a slice of its exact size, 60 bytes at least, and gives the bytes after it.
fn opened(out: &mut [u8], serial: u64) -> Option<&mut [u8]> {
    if out.len() < 60 || 1514 < out.len() || 0xff_ffff_ffff < serial {
        return None;
    }
    let (head, texts) = out.split_first_chunk_mut::<16>()?;
    let [_, _, _, s4, s3, s2, s1, s0] = serial.to_be_bytes();
    let [low, high] = (texts.len() as u16 | 0x1000).to_le_bytes();
    *head = [255, 255, 255, 255, 255, 255, 2, s4, s3, s2, s1, s0, 0x88, 0xa4, low, high];
    Some(texts)
}

/// The ten bytes in front of a datagram's data.
fn head_of(serial: u64, datagram: &Wanted, more: bool) -> [u8; 10] {
    let [a0, a1, a2, a3] = datagram.address.to_le_bytes();
    let [low, high] = (datagram.size | if more { 0x8000 } else { 0 }).to_le_bytes();
    [12, serial as u8, a0, a1, a2, a3, low, high, 0, 0]
}

/// Writes a frame of these datagrams into a slice of its exact size, 60 bytes at least, each byte once.
#[inline(never)]
pub fn write(out: &mut [u8], serial: u64, wanted: &[Wanted], data: &[u8]) -> bool {
    let Some(mut texts) = opened(out, serial) else {
        return false;
    };
    let mut data = data;
    for (place, datagram) in wanted.iter().enumerate() {
        let size = usize::from(datagram.size);
        let Some((text, rest)) = texts.split_at_mut_checked(12 + size) else {
            return false;
        };
        let Some((bytes, after)) = data.split_at_checked(size) else {
            return false;
        };
        if 1486 < size {
            return false;
        }
        text[..10].copy_from_slice(&head_of(serial, datagram, place + 1 < wanted.len()));
        text[10..10 + size].copy_from_slice(bytes);
        text[10 + size..].copy_from_slice(&[0, 0]);
        (texts, data) = (rest, after);
    }
    true
}
