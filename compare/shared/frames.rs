//! Frames of EtherCAT datagrams as they are sent (ETG.1000.4, 5.3 and 5.4).

pub const LRW: u8 = 12;
pub const FPWR: u8 = 5;

/// A datagram: command, address as one number, interrupt field, data and working counter.
#[derive(Clone, PartialEq, Debug)]
pub struct Datagram {
    pub command: u8,
    pub address: u32,
    pub interrupt: u16,
    pub data: Vec<u8>,
    pub counter: u16,
}

impl Datagram {
    pub fn sent(command: u8, address: u32, data: Vec<u8>) -> Datagram {
        Datagram { command, address, interrupt: 0, data, counter: 0 }
    }
}

/// A datagram's bytes: command, index, address, length field with bit 15 where another one follows, interrupt field,
/// data, working counter.
fn datagram_text(index: u8, datagram: &Datagram, has_next: bool) -> Vec<u8> {
    let mut text = vec![datagram.command, index];
    text.extend(datagram.address.to_le_bytes());
    text.extend((datagram.data.len() as u16 | if has_next { 0x8000 } else { 0 }).to_le_bytes());
    text.extend(datagram.interrupt.to_le_bytes());
    text.extend(&datagram.data);
    text.extend(datagram.counter.to_le_bytes());
    text
}

/// A frame without its check sequence: all ones as destination, a locally administered source with the serial, EtherType
/// 0x88A4, the EtherCAT header, the datagrams, and zeros up to 60 bytes. The index is the serial modulo 256.
pub fn frame_text(serial: u64, datagrams: &[Datagram]) -> Vec<u8> {
    let last = datagrams.len() - 1;
    let texts = datagrams.iter().enumerate().flat_map(|(place, one)| datagram_text(serial as u8, one, place < last));
    let texts: Vec<u8> = texts.collect();
    let mut frame = vec![0xff, 0xff, 0xff, 0xff, 0xff, 0xff, 0x02];
    frame.extend(&serial.to_be_bytes()[3..]);
    frame.extend([0x88, 0xa4]);
    frame.extend((texts.len() as u16 | 0x1000).to_le_bytes());
    frame.extend(texts);
    frame.resize(frame.len().max(60), 0);
    frame
}
