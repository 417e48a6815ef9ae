//! The same line in plain Rust, written for speed: slaves with a memory of bytes, whose FMMUs are taken from it for each
//! datagram, as the proved ones do it. A frame is judged once for all slaves; a slave that meets a datagram copies the
//! bits of each FMMU as one run, and keeps the data that came only where one FMMU writes what another one reads.

use super::frames;

pub const MEMORY: usize = 12_288;
const FMMUS: usize = 0x0600;

#[derive(Clone)]
pub struct Machine {
    pub memory: Box<[u8; MEMORY]>,
}

impl Machine {
    pub fn of(memory: &[u8]) -> Machine {
        let memory: Box<[u8]> = memory.into();
        Machine { memory: memory.try_into().expect("a memory of 12,288 bytes") }
    }
}

/// The logical bits of one FMMU that lie in a datagram: their place in its data, and in memory.
#[derive(Clone, Copy, Default)]
struct Run {
    data: usize,
    memory: usize,
    width: usize,
    reads: bool,
    writes: bool,
}

/// What an active block has in common with the logical bits from `from` to below `end`.
fn run_of(block: &[u8; 16], from: usize, end: usize) -> Run {
    let start = u32::from_le_bytes([block[0], block[1], block[2], block[3]]) as usize;
    let length = usize::from(u16::from_le_bytes([block[4], block[5]]));
    let first = 8 * start + usize::from(block[6] & 7);
    let mapped_end = (8 * (start + length) + usize::from(block[7] & 7) + 1).saturating_sub(8);
    let memory = 8 * usize::from(u16::from_le_bytes([block[8], block[9]])) + usize::from(block[10] & 7);
    let mapped_end = mapped_end.min(first + (8 * MEMORY).saturating_sub(memory));
    let (low, high) = (first.max(from), mapped_end.min(end));
    Run {
        data: low.wrapping_sub(from),
        memory: memory + (low - first),
        width: high.saturating_sub(low),
        reads: block[11] & 1 != 0,
        writes: block[11] & 2 != 0,
    }
}

/// `count` bits, at most 8, from bit `at` on.
fn few(from: &[u8], at: usize, count: usize) -> u8 {
    let low = u16::from(from[at / 8]);
    let high = if 8 < at % 8 + count { u16::from(from[at / 8 + 1]) } else { 0 };
    ((low | high << 8) >> (at % 8)) as u8 & (0xff >> (8 - count))
}

/// Puts `count` bits, at least one, into one byte.
fn put_few(to: &mut [u8], at: usize, count: usize, bits: u8) {
    let mask = (0xff >> (8 - count)) << (at % 8);
    let byte = &mut to[at / 8];
    *byte = *byte & !mask | bits << (at % 8);
}

/// Copies bits from one place to another.
pub fn copy_bits(from: &[u8], at: usize, to: &mut [u8], at2: usize, width: usize) {
    let head = ((8 - at2 % 8) % 8).min(width);
    if 0 < head {
        put_few(to, at2, head, few(from, at, head));
    }
    let (at, at2, width) = (at + head, at2 + head, width - head);
    let (count, tail, shift) = (width / 8, width % 8, at % 8);
    let (source, whole) = (&from[at / 8..], &mut to[at2 / 8..at2 / 8 + count]);
    if shift == 0 {
        whole.copy_from_slice(&source[..count]);
    } else {
        let words = count / 8;
        for (k, word) in whole.chunks_exact_mut(8).enumerate() {
            let bytes: &[u8; 9] = source[8 * k..8 * k + 9].try_into().expect("nine bytes");
            let low = u64::from_le_bytes(*bytes.first_chunk().expect("eight bytes"));
            word.copy_from_slice(&(low >> shift | u64::from(bytes[8]) << (64 - shift)).to_le_bytes());
        }
        for k in 8 * words..count {
            whole[k] = source[k] >> shift | source[k + 1] << (8 - shift);
        }
    }
    if 0 < tail {
        put_few(to, at2 + 8 * count, tail, few(from, at + 8 * count, tail));
    }
}

/// Whether no bit of memory that one run reads is written by another one.
fn are_apart(runs: &[Run]) -> bool {
    runs.iter().filter(|run| run.writes).all(|writer| {
        let mut readers = runs.iter().filter(|run| run.reads);
        readers.all(|run| writer.memory + writer.width <= run.memory || run.memory + run.width <= writer.memory)
    })
}

fn write_runs(runs: &[Run], came: &[u8], memory: &mut [u8; MEMORY]) {
    let alias = [memory[0x12], memory[0x13]];
    for run in runs.iter().rev().filter(|run| run.writes) {
        copy_bits(came, run.data, memory, run.memory, run.width);
    }
    [memory[0x12], memory[0x13]] = alias;
}

fn read_runs(runs: &[Run], memory: &[u8; MEMORY], data: &mut [u8]) {
    for run in runs.iter().rev().filter(|run| run.reads) {
        copy_bits(memory, run.memory, data, run.data, run.width);
    }
}

fn serve_logical(memory: &mut [u8; MEMORY], address: u32, data: &mut [u8]) -> u16 {
    let from = 8 * address as usize;
    let end = from + 8 * data.len();
    let (mut runs, mut count) = ([Run::default(); 16], 0);
    for block in memory[FMMUS..FMMUS + 256].as_chunks::<16>().0 {
        if block[12] & 1 != 0 {
            let run = run_of(block, from, end);
            if 0 < run.width {
                runs[count] = run;
                count += 1;
            }
        }
    }
    let runs = &runs[..count];
    if are_apart(runs) {
        write_runs(runs, data, memory);
        read_runs(runs, memory, data);
    } else {
        let mut came = [0; 1486];
        let came = &mut came[..data.len()];
        came.copy_from_slice(data);
        read_runs(runs, memory, data);
        write_runs(runs, came, memory);
    }
    u16::from(runs.iter().any(|run| run.reads)) + 2 * u16::from(runs.iter().any(|run| run.writes))
}

/// Serves an addressed datagram: 1 where its range lies in memory.
fn serve_range(memory: &mut [u8; MEMORY], register: usize, data: &mut [u8], writes: bool) -> u16 {
    let Some(range) = memory.get_mut(register..register + data.len()) else {
        return 0;
    };
    if !writes {
        data.copy_from_slice(range);
        return 1;
    }
    range.copy_from_slice(data);
    1
}

fn serve(memory: &mut [u8; MEMORY], datagram: &mut [u8], size: usize) {
    let command = datagram[0];
    let address = u32::from_le_bytes([datagram[2], datagram[3], datagram[4], datagram[5]]);
    let (low, register) = (address as u16, (address >> 16) as usize);
    let data = &mut datagram[10..10 + size];
    let alias = [memory[0x12], memory[0x13]];
    let named = if command == 5 { u16::from_le_bytes([memory[0x10], memory[0x11]]) == low } else { low == 0 };
    let count = match command {
        12 => serve_logical(memory, address, data),
        _ if named => serve_range(memory, register, data, command != 1),
        _ => 0,
    };
    [memory[0x12], memory[0x13]] = alias;
    if command < 5 {
        datagram[2..4].copy_from_slice(&low.wrapping_add(1).to_le_bytes());
    }
    let counter = u16::from_le_bytes([datagram[10 + size], datagram[11 + size]]).wrapping_add(count);
    datagram[10 + size..12 + size].copy_from_slice(&counter.to_le_bytes());
}

/// Passes a frame through machines one after another.
#[inline(never)]
pub fn pass(machines: &mut [Machine], frame: &mut [u8]) {
    if frames::whole_frame(frame).is_err() {
        return;
    }
    let end = 16 + usize::from(u16::from_le_bytes([frame[14], frame[15]]) & 0x7ff);
    for machine in machines {
        let mut rest = &mut frame[16..end];
        while !rest.is_empty() {
            let size = usize::from(u16::from_le_bytes([rest[6], rest[7]]) & 0x7ff);
            let (datagram, mapped_end) = rest.split_at_mut(12 + size);
            serve(&mut machine.memory, datagram, size);
            rest = mapped_end;
        }
    }
}
