//! A full frame through slaves of two mapped areas each: the master writes the first and reads the second.

use crate::measured::{Measuring, nanoseconds_of, print};
use crate::plain::machine::{MEMORY, Machine, pass};

const DATA: usize = 1486;
const LOGICAL: u32 = 0x0100_0000;

// What is handed over are slices, each by its first element and its length.
unsafe extern "C" {
    fn segment_rounds(
        memories: *mut u8, size: usize, frame: *mut u8, frame_size: usize, turns: usize, times: *mut u64, time_count: usize,
    ) -> bool;
}

/// The block of an FMMU over so many bytes of data from byte `at` on.
fn block_of(at: usize, size: usize, memory: u16, kind: u8, bit: u8) -> [u8; 16] {
    let [a0, a1, a2, a3] = (LOGICAL + at as u32).to_le_bytes();
    let [low, high] = (size as u16).to_le_bytes();
    let [m0, m1] = memory.to_le_bytes();
    [a0, a1, a2, a3, low, high, bit, 7, m0, m1, 0, kind, 1, 0, 0, 0]
}

/// The memories of slaves that share the data of a datagram alike. The areas begin at this bit of their first byte of data.
fn memories(count: usize, bit: u8) -> Vec<u8> {
    let share = DATA / count;
    let mut memories = vec![0; count * MEMORY];
    for (k, memory) in memories.chunks_exact_mut(MEMORY).enumerate() {
        let at = k * share;
        memory[0x0600..0x0610].copy_from_slice(&block_of(at, share / 2, 0x1000, 2, bit));
        memory[0x0610..0x0620].copy_from_slice(&block_of(at + share / 2, share - share / 2, 0x1800, 1, bit));
        for (place, byte) in memory[0x1800..0x1800 + share].iter_mut().enumerate() {
            *byte = (place * 7 + k * 31) as u8;
        }
    }
    memories
}

fn full_frame() -> Vec<u8> {
    let mut frame = vec![255, 255, 255, 255, 255, 255, 2, 0, 0, 0, 0, 0, 0x88, 0xa4];
    frame.extend(((DATA + 12) as u16 | 0x1000).to_le_bytes());
    frame.extend([12, 0]);
    frame.extend(LOGICAL.to_le_bytes());
    frame.extend((DATA as u16).to_le_bytes());
    frame.extend([0, 0]);
    frame.extend((0..DATA).map(|k| (k * 13 % 251) as u8));
    frame.extend([0, 0]);
    frame
}

pub fn measure(measuring: &mut Measuring) {
    for (slaves, bit) in [(1, 0), (64, 0), (256, 0), (64, 3)] {
        let turns = 1024 / slaves;
        let [mut own, mut other] = [0; 2].map(|_| (memories(slaves, bit), full_frame()));
        let library = measuring.call(turns, |rounds| {
            let mut times = vec![0; rounds];
            let (memories, frame) = (&mut own.0, &mut own.1);
            let (from, size, to, count) = (memories.as_mut_ptr(), memories.len(), times.as_mut_ptr(), times.len());
            assert!(unsafe { segment_rounds(from, size, frame.as_mut_ptr(), frame.len(), turns, to, count) });
            times
        });
        let plain = measuring.call(turns, |rounds| {
            let mut machines: Vec<Machine> = other.0.chunks_exact(MEMORY).map(Machine::of).collect();
            let mut round = || nanoseconds_of(|| (0..turns).for_each(|_| pass(&mut machines, &mut other.1)));
            let times = (0..rounds).map(|_| round()).collect();
            other.0 = machines.iter().flat_map(|machine| machine.memory.to_vec()).collect();
            times
        });
        assert!(own == other, "other bytes");
        let shape = if bit == 0 { "whole bytes" } else { "areas from bit 3" };
        print(&format!("machine: a frame through {slaves} slaves, {shape}"), library, plain);
    }
}
