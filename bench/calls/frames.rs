//! Frames of one datagram and of sixty, read and written; and copies of the bits of the longest datagram.

use crate::measured::{Measuring, Taken, nanoseconds_of, print};
use crate::plain::frames::{self, Wanted};
use crate::plain::machine;
use std::hint::black_box;

const CALLS: usize = 400;
const SERIAL: u64 = 0x12_3456_7890;
/// The bits of the longest datagram.
const BITS: usize = 11_888;

// What is handed over are slices, each by its first element and its length.
unsafe extern "C" {
    fn frame_read(frame: *const u8, size: usize) -> u64;
    fn frame_written(
        out: *mut u8, out_size: usize, serial: u64, wanted: *const Wanted, count: usize, data: *const u8, size: usize,
    ) -> bool;
    fn bits_copy(from: *const u8, from_size: usize, at: usize, to: *mut u8, to_size: usize, at2: usize, n: usize);
}

fn calls(measuring: &mut Measuring, mut call: impl FnMut()) -> Taken {
    measuring.call(CALLS, |rounds| (0..rounds).map(|_| nanoseconds_of(|| (0..CALLS).for_each(|_| call()))).collect())
}

fn read(frame: &[u8]) -> u64 {
    unsafe { frame_read(frame.as_ptr(), frame.len()) }
}

fn write(out: &mut [u8], wanted: &[Wanted], data: &[u8]) -> bool {
    let (to, size) = (out.as_mut_ptr(), out.len());
    unsafe { frame_written(to, size, SERIAL, wanted.as_ptr(), wanted.len(), data.as_ptr(), data.len()) }
}

/// Readers must answer alike on the frame, on each cut of it, and with each bit of its front and of its end turned.
fn compare(frame: &[u8]) {
    let alike = |frame: &[u8]| assert_eq!(read(frame), frames::read(frame), "another reading");
    (0..=frame.len()).for_each(|size| alike(&frame[..size]));
    for bit in (0..8 * 64).chain(8 * (frame.len() - 32)..8 * frame.len()) {
        let mut turned = frame.to_vec();
        turned[bit / 8] ^= 1 << (bit % 8);
        alike(&turned);
    }
}

pub fn measure(measuring: &mut Measuring) {
    for (name, count, size) in [("one datagram of 1,486 bytes", 1, 1486), ("60 datagrams of 12 bytes", 60, 12)] {
        let wanted: Vec<Wanted> = (0..count).map(|k| Wanted { address: 0x0100_0000 * (k + 1), size }).collect();
        let data: Vec<u8> = (0..count * u32::from(size)).map(|k| (k * 37 % 251) as u8).collect();
        let mut frame = vec![0xa5; 16 + wanted.len() * (12 + usize::from(size))];
        let mut other = frame.clone();
        let library = calls(measuring, || assert!(write(black_box(&mut frame), black_box(&wanted), &data)));
        let plain = calls(measuring, || assert!(frames::write(black_box(&mut other), SERIAL, black_box(&wanted), &data)));
        assert!(frame == other, "another frame");
        print(&format!("frames: write {name}"), library, plain);
        if !measuring.is_counting {
            compare(&frame);
        }
        let library = calls(measuring, || assert!(black_box(read(black_box(&frame))) > 8));
        let plain = calls(measuring, || assert!(black_box(frames::read(black_box(&frame))) > 8));
        print(&format!("frames: read {name}"), library, plain);
    }
    for (name, at, at2) in [("byte to byte", 0, 0), ("bit 3 to bit 3", 3, 3), ("bit 3 to bit 0", 3, 0)] {
        let from: Vec<u8> = (0..BITS / 8 + 8).map(|k| (k * 29 % 253) as u8).collect();
        let [mut to, mut other] = [0; 2].map(|_| vec![0x5a; from.len()]);
        let library = calls(measuring, || {
            let to = black_box(&mut to);
            unsafe { bits_copy(from.as_ptr(), from.len(), at, to.as_mut_ptr(), to.len(), at2, BITS) }
        });
        let plain = calls(measuring, || machine::copy_bits(black_box(&from), at, black_box(&mut other), at2, BITS));
        assert!(to == other, "another copy");
        print(&format!("bits: copy 11,888, {name}"), library, plain);
    }
}
