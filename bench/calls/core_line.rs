//! A line of eight slaves with eight areas each: task 0 has one datagram of 1,486 bytes, half of them outputs; task 1 has 16 of
//! 1,482; task 2 has one of 1,486, all outputs; the tasks 3 to 7 have short ones.

use crate::plain::layout::{Area, Pdo, Slave};
use crate::plain::plan::Group;

const SLAVES: usize = 8;

/// The bytes of the one with a number, of so many that share them.
fn share(bytes: usize, count: usize, number: usize) -> usize {
    bytes / count + usize::from(number < bytes % count)
}

/// An area's task and bytes.
fn own(slave: usize, number: usize) -> (u8, usize) {
    match number {
        0 => (0, share(743, SLAVES, slave)),
        1 | 5 => (1, 1482),
        2 => (2, share(1486, SLAVES, slave)),
        3 => (3 + (slave % 5) as u8, 4),
        4 => (0, share(743, 3 * SLAVES, slave)),
        _ => (0, share(743, 3 * SLAVES, SLAVES * (number - 5) + slave)),
    }
}

/// PDOs for so many bytes, of up to 64 variables of 64 bits.
fn pdos(variables: &mut u32, bytes: usize) -> Vec<Pdo> {
    let mut entry = |bits: usize| {
        *variables += 1;
        (*variables, bits as u8)
    };
    let widths: Vec<usize> = (0..bytes.div_ceil(8)).map(|at| 8 * (bytes - 8 * at).min(8)).collect();
    let pdos = (0x1600..).zip(widths.chunks(64));
    pdos.map(|(index, own)| Pdo { index, entries: own.iter().map(|bits| entry(*bits)).collect() }).collect()
}

pub fn line() -> Vec<Group> {
    let mut variables = 0;
    let mut slave = |at: usize| {
        let mut phys = 0x1000;
        let areas = (0..8).map(|number| {
            let (task, bytes) = own(at, number);
            let offered = pdos(&mut variables, bytes);
            let assigned = offered.iter().map(|pdo| pdo.index).collect();
            phys += bytes as u16;
            let (is_out, sm, phys) = (number < 4, number as u8, phys - bytes as u16);
            Area { is_out, sm, phys, task, offered, assigned, width: 0, datagram: 0, bit: 0 }
        });
        Slave { station: 1001 + at as u16, areas: areas.collect() }
    };
    vec![Group { alias: 0, slaves: (0..SLAVES).map(&mut slave).collect() }]
}
