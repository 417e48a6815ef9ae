//! The lines that the program prints, as docs/use/PROGRAM.md has them.

use super::blocks::{Block, slave_blocks};
use super::edits::{Edit, Refusal, naming_fault};
use super::frames::{Datagram, LRW, frame_text};
use super::packing::{self, Layout, TASKS};
use super::records::State;

/// Two digits for each byte.
pub fn hex(bytes: &[u8]) -> String {
    bytes.iter().map(|byte| format!("{byte:02x}")).collect()
}

pub fn layout_lines(epoch: u32, layout: &Layout) -> Vec<String> {
    let mut lines = vec![format!("epoch {epoch}")];
    for (task, own) in layout.tasks.iter().enumerate().filter(|(_, own)| !own.datagrams.is_empty()) {
        lines.push(format!("task {task} parts {} {}", own.outputs, own.inputs));
        for (number, one) in own.datagrams.iter().enumerate() {
            let (address, length, expected) = (one.address, one.length, one.expected);
            lines.push(format!("datagram {number} address 0x{address:08x} length {length} expected {expected}"));
        }
    }
    lines
}

fn block_line(block: &Block) -> String {
    let bytes: Vec<String> = block.bytes.iter().map(|byte| format!("{byte:02x}")).collect();
    let (name, number) = block.name;
    format!("{name} {number} at 0x{:04x}: {}", block.register, bytes.join(" "))
}

pub fn regs_lines(state: &State, layout: &Layout, station: u16) -> Vec<String> {
    if let Some(number) = naming_fault(state, station) {
        return vec![Refusal::of(number).line()];
    }
    let line = state.line();
    let own = line.iter().filter(|(_, slave)| slave.station == station);
    own.flat_map(|(rank, slave)| slave_blocks(layout, *rank, slave)).map(|block| block_line(&block)).collect()
}

pub fn place_line(state: &State, layout: &Layout, variable: u32) -> String {
    match layout.place(&state.line(), variable) {
        None => "none".to_string(),
        Some(place) => {
            let dir = if place.is_out { "out" } else { "in" };
            let (task, datagram, bit, bits) = (place.task, place.datagram, place.bit, place.bits);
            format!("var {variable} task {task} datagram {datagram} bit {bit} bits {bits} dir {dir}")
        }
    }
}

/// The frame of a datagram as it would be sent next, with the data that `data` says.
pub fn show_line(layout: &Layout, serial: u64, task: u8, number: u8, data: impl Fn(&packing::Datagram) -> Vec<u8>) -> String {
    if task >= TASKS {
        return Refusal::of(8).line();
    }
    match layout.datagram(task, number.into()) {
        None => "none".to_string(),
        Some(datagram) => {
            let frame = frame_text(serial, &[Datagram::sent(LRW, datagram.address, data(datagram))]);
            format!("frame {serial}: {}", hex(&frame))
        }
    }
}

/// What an edit is answered with.
pub fn edit_line(answer: Result<(u32, usize, usize), Refusal>) -> String {
    match answer {
        Ok((epoch, recut, moved)) => format!("epoch {epoch} recut {recut} moved {moved}"),
        Err(refusal) => refusal.line(),
    }
}

/// The words of an edit: its name and its numbers.
pub fn edit_words(edit: &Edit) -> (&'static str, Vec<u32>) {
    match edit {
        Edit::Connect(alias) => ("connect", vec![u32::from(*alias)]),
        Edit::Disconnect(alias) => ("disconnect", vec![u32::from(*alias)]),
        Edit::Remap { station, area, pdos } => {
            let words =
                [u32::from(*station), u32::from(*area)].into_iter().chain(pdos.iter().map(|index| u32::from(*index)));
            ("remap", words.collect())
        }
        Edit::Move { station, area, task } => {
            ("move", [*station, u16::from(*area), u16::from(*task)].map(u32::from).to_vec())
        }
        // its document comes after the line
        Edit::Declare(_) => ("declare", Vec::new()),
    }
}
