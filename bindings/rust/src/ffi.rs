//! What include/zangjulf.h declares, word for word.

use crate::{Block, Cost, Counters, Datagram, ImageSizes, OwedBlock, Taken, Waits};

/// The number of the binary interface that is declared here.
pub const ABI: u32 = 1;

/// A line, or none: zeros before its first call.
#[repr(C)]
#[derive(Debug)]
pub struct Handle {
    pub mark: u64,
    pub at: *mut u8,
}

/// A seat, or none: zeros before its first call.
#[repr(C)]
#[derive(Debug)]
pub struct SeatHandle {
    pub mark: u64,
    pub at: *mut u8,
}

#[repr(C)]
pub struct Options {
    pub size: u32,
    pub lookers: u32,
}

#[repr(C)]
#[derive(Default)]
pub struct View {
    pub showing: u64,
    pub first_serial: u64,
    pub taken: u64,
    pub epoch: u32,
    pub task_epoch: u32,
    pub size: u32,
    pub outputs: u32,
    pub datagrams: u16,
    pub has: u16,
    pub state: u8,
    pub line: u8,
    pub is_refused: u8,
    pub reserved: u8,
}

#[repr(C)]
#[derive(Clone, Copy, Default)]
pub struct Place {
    pub task: u8,
    pub datagram: u8,
    pub bits: u8,
    pub is_input: bool,
    pub bit: u16,
    pub image_bit: u32,
}

#[repr(C)]
#[derive(Default)]
pub struct Write {
    pub size: u32,
    pub block: OwedBlock,
}

#[repr(C)]
#[derive(Default)]
pub struct Writes {
    pub size: u32,
    pub blocks: u32,
}

#[repr(C)]
pub struct Frame {
    pub offset: u32,
    pub size: u32,
}

#[repr(C)]
#[derive(Default)]
pub struct Sent {
    pub first_serial: u64,
    pub size: u32,
    pub frames: u32,
    pub waits: Waits,
    pub reserved: u32,
}

#[repr(C)]
#[derive(Clone, Copy, Debug, Default)]
pub struct Outcome {
    pub kind: u8,
    pub task: u8,
    pub datagram: u8,
    pub reserved: u8,
    pub expected: u16,
    pub got: u16,
    pub at: u16,
    pub length: u16,
    pub station: u16,
    pub start: u16,
}

#[repr(C)]
#[derive(Default)]
pub struct Arrival {
    pub serial: u64,
    pub datagrams: u16,
    pub kind: u8,
    pub reserved: [u8; 5],
}

#[repr(C)]
#[derive(Default)]
pub struct Image {
    pub first_serial: u64,
    pub epoch: u32,
    pub task_epoch: u32,
    pub size: u32,
    pub datagrams: u16,
    pub has: u16,
    pub state: u8,
    pub reserved: [u8; 7],
}

#[repr(C)]
#[derive(Default)]
pub struct Spot {
    pub group: usize,
    pub slave: usize,
    pub area: usize,
    pub pdo: usize,
    pub item: usize,
    pub alias: u16,
    pub station: u16,
    pub key: u8,
}

#[repr(C)]
#[derive(Default)]
pub struct Location {
    pub line: usize,
    pub column: usize,
    pub place: Spot,
    pub first: Spot,
}

extern "C" {
    pub fn zangjulf_abi() -> u32;
    pub fn zangjulf_version(major: *mut u32, minor: *mut u32, patch: *mut u32);
    pub fn zangjulf_open(
        handle: *mut Handle,
        options: *const Options,
        text: *const u8,
        length: usize,
        task: *mut u8,
    ) -> u8;
    pub fn zangjulf_close(handle: *mut Handle) -> u8;
    pub fn zangjulf_locate(text: *const u8, length: usize, location: *mut Location) -> u8;
    pub fn zangjulf_epoch(handle: *const Handle, epoch: *mut u32) -> u8;
    pub fn zangjulf_next_serial(handle: *const Handle, serial: *mut u64) -> u8;
    pub fn zangjulf_owed(handle: *const Handle, count: *mut u32) -> u8;
    pub fn zangjulf_place(handle: *const Handle, variable: u32, place: *mut Place) -> u8;
    pub fn zangjulf_places(
        handle: *const Handle,
        variables: *const u32,
        count: usize,
        places: *mut Place,
        room: usize,
    ) -> u8;
    pub fn zangjulf_datagram(handle: *const Handle, task: u8, datagram: u8, out: *mut Datagram) -> u8;
    pub fn zangjulf_image_sizes(handle: *const Handle, task: u8, sizes: *mut ImageSizes) -> u8;
    pub fn zangjulf_station(handle: *const Handle, position: u32, station: *mut u16) -> u8;
    pub fn zangjulf_position(handle: *const Handle, station: u16, position: *mut u32) -> u8;
    pub fn zangjulf_expected_of(
        handle: *const Handle,
        task: u8,
        datagram: u8,
        station: u16,
        expected: *mut u16,
    ) -> u8;
    pub fn zangjulf_block(
        handle: *const Handle,
        station: u16,
        number: u8,
        out: *mut u8,
        length: usize,
        block: *mut Block,
    ) -> u8;
    pub fn zangjulf_connect(handle: *mut Handle, alias: u16, asks: bool, cost: *mut Cost) -> u8;
    pub fn zangjulf_disconnect(handle: *mut Handle, alias: u16, asks: bool, cost: *mut Cost) -> u8;
    pub fn zangjulf_remap(
        handle: *mut Handle,
        station: u16,
        area: u8,
        pdos: *const u16,
        count: usize,
        asks: bool,
        cost: *mut Cost,
    ) -> u8;
    pub fn zangjulf_move_area(
        handle: *mut Handle,
        station: u16,
        area: u8,
        task: u8,
        asks: bool,
        cost: *mut Cost,
    ) -> u8;
    pub fn zangjulf_declare(handle: *mut Handle, text: *const u8, length: usize, asks: bool, cost: *mut Cost) -> u8;
    pub fn zangjulf_owed_block(handle: *const Handle, index: u32, block: *mut OwedBlock) -> u8;
    pub fn zangjulf_next_write(handle: *mut Handle, out: *mut u8, length: usize, write: *mut Write) -> u8;
    pub fn zangjulf_next_writes(handle: *mut Handle, out: *mut u8, length: usize, writes: *mut Writes) -> u8;
    pub fn zangjulf_further_writes(handle: *mut Handle, out: *mut u8, length: usize, writes: *mut Writes) -> u8;
    pub fn zangjulf_slave_lost(handle: *mut Handle, station: u16) -> u8;
    pub fn zangjulf_post(handle: *mut Handle, task: u8, epoch: u32, bytes: *const u8, length: usize) -> u8;
    pub fn zangjulf_send(
        handle: *mut Handle,
        tasks: *const u8,
        count: usize,
        out: *mut u8,
        length: usize,
        table: *mut Frame,
        room: usize,
        sent: *mut Sent,
    ) -> u8;
    pub fn zangjulf_ready(handle: *const Handle, tasks: *mut u8) -> u8;
    pub fn zangjulf_held_by(handle: *const Handle, task: u8, number: u32, station: *mut u16) -> u8;
    pub fn zangjulf_cleared(handle: *mut Handle, station: u16) -> u8;
    pub fn zangjulf_unplugged(handle: *mut Handle, station: u16) -> u8;
    pub fn zangjulf_preview(
        handle: *const Handle,
        task: u8,
        datagram: u8,
        out: *mut u8,
        length: usize,
        size: *mut usize,
    ) -> u8;
    pub fn zangjulf_arrive(
        handle: *mut Handle,
        bytes: *const u8,
        length: usize,
        outcomes: *mut Outcome,
        room: usize,
        arrival: *mut Arrival,
    ) -> u8;
    pub fn zangjulf_read(
        handle: *const Handle,
        task: u8,
        out: *mut u8,
        length: usize,
        serials: *mut u64,
        room: usize,
        image: *mut Image,
    ) -> u8;
    pub fn zangjulf_counters(handle: *const Handle, task: u8, datagram: u8, counters: *mut Counters) -> u8;
    pub fn zangjulf_seat_open(handle: *mut Handle, task: u8, seat: *mut SeatHandle) -> u8;
    pub fn zangjulf_look_open(handle: *mut Handle, number: u32, task: u8, seat: *mut SeatHandle) -> u8;
    pub fn zangjulf_seat_close(seat: *mut SeatHandle) -> u8;
    pub fn zangjulf_show(handle: *mut Handle) -> u8;
    pub fn zangjulf_seat_view(
        seat: *mut SeatHandle,
        out: *mut u8,
        length: usize,
        serials: *mut u64,
        room: usize,
        view: *mut View,
    ) -> u8;
    pub fn zangjulf_seat_view_in_place(
        seat: *mut SeatHandle,
        image: *mut *const u8,
        serials: *mut u64,
        room: usize,
        view: *mut View,
    ) -> u8;
    pub fn zangjulf_seat_outputs(seat: *const SeatHandle, out: *mut u8, length: usize) -> u8;
    pub fn zangjulf_seat_post(
        seat: *mut SeatHandle,
        epoch: u32,
        bytes: *const u8,
        length: usize,
        number: *mut u64,
    ) -> u8;
    pub fn zangjulf_take_posts(handle: *mut Handle, taken: *mut Taken) -> u8;
    pub fn zangjulf_get_bits(bytes: *const u8, length: usize, bit: usize, bits: u8, value: *mut u64) -> u8;
    pub fn zangjulf_put_bits(bytes: *mut u8, length: usize, bit: usize, bits: u8, value: u64) -> u8;
    pub fn zangjulf_put_value(
        handle: *const Handle,
        variable: u32,
        epoch: u32,
        value: u64,
        outputs: *mut u8,
        length: usize,
    ) -> u8;
    pub fn zangjulf_get_value(
        handle: *const Handle,
        variable: u32,
        epoch: u32,
        image: *const u8,
        length: usize,
        value: *mut u64,
    ) -> u8;
    pub fn zangjulf_is_mine(frame: *const u8, length: usize) -> bool;
    pub fn zangjulf_alias_read(position: u16, out: *mut u8, length: usize, size: *mut usize) -> u8;
    pub fn zangjulf_station_write(position: u16, station: u16, out: *mut u8, length: usize, size: *mut usize) -> u8;
    pub fn zangjulf_fmmu_off(station: u16, count: u8, out: *mut u8, length: usize, size: *mut usize) -> u8;
    pub fn zangjulf_slave_start(memory: *mut u8, size: usize, alias: u16) -> u8;
    pub fn zangjulf_slave_process(memory: *mut u8, size: usize, frame: *mut u8, length: usize) -> u8;
}
