//! Where structs have their fields: as in the header, by what ci/embed/layout.c prints into the file that ZANGJULF_LAYOUT names.

use crate::{ffi, Block, Cost, Counters, Datagram, ImageSizes, OwedBlock, Taken, Waits};
use std::mem::{offset_of, size_of};

/// The first three columns of a struct's lines; of the struct itself its bytes.
macro_rules! lines {
    ($name:literal, $kind:ty, $($field:ident)*) => {{
        let whole = format!("{} - {}", $name, size_of::<$kind>());
        let fields = [$(format!("{} {} {}", $name, stringify!($field), offset_of!($kind, $field))),*];
        [vec![whole], fields.to_vec()].concat()
    }};
}

fn declared() -> Vec<String> {
    [
        lines!("zangjulf", ffi::Handle, mark at),
        lines!("zangjulf_options", ffi::Options, size lookers),
        lines!("zangjulf_place", ffi::Place, task datagram bits is_input bit image_bit),
        lines!("zangjulf_datagram", Datagram, address length expected offset),
        lines!("zangjulf_image_sizes", ImageSizes, outputs inputs),
        lines!("zangjulf_block", Block, start size),
        lines!("zangjulf_cost", Cost, epoch recut moved places crowded waits reserved),
        lines!("zangjulf_owed_block", OwedBlock, station start size reserved),
        lines!("zangjulf_write", ffi::Write, size block),
        lines!("zangjulf_writes", ffi::Writes, size blocks),
        lines!("zangjulf_frame", ffi::Frame, offset size),
        lines!("zangjulf_waits", Waits, blocks outside task reserved),
        lines!("zangjulf_sent", ffi::Sent, first_serial size frames waits reserved),
        lines!("zangjulf_outcome", ffi::Outcome, kind task datagram reserved expected got at length station start),
        lines!("zangjulf_arrival", ffi::Arrival, serial datagrams kind reserved),
        lines!("zangjulf_image", ffi::Image, first_serial epoch task_epoch size datagrams has state reserved),
        lines!("zangjulf_counters", Counters, sent good wrong again),
        lines!("zangjulf_seat", ffi::SeatHandle, mark at),
        lines!("zangjulf_view", ffi::View, showing first_serial taken epoch task_epoch size outputs datagrams has state line is_refused reserved),
        lines!("zangjulf_taken", Taken, accepted refused reserved),
        lines!("zangjulf_spot", ffi::Spot, group slave area pdo item alias station key),
        lines!("zangjulf_location", ffi::Location, line column place first),
    ]
    .concat()
}

/// The columns of a printed line that `lines` has.
fn columns(line: &str) -> String {
    let words: Vec<&str> = line.split(' ').collect();
    match words[1] {
        "-" => format!("{} - {}", words[0], words[3]),
        _ => words[..3].join(" "),
    }
}

#[test]
fn structs_are_those_of_the_header() {
    let Some(file) = std::env::var_os("ZANGJULF_LAYOUT") else { return };
    let printed = std::fs::read_to_string(file).expect("the layout is printed");
    assert_eq!(declared(), printed.lines().map(columns).collect::<Vec<_>>());
}
