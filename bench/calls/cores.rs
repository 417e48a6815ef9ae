//! Calls of a core on a line of eight slaves.

use crate::core_line;
use crate::measured::{Measuring, nanoseconds_of, print};
use crate::plain::line::text;
use crate::plain::plan::Group;
use crate::plain::running::{Patch, Running};

const SEND: u8 = 0;
const CYCLE: u8 = 1;
const READ: u8 = 2;
const POST: u8 = 3;
const WRITE: u8 = 4;
const WRITES: u8 = 5;

/// What every task posts.
const POSTED: [u8; 12_000] = [0xc3; 12_000];

#[repr(C)]
struct Timed {
    kind: u8,
    task: u8,
    calls: u32,
}

// What is handed over are slices, each by its first element and its length.
unsafe extern "C" {
    fn core_rounds(
        text: *const u8, text_size: usize, timed: *const Timed, bytes: *const u8, size: usize, patches: *const Patch,
        patch_count: usize, times: *mut u64, time_count: usize,
    ) -> u64;
}

/// What slaves put into the frame of a list of tasks: its counters, and a byte of each datagram.
fn patches(groups: &[Group], list: u8) -> Vec<Patch> {
    let mut running = Running::open(groups);
    running.settle(&POSTED);
    let (size, mut at, mut patches) = (running.send(list), 16, Vec::new());
    let end = 16 + usize::from(u16::from_le_bytes([running.arena[14], running.arena[15]]) & 0x7ff);
    assert!(end <= size, "a frame");
    while at < end {
        let own = &running.arena[at..];
        let length = usize::from(u16::from_le_bytes([own[6], own[7]]) & 0x7ff);
        let expected = running.core.plan().table(own[5] - 1).all[usize::from(own[3] / 8)].expected;
        let [low, high] = expected.to_le_bytes();
        let places = [(at + 9 + length, 0x3c), (at + 10 + length, low), (at + 11 + length, high)];
        patches.extend(places.map(|(at, byte)| Patch { at: at as u32, byte }));
        at += 12 + length;
    }
    patches
}

fn by_library(text: &str, timed: &Timed, patches: &[Patch], times: &mut [u64]) -> u64 {
    let (bytes, size) = (POSTED.as_ptr(), POSTED.len());
    let (own, count) = (patches.as_ptr(), patches.len());
    unsafe { core_rounds(text.as_ptr(), text.len(), timed, bytes, size, own, count, times.as_mut_ptr(), times.len()) }
}

/// Sends tasks; their frame comes back, and the changes are taken.
fn cycle(running: &mut Running, list: u8, patches: &[Patch]) {
    running.send(list);
    running.put_bytes(patches);
    running.arrive();
    running.take();
}

fn once(running: &mut Running, timed: &Timed, patches: &[Patch]) {
    match timed.kind {
        SEND => {
            running.send(timed.task);
        }
        CYCLE => cycle(running, timed.task, patches),
        READ => running.read(timed.task),
        POST => running.post(timed.task, &POSTED),
        WRITE => running.write(1),
        _ => running.write_all(),
    }
}

fn by_plain(groups: &[Group], timed: &Timed, patches: &[Patch], times: &mut [u64]) -> u64 {
    let mut running = Running::open(groups);
    running.settle(&POSTED);
    if timed.kind == READ {
        cycle(&mut running, timed.task, patches);
    }
    for time in times {
        if WRITE <= timed.kind {
            running.forget();
        }
        *time = nanoseconds_of(|| (0..timed.calls).for_each(|_| once(&mut running, timed, patches)));
    }
    running.digest()
}

pub fn measure(measuring: &mut Measuring) {
    let groups = core_line::line();
    let text = text(&groups);
    let mut row = |name: &str, kind, task, calls| {
        let timed = Timed { kind, task, calls };
        let patches = if [CYCLE, READ].contains(&kind) { patches(&groups, task) } else { Vec::new() };
        let mut digests = [0; 2];
        let mut side = |number: usize, play: &dyn Fn(&mut [u64]) -> u64| {
            measuring.call(calls as usize, |rounds| {
                let mut times = vec![0; rounds];
                digests[number] = play(&mut times);
                times
            })
        };
        let library = side(0, &|times| by_library(&text, &timed, &patches, times));
        let plain = side(1, &|times| by_plain(&groups, &timed, &patches, times));
        assert!(digests[0] == digests[1] && digests[0] != 0, "{name}: another answer");
        print(name, library, plain);
    };
    row("core: send one datagram of 1,486 bytes", SEND, 0, 40);
    row("core: send 16 datagrams in 16 frames", SEND, 1, 40);
    row("core: send five tasks in one frame", SEND, 2, 40);
    row("core: send one datagram and take its answer", CYCLE, 0, 40);
    row("core: send five tasks and take their answer", CYCLE, 2, 40);
    row("core: read one datagram of 1,486 bytes", READ, 0, 40);
    row("core: post 1,486 bytes", POST, 2, 40);
    row("core: a register write with its answer", WRITE, 0, 40);
    row("core: 128 register writes in three frames, with their answers", WRITES, 0, 1);
}
