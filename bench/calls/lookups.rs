//! Look-ups of a plan, on lines of 64 and of 2,048 slaves with eight areas, some of them for what is not there.

use crate::measured::{Measuring, nanoseconds_of, print};
use crate::plain::digest::{digest_of, digest_of_all};
use crate::plain::layout::{Block, Place};
use crate::plain::line::{line, text};
use crate::plain::plan::{Edit, Plan};
use crate::plain::sorted::Sorted;
use std::hint::black_box;

const CALLS: usize = 4096;
const KINDS: [&str; 5] = ["block", "nth_block", "position", "station", "place"];
const NONE: u64 = 0xffff_ffff;

/// What is looked up: the number of a block or a variable, or a position; a station address, and a block's number in the
/// slave's order.
#[repr(C)]
struct Asked {
    number: u32,
    station: u16,
    own: u8,
}

// What is handed over are slices, each by its first element and its length.
unsafe extern "C" {
    fn lookups(
        text: *const u8, size: usize, aliases: *const u16, alias_count: usize, asked: *const Asked, count: usize,
        times: *mut u64, time_count: usize,
    ) -> u64;
}

fn asked(slaves: usize) -> Vec<Asked> {
    let mut state = 20_261_124_u64;
    let mut below = |count: usize| {
        state = state.wrapping_mul(6_364_136_223_846_793_005).wrapping_add(1_442_695_040_888_963_407);
        ((state >> 33) % count as u64) as u32
    };
    // a number is a position, a block or a variable
    let ranges = [slaves + slaves / 64, 16 * slaves + slaves / 4];
    let one = |at: usize| Asked { number: below(ranges[at % 2]), station: 1001 + below(ranges[0]) as u16, own: below(17) as u8 };
    (0..CALLS).map(one).collect()
}

fn number_of(block: &Block) -> u64 {
    u64::from(block.register) << 8 | black_box(block.bytes()).len() as u64
}

fn digest_of_place(place: &Place) -> u64 {
    let dir = 2 - u64::from(place.is_out);
    digest_of_all(0, &[place.task.into(), place.datagram.into(), place.bit.into(), place.bits.into(), dir])
}

fn answer(sorted: &Sorted, kind: usize, asked: &Asked) -> u64 {
    match kind {
        0 => sorted.block(asked.station, asked.own).map_or(NONE, |block| number_of(&block)),
        1 => sorted.nth_block(asked.number).map_or(NONE, |(station, block)| u64::from(station) << 32 | number_of(&block)),
        2 => sorted.position(asked.station).map_or(NONE, |at| at as u64),
        3 => sorted.station(asked.number).map_or(NONE, u64::from),
        _ => sorted.place(asked.number).map_or(NONE, |place| digest_of_place(&place)),
    }
}

pub fn measure(measuring: &mut Measuring) {
    for slaves in [64, 2048] {
        let (groups, asked) = (line(slaves), asked(slaves));
        let (text, aliases) = (text(&groups), groups[1..].iter().map(|group| group.alias).collect::<Vec<u16>>());
        let mut plan = Plan::new(&groups);
        aliases.iter().for_each(|alias| assert!(plan.apply(&Edit::Connect(*alias)).is_ok(), "a refused edit"));
        let sorted = Sorted::new(&plan, &groups);
        let mut digests = [0; 2];
        let library = measuring.all(KINDS.len(), |rounds| {
            let mut times = vec![0; rounds * KINDS.len()];
            let (own, count, all) = (aliases.as_ptr(), aliases.len(), asked.as_ptr());
            let (to, size) = (times.as_mut_ptr(), times.len());
            digests[0] = unsafe { lookups(text.as_ptr(), text.len(), own, count, all, asked.len(), to, size) };
            times
        });
        let plain = measuring.all(KINDS.len(), |rounds| {
            let round = |digest: &mut u64, kind| {
                let mut found = 0;
                let time = nanoseconds_of(|| {
                    found = black_box(&asked).iter().fold(0, |found, one| digest_of(found, answer(&sorted, kind, one)));
                });
                *digest = digest_of(if kind == 0 { 0 } else { *digest }, found);
                time
            };
            (0..rounds * KINDS.len()).map(|at| round(&mut digests[1], at % KINDS.len())).collect()
        });
        assert_eq!(digests[0], digests[1], "another answer");
        for (kind, name) in KINDS.iter().enumerate() {
            let [library, plain] = [&library, &plain].map(|side| side[kind].each(CALLS));
            print(&format!("plan: `{name}`, {slaves} slaves"), library, plain);
        }
    }
}
