//! The edits of a round, as the library's side takes them. Each is followed by the one that reverses it.

use crate::plain::line::{BARE, FIRST, LAST, NEAR, OTHER, OWN, Places, TWICE, WIDER, places, station};
use crate::plain::plan::{Edit, Group};

const CONNECT: u8 = 0;
const DISCONNECT: u8 = 1;
const REMAP: u8 = 2;
const MOVE: u8 = 3;
/// Nothing is done between two readings of the clock.
pub const NOTHING: u8 = 4;
/// All owed blocks are written and answered, and all tasks are posted.
pub const SETTLE: u8 = 5;

#[repr(C)]
#[derive(Clone, Copy, Default, Debug)]
pub struct Asked {
    pub kind: u8,
    area: u8,
    task: u8,
    count: u8,
    name: u16,
    first: u16,
    second: u16,
}

impl Asked {
    pub fn of(kind: u8) -> Asked {
        Asked { kind, ..Asked::default() }
    }

    fn group(kind: u8, alias: u16) -> Asked {
        Asked { kind, name: alias, ..Asked::default() }
    }

    fn remap(place: usize, index: u16) -> Asked {
        Asked { kind: REMAP, name: station(place), count: 1, first: index, ..Asked::default() }
    }

    fn carry(place: usize, area: u8, task: u8) -> Asked {
        Asked { kind: MOVE, name: station(place), area, task, ..Asked::default() }
    }

    pub fn edit(&self) -> Option<Edit> {
        let Asked { kind, area, task, name, first, .. } = *self;
        match kind {
            CONNECT => Some(Edit::Connect(name)),
            DISCONNECT => Some(Edit::Disconnect(name)),
            REMAP => Some(Edit::Remap { station: name, area, pdos: vec![first] }),
            MOVE => Some(Edit::Move { station: name, area, task }),
            _ => None,
        }
    }
}

/// A row of the table, and the edits of a round that it is of.
pub struct Case {
    pub name: &'static str,
    pub edits: Vec<usize>,
}

/// All groups but the first come into the line.
pub fn joining(groups: &[Group]) -> Vec<Asked> {
    groups[1..].iter().map(|declared| Asked::group(CONNECT, declared.alias)).collect()
}

/// The edits of a round on a line of so many slaves, and their rows.
pub fn round(slaves: usize) -> (Vec<Asked>, Vec<Case>) {
    let Places { empty, middle, hundred, fifty } = places(slaves);
    let group = |alias| [Asked::group(DISCONNECT, alias), Asked::group(CONNECT, alias)];
    let pairs: [(&'static [&'static str], [Asked; 2]); 10] = [
        (&["disconnect a slave without areas", "connect a slave without areas"], group(BARE)),
        (&["disconnect the last slave", "connect the last slave"], group(LAST)),
        (&["remap, other variables"], [Asked::remap(middle, OTHER), Asked::remap(middle, OWN)]),
        (&["move, an area without PDOs"], [Asked::carry(empty, 7, 0), Asked::carry(empty, 7, 7)]),
        (&["disconnect, ten slaves after it", "connect, ten slaves after it"], group(NEAR)),
        (&["remap, a byte wider and back"], [Asked::remap(hundred, WIDER), Asked::remap(hundred, OWN)]),
        (&["move, 49 slaves after it"], [Asked::carry(fifty, 0, 1), Asked::carry(fifty, 0, 0)]),
        (&["disconnect the first slave", "connect the first slave"], group(FIRST)),
        (&["remap, the first slave"], [Asked::remap(0, TWICE), Asked::remap(0, OWN)]),
        (&["move, the first slave"], [Asked::carry(0, 0, 1), Asked::carry(0, 0, 0)]),
    ];
    let (mut asked, mut cases) = (Vec::new(), Vec::new());
    for (names, pair) in pairs {
        let first = asked.len();
        asked.extend(pair);
        match names {
            [name] => cases.push(Case { name, edits: vec![first, first + 1] }),
            _ => cases.extend((first..).zip(names).map(|(edit, name)| Case { name, edits: vec![edit] })),
        }
    }
    (asked, cases)
}
