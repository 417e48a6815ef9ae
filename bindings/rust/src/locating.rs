//! Where a text is no project.

use crate::{ffi, Fault};
use std::fmt;

/// What a place of a project's text names.
#[derive(Clone, Copy, Debug, PartialEq, Eq)]
pub enum Key {
    /// The table itself.
    Whole,
    /// The array `group` of the document.
    Groups,
    /// `alias` of a group.
    Alias,
    /// The array `slave` of the document or of a group.
    Slaves,
    /// `station` of a slave.
    Station,
    /// The array `area` of a slave.
    Areas,
    /// `sm` of an area.
    Sm,
    /// `dir` of an area.
    Dir,
    /// `phys` of an area.
    Phys,
    /// `task` of an area.
    Task,
    /// The array `assigned` of an area.
    Assigned,
    /// An item of it.
    AssignedAt,
    /// The array `pdo` of an area.
    Pdos,
    /// `index` of a PDO.
    Index,
    /// The array `entries` of a PDO.
    Entries,
    /// An item of it.
    Entry,
    /// The variable of that entry.
    Variable,
    /// The bits of that entry.
    Bits,
}

/// The keys by their numbers, each with its word.
const KEYS: [(Key, &str); 18] = [
    (Key::Whole, "the table"),
    (Key::Groups, "group"),
    (Key::Alias, "alias"),
    (Key::Slaves, "slave"),
    (Key::Station, "station"),
    (Key::Areas, "area"),
    (Key::Sm, "sm"),
    (Key::Dir, "dir"),
    (Key::Phys, "phys"),
    (Key::Task, "task"),
    (Key::Assigned, "assigned"),
    (Key::AssignedAt, "assigned"),
    (Key::Pdos, "pdo"),
    (Key::Index, "index"),
    (Key::Entries, "entries"),
    (Key::Entry, "entries"),
    (Key::Variable, "variable"),
    (Key::Bits, "bits"),
];

/// A place of a project's text. Indexes count from 0 in the order of the text.
#[derive(Clone, Copy, Debug, PartialEq, Eq)]
pub struct Spot {
    /// The group, counted from 1; 0 is the top of the document.
    pub group: usize,
    /// The slave in its array.
    pub slave: Option<usize>,
    /// The area of the slave.
    pub area: Option<usize>,
    /// The PDO that the area offers.
    pub pdo: Option<usize>,
    /// The item of the array that the key means.
    pub item: Option<usize>,
    /// The group's alias, 0 at the top and where it can't be read.
    pub alias: u16,
    /// The slave's station address, 0 where the place lies in no slave and where it can't be read.
    pub station: u16,
    /// What the place names there.
    pub key: Key,
}

impl From<&ffi::Spot> for Spot {
    fn from(it: &ffi::Spot) -> Spot {
        let index = |number: usize| (number != usize::MAX).then_some(number);
        Spot {
            group: it.group,
            slave: index(it.slave),
            area: index(it.area),
            pdo: index(it.pdo),
            item: index(it.item),
            alias: it.alias,
            station: it.station,
            key: KEYS.get(usize::from(it.key)).map_or(Key::Whole, |(key, _)| *key),
        }
    }
}

impl fmt::Display for Spot {
    fn fmt(&self, out: &mut fmt::Formatter<'_>) -> fmt::Result {
        if self.group > 0 {
            write!(out, "group {} (alias {}), ", self.group, self.alias)?;
        }
        if let Some(slave) = self.slave {
            write!(out, "slave {slave} (station {}), ", self.station)?;
        }
        for (name, index) in [("area", self.area), ("pdo", self.pdo), ("item", self.item)] {
            if let Some(index) = index {
                write!(out, "{name} {index}, ")?;
            }
        }
        let word = KEYS.iter().find(|(key, _)| *key == self.key).map_or("", |(_, word)| word);
        out.write_str(word)
    }
}

/// Where a text is no project.
#[derive(Clone, Copy, Debug, PartialEq, Eq)]
pub enum Location {
    /// In the text of a document: line and column in characters, from 1.
    Text {
        /// The line.
        line: usize,
        /// The column.
        column: usize,
    },
    /// In the document: the first place where the fault's condition holds, and, of two things that exclude one another,
    /// the earlier one.
    Places {
        /// The first place where it holds.
        place: Spot,
        /// The earlier of two; else the same place.
        first: Spot,
    },
}

impl fmt::Display for Location {
    fn fmt(&self, out: &mut fmt::Formatter<'_>) -> fmt::Result {
        match self {
            Location::Text { line, column } => write!(out, "line {line}, column {column}"),
            Location::Places { place, first } if place == first => write!(out, "{place}"),
            Location::Places { place, first } => write!(out, "{place}; earlier: {first}"),
        }
    }
}

/// Why a text is no project, and where; none where it is one. `Memory`.
///
/// ```
/// use zangjulf::{locate, Fault};
/// # fn main() -> Result<(), Box<dyn std::error::Error>> {
/// let (fault, location) = locate(b"\n[[slave")?.expect("a bracket is missing");
/// assert_eq!(fault, Fault::ProjectNotToml);
/// assert!(location.to_string().starts_with("line 2, column "));
///
/// let (fault, location) = locate(b"[[slave]]\nstation = 1001\n[[slave]]\nstation = 1001\n")?.expect("one station twice");
/// assert_eq!(fault, Fault::ProjectRepeatedStation);
/// assert_eq!(location.to_string(), "slave 1 (station 1001), station; earlier: slave 0 (station 1001), station");
///
/// assert_eq!(locate(include_bytes!("../../../examples/tool_changer.toml"))?, None);
/// # Ok(())
/// # }
/// ```
pub fn locate(text: &[u8]) -> Result<Option<(Fault, Location)>, Fault> {
    let mut it = ffi::Location::default();
    match unsafe { ffi::zangjulf_locate(text.as_ptr(), text.len(), &mut it) } {
        0 => Ok(None),
        28 => Err(Fault::Memory),
        201 => Ok(Some((Fault::ProjectNotToml, Location::Text { line: it.line, column: it.column }))),
        number => {
            let location = Location::Places { place: Spot::from(&it.place), first: Spot::from(&it.first) };
            Ok(Some((Fault::of(number, crate::faults::Detail::default()), location)))
        }
    }
}
