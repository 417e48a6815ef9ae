//! Why calls are refused.

use crate::Waits;
use std::error::Error;
use std::fmt;

/// What goes with a fault: a number, or why a task waits.
#[derive(Clone, Copy, Default)]
pub(crate) struct Detail {
    pub number: usize,
    pub waits: Waits,
}

impl From<Detail> for u8 {
    fn from(detail: Detail) -> u8 {
        detail.number as u8
    }
}

impl From<Detail> for usize {
    fn from(detail: Detail) -> usize {
        detail.number
    }
}

impl From<Detail> for Waits {
    fn from(detail: Detail) -> Waits {
        detail.waits
    }
}

/// Declares the faults: name, what goes with it, number, and text, as include/zangjulf.h has them.
macro_rules! faults {
    ($($name:ident $(($kind:ty))? = $number:literal, $text:literal;)*) => {
        /// Why a call is refused; nothing changed then. Numbers and texts are as in `include/zangjulf.h`.
        #[derive(Clone, Copy, Debug, PartialEq, Eq)]
        pub enum Fault {
            $(#[doc = $text] $name $(($kind))?,)*
        }

        impl Fault {
            /// The fault of a number, and what goes with it.
            pub(crate) fn of(number: u8, detail: Detail) -> Fault {
                match number {
                    $($number => Fault::$name $((<$kind>::from(detail)))?,)*
                    other => unreachable!("no call answers {other}"),
                }
            }

            /// Its number.
            pub fn number(self) -> u8 {
                match self {
                    $(Fault::$name { .. } => $number,)*
                }
            }

            /// Its name, as `NothingOwed`.
            pub fn name(self) -> &'static str {
                match self {
                    $(Fault::$name { .. } => stringify!($name),)*
                }
            }

            /// What it says.
            pub fn text(self) -> &'static str {
                match self {
                    $(Fault::$name { .. } => $text,)*
                }
            }
        }

        /// Each fault, with zeros for what goes with it.
        #[cfg(test)]
        fn all() -> Vec<Fault> {
            vec![$(Fault::$name $((<$kind>::default()))?,)*]
        }
    };
}

faults! {
    UnknownAlias = 1, "no declared group has the alias";
    AlreadyPresent = 2, "the group is in the line already";
    NotPresent = 3, "the group is not in the line";
    Mandatory = 4, "the mandatory group, alias 0, stays";
    UnknownStation = 5, "no declared slave has the station address";
    Absent = 6, "the slave's group is not in the line";
    NoSuchArea = 7, "the slave has no such area";
    NoSuchTask = 8, "tasks are 0 to 7";
    UnknownPdo = 9, "the area does not offer one of the PDOs";
    RepeatedPdo = 10, "a PDO is named twice";
    AreaTooBig = 11, "the area would have more bits than a datagram, 11,888";
    TooManyDatagrams(u8) = 12, "a task would need more than 16 datagrams";
    EpochsSpent = 13, "the epoch is the last one, 4,294,967,295";
    StalePost = 15, "the epoch is before the last edit that changed the task, or above the present one";
    PostLength = 16, "the post does not have as many bytes as the task has outputs";
    NothingOwed = 18, "no register block is owed";
    SerialsSpent = 19, "too few serials are left below 2^40 - 1";
    Short = 20, "the frame has fewer bytes than the shortest one";
    NotEtherCat = 21, "the frame's EtherType is not 0x88A4";
    BadType = 22, "the EtherCAT header has another type than 1";
    BadLength = 23, "the frame's lengths do not fit one another";
    Circulating = 24, "a datagram has come round a second time";
    MoreFollows = 25, "the last datagram says that another one follows";
    UnknownCommand = 26, "a datagram has a command that is not used";
    IndexMismatch = 27, "a datagram's index is not that of the frame's serial";
    Memory = 28, "out of memory";
    Room(usize) = 29, "a slice is too short";
    AliasTaken = 31, "a declared group has the alias";
    StationTaken = 32, "a declared slave has one of the station addresses";
    VariableTaken = 33, "a declared slave offers one of the variables";
    TooManyGroups = 34, "more than 512 groups would be declared, the mandatory one counted";
    TooManySlaves = 35, "more than 2,048 slaves would be declared";
    Waits(Waits) = 36, "a task waits: owed register blocks concern it, or a slave outside the line may map it";
    UnderWay = 37, "every owed register block is under way";
    Nothing = 100, "there is no such variable, datagram, slave or block";
    IsInput = 105, "the variable is an input: it takes no value";
    TooWide = 106, "the value needs more bits than there are";
    ProjectNotToml = 201, "the text is no TOML document in UTF-8";
    ProjectMissingField = 202, "a needed key is absent, or a value is of another kind";
    ProjectOutOfRange = 203, "a value is outside its range";
    ProjectRepeatedAlias = 204, "two groups have one alias";
    ProjectRepeatedStation = 205, "two slaves have one station address";
    ProjectRepeatedSyncManager = 206, "two areas of a slave have one sync manager";
    ProjectOverlappingAreas = 207, "two areas of a slave overlap in its memory";
    ProjectRepeatedVariable = 208, "a variable is named by two entries";
    ProjectUnknownPdo = 209, "an assigned PDO is not one offered PDO";
    ProjectAreaTooBig = 210, "an area has more bits than a datagram, 11,888";
    ProjectNotOneGroup = 212, "the text is a project, but not one group's";
    Busy = 253, "another call with the handle runs: nothing was done";
    Misused = 254, "an argument is outside its range, or the handle is not one for this call";
    Closed = 255, "the handle is closed";
}

impl fmt::Display for Fault {
    fn fmt(&self, out: &mut fmt::Formatter<'_>) -> fmt::Result {
        out.write_str(self.text())?;
        match self {
            Fault::TooManyDatagrams(task) => write!(out, " (task {task})"),
            Fault::Waits(Waits { task, blocks, outside, .. }) => {
                write!(out, " (task {task}: {blocks} blocks owed, {outside} FMMUs outside the line)")
            }
            Fault::Room(needed) if *needed > 0 => write!(out, " ({needed} bytes are needed)"),
            _ => Ok(()),
        }
    }
}

impl Error for Fault {}

#[cfg(test)]
mod tests {
    use super::{all, Detail, Fault};

    /// A name as the header writes it: NOT_TOML for NotToml.
    fn header_name(name: &str) -> String {
        let mut written = String::new();
        for letter in name.chars() {
            if letter.is_uppercase() && !written.is_empty() {
                written.push('_');
            }
            written.push(letter.to_ascii_uppercase());
        }
        written.replace("ETHER_CAT", "ETHERCAT")
    }

    #[test]
    fn faults_are_those_of_the_header() {
        let header = include_str!("../../../include/zangjulf.h");
        let answers: Vec<&str> = header.lines().filter_map(|line| line.trim().strip_prefix("ANSWER(")).collect();
        let is_listed = |fault: &Fault| {
            let line = format!("{}, {}, \"{}\")", header_name(fault.name()), fault.number(), fault.text());
            answers.iter().any(|answer| answer.starts_with(&line))
        };
        assert_eq!(all().iter().find(|fault| !is_listed(fault)), None);
        // all but one are faults
        assert_eq!(answers.len(), all().len() + 1);
        assert!(all().iter().all(|fault| Fault::of(fault.number(), Detail::default()) == *fault));
    }
}
