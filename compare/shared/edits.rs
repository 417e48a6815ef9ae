//! Edits of a line, and what refuses them.

use super::packing::{MOST_BITS, TASKS, over_limit_task};
use super::records::{Area, Declared, Group, Slave, State};

#[derive(Clone)]
pub enum Edit {
    Connect(u16),
    Disconnect(u16),
    Remap { station: u16, area: u8, pdos: Vec<u16> },
    Move { station: u16, area: u8, task: u8 },
    Declare(Group),
}

/// A refusal: its number and name, and what it carries.
#[derive(Clone, Copy, PartialEq, Debug)]
pub struct Refusal {
    pub number: usize,
    name: &'static str,
    carried: Option<usize>,
}

/// The names of refusals by their numbers; unreadable frames begin at 20. Posts and views have their own.
const NAMES: [&str; 36] = [
    "",
    "UnknownAlias",
    "AlreadyPresent",
    "NotPresent",
    "Mandatory",
    "UnknownStation",
    "Absent",
    "NoSuchArea",
    "NoSuchTask",
    "UnknownPdo",
    "RepeatedPdo",
    "AreaTooBig",
    "TooManyDatagrams",
    "EpochsSpent",
    "",
    "StalePost",
    "PostLength",
    "Unprogrammed",
    "NothingOwed",
    "SerialsSpent",
    "Short",
    "NotEtherCat",
    "BadType",
    "BadLength",
    "Circulating",
    "MoreFollows",
    "UnknownCommand",
    "IndexMismatch",
    "",
    "",
    "",
    "AliasTaken",
    "StationTaken",
    "VariableTaken",
    "TooManyGroups",
    "TooManySlaves",
];

/// The most groups, with the mandatory one, and the most slaves that can be declared.
const MOST_GROUPS: usize = 512;
const MOST_SLAVES: usize = 2048;

impl Refusal {
    pub fn named(number: usize, name: &'static str) -> Refusal {
        Refusal { number, name, carried: None }
    }

    pub fn of(number: usize) -> Refusal {
        Refusal::named(number, NAMES[number])
    }

    pub fn carrying(number: usize, carried: usize) -> Refusal {
        Refusal { carried: Some(carried), ..Refusal::of(number) }
    }

    pub fn line(&self) -> String {
        let carried = self.carried.map_or_else(String::new, |carried| format!(" {carried}"));
        format!("refused {} {}{carried}", self.number, self.name)
    }
}

/// What refuses to name a slave of the line.
pub fn naming_fault(state: &State, station: u16) -> Option<usize> {
    match state.slaves().find(|(_, slave)| slave.station == station) {
        None => Some(5),
        Some((false, _)) => Some(6),
        Some((true, _)) => None,
    }
}

/// The area of a slave that an edit names, where it has it.
fn area_of(state: &State, station: u16, area: u8) -> Option<&Area> {
    state.slaves().find(|(_, slave)| slave.station == station).and_then(|(_, slave)| slave.areas.get(usize::from(area)))
}

fn with_pdos(area: &Area, pdos: &[u16]) -> Area {
    Area { assigned: pdos.to_vec(), ..area.clone() }
}

/// Whether two groups have a variable in common.
fn share_variable(one: &Group, other: &Group) -> bool {
    let theirs: Vec<u32> = other.variables().collect();
    one.variables().any(|variable| theirs.contains(&variable))
}

/// The numbers of all faults that a group has beside those that are declared.
fn declaring_faults(state: &State, group: &Group) -> Vec<usize> {
    let others: Vec<&Group> = state.declared.iter().map(|one| &one.group).collect();
    let is_taken = |slave: &Slave| state.slaves().any(|(_, other)| other.station == slave.station);
    let conditions = [
        (31, others.iter().any(|other| other.alias == group.alias)),
        (32, group.slaves.iter().any(is_taken)),
        (33, others.iter().any(|other| share_variable(other, group))),
        (34, others.len() + 1 > MOST_GROUPS),
        (35, state.slaves().count() + group.slaves.len() > MOST_SLAVES),
    ];
    conditions.into_iter().filter(|(_, holds)| *holds).map(|(number, _)| number).collect()
}

/// The numbers of all faults that an edit has by itself.
fn own_faults(state: &State, edit: &Edit) -> Vec<usize> {
    let presence = |alias: &u16| state.declared.iter().find(|one| one.group.alias == *alias).map(|one| one.is_present);
    let mut faults = Vec::new();
    match edit {
        Edit::Connect(alias) => match presence(alias) {
            None => faults.push(1),
            Some(true) => faults.push(2),
            Some(false) => {}
        },
        Edit::Disconnect(alias) => {
            match presence(alias) {
                None => faults.push(1),
                Some(false) => faults.push(3),
                Some(true) => {}
            }
            if *alias == 0 {
                faults.push(4);
            }
        }
        Edit::Remap { station, area, pdos } => {
            faults.extend(naming_fault(state, *station));
            match area_of(state, *station, *area) {
                None => faults.push(7),
                Some(area) => {
                    if pdos.iter().any(|index| area.offered.iter().all(|pdo| pdo.index != *index)) {
                        faults.push(9);
                    }
                    if pdos.iter().enumerate().any(|(place, index)| pdos[..place].contains(index)) {
                        faults.push(10);
                    }
                    if with_pdos(area, pdos).width() > MOST_BITS {
                        faults.push(11);
                    }
                }
            }
        }
        Edit::Move { station, area, task } => {
            faults.extend(naming_fault(state, *station));
            if area_of(state, *station, *area).is_none() {
                faults.push(7);
            }
            if *task >= TASKS {
                faults.push(8);
            }
        }
        Edit::Declare(group) => faults = declaring_faults(state, group),
    }
    faults
}

/// What an edit makes of the groups, where it can be carried out.
fn changed(state: &State, edit: &Edit) -> State {
    let mut new = State { declared: state.declared.clone(), epoch: state.epoch + 1 };
    if let Edit::Declare(group) = edit {
        new.declared.push(Declared { group: group.clone(), is_present: false });
    }
    for declared in &mut new.declared {
        match edit {
            Edit::Connect(alias) if declared.group.alias == *alias => declared.is_present = true,
            Edit::Disconnect(alias) if declared.group.alias == *alias => declared.is_present = false,
            _ => {}
        }
        for slave in &mut declared.group.slaves {
            match edit {
                Edit::Remap { station, area, pdos } if slave.station == *station => {
                    slave.areas[usize::from(*area)].assigned.clone_from(pdos);
                }
                Edit::Move { station, area, task } if slave.station == *station => {
                    slave.areas[usize::from(*area)].task = *task;
                }
                _ => {}
            }
        }
    }
    new
}

/// The state after an edit, or the lowest refusal whose condition holds.
pub fn edited(state: &State, edit: &Edit) -> Result<State, Refusal> {
    if let Some(number) = own_faults(state, edit).into_iter().min() {
        return Err(Refusal::of(number));
    }
    let new = changed(state, edit);
    match over_limit_task(&new.line()) {
        Some(task) => Err(Refusal::carrying(12, task.into())),
        None => Ok(new),
    }
}
