//! Documents that declare a group, drawn, and the faults of documents that declare none.

use super::draws::Draws;
use super::edits::Edit;
use super::packing::{MOST_BITS, TASKS};
use super::printed::edit_words;
use super::projects::{MEMORY, Shape, edit, new_group, reach_of};
use super::records::{Area, Group, Pdo, Slave, State, text_of};
use super::scripts::Script;

/// The names of a project's faults by their numbers.
const NAMES: [&str; 13] = [
    "",
    "NotToml",
    "MissingField",
    "OutOfRange",
    "RepeatedAlias",
    "RepeatedStation",
    "RepeatedSyncManager",
    "OverlappingAreas",
    "RepeatedVariable",
    "UnknownPdo",
    "AreaTooBig",
    "",
    "NotOneGroup",
];

/// The numbers of the faults that a document can have.
pub const FAULTS: [usize; 11] = [1, 2, 3, 4, 5, 6, 7, 8, 9, 10, 12];

/// A document, and the group that it declares, or the number of its lowest fault.
pub struct Document {
    text: String,
    group: Result<Group, usize>,
}

/// An edit that is spelt by words, or a document.
pub enum Drawn {
    Words(Edit),
    Document(Document),
}

impl Drawn {
    /// The edit that it asks for, or its document's fault.
    pub fn edit(&self) -> Result<Edit, usize> {
        match self {
            Drawn::Words(edit) => Ok(edit.clone()),
            Drawn::Document(Document { group, .. }) => group.clone().map(Edit::Declare),
        }
    }

    /// Adds it to a script, with its answer.
    pub fn add(&self, script: &mut Script, answer: String) {
        match self {
            Drawn::Words(edit) => {
                let (name, numbers) = edit_words(edit);
                script.add(name, &numbers, vec![answer]);
            }
            Drawn::Document(Document { text, .. }) => script.add_declaration(text, vec![answer]),
        }
    }
}

/// The line that prints a document's fault.
pub fn fault_line(number: usize) -> String {
    format!("declare fault {number} {}", NAMES[number])
}

/// Whether something is twice in a list.
fn repeats<T: PartialEq>(list: &[T]) -> bool {
    list.iter().enumerate().any(|(place, one)| list[..place].contains(one))
}

/// Whether a number of an area is outside its range.
fn is_outside(area: &Area) -> bool {
    let Area { sm, phys, task, offered, assigned, .. } = area;
    let (phys, entries) = (usize::from(*phys), offered.iter().flat_map(|pdo| &pdo.entries));
    *sm > 15
        || *task >= TASKS
        || !(MEMORY.0..MEMORY.1).contains(&phys)
        || phys + reach_of(offered) > MEMORY.1
        || assigned.len() > 32
        || offered.len() > 32
        || offered.iter().any(|pdo| pdo.entries.len() > 64)
        || entries.into_iter().any(|(_, bits)| !(1..=64).contains(bits))
}

/// Whether the reaches of two areas meet.
fn meet(one: &Area, other: &Area) -> bool {
    let range = |area: &Area| usize::from(area.phys)..usize::from(area.phys) + reach_of(&area.offered);
    let (one, other) = (range(one), range(other));
    !one.is_empty() && !other.is_empty() && one.start < other.end && other.start < one.end
}

/// Whether an assigned PDO isn't offered, or one is assigned or offered twice.
fn is_unknown(area: &Area) -> bool {
    let offered: Vec<u16> = area.offered.iter().map(|pdo| pdo.index).collect();
    area.assigned.iter().any(|index| !offered.contains(index)) || repeats(&area.assigned) || repeats(&offered)
}

/// The numbers of all faults from 3 on that groups have as a document; the mandatory group comes first.
fn faults_of(groups: &[Group]) -> Vec<usize> {
    let slaves: Vec<&Slave> = groups.iter().flat_map(|group| &group.slaves).collect();
    let areas: Vec<&Area> = slaves.iter().flat_map(|slave| &slave.areas).collect();
    let of_slaves = |holds: fn(&[Area]) -> bool| slaves.iter().any(|slave| holds(&slave.areas));
    let pairs_meet = |areas: &[Area]| {
        areas.iter().enumerate().any(|(place, area)| areas[..place].iter().any(|other| meet(other, area)))
    };
    let aliases: Vec<u16> = groups.iter().map(|group| group.alias).collect();
    let stations: Vec<u16> = slaves.iter().map(|slave| slave.station).collect();
    let entries = areas.iter().flat_map(|area| &area.offered).flat_map(|pdo| &pdo.entries);
    let variables: Vec<u32> = entries.map(|(variable, _)| *variable).filter(|variable| *variable > 0).collect();
    let conditions = [
        (3, stations.contains(&0) || of_slaves(|areas| areas.len() > 8) || areas.iter().any(|area| is_outside(area))),
        (4, repeats(&aliases)),
        (5, repeats(&stations)),
        (6, of_slaves(|areas| repeats(&areas.iter().map(|area| area.sm).collect::<Vec<u8>>()))),
        (7, slaves.iter().any(|slave| pairs_meet(&slave.areas))),
        (8, repeats(&variables)),
        (9, areas.iter().any(|area| is_unknown(area))),
        (10, areas.iter().any(|area| area.width() > MOST_BITS)),
        (12, groups.len() != 2 || !groups[0].slaves.is_empty()),
    ];
    conditions.into_iter().filter(|(_, holds)| *holds).map(|(number, _)| number).collect()
}

/// The group that groups declare as a document, or the number of its lowest fault from 3 on.
pub fn declared(groups: &[Group]) -> Result<Group, usize> {
    let lowest = faults_of(groups).into_iter().min();
    lowest.map_or_else(|| Ok(groups.last().expect("a group").clone()), Err)
}

fn drawn_slave<'a>(draws: &mut Draws, groups: &'a mut [Group]) -> Option<&'a mut Slave> {
    let group = groups.last_mut()?;
    let place = draws.below(group.slaves.len().max(1));
    group.slaves.get_mut(place)
}

fn drawn_area<'a>(draws: &mut Draws, groups: &'a mut [Group]) -> Option<&'a mut Area> {
    let slave = drawn_slave(draws, groups)?;
    let place = draws.below(slave.areas.len().max(1));
    slave.areas.get_mut(place)
}

/// Moves a number of a slave or an area outside its range.
fn leave_range(draws: &mut Draws, groups: &mut [Group]) -> Option<()> {
    if draws.is(20) {
        drawn_slave(draws, groups)?.station = 0;
        return Some(());
    }
    let which = draws.below(6);
    let area = drawn_area(draws, groups)?;
    match which {
        0 => area.sm = 16,
        1 => area.task = TASKS,
        2 => area.phys = (MEMORY.0 - 1) as u16,
        3 => area.phys = MEMORY.1 as u16,
        4 => area.offered.push(Pdo { index: 0, entries: vec![(0, 65)] }),
        _ => area.offered.push(Pdo { index: 0, entries: vec![(0, 0)] }),
    }
    Some(())
}

/// Widens an area, so that what it has assigned is wider than a datagram holds.
fn widen(area: &mut Area) {
    let wide = |index| Pdo { index, entries: vec![(0, 64); 64] };
    area.offered = (0..3).map(wide).collect();
    area.assigned = vec![2, 0, 1];
    area.phys = MEMORY.0 as u16;
}

/// Spoils what a document declares in one place, where it has such a place. The change may be one that leaves it good.
fn spoil(draws: &mut Draws, groups: &mut Vec<Group>) -> Option<()> {
    let other = Slave { station: draws.between(1, 0xffff) as u16, areas: Vec::new() };
    match draws.below(11) {
        0 => leave_range(draws, groups)?,
        1 => {
            let alias = groups.iter().map(|group| group.alias).find(|alias| *alias > 0)?;
            groups.push(Group { alias, slaves: vec![other] });
        }
        2 => {
            let slave = drawn_slave(draws, groups)?.clone();
            groups.last_mut()?.slaves.push(Slave { areas: Vec::new(), ..slave });
        }
        3 => {
            let slave = drawn_slave(draws, groups)?;
            let sm = slave.areas.first()?.sm;
            slave.areas.last_mut()?.sm = sm;
        }
        4 => {
            let slave = drawn_slave(draws, groups)?;
            let phys = slave.areas.first()?.phys;
            slave.areas.last_mut()?.phys = phys;
        }
        5 => {
            let area = drawn_area(draws, groups)?;
            let again = area.offered.iter().flat_map(|pdo| &pdo.entries).next().copied()?;
            area.offered.last_mut()?.entries.push(again);
        }
        6 => drawn_area(draws, groups)?.assigned.push(draws.below(0x1_0000) as u16),
        7 => widen(drawn_area(draws, groups)?),
        8 => groups.first_mut()?.slaves.push(other),
        9 => groups.truncate(1),
        _ => groups.push(Group { alias: draws.between(1, 0xffff) as u16, slaves: vec![other] }),
    }
    Some(())
}

/// Spoils a text: with a line that is none of TOML's, without a needed key, or with a key of another kind.
fn spoil_text(draws: &mut Draws, text: &str) -> Option<(String, usize)> {
    let mut lines: Vec<String> = text.lines().map(str::to_string).collect();
    if draws.is(40) {
        lines.insert(draws.below(lines.len() + 1), "?".to_string());
        return Some((lines.join("\n") + "\n", 1));
    }
    let needed = |line: &String| !line.starts_with('[') && !line.starts_with("pdo");
    let keys: Vec<usize> = (0..lines.len()).filter(|place| needed(&lines[*place])).collect();
    if keys.is_empty() {
        return None;
    }
    let place = *draws.one_of(&keys);
    if draws.is(50) {
        lines.remove(place);
    } else {
        let key = lines[place].split(' ').next()?.to_string();
        lines[place] = format!("{key} = 1.5");
    }
    Some((lines.join("\n") + "\n", 2))
}

/// A document beside what a state declares: mostly one that can be carried out.
fn document(draws: &mut Draws, state: &State, shape: Shape) -> Document {
    let mandatory = Group { alias: 0, slaves: Vec::new() };
    let mut groups = vec![mandatory, new_group(draws, state, shape)];
    if draws.is(35) {
        for _ in 0..draws.between(1, 2) {
            // what isn't there to be spoilt stays as it is
            spoil(draws, &mut groups);
        }
    }
    let (text, declared) = (text_of(&groups), declared(&groups));
    let spoilt = if draws.is(6) { spoil_text(draws, &text) } else { None };
    let (text, group) = spoilt.map_or((text, declared), |(text, number)| (text, Err(number)));
    Document { text: if draws.is(15) { text.replace('\n', "\r\n") } else { text }, group }
}

/// An edit of a state, mostly one that can be carried out; so many in a hundred are declarations.
pub fn drawn_edit(draws: &mut Draws, state: &State, shape: Shape, declarations: usize) -> Drawn {
    if draws.is(declarations) {
        return Drawn::Document(document(draws, state, shape));
    }
    Drawn::Words(edit(draws, state, shape))
}
