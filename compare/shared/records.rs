//! What a project declares, and the line that an engineer has of it: groups of slaves that come and go.

pub use super::project_text::Pdo;
use super::project_text::{AreaKeys, add_area, add_group, add_slave};

/// One direction of process data at one sync manager (ETG.1000.4, 6.7).
#[derive(Clone)]
pub struct Area {
    pub is_out: bool,
    pub sm: u8,
    pub phys: u16,
    pub task: u8,
    pub offered: Vec<Pdo>,
    pub assigned: Vec<u16>,
}

#[derive(Clone)]
pub struct Slave {
    pub station: u16,
    pub areas: Vec<Area>,
}

/// Slaves that come and go together; the first group, with alias 0, stays.
#[derive(Clone)]
pub struct Group {
    pub alias: u16,
    pub slaves: Vec<Slave>,
}

impl Area {
    /// The entries of the assigned PDOs, in assigned order.
    pub fn entries(&self) -> impl Iterator<Item = (u32, u8)> + '_ {
        let pdos = self.assigned.iter().flat_map(|index| self.offered.iter().filter(move |pdo| pdo.index == *index));
        pdos.flat_map(|pdo| pdo.entries.iter().copied())
    }

    /// The sum of their bits.
    pub fn width(&self) -> u32 {
        self.entries().map(|(_, bits)| u32::from(bits)).sum()
    }
}

impl Group {
    /// The variables that its areas offer.
    pub fn variables(&self) -> impl Iterator<Item = u32> + '_ {
        let pdos = self.slaves.iter().flat_map(|slave| &slave.areas).flat_map(|area| &area.offered);
        pdos.flat_map(|pdo| &pdo.entries).map(|(variable, _)| *variable).filter(|variable| *variable > 0)
    }
}

/// The project's text.
pub fn text_of(groups: &[Group]) -> String {
    let mut text = String::new();
    for Group { alias, slaves } in groups {
        add_group(&mut text, *alias);
        for Slave { station, areas } in slaves {
            add_slave(&mut text, *alias, *station);
            for Area { is_out, sm, phys, task, offered, assigned } in areas {
                let (is_out, sm, phys, task) = (*is_out, *sm, *phys, *task);
                add_area(&mut text, *alias, &AreaKeys { is_out, sm, phys, task, assigned, offered });
            }
        }
    }
    text
}

/// A declared group, and whether its slaves are there.
#[derive(Clone)]
pub struct Declared {
    pub group: Group,
    pub is_present: bool,
}

/// What edits change, and the epoch: how many were accepted.
#[derive(Clone)]
pub struct State {
    pub declared: Vec<Declared>,
    pub epoch: u32,
}

/// A slave of the line, with its rank among all declared slaves, present or not.
pub type Member<'a> = (usize, &'a Slave);

impl State {
    /// At the opening the mandatory group alone is there.
    pub fn opened(groups: &[Group]) -> State {
        let declare = |group: &Group| Declared { group: group.clone(), is_present: group.alias == 0 };
        State { declared: groups.iter().map(declare).collect(), epoch: 0 }
    }

    /// All declared slaves in declared order, and whether they are there.
    pub fn slaves(&self) -> impl Iterator<Item = (bool, &Slave)> {
        self.declared.iter().flat_map(|one| one.group.slaves.iter().map(|slave| (one.is_present, slave)))
    }

    /// The line: the slaves of the present groups, in declared order.
    pub fn line(&self) -> Vec<Member<'_>> {
        let ranked = self.slaves().enumerate();
        ranked.filter(|(_, (is_present, _))| *is_present).map(|(rank, (_, slave))| (rank, slave)).collect()
    }
}
