//! Projects and edits of them, drawn.

use super::draws::Draws;
use super::edits::Edit;
use super::packing::{MOST_BITS, TASKS};
use super::records::{Area, Group, Pdo, Slave, State};
use std::collections::BTreeSet;

/// What widths areas can have.
#[derive(Clone, Copy)]
pub enum Widths {
    /// None, some bits, some bytes; of a hundred PDOs so many have hundreds of bytes.
    Mixed(usize),
    /// Two areas just fill a datagram, and two datagrams with an area each a frame, or they are a byte off.
    Brimming,
}

/// What projects are drawn like.
#[derive(Clone, Copy)]
pub struct Shape {
    pub slaves: usize,
    /// Beside the mandatory one.
    pub groups: usize,
    /// The most areas of a slave.
    pub areas: usize,
    /// The tasks that areas are in, from 0 on, but for some that edits move elsewhere.
    pub tasks: usize,
    pub widths: Widths,
}

/// The first byte of a slave's process memory, and the first one after it.
pub const MEMORY: (usize, usize) = (0x1000, 0x3000);

/// The bits of a PDO of 512 bytes, of four that make 736 to 738 and 743 bytes with it, and of two small ones: two
/// datagrams of 737 bytes fill a frame, and two areas of 743 bytes a datagram.
const BRIMMING: [usize; 7] = [4096, 8 * 224, 8 * 225, 8 * 226, 8 * 231, 8, 1];

/// The bits that an area offers, as far as it can have them assigned at once.
pub fn reach_of(offered: &[Pdo]) -> usize {
    let bits: usize = offered.iter().flat_map(|pdo| &pdo.entries).map(|(_, bits)| usize::from(*bits)).sum();
    bits.min(MOST_BITS as usize).div_ceil(8)
}

/// Names are drawn from all that there can be, and each is given once.
struct Maker<'a> {
    draws: &'a mut Draws,
    shape: Shape,
    stations: BTreeSet<usize>,
    aliases: BTreeSet<usize>,
    variables: BTreeSet<usize>,
}

/// A number from 1 to `most` that wasn't drawn before.
fn unused(draws: &mut Draws, drawn: &mut BTreeSet<usize>, most: usize) -> usize {
    loop {
        let number = draws.between(1, most);
        if drawn.insert(number) {
            return number;
        }
    }
}

impl Maker<'_> {
    /// Each eighth entry is a gap. Variables are drawn from low numbers and from high ones.
    fn entry(&mut self, bits: usize) -> (u32, u8) {
        if self.draws.is(12) {
            return (0, bits as u8);
        }
        let most = if self.draws.is(50) { 0x000f_ffff } else { 0x7fff_ffff };
        let number = unused(self.draws, &mut self.variables, most);
        let variable = if number > 0x000f_ffff && number % 2 == 1 { number + 0x8000_0000 } else { number };
        (variable as u32, bits as u8)
    }

    /// Entries of so many bits together, each of at most `most` bits; there are at most 64.
    fn entries(&mut self, mut bits: usize, most: usize) -> Vec<(u32, u8)> {
        let mut entries = Vec::new();
        while bits > 0 {
            let least = bits.div_ceil(64 - entries.len());
            let own = self.draws.between(least, most.max(least)).min(bits);
            entries.push(self.entry(own));
            bits -= own;
        }
        entries
    }

    fn pdo_entries(&mut self, wide: usize) -> Vec<(u32, u8)> {
        if self.draws.is(wide) {
            let (bits, count) = (self.draws.between(40, 64), self.draws.between(24, 64));
            return (0..count).map(|_| self.entry(bits)).collect();
        }
        match self.draws.below(10) {
            0 => Vec::new(),
            1..=3 => {
                let bits = self.draws.between(1, 7);
                self.entries(bits, 3)
            }
            4 | 5 => self.entries(8, 8),
            6 => {
                let bytes = self.draws.between(1, 12);
                self.entries(8 * bytes, 64)
            }
            _ => {
                let bits = self.draws.between(9, 200);
                self.entries(bits, 64)
            }
        }
    }

    /// The entries of the PDOs of an area. Some areas offer more than they can have assigned at once.
    fn offered_entries(&mut self) -> Vec<Vec<(u32, u8)>> {
        match self.shape.widths {
            Widths::Mixed(wide) if self.draws.is(wide / 3) => (0..4).map(|_| self.entries(4096, 64)).collect(),
            Widths::Mixed(wide) => {
                let count = self.draws.below(7);
                (0..count).map(|_| self.pdo_entries(wide)).collect()
            }
            Widths::Brimming if self.draws.is(35) => [1, 7].map(|bits| self.entries(bits, 64)).into(),
            Widths::Brimming => BRIMMING.map(|bits| self.entries(bits, 64)).into(),
        }
    }

    /// The PDOs of an area, each with an index of its own.
    fn offered(&mut self) -> Vec<Pdo> {
        let mut indexes = BTreeSet::new();
        let entries = self.offered_entries();
        let mut pdo = |entries| Pdo { index: (unused(self.draws, &mut indexes, 0x1_0000) - 1) as u16, entries };
        entries.into_iter().map(&mut pdo).collect()
    }

    /// Some of the PDOs in any order, as many as an area holds.
    fn assigned(&mut self, area: &Area) -> Vec<u16> {
        let mut assigned = some_pdos(self.draws, &area.offered, self.shape, 70);
        while (Area { assigned: assigned.clone(), ..area.clone() }).width() > MOST_BITS {
            assigned.pop();
        }
        assigned
    }

    /// The areas follow one another in the slave's memory, with gaps between some; what has no room there isn't
    /// offered.
    fn areas(&mut self) -> Vec<Area> {
        let mut managers: Vec<u8> = (0..16).collect();
        self.draws.shuffle(&mut managers);
        let is_bare = self.shape.slaves > 1 && self.draws.is(8);
        let count = if is_bare { 0 } else { self.draws.between(1, self.shape.areas) };
        let mut phys = MEMORY.0;
        let mut areas = Vec::new();
        for sm in managers.into_iter().take(count) {
            let mut offered = self.offered();
            while phys + reach_of(&offered) > MEMORY.1 {
                offered.pop();
            }
            let (is_out, task) = (self.draws.is(50), self.draws.below(self.shape.tasks) as u8);
            let mut area =
                Area { is_out, sm, phys: phys.min(MEMORY.1 - 1) as u16, task, offered, assigned: Vec::new() };
            area.assigned = self.assigned(&area);
            phys += reach_of(&area.offered) + if self.draws.is(30) { self.draws.below(40) } else { 0 };
            phys = phys.min(MEMORY.1);
            areas.push(area);
        }
        areas
    }

    fn slave(&mut self) -> Slave {
        let station = unused(self.draws, &mut self.stations, 0xffff) as u16;
        Slave { station, areas: self.areas() }
    }

    fn group(&mut self, is_mandatory: bool, slaves: usize) -> Group {
        let alias = if is_mandatory { 0 } else { unused(self.draws, &mut self.aliases, 0xffff) as u16 };
        Group { alias, slaves: (0..slaves).map(|_| self.slave()).collect() }
    }
}

/// A project: about a third of its slaves are mandatory, the others are shared out among its groups.
pub fn project(draws: &mut Draws, shape: Shape) -> Vec<Group> {
    let mandatory = if shape.groups == 0 { shape.slaves } else { shape.slaves / 3 };
    let mut sizes = vec![1; shape.groups];
    for _ in mandatory + shape.groups..shape.slaves {
        *sizes.get_mut(draws.below(shape.groups)).expect("a group") += 1;
    }
    let names = BTreeSet::new;
    let mut maker = Maker { draws, shape, stations: names(), aliases: names(), variables: names() };
    let mut groups = vec![maker.group(true, mandatory)];
    groups.extend(sizes.iter().map(|slaves| maker.group(false, *slaves)));
    groups
}

/// The number that a variable was drawn as.
fn drawn_as(variable: u32) -> usize {
    (variable & 0x7fff_ffff) as usize
}

/// A group of one to three slaves, beside a state's groups. At times a name of it is taken.
pub fn new_group(draws: &mut Draws, state: &State, shape: Shape) -> Group {
    let declared = || state.declared.iter().map(|one| &one.group);
    let stations = state.slaves().map(|(_, slave)| usize::from(slave.station)).collect();
    let aliases = declared().map(|group| usize::from(group.alias)).collect();
    let variables = declared().flat_map(Group::variables).map(drawn_as).collect();
    let count = draws.between(1, 3);
    let mut group = Maker { draws, shape, stations, aliases, variables }.group(false, count);
    take_a_name(draws, state, &mut group);
    group
}

/// Gives a group an alias, a station address or a variable that is declared, in some of a hundred draws.
fn take_a_name(draws: &mut Draws, state: &State, group: &mut Group) {
    let other = draws.one_of(&state.declared).group.clone();
    if draws.is(5) && other.alias > 0 {
        group.alias = other.alias;
    }
    if draws.is(5) && !other.slaves.is_empty() {
        group.slaves[0].station = draws.one_of(&other.slaves).station;
    }
    let taken: Vec<u32> = other.variables().collect();
    if draws.is(8) && !taken.is_empty() {
        let pdos = group.slaves.iter_mut().flat_map(|slave| &mut slave.areas).flat_map(|area| &mut area.offered);
        if let Some((variable, _)) = pdos.flat_map(|pdo| &mut pdo.entries).next() {
            *variable = *draws.one_of(&taken);
        }
    }
}

/// A group comes or goes: mostly one that can, and more come than go.
fn coming_or_going(draws: &mut Draws, state: &State) -> Edit {
    let alias = if draws.is(8) { draws.below(0x1_0000) as u16 } else { draws.one_of(&state.declared).group.alias };
    let absent: Vec<u16> = state.declared.iter().filter(|one| !one.is_present).map(|one| one.group.alias).collect();
    let is_present = state.declared.iter().any(|one| one.is_present && one.group.alias == alias);
    if !absent.is_empty() && draws.is(30) {
        return Edit::Connect(*draws.one_of(&absent));
    }
    if is_present != draws.is(12) { Edit::Disconnect(alias) } else { Edit::Connect(alias) }
}

/// A slave's station address and an area of it, mostly of a slave of the line that has the area.
fn named_area(draws: &mut Draws, state: &State) -> (u16, u8, Option<Area>) {
    let is_of_line = draws.is(94);
    let is_bare = draws.is(2);
    let of_interest = |slave: &Slave| slave.areas.is_empty() == is_bare;
    let slaves = state.slaves().filter(|(is_present, slave)| (*is_present || !is_of_line) && of_interest(slave));
    let slaves: Vec<&Slave> = slaves.map(|(_, slave)| slave).collect();
    if slaves.is_empty() || draws.is(3) {
        return (draws.below(0x1_0000) as u16, draws.below(9) as u8, None);
    }
    let slave = draws.one_of(&slaves);
    let is_inside = !slave.areas.is_empty() && draws.is(96);
    let number = if is_inside { draws.below(slave.areas.len()) } else { slave.areas.len() + draws.below(9) };
    (slave.station, number as u8, slave.areas.get(number).cloned())
}

/// Some of the PDOs that an area offers, in any order: so many of a hundred, or those that it brims with.
fn some_pdos(draws: &mut Draws, offered: &[Pdo], shape: Shape, share: usize) -> Vec<u16> {
    let mut pdos: Vec<u16> = match (shape.widths, offered) {
        (Widths::Brimming, [first, others @ ..]) if others.len() > 1 && draws.is(85) => {
            vec![first.index, draws.one_of(others).index]
        }
        _ => offered.iter().map(|pdo| pdo.index).filter(|_| draws.is(share)).collect(),
    };
    draws.shuffle(&mut pdos);
    pdos
}

/// Some or all of the PDOs that an area offers, in any order; at times one that it doesn't, or one twice.
fn drawn_pdos(draws: &mut Draws, area: Option<&Area>, shape: Shape) -> Vec<u16> {
    let share = if draws.is(15) { 100 } else { 60 };
    let offered: Vec<Pdo> = area.map_or_else(Vec::new, |area| area.offered.clone());
    let mut pdos = some_pdos(draws, &offered, shape, share);
    if draws.is(6) {
        pdos.push(draws.below(0x1_0000) as u16);
    }
    if draws.is(4) && !offered.is_empty() {
        let again = draws.one_of(&offered).index;
        pdos.extend([again, again]);
    }
    if draws.is(1) {
        pdos.extend((0..40).map(|_| draws.below(0x1_0000) as u16));
    }
    draws.shuffle(&mut pdos);
    pdos
}

/// An edit of a state: mostly one that can be carried out.
pub fn edit(draws: &mut Draws, state: &State, shape: Shape) -> Edit {
    match draws.below(10) {
        0..=3 => coming_or_going(draws, state),
        4..=6 => {
            let (station, area, own) = named_area(draws, state);
            Edit::Remap { station, area, pdos: drawn_pdos(draws, own.as_ref(), shape) }
        }
        _ => {
            let (station, area, _) = named_area(draws, state);
            let task = match draws.below(20) {
                0 => usize::from(TASKS) + draws.below(248),
                1 => draws.below(TASKS.into()),
                _ => draws.below(shape.tasks),
            };
            Edit::Move { station, area, task: task as u8 }
        }
    }
}
