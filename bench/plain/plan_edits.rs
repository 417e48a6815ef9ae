//! The four edits, and their reports.

use super::repair::{INPUT, Key};
use super::{AREAS, Change, Edit, Fault, Location, Pdo, Plan, Report, Row, TASKS, Table, Task, each_row, pdo_of, rows};
use std::mem::take;
use std::ops::Range;

const MOST_BITS: usize = 11_888;

/// The areas whose variables an edit asks about itself; of all others only the moved ones are reported.
enum Named {
    None,
    Gone(Range<usize>),
    /// An area and its rows before the edit.
    Remapped(usize, Vec<Row>),
}

/// What the repairs of the touched tasks come to.
struct Packed {
    recut: u32,
    tasks: Vec<(u8, Table)>,
}

/// The key of an area, or the key after all areas of a direction.
fn key_of(location: usize, is_input: bool) -> Key {
    location as Key + if is_input { INPUT } else { 0 }
}

/// The places of the bits that are set, the lowest first.
fn ones(bits: u16) -> impl Iterator<Item = usize> {
    let mut left = bits;
    std::iter::from_fn(move || {
        let lowest = left.trailing_zeros();
        left &= left.checked_sub(1)?;
        Some(lowest as usize)
    })
}

/// The lowest fault of PDOs that an area is to get.
fn pdos_fault(offered: &[Pdo], pdos: &[u16]) -> Option<Fault> {
    if pdos.iter().any(|index| pdo_of(offered, *index).is_none()) {
        return Some((9, 0));
    }
    if (1..pdos.len()).any(|place| pdos[..place].contains(&pdos[place])) {
        return Some((10, 0));
    }
    let entries = pdos.iter().filter_map(|index| pdo_of(offered, *index)).flat_map(|pdo| &pdo.entries);
    let bits: usize = entries.map(|entry| usize::from(entry.1)).sum();
    (bits > MOST_BITS).then_some((11, 0))
}

impl Plan {
    /// The first group joins.
    pub(super) fn open(&mut self) {
        let packed = self.join(0).expect("at most 16 datagrams");
        self.report(&Edit::Connect(0), packed, &Named::None);
        self.epoch = 0;
    }

    /// Carries an edit out, or answers the lowest fault whose condition holds; then all is as it was.
    #[inline(never)]
    pub fn apply(&mut self, edit: &Edit) -> Result<Report, Fault> {
        let (packed, named) = match edit {
            Edit::Connect(alias) => (self.connect(*alias)?, Named::None),
            Edit::Disconnect(alias) => self.disconnect(*alias)?,
            Edit::Remap { station, area, pdos } => self.remap(*station, *area, pdos)?,
            Edit::Move { station, area, task } => (self.move_area(*station, *area, *task)?, Named::None),
        };
        Ok(self.report(edit, packed, &named))
    }

    fn connect(&mut self, alias: u16) -> Result<Packed, Fault> {
        let number = usize::from(self.aliases[usize::from(alias)]);
        match self.groups.get(number) {
            None => Err((1, 0)),
            Some(group) if group.is_present => Err((2, 0)),
            Some(_) => self.join(number),
        }
    }

    /// The areas of an absent group get their places.
    fn join(&mut self, number: usize) -> Result<Packed, Fault> {
        let slaves = self.groups[number].slaves.clone();
        for location in AREAS * slaves.start..AREAS * slaves.end {
            let own = &self.locations[location];
            if own.width > 0 {
                self.keys[2 * usize::from(own.task) + usize::from(own.is_input)].push(key_of(location, own.is_input));
            }
        }
        for (place, keys) in self.keys.iter_mut().enumerate() {
            self.tasks[place / 2].insert(keys);
            keys.clear();
        }
        let packed = self.pack().inspect_err(|_| {
            self.leave(&slaves);
            self.forget();
        })?;
        self.groups[number].is_present = true;
        for place in slaves.clone() {
            let blocks = (1u32 << (2 * self.slaves[place].areas)) - 1;
            (self.moved[place], self.shifted[place]) = (blocks as u16, u8::MAX);
        }
        self.mark(slaves);
        Ok(packed)
    }

    /// Takes the areas of slaves out of all tasks.
    fn leave(&mut self, slaves: &Range<usize>) {
        for task in &mut self.tasks {
            for is_input in [false, true] {
                let [first, end] = [slaves.start, slaves.end].map(|place| key_of(AREAS * place, is_input));
                task.remove(first, end);
            }
        }
    }

    fn disconnect(&mut self, alias: u16) -> Result<(Packed, Named), Fault> {
        let number = usize::from(self.aliases[usize::from(alias)]);
        let group = self.groups.get(number).ok_or((1, 0))?;
        if !group.is_present {
            return Err((3, 0));
        }
        if alias == 0 {
            return Err((4, 0));
        }
        let slaves = group.slaves.clone();
        self.leave(&slaves);
        let packed = self.pack()?;
        self.groups[number].is_present = false;
        self.shifted[slaves.clone()].fill(u8::MAX);
        self.mark(slaves.clone());
        Ok((packed, Named::Gone(slaves)))
    }

    /// The area with a number of a present slave.
    fn present_area(&self, station: u16, number: u8) -> Result<usize, Fault> {
        let place = usize::from(self.stations[usize::from(station)]);
        let slave = self.slaves.get(place).ok_or((5, 0))?;
        if !self.groups[usize::from(slave.group)].is_present {
            return Err((6, 0));
        }
        if number >= slave.areas {
            return Err((7, 0));
        }
        Ok(AREAS * place + usize::from(number))
    }

    fn remap(&mut self, station: u16, number: u8, pdos: &[u16]) -> Result<(Packed, Named), Fault> {
        let location = self.present_area(station, number)?;
        if let Some(fault) = pdos_fault(&self.offered[location], pdos) {
            return Err(fault);
        }
        let old = self.locations[location];
        let assigned = old.first as usize..old.first as usize + usize::from(old.count);
        let entries = self.entries[assigned.clone()].to_vec();
        let mut rows = Vec::with_capacity(entries.len());
        each_row(&old, &self.entries, |variable, place| rows.push((variable, place)));
        self.assign(location, pdos);
        self.widen(location, old.width, self.locations[location].width);
        let packed = self.pack().inspect_err(|_| {
            self.widen(location, self.locations[location].width, old.width);
            self.locations[location] = old;
            self.entries[assigned].copy_from_slice(&entries);
            self.forget();
        })?;
        self.mark_area(location, &old);
        Ok((packed, Named::Remapped(location, rows)))
    }

    /// The width of an area becomes another one.
    fn widen(&mut self, location: usize, old: u16, new: u16) {
        let own = self.locations[location];
        let (task, key) = (&mut self.tasks[usize::from(own.task)], key_of(location, own.is_input));
        match (old, new) {
            _ if old == new => {}
            (0, _) => task.insert(&[key]),
            (_, 0) => task.remove(key, key + 1),
            _ => task.touch(key, key),
        }
    }

    fn move_area(&mut self, station: u16, number: u8, task: u8) -> Result<Packed, Fault> {
        let location = self.present_area(station, number)?;
        if usize::from(task) >= TASKS {
            return Err((8, 0));
        }
        let old = self.locations[location];
        if old.task == task {
            return self.pack();
        }
        self.carry(location, task);
        let packed = self.pack().inspect_err(|_| {
            self.carry(location, old.task);
            self.forget();
        })?;
        self.mark_area(location, &old);
        Ok(packed)
    }

    /// Takes an area from its task to another one.
    fn carry(&mut self, location: usize, task: u8) {
        let own = &mut self.locations[location];
        let (from, width) = (std::mem::replace(&mut own.task, task), own.width);
        let key = key_of(location, own.is_input);
        if width > 0 {
            self.tasks[usize::from(from)].remove(key, key + 1);
            self.tasks[usize::from(task)].insert(&[key]);
        }
    }

    /// Repairs the touched tasks, and takes all over where none of them needs more than 16 datagrams. No benchmark
    /// reaches the last epoch.
    fn pack(&mut self) -> Result<Packed, Fault> {
        let mut packed = Packed { recut: 0, tasks: Vec::new() };
        self.placed.clear();
        for (number, task) in self.tasks.iter_mut().enumerate().filter(|(_, task)| task.is_touched()) {
            packed.recut += task.repair(&self.locations, &mut self.placed).ok_or((12, number as u8))?;
        }
        self.epoch += 1;
        for (number, task) in self.tasks.iter_mut().enumerate().filter(|(_, task)| task.is_touched()) {
            if task.take_over() {
                packed.tasks.push((number as u8, *task.table()));
            }
        }
        self.place();
        Ok(packed)
    }

    /// The areas that were packed anew get their places; those that moved are marked.
    fn place(&mut self) {
        let (mut first, mut end) = (usize::MAX, 0);
        for placed in &self.placed {
            let location = usize::from(placed.location);
            let own = &mut self.locations[location];
            if (own.datagram, own.bit) != (placed.datagram, placed.bit) {
                (own.datagram, own.bit) = (placed.datagram, placed.bit);
                let (place, number) = (location / AREAS, location % AREAS);
                self.moved[place] |= 2 << (2 * number);
                self.shifted[place] |= 1 << number;
                (first, end) = (first.min(place), end.max(place + 1));
            }
        }
        if first < end {
            self.mark(first..end);
        }
    }

    /// Nothing is touched any more, since all areas are as they were.
    fn forget(&mut self) {
        self.tasks.iter_mut().for_each(Task::forget);
    }

    fn mark(&mut self, slaves: Range<usize>) {
        let own = &mut self.marked;
        if own.start == own.end {
            *own = slaves;
        } else if slaves.start < slaves.end {
            *own = own.start.min(slaves.start)..own.end.max(slaves.end);
        }
    }

    /// Marks what became different of the area that an edit names.
    fn mark_area(&mut self, location: usize, old: &Location) {
        let (place, number, new) = (location / AREAS, location % AREAS, &self.locations[location]);
        let of = |own: &Location| if own.width > 0 { (own.width, own.task, own.datagram, own.bit) } else { (0, 0, 0, 0) };
        let is_length_moved = old.width.div_ceil(8) != new.width.div_ceil(8);
        let is_mapping_moved = of(old) != of(new);
        self.moved[place] &= !(3 << (2 * number));
        self.moved[place] |= (u16::from(is_length_moved) | 2 * u16::from(is_mapping_moved)) << (2 * number);
        self.shifted[place] |= 1 << number;
        self.mark(place..place + 1);
    }

    /// Reports the marked blocks and areas, and changes the rows.
    fn report(&mut self, edit: &Edit, packed: Packed, named: &Named) -> Report {
        let (mut blocks, mut rows) = (Vec::new(), Vec::new());
        for place in take(&mut self.marked) {
            let station = self.slaves[place].station;
            blocks.extend(ones(take(&mut self.moved[place])).map(|number| (station, number as u8)));
            for number in ones(take(&mut self.shifted[place]).into()) {
                self.add_changes(AREAS * place + number, named, &mut rows);
            }
        }
        if !rows.is_sorted_by_key(|row| row.0) {
            rows.sort_unstable_by_key(|row| row.0);
        }
        rows::change(&mut self.rows, &rows);
        let Packed { recut, tasks } = packed;
        Report { epoch: self.epoch, recut, moved: blocks.len() as u32, edit: edit.clone(), tasks, rows, blocks }
    }

    /// The variables of an area that move, appear or go.
    fn add_changes(&self, location: usize, named: &Named, rows: &mut Vec<Change>) {
        let own = &self.locations[location];
        match named {
            Named::Gone(slaves) if slaves.contains(&(location / AREAS)) => {
                each_row(own, &self.entries, |variable, _| rows.push((variable, None)));
            }
            Named::Remapped(other, old) if *other == location => {
                let mut left = old.clone();
                each_row(own, &self.entries, |variable, place| match left.iter().position(|row| row.0 == variable) {
                    Some(found) if left.swap_remove(found).1 == place => {}
                    _ => rows.push((variable, Some(place))),
                });
                rows.extend(left.into_iter().map(|(variable, _)| (variable, None)));
            }
            _ => each_row(own, &self.entries, |variable, place| rows.push((variable, Some(place)))),
        }
    }
}
