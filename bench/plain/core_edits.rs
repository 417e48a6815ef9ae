//! Edits of the plain core. The plan says what moved; the values of moved areas are taken along, moved blocks are
//! compared with what their slaves are known to have, and nothing else is walked.

use super::super::layout::Place;
use super::super::plan::{Edit, Fault, Location, Report};
use super::{AREAS, BLOCKS, Change, Core, ROOM};

/// Where the outputs of an area are in what is sent; nowhere where it has no width.
#[derive(Clone, Copy, Default)]
pub struct Seat {
    slot: u8,
    bit: u16,
    width: u16,
}

/// A variable of an area that gets other PDOs, and its value.
type Value = (u32, u64);

/// Bits of an array, 1 to 64; it has eight bytes after its last bit.
fn get_bits(from: &[u8; ROOM], at: usize, count: usize) -> u64 {
    let source: [u8; 9] = from[at / 8..at / 8 + 9].try_into().expect("nine bytes");
    let low = u64::from_le_bytes(*source.first_chunk().expect("eight bytes"));
    let bits = (u128::from(low) | u128::from(source[8]) << 64) >> (at % 8);
    bits as u64 & (u64::MAX >> (64 - count))
}

/// Puts `count` bits, 1 to 64, into an array that has eight bytes after its last bit.
fn put_bits(to: &mut [u8; ROOM], at: usize, count: usize, bits: u64) {
    let mask = u128::from(u64::MAX >> (64 - count)) << (at % 8);
    let own = &mut to[at / 8..at / 8 + 9];
    let mut word = [0; 16];
    word[..9].copy_from_slice(own);
    let word = u128::from_le_bytes(word) & !mask | (u128::from(bits) << (at % 8)) & mask;
    own.copy_from_slice(&word.to_le_bytes()[..9]);
}

impl Seat {
    fn of(location: &Location) -> Seat {
        Seat { slot: 16 * location.task + location.datagram, bit: location.bit, width: location.width }
    }

    /// Its first byte, how many bytes are whole, and how many bits are left after them. An area of a byte or more begins
    /// with a byte.
    fn parts(&self) -> (usize, usize, usize) {
        let [first, whole, left] = [self.bit / 8, self.width / 8, self.width % 8];
        (first.into(), whole.into(), left.into())
    }

    /// Takes its bits out of a row, which has zeros there then, and adds them to what is lifted.
    fn lift(&self, row: &mut [u8; ROOM], lifted: &mut Vec<u8>) {
        let (first, whole, left) = self.parts();
        let own = &mut row[first..first + whole];
        lifted.extend_from_slice(own);
        own.fill(0);
        if left > 0 {
            let at = usize::from(self.bit) + 8 * whole;
            lifted.push(get_bits(row, at, left) as u8);
            put_bits(row, at, left, 0);
        }
    }

    /// Puts lifted bits into a row: what is left of them.
    fn put<'a>(&self, row: &mut [u8; ROOM], lifted: &'a [u8]) -> &'a [u8] {
        let (first, whole, left) = self.parts();
        let (own, rest) = lifted.split_at(whole);
        row[first..first + whole].copy_from_slice(own);
        let Some((last, after)) = rest.split_first().filter(|_| left > 0) else {
            return rest;
        };
        put_bits(row, usize::from(self.bit) + 8 * whole, left, u64::from(*last));
        after
    }

    /// Makes its bits zeros.
    fn clear(&self, row: &mut [u8; ROOM]) {
        let (first, whole, left) = self.parts();
        row[first..first + whole].fill(0);
        if left > 0 {
            put_bits(row, usize::from(self.bit) + 8 * whole, left, 0);
        }
    }
}

/// The mapping blocks among those that moved, each by its slave's station address and its area's number.
fn mapped(blocks: &[(u16, u8)]) -> impl Iterator<Item = (u16, usize)> {
    let mapped = blocks.iter().filter(|(_, number)| number % 2 == 1);
    mapped.map(|(station, number)| (*station, usize::from(number / 2)))
}

impl Core {
    /// The blocks of the first slaves are owed, and their output values are 0.
    pub(super) fn open(&mut self, slaves: usize) {
        for place in 0..slaves {
            let (_, areas) = self.plan.slave(place);
            (0..usize::from(areas)).for_each(|number| self.seat(AREAS * place + number));
            (0..2 * areas).for_each(|number| self.compare(place, number));
        }
    }

    /// Carries an edit out: its epoch, and how many spans and blocks it moved. If it is refused, all is as it was.
    #[inline(never)]
    pub fn edit(&mut self, edit: &Edit) -> Result<[u32; 3], Fault> {
        let remapped = self.remapped(edit);
        let values = remapped.map_or(Vec::new(), |location| self.values(location));
        let report = self.plan.apply(edit)?;
        self.lift(remapped, &report.blocks);
        match edit {
            Edit::Disconnect(alias) => self.drop_slaves(*alias),
            Edit::Connect(alias) => self.add_slaves(*alias),
            _ => {}
        }
        self.put(&report.blocks);
        if let Some(location) = remapped {
            self.put_values(location, values);
        }
        for (station, number) in &report.blocks {
            self.compare(self.plan.place_of(*station), *number);
        }
        if let Edit::Remap { station, area, .. } | Edit::Move { station, area, .. } = edit {
            let first = BLOCKS * self.plan.place_of(*station) + 2 * usize::from(*area);
            (first..first + 2).for_each(|n| self.note(n));
        }
        self.frames.clear();
        self.writes.clear();
        self.has_data.fill(false);
        let Report { epoch, recut, moved, tasks, rows, .. } = report;
        self.changes.push(Change::Swapped { tasks, rows });
        Ok([epoch, recut, moved])
    }

    /// The output area that an edit would give other PDOs.
    fn remapped(&self, edit: &Edit) -> Option<usize> {
        let Edit::Remap { station, area, .. } = edit else {
            return None;
        };
        let location = AREAS * self.plan.place_of(*station) + usize::from(*area);
        (location < self.seats.len() && !self.plan.location(location).is_input).then_some(location)
    }

    /// The values of an area's variables.
    fn values(&self, location: usize) -> Vec<Value> {
        let (seat, mut values) = (&self.seats[location], Vec::new());
        if seat.width > 0 {
            let row = &self.sent[usize::from(seat.slot)];
            let value = |place: Place| get_bits(row, place.bit.into(), place.bits.into());
            self.plan.each_variable(location, |variable, place| values.push((variable, value(place))));
        }
        values
    }

    /// Lifts the values of all moved areas but the one that gets other PDOs, whose bits become zeros.
    fn lift(&mut self, remapped: Option<usize>, blocks: &[(u16, u8)]) {
        if let Some(location) = remapped {
            self.clear(location);
        }
        self.lifted.iter_mut().for_each(Vec::clear);
        let [values, masks] = &mut self.lifted;
        for (station, number) in mapped(blocks) {
            let seat = self.seats[AREAS * self.plan.place_of(station) + number];
            if seat.width > 0 {
                seat.lift(&mut self.sent[usize::from(seat.slot)], values);
                seat.lift(&mut self.masks[usize::from(seat.slot)], masks);
            }
        }
    }

    /// An area's bits become zeros, and it is nowhere.
    fn clear(&mut self, location: usize) {
        let seat = std::mem::take(&mut self.seats[location]);
        seat.clear(&mut self.sent[usize::from(seat.slot)]);
        seat.clear(&mut self.masks[usize::from(seat.slot)]);
    }

    /// Nothing is kept any more of the slaves of a group but what their registers may name.
    fn drop_slaves(&mut self, alias: u16) {
        for place in self.plan.slaves_of(alias) {
            (AREAS * place..AREAS * (place + 1)).for_each(|location| self.clear(location));
            for n in BLOCKS * place..BLOCKS * (place + 1) {
                self.blocks[n].known = None;
                self.set_owed(n, false);
            }
        }
    }

    /// Nothing is known of the registers of slaves that come.
    fn add_slaves(&mut self, alias: u16) {
        for place in self.plan.slaves_of(alias) {
            self.blocks[BLOCKS * place..BLOCKS * (place + 1)].iter_mut().for_each(|stored| stored.is_unknown = true);
        }
    }

    /// Puts what was lifted to where the moved areas are now; areas that were nowhere get masks.
    fn put(&mut self, blocks: &[(u16, u8)]) {
        let lifted = std::mem::take(&mut self.lifted);
        let [mut values, mut masks] = lifted.each_ref().map(Vec::as_slice);
        for (station, number) in mapped(blocks) {
            let location = AREAS * self.plan.place_of(station) + number;
            if self.seats[location].width == 0 {
                self.seat(location);
                continue;
            }
            let seat = Seat::of(self.plan.location(location));
            self.seats[location] = seat;
            values = seat.put(&mut self.sent[usize::from(seat.slot)], values);
            masks = seat.put(&mut self.masks[usize::from(seat.slot)], masks);
        }
        self.lifted = lifted;
    }

    /// An area that stood nowhere gets its seat, and masks of its variables, if it is one of outputs.
    fn seat(&mut self, location: usize) {
        let own = self.plan.location(location);
        if own.is_input {
            return;
        }
        let seat = Seat::of(own);
        self.seats[location] = seat;
        let mask = &mut self.masks[usize::from(seat.slot)];
        self.plan.each_variable(location, |_, place| put_bits(mask, place.bit.into(), place.bits.into(), u64::MAX));
    }

    /// The area that got other PDOs keeps the values of the variables that it keeps.
    fn put_values(&mut self, location: usize, mut values: Vec<Value>) {
        if self.seats[location].width == 0 {
            self.seat(location);
        }
        let row = &mut self.sent[usize::from(self.seats[location].slot)];
        self.plan.each_variable(location, |variable, place| {
            if let Some(found) = values.iter().position(|value| value.0 == variable) {
                put_bits(row, place.bit.into(), place.bits.into(), values.swap_remove(found).1);
            }
        });
    }

    /// A block that moved is owed where its slave isn't known to have its bytes.
    fn compare(&mut self, place: usize, number: u8) {
        let n = BLOCKS * place + usize::from(number);
        let (block, stored) = (self.plan.block(place, number), &mut self.blocks[n]);
        stored.block = block;
        let owed = stored.known != Some(block);
        self.set_owed(n, owed);
    }
}
