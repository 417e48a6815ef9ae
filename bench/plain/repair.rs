//! The areas of one task in their order, and where its datagrams begin. After an edit the spans that it touches are
//! packed anew. Where later spans only get another number, their areas follow; all others are left alone.

use super::super::layout::{Datagram, Table, address_of};
use super::Location;

/// The name of an area: eight times its slave's place and its number, and `INPUT` in front for inputs.
pub type Key = u16;

pub const INPUT: Key = 1 << 14;

/// After every area; where a task begins there is 0, as if it were the key of an area.
const END: Key = Key::MAX;

/// The bits of the longest datagram.
const ROOM: u32 = 11_888;

/// Which of all areas a key names.
pub fn location_of(key: Key) -> usize {
    usize::from(key & (INPUT - 1))
}

/// The place of an area after an edit.
#[derive(Clone, Copy)]
pub struct Placed {
    pub location: u16,
    pub bit: u16,
    pub datagram: u8,
}

/// The least and the greatest touched key of a direction; none where the least is above the greatest.
#[derive(Clone, Copy)]
struct Hull {
    low: Key,
    high: Key,
}

const UNTOUCHED: [Hull; 2] = [Hull { low: END, high: 0 }; 2];

/// Where the datagrams of a task begin, and its table.
#[derive(Clone, Copy, Default)]
struct Cut {
    starts: [Key; 16],
    table: Table,
    /// The first input, and its place.
    first_input: Key,
    inputs_from: Option<(u8, u16)>,
}

impl Cut {
    /// Where a span begins; the last one ends where a next one would begin.
    fn start(&self, span: usize) -> Key {
        match span {
            0 => 0,
            _ if span < self.table.count => self.starts[span],
            _ => END,
        }
    }

    /// Adds a datagram; none where there are 16 already.
    fn add(&mut self, task: u8, begin: Key, datagram: Datagram) -> Option<u8> {
        let number = self.table.count;
        let offset = self.end();
        *self.table.all.get_mut(number)? = Datagram { address: address_of(task, number as u8), offset, ..datagram };
        self.starts[number] = begin;
        self.table.count += 1;
        Some(number as u8)
    }

    /// The bytes of all datagrams.
    fn end(&self) -> u16 {
        self.table.datagrams().last().map_or(0, |last| last.offset + last.length)
    }

    fn outputs(&self) -> u16 {
        match self.inputs_from {
            Some((datagram, bit)) => self.table.all[usize::from(datagram)].offset + bit / 8,
            None => self.end(),
        }
    }
}

pub struct Task {
    number: u8,
    /// The areas that take room in it.
    list: Vec<Key>,
    hulls: [Hull; 2],
    cut: Cut,
    /// What a repair found, until it is taken over.
    next: Cut,
}

impl Task {
    pub fn new(number: u8) -> Task {
        Task { number, list: Vec::new(), hulls: UNTOUCHED, cut: Cut::default(), next: Cut::default() }
    }

    pub fn table(&self) -> &Table {
        &self.cut.table
    }

    /// The widths of areas from one key to another change, both of one direction.
    pub fn touch(&mut self, first: Key, last: Key) {
        let hull = &mut self.hulls[usize::from(first >= INPUT)];
        *hull = Hull { low: hull.low.min(first), high: hull.high.max(last) };
    }

    pub fn is_touched(&self) -> bool {
        self.hulls.iter().any(|hull| hull.low <= hull.high)
    }

    /// Puts areas in that are neighbours in the order.
    pub fn insert(&mut self, keys: &[Key]) {
        if let (Some(first), Some(last)) = (keys.first(), keys.last()) {
            let at = self.list.partition_point(|key| key < first);
            self.list.splice(at..at, keys.iter().copied());
            self.touch(*first, *last);
        }
    }

    /// Takes the areas out whose keys are from one key to before another.
    pub fn remove(&mut self, first: Key, end: Key) {
        let from = self.list.partition_point(|key| *key < first);
        let to = self.list.partition_point(|key| *key < end);
        if from < to {
            self.touch(self.list[from], self.list[to - 1]);
            self.list.drain(from..to);
        }
    }

    fn is_settled(&self, begin: Key, end: Key) -> bool {
        self.hulls.iter().all(|hull| hull.low > hull.high || hull.high < begin || end < hull.low)
    }

    /// Keeps an old span, up to where it ends; where it gets another number its areas follow.
    fn keep(&self, span: usize, new: &mut Cut, locations: &[Location], placed: &mut Vec<Placed>) -> Option<Key> {
        let (begin, end) = (self.cut.start(span), self.cut.start(span + 1));
        let number = new.add(self.number, begin, self.cut.table.all[span])?;
        if begin <= new.first_input && new.first_input < end {
            new.inputs_from = Some((number, locations[location_of(new.first_input)].bit));
        }
        if usize::from(number) != span {
            let from = self.list.partition_point(|key| *key < begin);
            for key in self.list[from..].iter().take_while(|key| **key < end) {
                let location = location_of(*key);
                placed.push(Placed { location: location as u16, bit: locations[location].bit, datagram: number });
            }
        }
        Some(end)
    }

    /// Packs a datagram from an area on, up to the first one that doesn't fit.
    fn pack(&self, begin: Key, new: &mut Cut, locations: &[Location], placed: &mut Vec<Placed>) -> Option<Key> {
        let from = self.list.partition_point(|key| *key < begin);
        if from == self.list.len() {
            return Some(END);
        }
        let number = new.add(self.number, begin, Datagram::default())?;
        let (mut bit, mut expected, mut before, mut end) = (0u32, 0, END, END);
        for key in &self.list[from..] {
            let (is_input, location) = (*key >= INPUT, location_of(*key));
            let width = u32::from(locations[location].width);
            let begins_byte = width >= 8 || (is_input && before < INPUT);
            let start = if begins_byte { (bit + 7) & !7 } else { bit };
            if start + width > ROOM {
                end = *key;
                break;
            }
            if *key == new.first_input {
                new.inputs_from = Some((number, start as u16));
            }
            if before / 8 != *key / 8 {
                expected += if is_input { 1 } else { 2 };
            }
            placed.push(Placed { location: location as u16, bit: start as u16, datagram: number });
            (bit, before) = (start + width, *key);
        }
        let datagram = &mut new.table.all[usize::from(number)];
        (datagram.length, datagram.expected) = (bit.div_ceil(8) as u16, expected);
        Some(end)
    }

    /// Packs the spans anew that aren't settled: how many they are; none where there would be more than 16 datagrams.
    pub fn repair(&mut self, locations: &[Location], placed: &mut Vec<Placed>) -> Option<u32> {
        let inputs = self.list.partition_point(|key| *key < INPUT);
        let first_input = self.list.get(inputs).copied().unwrap_or(END);
        let mut new = Cut { first_input, ..Cut::default() };
        let (mut begin, mut span, mut recut) = (0, 0, 0);
        while begin != END {
            while self.cut.start(span) < begin {
                span += 1;
            }
            let is_old = self.cut.start(span) == begin;
            begin = if is_old && self.is_settled(begin, self.cut.start(span + 1)) {
                self.keep(span, &mut new, locations, placed)?
            } else {
                recut += 1;
                self.pack(begin, &mut new, locations, placed)?
            };
        }
        new.table.outputs = new.outputs();
        self.next = new;
        Some(recut)
    }

    /// Takes over what the repair found: whether the table differs.
    pub fn take_over(&mut self) -> bool {
        let differs = self.cut.table != self.next.table;
        self.cut = self.next;
        self.hulls = UNTOUCHED;
        differs
    }

    /// Nothing is touched any more, since the areas are as they were.
    pub fn forget(&mut self) {
        self.hulls = UNTOUCHED;
    }
}
