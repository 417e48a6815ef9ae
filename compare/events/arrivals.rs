//! What arrives: frames that were sent as they come back from the line, and all that isn't quite that.

use super::reading::Arrival;
use super::record::{Answer, Entry, Item, Sending, answer, line, next_serial, sent_tasks, sent_write};
use crate::shared::draws::Draws;
use crate::shared::frames::{Datagram, frame_text};
use crate::shared::line::Line;

/// The kinds of arrivals that are drawn.
#[derive(Clone, Copy, PartialEq)]
pub enum Kind {
    /// A frame as every slave served it, while it is awaited, and after its time.
    True,
    Late,
    /// With another working counter in some datagrams.
    WrongCounter,
    /// Its first bytes alone.
    Cut,
    /// With another byte in one place.
    Changed,
    /// What arrived before, byte for byte.
    Repeated,
    /// Of another master, or no frame at all.
    Foreign,
    /// As the next sending will come back.
    Early,
    /// With a datagram left out, repeated or exchanged.
    Rearranged,
}

pub const KINDS: [(Kind, &str); 9] = [
    (Kind::True, "true"),
    (Kind::Late, "late"),
    (Kind::WrongCounter, "wrong counter"),
    (Kind::Cut, "cut"),
    (Kind::Changed, "changed"),
    (Kind::Repeated, "repeated"),
    (Kind::Foreign, "foreign"),
    (Kind::Early, "early"),
    (Kind::Rearranged, "rearranged"),
];

/// The data of a task's datagram as the slaves leave them: the inputs' bits are drawn.
fn read_data(draws: &mut Draws, line: &Line, task: u8, number: usize, sent: &[u8]) -> Vec<u8> {
    let mut mask = vec![0; sent.len()];
    let areas = line.layout.tasks[usize::from(task)].areas.iter();
    for area in areas.filter(|area| area.datagram == number && area.key.is_input) {
        for bit in area.bit as usize..(area.bit + area.width) as usize {
            mask[bit / 8] |= 1 << (bit % 8);
        }
    }
    sent.iter().zip(mask).map(|(byte, mask)| byte & !mask | draws.below(256) as u8 & mask).collect()
}

/// A frame of a line's as every slave served it.
pub fn returned(draws: &mut Draws, line: &Line, sending: &Sending) -> Arrival {
    let mut datagrams = Vec::new();
    for (item, sent, expected) in &sending.datagrams {
        let data = match item {
            Item::Process { task, number } => read_data(draws, line, *task, *number, &sent.data),
            Item::Block { .. } => sent.data.clone(),
        };
        datagrams.push(Datagram { data, counter: *expected, ..sent.clone() });
    }
    Arrival { serial: sending.serial, datagrams }
}

/// The bytes of a frame that comes back; what follows its datagrams may be anything.
pub fn bytes_of(draws: &mut Draws, arrival: &Arrival) -> Vec<u8> {
    let mut bytes = frame_text(arrival.serial, &arrival.datagrams);
    let size: usize = arrival.datagrams.iter().map(|one| 12 + one.data.len()).sum();
    if draws.is(30) {
        bytes.truncate(16 + size);
        let padding = if draws.is(5) { draws.below(700) } else { draws.below(6) };
        bytes.extend((0..padding).map(|_| draws.below(256) as u8));
    }
    bytes
}

fn with_wrong_counter(draws: &mut Draws, mut arrival: Arrival) -> Arrival {
    let count = arrival.datagrams.len();
    let chosen = draws.below(count);
    for (place, datagram) in arrival.datagrams.iter_mut().enumerate() {
        if place == chosen || draws.is(20) {
            let wrong = [0, datagram.counter.wrapping_sub(1), datagram.counter + 1, draws.below(0x1_0000) as u16];
            datagram.counter = *draws.one_of(&wrong);
        }
    }
    arrival
}

/// Datagrams left out, exchanged, repeated or shortened. A repeated one may make the frame longer than Ethernet's are, as
/// long as the header can count.
fn rearranged(draws: &mut Draws, mut arrival: Arrival) -> Arrival {
    let datagrams = &mut arrival.datagrams;
    let size: usize = datagrams.iter().map(|own| 12 + own.data.len()).sum();
    let [one, other] = [draws.below(datagrams.len()), draws.below(datagrams.len())];
    match draws.below(4) {
        0 if datagrams.len() > 1 => drop(datagrams.remove(one)),
        1 if one != other => datagrams.swap(one, other),
        2 | 3 if size + 12 + datagrams[one].data.len() <= 2047 => datagrams.insert(other, datagrams[one].clone()),
        _ => datagrams[one].data.truncate(1),
    }
    arrival
}

/// Of another master: with a serial that none of the sendings has, with the index of one, or with other commands; or bytes.
fn foreign(draws: &mut Draws, history: &[Entry], arrival: Arrival) -> Vec<u8> {
    let Arrival { serial, mut datagrams } = arrival;
    match draws.below(6) {
        0 => frame_text(0xff_ffff_ffff, &datagrams),
        1 => frame_text(next_serial(history) + 256 * draws.between(1, 9) as u64 + serial % 256, &datagrams),
        2 => frame_text(serial ^ 256, &datagrams),
        3 => {
            for datagram in &mut datagrams {
                datagram.command = *draws.one_of(&[1, 2, 5, 12, 4, 11]);
            }
            frame_text(serial, &datagrams)
        }
        4 => {
            let place = draws.below(datagrams.len());
            datagrams[place].address ^= 1 << draws.below(32);
            frame_text(serial, &datagrams)
        }
        _ => {
            let size = draws.between(1, 80);
            (0..size).map(|_| draws.below(256) as u8).collect()
        }
    }
}

/// A sending as the next one would be.
fn next_sending(draws: &mut Draws, history: &[Entry]) -> Option<Sending> {
    match sent_write(history) {
        Ok(sending) => Some(sending),
        Err(_) => sent_tasks(history, &[draws.below(3) as u8]).ok()?.into_iter().next(),
    }
}

/// Whether a frame that comes back now is the answer to a sending.
fn is_awaited(history: &[Entry], sending: &Sending) -> bool {
    let datagrams = sending.datagrams.iter().map(|(_, datagram, _)| datagram.clone());
    answer(history, &Arrival { serial: sending.serial, datagrams: datagrams.collect() }) != Answer::Stale
}

/// A frame that was sent, mostly one that is awaited, as it comes back, and whether it is awaited.
fn one_sent(draws: &mut Draws, history: &[Entry]) -> Option<(Arrival, bool)> {
    let sendings = history.iter().enumerate().filter_map(|(place, entry)| match entry {
        Entry::Sent(sending) => Some((place, sending)),
        _ => None,
    });
    let sent: Vec<(usize, &Sending)> = sendings.collect();
    let recent = &sent[sent.len().saturating_sub(12)..];
    let awaited: Vec<&(usize, &Sending)> = recent.iter().filter(|(_, sending)| is_awaited(history, sending)).collect();
    let (place, sending) = match draws.below(10) {
        0..=4 if !awaited.is_empty() => **awaited.last()?,
        5..=7 if !awaited.is_empty() => **draws.one_of(&awaited),
        0..=8 if !recent.is_empty() => *draws.one_of(recent),
        _ if !sent.is_empty() => *draws.one_of(&sent),
        _ => return None,
    };
    Some((returned(draws, line(&history[..place]), sending), is_awaited(history, sending)))
}

/// One byte of a frame changed: mostly in front, or one of the upper bits of a length field.
fn with_changed_byte(draws: &mut Draws, mut bytes: Vec<u8>, datagrams: &[Datagram]) -> Vec<u8> {
    let (place, bits) = match draws.below(10) {
        0 | 1 => {
            let before = draws.below(datagrams.len());
            let front: usize = datagrams[..before].iter().map(|one| 12 + one.data.len()).sum();
            (16 + front + 7, 1 << draws.between(3, 7))
        }
        2..=6 => (draws.below(bytes.len().min(34)), 1 << draws.below(8)),
        _ => (draws.below(bytes.len()), draws.between(1, 255)),
    };
    bytes[place] ^= bits as u8;
    bytes
}

/// Bytes that arrive; `before` are those that arrived up to here. Nothing, where nothing was sent that could come back.
pub fn drawn(draws: &mut Draws, history: &[Entry], before: &[Vec<u8>]) -> Option<(Kind, Vec<u8>)> {
    let (arrival, is_awaited) = one_sent(draws, history)?;
    Some(match draws.below(100) {
        0..=39 => (if is_awaited { Kind::True } else { Kind::Late }, bytes_of(draws, &arrival)),
        40..=53 => {
            let wrong = with_wrong_counter(draws, arrival);
            (Kind::WrongCounter, bytes_of(draws, &wrong))
        }
        54..=61 => {
            let mut bytes = bytes_of(draws, &arrival);
            bytes.truncate(draws.between(1, bytes.len() - 1));
            (Kind::Cut, bytes)
        }
        62..=75 => {
            let bytes = bytes_of(draws, &arrival);
            (Kind::Changed, with_changed_byte(draws, bytes, &arrival.datagrams))
        }
        76..=83 if !before.is_empty() => {
            let back = if draws.is(60) { draws.below(before.len().min(6)) } else { draws.below(before.len()) };
            (Kind::Repeated, before[before.len() - 1 - back].clone())
        }
        84..=89 => (Kind::Foreign, foreign(draws, history, arrival)),
        90..=93 => {
            let next = next_sending(draws, history)?;
            let arrival = returned(draws, line(history), &next);
            (Kind::Early, bytes_of(draws, &arrival))
        }
        _ => {
            let other = rearranged(draws, arrival);
            (Kind::Rearranged, bytes_of(draws, &other))
        }
    })
}
