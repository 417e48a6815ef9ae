//! What an edit cuts anew, by comparing the lists of the line before and after it. This project's profile;
//! docs/meaning/DEFINITIONS.md has it under "What an edit leaves as it was".

use super::packing::{Key, Layout, Placed};
use std::collections::BTreeMap;

/// A boundary between the datagrams of a task.
#[derive(Clone, Copy, PartialEq, Eq, PartialOrd, Ord)]
enum Boundary {
    Start,
    At(Key),
    End,
}

use Boundary::{At, End, Start};

/// The start, the first areas of the second and of each later datagram, and the end.
fn boundaries(areas: &[Placed]) -> Vec<Boundary> {
    let pairs = areas.iter().zip(areas.iter().skip(1));
    let later = pairs.filter(|(one, other)| one.datagram != other.datagram).map(|(_, other)| At(other.key));
    [Start].into_iter().chain(later).chain([End]).collect()
}

/// The areas whose width differs; one that isn't in a list has no width there.
fn touched(old: &[Placed], new: &[Placed]) -> Vec<Key> {
    let widths = |areas: &[Placed]| -> BTreeMap<Key, u32> { areas.iter().map(|area| (area.key, area.width)).collect() };
    let (old, new) = (widths(old), widths(new));
    let mut keys: Vec<Key> = old.keys().chain(new.keys()).copied().filter(|key| old.get(key) != new.get(key)).collect();
    keys.sort();
    keys.dedup();
    keys
}

/// From the least to the greatest touched area of each direction that has one.
fn hulls(touched: &[Key]) -> Vec<(Key, Key)> {
    let hull = |is_input: bool| {
        let own = || touched.iter().copied().filter(move |key| key.is_input == is_input);
        Some((own().min()?, own().max()?))
    };
    [hull(false), hull(true)].into_iter().flatten().collect()
}

/// The spans of a task's new list that aren't settled, where it is touched at all. A span is settled where it begins at a
/// boundary of the old list and, both its ends included, meets no hull.
fn recut_of(old: &[Placed], new: &[Placed]) -> usize {
    let touched = touched(old, new);
    if touched.is_empty() {
        return 0;
    }
    let (hulls, old, new) = (hulls(&touched), boundaries(old), boundaries(new));
    let spans = new.iter().zip(new.iter().skip(1));
    let is_settled = |from: &Boundary, to: &Boundary| {
        old.contains(from) && hulls.iter().all(|(least, greatest)| *to < At(*least) || At(*greatest) < *from)
    };
    spans.filter(|(from, to)| !is_settled(from, to)).count()
}

/// Over all tasks.
pub fn recut(old: &Layout, new: &Layout) -> usize {
    old.tasks.iter().zip(&new.tasks).map(|(old, new)| recut_of(&old.areas, &new.areas)).sum()
}
