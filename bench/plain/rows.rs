//! The rows of a table: each variable with its place, in the order of their numbers, in one array.

use super::layout::Place;

pub type Row = (u32, Place);

/// A variable that moves, appears or goes, and its new place or none.
pub type Change = (u32, Option<Place>);

/// How many rows from one on have a lower number. The next change is mostly near.
fn count_below(rows: &[Row], from: usize, variable: u32) -> usize {
    let mut step = 1;
    while rows.get(from + step - 1).is_some_and(|row| row.0 < variable) {
        step *= 2;
    }
    let low = from + step / 2;
    let high = rows.len().min(from + step - 1);
    low + rows[low..high.max(low)].partition_point(|row| row.0 < variable)
}

/// Changes rows in place; the changes are in the order of their numbers.
pub fn change(rows: &mut Vec<Row>, changes: &[Change]) {
    let (mut read, mut write, mut added) = (0, 0, Vec::new());
    for (variable, place) in changes {
        let found = count_below(rows, read, *variable);
        if write < read {
            rows.copy_within(read..found, write);
        }
        (write, read) = (write + found - read, found);
        let is_row = rows.get(read).is_some_and(|row| row.0 == *variable);
        match place {
            Some(place) if is_row => {
                rows[write] = (*variable, *place);
                (write, read) = (write + 1, read + 1);
            }
            Some(place) => added.push((*variable, *place)),
            None => read += usize::from(is_row),
        }
    }
    if write < read {
        rows.copy_within(read.., write);
        rows.truncate(rows.len() - (read - write));
    }
    add(rows, &added);
}

/// Puts rows in, from the last one on.
fn add(rows: &mut Vec<Row>, added: &[Row]) {
    let mut end = rows.len();
    rows.extend_from_slice(added);
    for (number, row) in added.iter().enumerate().rev() {
        let at = rows[..end].partition_point(|own| own.0 < row.0);
        rows.copy_within(at..end, at + number + 1);
        rows[at + number] = *row;
        end = at;
    }
}
