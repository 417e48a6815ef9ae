//! Answers as one number, mixed as the library's side mixes them.

use super::core::{Change, Core, Outcome};
use super::rows;

pub fn digest_of(digest: u64, number: u64) -> u64 {
    (digest ^ number).wrapping_mul(0x9e37_79b9_7f4a_7c15).rotate_left(29)
}

pub fn digest_of_all(digest: u64, numbers: &[u64]) -> u64 {
    numbers.iter().fold(digest, |digest, number| digest_of(digest, *number))
}

pub fn digest_of_bytes(digest: u64, bytes: &[u8]) -> u64 {
    bytes.iter().fold(digest_of(digest, bytes.len() as u64), |digest, byte| digest_of(digest, u64::from(*byte)))
}

/// The digest of the variables whose places changed.
pub fn digest_of_rows(digest: u64, rows: &[rows::Change]) -> u64 {
    rows.iter().fold(digest_of(digest, rows.len() as u64), |digest, (variable, place)| {
        let digest = digest_of(digest, u64::from(*variable));
        let Some(place) = place else {
            return digest_of(digest, 99);
        };
        let dir = 2 - u64::from(place.is_out);
        digest_of_all(digest, &[place.task.into(), place.datagram.into(), place.bit.into(), place.bits.into(), dir])
    })
}

pub fn digest_of_outcomes(digest: u64, outcomes: &[Outcome]) -> u64 {
    outcomes.iter().fold(digest_of(digest, outcomes.len() as u64), |digest, outcome| match outcome {
        Outcome::Inputs { task, datagram } => digest_of_all(digest, &[1, (*task).into(), (*datagram).into()]),
        Outcome::WrongCount { expected, got } => digest_of_all(digest, &[2, (*expected).into(), (*got).into()]),
        Outcome::Stale => digest_of(digest, 3),
        Outcome::Done => digest_of(digest, 4),
        Outcome::Missed => digest_of(digest, 5),
    })
}

pub fn digest_of_changes(digest: u64, changes: &[Change]) -> u64 {
    changes.iter().fold(digest_of(digest, changes.len() as u64), |digest, change| match change {
        Change::Good { task, datagram, bytes } => {
            digest_of_bytes(digest_of_all(digest, &[31, (*task).into(), (*datagram).into()]), bytes)
        }
        Change::Swapped { rows, .. } => digest_of_rows(digest_of(digest, 32), rows),
    })
}

/// The digest of what a core tells of itself.
pub fn digest_of_core(digest: u64, core: &Core) -> u64 {
    digest_of_all(digest, &[core.owed().into(), core.ready().into(), core.next_serial()])
}
