//! Posts and views, drawn: mostly such that can be carried out.

use super::posts::Setting;
use crate::shared::draws::Draws;
use crate::shared::line::Line;
use crate::shared::packing::{Place, TASKS};

/// The variables of the line with such a place, and their places.
fn variables(line: &Line, is_chosen: impl Fn(&Place) -> bool) -> Vec<(u32, &Place)> {
    line.variables().iter().filter(|(_, place)| is_chosen(place)).map(|(variable, place)| (*variable, place)).collect()
}

/// A task, most often one with areas of the direction.
pub fn drawn_task(draws: &mut Draws, line: &Line, is_out: bool) -> u8 {
    if draws.is(3) {
        return draws.between(TASKS.into(), 255) as u8;
    }
    let tasks: Vec<u8> = variables(line, |place| place.is_out == is_out).iter().map(|(_, place)| place.task).collect();
    if tasks.is_empty() || draws.is(8) { draws.below(TASKS.into()) as u8 } else { *draws.one_of(&tasks) }
}

/// A variable that is no output of the task: an input, one of another task, one that isn't placed, or 0.
fn odd_variable(draws: &mut Draws, line: &Line, task: u8, names: &[u32]) -> u32 {
    let others = match draws.below(3) {
        0 => variables(line, |place| !place.is_out),
        1 => variables(line, |place| place.is_out && place.task != task),
        _ => Vec::new(),
    };
    match others[..] {
        [] if draws.is(20) => 0,
        [] if names.is_empty() || draws.is(30) => draws.below(0x8000_0000) as u32,
        [] => *draws.one_of(names),
        _ => draws.one_of(&others).0,
    }
}

fn drawn_bits(draws: &mut Draws) -> u64 {
    (draws.below(1 << 30) as u64) << 34 ^ (draws.below(1 << 30) as u64) << 17 ^ draws.below(1 << 30) as u64
}

/// A value for so many bits: any, the greatest, 0 or 1; at times one that is too wide.
fn value(draws: &mut Draws, bits: u8) -> u64 {
    let greatest = u64::MAX >> (64 - bits);
    match draws.below(20) {
        0 if bits < 64 => greatest + 1 + draws.below(2) as u64,
        1 if bits < 64 => drawn_bits(draws) | 1 << bits,
        2..=4 => greatest,
        5 => 0,
        6 => 1,
        _ => drawn_bits(draws) & greatest,
    }
}

/// Values that a task posts: none, some or all of its outputs, at times one twice, and few such that are refused. `names`
/// are declared variables.
pub fn drawn_settings(draws: &mut Draws, line: &Line, task: u8, names: &[u32]) -> Vec<Setting> {
    let own = variables(line, |place| place.is_out && place.task == task);
    let share = *draws.one_of(&[10, 40, 100]);
    let is_spoilt = draws.is(15);
    let mut settings = Vec::new();
    for (variable, place) in own.iter().filter(|_| draws.is(share)).take(40).collect::<Vec<_>>() {
        let value = if is_spoilt { value(draws, place.bits) } else { value(draws, place.bits) & u64::MAX >> (64 - place.bits) };
        settings.push((*variable, value));
    }
    draws.shuffle(&mut settings);
    if draws.is(15) && !settings.is_empty() {
        let (variable, _) = *draws.one_of(&settings);
        let bits = line.variables()[&variable].bits;
        settings.push((variable, drawn_bits(draws) & u64::MAX >> (64 - bits)));
    }
    if draws.is(10) {
        let odd = (odd_variable(draws, line, task, names), drawn_bits(draws) >> draws.below(64));
        settings.insert(draws.below(settings.len() + 1), odd);
    }
    settings
}

/// A task and a variable that it views, most often an input of its own.
pub fn drawn_view(draws: &mut Draws, line: &Line, names: &[u32]) -> (u8, u32) {
    let task = drawn_task(draws, line, false);
    let own = variables(line, |place| !place.is_out && place.task == task);
    let outputs = variables(line, |place| place.is_out);
    let variable = match draws.below(20) {
        0 if !outputs.is_empty() => draws.one_of(&outputs).0,
        1 => odd_variable(draws, line, task, names),
        _ if own.is_empty() => odd_variable(draws, line, task, names),
        _ => draws.one_of(&own).0,
    };
    (task, variable)
}

/// The words of a task's command that is none, made of `words`, a post of at least one value.
pub fn malformed(draws: &mut Draws, words: Vec<String>) -> Vec<String> {
    let mut words = words;
    let last = words.len() - 1;
    let (front, after) = words[last].split_once('=').map(|(one, two)| (one.to_string(), two.to_string())).unwrap_or_default();
    let spoilt = match draws.below(8) {
        0 => format!("{front}="),
        1 => format!("={after}"),
        2 => front,
        3 => format!("{front}=={after}"),
        4 => format!("{front}=-{after}"),
        5 => format!("{front}={after}="),
        6 => format!("{front}=18446744073709551616"),
        _ => format!("4294967296={after}"),
    };
    match draws.below(10) {
        0 => vec!["take".to_string(), "0".to_string()],
        1 => vec!["post".to_string()],
        2 => vec!["view".to_string(), words[1].clone()],
        3 => vec!["view".to_string(), words[1].clone(), "4294967296".to_string()],
        4 => vec!["post".to_string(), "256".to_string()],
        _ => {
            words[last] = spoilt;
            words
        }
    }
}
