//! An input that someone wrote, answered by the model.

use super::model::{Model, Reply, answer_lines, sent_lines};
use super::posts::Setting;
use crate::shared::documents;
use crate::shared::edits::Edit;
use crate::shared::line::Line;
use crate::shared::texts::groups_of;

/// Decimal digits, or `0x` and hexadecimal ones.
fn number<T: TryFrom<u128>>(word: &str) -> Option<T> {
    let (digits, radix) = word.strip_prefix("0x").map_or((word, 10), |digits| (digits, 16));
    let is_number = !digits.is_empty() && digits.chars().all(|digit| digit.is_digit(radix));
    let number = is_number.then(|| u128::from_str_radix(digits, radix).ok())??;
    T::try_from(number).ok()
}

fn bytes(word: &str) -> Option<Vec<u8>> {
    let is_hex = !word.is_empty() && word.len() % 2 == 0 && word.bytes().all(|digit| digit.is_ascii_hexdigit());
    let pair = |at: usize| u8::from_str_radix(&word[at..at + 2], 16).ok();
    is_hex.then(|| (0..word.len()).step_by(2).map(pair).collect())?
}

/// 1 to 8 tasks, none twice.
fn tasks(words: &[&str]) -> Option<Vec<u8>> {
    let tasks: Vec<u8> = words.iter().map(|word| number(word)).collect::<Option<_>>()?;
    let is_twice = tasks.iter().enumerate().any(|(place, task)| tasks[..place].contains(task));
    (!is_twice && (1..=8).contains(&tasks.len())).then_some(tasks)
}

fn setting(word: &&str) -> Option<Setting> {
    let (variable, value) = word.split_once('=')?;
    Some((number(variable)?, number(value)?))
}

/// A range of memory that lies in it.
fn range(address: &str, count: usize) -> Option<usize> {
    let at: u16 = number(address)?;
    (usize::from(at) + count <= super::machines::MEMORY).then_some(at.into())
}

fn cycled(model: &mut Model, tasks: &[u8]) -> Reply {
    let answers = model.cycle(tasks)?;
    Ok(if answers.is_empty() { sent_lines(&[]) } else { answers.iter().flat_map(answer_lines).collect() })
}

fn taken(model: &mut Model) -> Vec<String> {
    let taken = model.take();
    vec![format!("taken {} refused {}", taken.accepted, taken.refused)]
}

fn programmed(model: &mut Model) -> Vec<String> {
    let (done, left) = model.program();
    vec![format!("written {done} owed {left}")]
}

/// What a line of words is answered with, but for `declare`; nothing where it is no command.
fn reply(model: &mut Model, words: &[&str]) -> Option<Reply> {
    Some(match words {
        ["layout"] => Ok(model.layout()),
        ["regs", station] => Ok(model.regs(number(station)?)),
        ["show", task, datagram] => Ok(vec![model.show(number(task)?, number(datagram)?)]),
        ["place", variable] => Ok(vec![model.place(number(variable)?)]),
        ["connect", alias] => model.edit(&Edit::Connect(number(alias)?)),
        ["disconnect", alias] => model.edit(&Edit::Disconnect(number(alias)?)),
        ["remap", station, area, pdos @ ..] => {
            let pdos = pdos.iter().map(|word| number(word)).collect::<Option<_>>()?;
            model.edit(&Edit::Remap { station: number(station)?, area: number(area)?, pdos })
        }
        ["move", station, area, task] => {
            model.edit(&Edit::Move { station: number(station)?, area: number(area)?, task: number(task)? })
        }
        ["write"] => model.write().map(|sending| sent_lines(&[sending])),
        ["send", words @ ..] => model.send(&tasks(words)?).map(|sendings| sent_lines(&sendings)),
        ["arrive", word] => model.arrive(&bytes(word)?).map(|answer| answer_lines(&answer)),
        ["read", task] => model.read(number(task)?),
        ["post", task, settings @ ..] => {
            let settings: Vec<Setting> = settings.iter().map(setting).collect::<Option<_>>()?;
            model.post(number(task)?, &settings)
        }
        ["take"] => Ok(taken(model)),
        ["view", task, variable] => model.view(number(task)?, number(variable)?),
        ["scan"] => Ok(model.scan()),
        ["name"] => Ok(model.name()),
        ["program"] => Ok(programmed(model)),
        ["cycle", words @ ..] => cycled(model, &tasks(words)?),
        ["poke", station, address, word] => {
            let (station, bytes) = (number(station)?, bytes(word)?);
            model.poke(station, range(address, bytes.len())?, &bytes)
        }
        ["peek", station, address, count] => {
            let (station, count) = (number(station)?, number::<u16>(count).filter(|count| (1..=1486).contains(count))?);
            model.peek(station, range(address, count.into())?, count.into())
        }
        _ => return None,
    })
}

/// The declaration of a document.
fn declared(model: &mut Model, document: &str) -> Reply {
    match groups_of(document).and_then(|groups| documents::declared(&groups)) {
        Ok(group) => model.edit(&Edit::Declare(group)),
        Err(fault) => Ok(vec![documents::fault_line(fault)]),
    }
}

fn print(reply: Reply) {
    match reply {
        Ok(lines) => lines.iter().for_each(|line| println!("{line}")),
        Err(refusal) => println!("{}", refusal.line()),
    }
}

/// Answers the commands of lines; the first line has this number: the exit status.
fn answer_lines_from(model: &mut Model, lines: &[&str], first: usize) -> u8 {
    let mut at = 0;
    while at < lines.len() {
        let words: Vec<&str> = lines[at].split(' ').filter(|word| !word.is_empty()).collect();
        let publishings = model.publishings();
        let closing = lines[at..].iter().position(|line| *line == "%%");
        let answered = match (&words[..], closing) {
            ([], _) => Some(Ok(Vec::new())),
            (["declare"], Some(length)) => {
                let document = lines[at + 1..at + length].join("\n");
                at += length;
                Some(declared(model, &document))
            }
            (["declare"], None) => None,
            (words, _) => reply(model, words),
        };
        let Some(reply) = answered else {
            println!("line {}: bad command", first + at);
            return 2;
        };
        print(reply);
        model.catch_up(publishings);
        at += 1;
    }
    0
}

/// Prints what the program must print for an input whose project is sound, where no publishing is refused or one with a number:
/// the exit status, or 64 where there is no such publishing.
pub fn answer(input: &str, unpublished: Option<usize>) -> u8 {
    let lines: Vec<&str> = input.lines().collect();
    let mark = lines.iter().position(|line| *line == "%%").unwrap_or(lines.len());
    let groups = groups_of(&lines[..mark].join("\n")).expect("a project");
    match Line::opened(&groups) {
        Ok(line) => {
            let mut model = Model::of(line);
            model.unpublished = unpublished;
            let status = answer_lines_from(&mut model, lines.get(mark + 1..).unwrap_or(&[]), mark + 2);
            if model.met_unpublished() { status } else { 64 }
        }
        Err(task) => {
            println!("open fault 1 TooManyDatagrams {task}");
            3
        }
    }
}
