//! A program over scripts, compared line by line.

use super::scripts::{MOST_INPUT, Script, Wanted};
use std::io::{Read, Write};
use std::process::{Command, ExitCode, Stdio};
use std::thread::{sleep, spawn};
use std::time::{Duration, Instant};

/// A run takes a second or two; one that takes so long hangs.
const LIMIT: Duration = Duration::from_secs(60);

/// The exit status of a program, if it has one, and what it printed.
fn run(program: &[String], input: &str) -> Result<(Option<i32>, Vec<u8>), String> {
    let mut command = Command::new(&program[0]);
    command.args(&program[1..]).stdin(Stdio::piped()).stdout(Stdio::piped());
    let mut child = command.spawn().map_err(|error| format!("{}: {error}", program[0]))?;
    let (mut to, mut from) = (child.stdin.take().expect("a pipe"), child.stdout.take().expect("a pipe"));
    let input = input.as_bytes().to_vec();
    // a program that stops reading fails by what it prints
    let writer = spawn(move || drop(to.write_all(&input)));
    let reader = spawn(move || {
        let mut printed = Vec::new();
        from.read_to_end(&mut printed).map(|_| printed)
    });
    let begun = Instant::now();
    let status = loop {
        match child.try_wait().map_err(|error| error.to_string())? {
            Some(status) => break status,
            None if begun.elapsed() > LIMIT => {
                child.kill().map_err(|error| error.to_string())?;
                return Err(format!("no end within {} seconds", LIMIT.as_secs()));
            }
            None => sleep(Duration::from_millis(2)),
        }
    };
    writer.join().map_err(|_| "the writer failed")?;
    let printed = reader.join().map_err(|_| "the reader failed")?.map_err(|error| error.to_string())?;
    Ok((status.code(), printed))
}

/// A line of the input.
fn command_at(script: &Script, line: usize) -> &str {
    script.input.lines().nth(line - 1).unwrap_or("")
}

/// At most so many characters of a line, around the place of its first difference to another one.
fn shortened(text: &str, other: &str) -> String {
    let same = text.bytes().zip(other.bytes()).take_while(|(one, other)| one == other).count();
    let from = same.saturating_sub(30);
    let shown: String = text.chars().skip(from).take(90).collect();
    let (front, after) = (if from > 0 { ".." } else { "" }, if text.len() > from + 90 { ".." } else { "" });
    format!("{front}{shown}{after}")
}

/// Where what was printed isn't what is wanted.
fn difference(script: &Script, status: Option<i32>, printed: &[u8]) -> Result<(), String> {
    let printed = String::from_utf8_lossy(printed);
    let mut lines = printed.split_inclusive('\n');
    for Wanted { line, text } in &script.wanted {
        let printed = lines.next();
        if printed.and_then(|printed| printed.strip_suffix('\n')) == Some(text) {
            continue;
        }
        let place = format!("line {line}, `{}`", shortened(command_at(script, *line), ""));
        return Err(match printed.map(|printed| printed.trim_end_matches('\n')) {
            None => format!("{place}: `{}` is wanted, nothing more is printed", shortened(text, "")),
            Some(printed) => {
                let (text, printed) = (shortened(text, printed), shortened(printed, text));
                format!("{place}: `{text}` is wanted, `{printed}` is printed")
            }
        });
    }
    match lines.next() {
        Some(line) => Err(format!("behind the last wanted line `{}` is printed", shortened(line.trim_end(), ""))),
        None if status != Some(script.status) => Err(format!("status {} is wanted, it is {status:?}", script.status)),
        None => Ok(()),
    }
}

/// Runs a program over a script: where it prints something else than is wanted.
pub fn compare(program: &[String], script: &Script) -> Result<(), String> {
    assert!(script.input.len() <= MOST_INPUT, "seed {}: the script is too long", script.seed);
    let (status, printed) = run(program, &script.input).map_err(|error| format!("seed {}: {error}", script.seed))?;
    difference(script, status, &printed).map_err(|error| format!("seed {}, {error}", script.seed))
}

/// What a comparison is asked for by its arguments.
enum Asked {
    /// All seeds, or one, over a program.
    Compare {
        seed: Option<u64>,
        program: Vec<String>,
    },
    /// The script of a seed, or what is wanted of it.
    Script(u64),
    Wanted(u64),
}

fn asked() -> Option<Asked> {
    let words: Vec<String> = std::env::args().skip(1).collect();
    let number = |word: &String| word.parse().ok();
    match &words[..] {
        [word, seed] if word == "--script" => Some(Asked::Script(number(seed)?)),
        [word, seed] if word == "--wanted" => Some(Asked::Wanted(number(seed)?)),
        [word, seed, program @ ..] if word == "--seed" && !program.is_empty() => {
            Some(Asked::Compare { seed: Some(number(seed)?), program: program.to_vec() })
        }
        [] => None,
        program => Some(Asked::Compare { seed: None, program: program.to_vec() }),
    }
}

/// What a comparison does with its arguments: `drawn` draws the script of a seed, and `compare_all` runs the scripts of
/// all seeds, or of one.
pub fn main_of(
    name: &str, drawn: impl Fn(u64) -> Option<Script>,
    compare_all: impl Fn(&[String], Option<u64>) -> Result<(), String>,
) -> ExitCode {
    let unknown = || "no such seed".to_string();
    let result = match asked() {
        Some(Asked::Compare { seed, program }) => compare_all(&program, seed),
        Some(Asked::Script(seed)) => drawn(seed).map(|script| print!("{}", script.input)).ok_or_else(unknown),
        Some(Asked::Wanted(seed)) => drawn(seed).map(|script| print!("{}", script.wanted_text())).ok_or_else(unknown),
        None => Err("usage: [--seed N] PROGRAM [ARGUMENT..], --script N or --wanted N".to_string()),
    };
    match result {
        Ok(()) => ExitCode::SUCCESS,
        Err(error) => {
            println!("{name}: {error}");
            ExitCode::FAILURE
        }
    }
}
