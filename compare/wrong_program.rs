//! A wrong program: it runs another one over what it reads, and prints what that prints but for one line; or it hands on
//! what it reads but for the last line of a document, or for a post. The comparisons are shown it and must refuse it.
//!
//! Words after its name: the way in which it is wrong (`byte`, `line`, `epoch`, `document`, `view`, `judged`, `counted` or
//! `dropped`), the program, and its arguments.

use std::io::{Read, Write, stdin, stdout};
use std::process::{Command, ExitCode, Output, Stdio};
use std::thread::spawn;

/// The line with another last byte.
fn with_other_byte(line: &str) -> String {
    let mut bytes = line.as_bytes().to_vec();
    if let Some(last) = bytes.last_mut() {
        *last ^= 1;
    }
    String::from_utf8_lossy(&bytes).into_owned()
}

/// A line that prints an epoch, with the epoch before; none where it prints none, or the first one.
fn with_epoch_before(line: &str) -> Option<String> {
    let rest = line.strip_prefix("epoch ")?;
    let (epoch, after) = rest.split_at(rest.find(' ').unwrap_or(rest.len()));
    Some(format!("epoch {}{after}", epoch.parse::<u32>().ok()?.checked_sub(1)?))
}

/// A view that is too old: it shows of its variable what the view before it showed.
fn with_view_before(lines: &[String], at: usize) -> Option<String> {
    let variable = |line: &String| line.strip_prefix("epoch ")?.split_once(" var ")?.1.split_once(" value ").map(|(one, _)| one.to_string());
    let own = variable(&lines[at])?;
    let before = lines[..at].iter().rev().find(|line| variable(line).as_ref() == Some(&own))?;
    (*before != lines[at]).then(|| before.clone())
}

/// The line with the counts of accepted and refused posts, as a program counts them that refuses some.
fn with_other_counts(line: &str, count: fn(u32, u32) -> (u32, u32)) -> Option<String> {
    let (accepted, refused) = line.strip_prefix("taken ")?.split_once(" refused ")?;
    let (accepted, refused): (u32, u32) = (accepted.parse().ok()?, refused.parse().ok()?);
    let (other, rest) = count(accepted, refused);
    (refused > 0).then(|| format!("taken {other} refused {rest}"))
}

/// Changes a line at or after the middle.
fn turn(way: &str, lines: &mut Vec<String>) -> Option<()> {
    let middle = lines.len() / 2;
    match way {
        "byte" => {
            let line = lines.get_mut(middle)?;
            *line = with_other_byte(line);
        }
        "line" if middle < lines.len() => drop(lines.remove(middle)),
        _ => {
            let turned = |at: usize| match way {
                "epoch" => with_epoch_before(&lines[at]),
                "view" => with_view_before(lines, at),
                // each post is judged by the present epoch, whatever its task viewed
                "judged" => with_other_counts(&lines[at], |accepted, refused| (accepted + refused, 0)),
                // all that were taken are counted as accepted
                "counted" => with_other_counts(&lines[at], |accepted, refused| (accepted + refused, refused)),
                _ => None,
            };
            let (at, other) = (middle..lines.len()).find_map(|at| turned(at).map(|other| (at, other)))?;
            lines[at] = other;
        }
    }
    Some(())
}

/// An input with a blank line in place of the last line of each `declare`'s document.
fn with_shorter_documents(input: &str) -> String {
    let mut lines: Vec<&str> = input.lines().collect();
    let is_mark = |line: &&str| line.trim_end_matches('\r') == "%%";
    let mut place = lines.iter().position(is_mark).unwrap_or(lines.len());
    while let Some(ahead) = lines[place..].iter().position(|line| line.trim() == "declare") {
        let Some(length) = lines[place + ahead..].iter().position(is_mark) else {
            break;
        };
        place += ahead + length;
        if length > 1 {
            lines[place - 1] = "";
        }
    }
    lines.join("\n") + "\n"
}

/// What a program prints where a post at or after the middle never comes to it, though it is answered as all others.
/// The post is one whose loss can be seen.
fn with_dropped_post(program: &str, arguments: &[String], input: &str) -> std::io::Result<Output> {
    let whole = run(program, arguments, input.to_string())?;
    let lines: Vec<&str> = input.split_inclusive('\n').collect();
    let posts = (lines.len() / 2..lines.len()).filter(|at| lines[*at].trim_start().starts_with("post "));
    for at in posts.take(50) {
        let front = run(program, arguments, lines[..at].concat())?.stdout;
        let posted = run(program, arguments, lines[..=at].concat())?.stdout;
        let without = [&lines[..at], &["\n"], &lines[at + 1..]].concat();
        let other = run(program, arguments, without.concat())?;
        let (Some(b"posted\n"), Some(after)) = (posted.strip_prefix(&front[..]), other.stdout.strip_prefix(&front[..])) else {
            continue;
        };
        let stdout = [&front, &b"posted\n"[..], after].concat();
        if stdout != whole.stdout {
            return Ok(Output { stdout, ..other });
        }
    }
    Ok(whole)
}

/// What a program prints for an input, which needn't be text.
fn run(program: &str, arguments: &[String], input: impl Into<Vec<u8>>) -> std::io::Result<Output> {
    let mut command = Command::new(program);
    command.args(arguments).stdin(Stdio::piped()).stdout(Stdio::piped());
    let mut child = command.spawn()?;
    let mut to = child.stdin.take().expect("a pipe");
    let input = input.into();
    // a program that stops reading fails by what it prints
    let writer = spawn(move || drop(to.write_all(&input)));
    let output = child.wait_with_output();
    writer.join().expect("a writer");
    output
}

fn main() -> ExitCode {
    let words: Vec<String> = std::env::args().skip(1).collect();
    let [way, program, arguments @ ..] = &words[..] else {
        eprintln!("usage: wrong_program byte|line|epoch|document|view|judged|counted|dropped PROGRAM [ARGUMENT..]");
        return ExitCode::from(64);
    };
    let mut input = Vec::new();
    if stdin().read_to_end(&mut input).is_err() {
        eprintln!("the input can't be read");
        return ExitCode::from(64);
    }
    let text = String::from_utf8_lossy(&input);
    let output = match way.as_str() {
        "document" => run(program, arguments, with_shorter_documents(&text)),
        "dropped" => with_dropped_post(program, arguments, &text),
        _ => run(program, arguments, input),
    };
    let Ok(output) = output else {
        eprintln!("{program} can't be run");
        return ExitCode::from(64);
    };
    let mut lines: Vec<String> = String::from_utf8_lossy(&output.stdout).lines().map(str::to_string).collect();
    // where there is nothing to turn it is right, and whoever looks for a wrong one sees that
    turn(way, &mut lines);
    let printed: String = lines.iter().map(|line| line.clone() + "\n").collect();
    match (stdout().write_all(printed.as_bytes()), output.status.code().and_then(|code| u8::try_from(code).ok())) {
        (Ok(()), Some(code)) => ExitCode::from(code),
        _ => ExitCode::from(64),
    }
}
