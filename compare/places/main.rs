//! Compares what `projectcheck` prints of projects of 2,048 slaves that are spoilt in one drawn place, or by one thing that
//! repeats another, with the fault and the place that were drawn.
//!
//! Words after its name are the program, and its arguments.

#[allow(dead_code)]
#[path = "../shared/draws.rs"]
mod draws;

use draws::Draws;
use std::fmt::Write as _;
use std::io::Write as _;
use std::process::{Command, ExitCode, Stdio};

const GROUPS: usize = 32;
const SLAVES: usize = 64;
const DRAWS: usize = 6;

/// A PDO: its index, and its entries.
#[derive(Clone)]
struct Pdo {
    index: String,
    entries: Vec<[String; 2]>,
}

/// An area, each value as it is written.
#[derive(Clone)]
struct Area {
    sm: String,
    dir: String,
    phys: String,
    task: String,
    assigned: Vec<String>,
    pdos: Vec<Pdo>,
}

/// A slave, and a line of its own after its station address.
#[derive(Clone)]
struct Slave {
    station: String,
    areas: Vec<Area>,
}

/// The groups, the mandatory one first, whose alias isn't written.
type Project = Vec<(String, Vec<Slave>)>;

fn area(number: usize, input: usize) -> Area {
    let variable = 8 * number + 4 * input + 1;
    let pdo = |place: usize| Pdo {
        index: format!("{}", 0x1600 + place),
        entries: (0..2).map(|entry| [format!("{}", variable + 2 * place + entry), "8".into()]).collect(),
    };
    Area {
        sm: format!("{}", 2 + input),
        dir: if input == 1 { "\"in\"".into() } else { "\"out\"".into() },
        phys: format!("{}", 0x1100 + 0x80 * input),
        task: format!("{}", number % 8),
        assigned: vec![format!("{}", 0x1601), format!("{}", 0x1600)],
        pdos: (0..2).map(pdo).collect(),
    }
}

fn project() -> Project {
    let slave = |number: usize| Slave { station: format!("{}", number + 1), areas: vec![area(number, 0), area(number, 1)] };
    let group = |group: usize| (format!("{}", 100 + group), (0..SLAVES).map(|place| slave(group * SLAVES + place)).collect());
    (0..GROUPS).map(group).collect()
}

/// The text of a project; a value that is empty is left out with its key.
fn text_of(project: &Project) -> String {
    let mut text = String::new();
    for (group, (alias, slaves)) in project.iter().enumerate() {
        let front = if group == 0 { "slave" } else { "group.slave" };
        if group > 0 {
            text += "[[group]]\n";
            key(&mut text, "alias", alias);
        }
        for slave in slaves {
            writeln!(text, "[[{front}]]").unwrap();
            key(&mut text, "station", &slave.station);
            for area in &slave.areas {
                writeln!(text, "[[{front}.area]]").unwrap();
                for (name, value) in
                    [("sm", &area.sm), ("dir", &area.dir), ("phys", &area.phys), ("task", &area.task)]
                {
                    key(&mut text, name, value);
                }
                writeln!(text, "assigned = [{}]", area.assigned.join(", ")).unwrap();
                for pdo in &area.pdos {
                    let entries: Vec<String> = pdo.entries.iter().map(|[name, bits]| format!("[{name}, {bits}]")).collect();
                    writeln!(text, "[[{front}.area.pdo]]").unwrap();
                    key(&mut text, "index", &pdo.index);
                    writeln!(text, "entries = [{}]", entries.join(", ")).unwrap();
                }
            }
        }
    }
    text
}

fn key(text: &mut String, name: &str, value: &str) {
    if !value.is_empty() {
        writeln!(text, "{name} = {value}").unwrap();
    }
}

/// A drawn area.
#[derive(Clone, Copy, PartialEq, Eq, PartialOrd, Ord)]
struct At {
    group: usize,
    slave: usize,
    area: usize,
}

impl At {
    fn drawn(draws: &mut Draws) -> At {
        At { group: draws.below(GROUPS), slave: draws.below(SLAVES), area: draws.below(2) }
    }

    fn group_path(self) -> String {
        if self.group == 0 { String::new() } else { format!("group[{}].", self.group - 1) }
    }

    fn slave_path(self, rest: &str) -> String {
        format!("{}slave[{}]{rest}", self.group_path(), self.slave)
    }

    fn area_path(self, rest: &str) -> String {
        self.slave_path(&format!(".area[{}]{rest}", self.area))
    }

    fn slave(self, project: &mut Project) -> &mut Slave {
        &mut project[self.group].1[self.slave]
    }

    fn spoilt(self, project: &mut Project) -> &mut Area {
        &mut self.slave(project).areas[self.area]
    }

    /// The alias and the station address after a place, where they can be read.
    fn numbers(self, project: &Project) -> String {
        let (alias, slaves) = &project[self.group];
        let mut text = String::new();
        if self.group > 0 {
            write!(text, " alias {alias}").unwrap();
        }
        if let Ok(station @ 1..) = slaves[self.slave].station.parse::<u16>() {
            write!(text, " station {station}").unwrap();
        }
        text
    }
}

/// Two places of different slaves, the earlier one first.
fn two(draws: &mut Draws) -> [At; 2] {
    let mut both = [At::drawn(draws), At::drawn(draws)];
    both.sort();
    if (both[0].group, both[0].slave) == (both[1].group, both[1].slave) { two(draws) } else { both }
}

/// Spoils an area in one place: how, and the rest of the path after the area.
fn spoil_missing(draws: &mut Draws, area: &mut Area) -> &'static str {
    match draws.below(4) {
        0 => {
            area.phys.clear();
            ".phys"
        }
        1 => {
            area.dir = "2".into();
            ".dir"
        }
        2 => {
            area.assigned[1] = "\"5632\"".into();
            ".assigned[1]"
        }
        _ => {
            area.pdos[1].entries[1][0] = "1.5".into();
            ".pdo[1].entries[1][0]"
        }
    }
}

fn spoil_outside(draws: &mut Draws, area: &mut Area) -> &'static str {
    match draws.below(5) {
        0 => {
            area.task = "8".into();
            ".task"
        }
        1 => {
            area.dir = "\"both\"".into();
            ".dir"
        }
        2 => {
            area.pdos[0].entries[1][1] = "65".into();
            ".pdo[0].entries[1][1]"
        }
        3 => {
            area.phys = format!("{}", 0x2ffe);
            ".phys"
        }
        _ => {
            area.assigned = (0..40).map(|_| "5632".into()).collect();
            ".assigned[32]"
        }
    }
}

/// The wide PDOs of an area with 12,288 bits; the last one begins at 8,192.
fn widen(area: &mut Area) {
    let gaps = |index: usize| Pdo { index: format!("{index}"), entries: vec![["0".into(), "64".into()]; 64] };
    area.pdos = (0..3).map(|place| gaps(0x1700 + place)).collect();
    area.assigned = area.pdos.iter().map(|pdo| pdo.index.clone()).collect();
    area.phys = format!("{}", 0x1800 + 0x800 * (area.dir == "\"in\"") as usize);
}

/// Spoils a project so that it has a fault, by its number. The fault's name and its place.
fn spoil(fault: usize, draws: &mut Draws, project: &mut Project) -> (&'static str, String) {
    let at = At::drawn(draws);
    let [first, later] = two(draws);
    match fault {
        1 => {
            at.slave(project).station = "?".into();
            let text = text_of(project);
            let lines = text.lines().take_while(|line| *line != "station = ?").count();
            ("NotToml", format!("line {} column 11", lines + 1))
        }
        2 => {
            let rest = spoil_missing(draws, at.spoilt(project));
            ("MissingField", at.area_path(rest) + &at.numbers(project))
        }
        3 => {
            let rest = spoil_outside(draws, at.spoilt(project));
            ("OutOfRange", at.area_path(rest) + &at.numbers(project))
        }
        4 => {
            let [first, later] = if first.group == 0 || first.group == later.group {
                [At { group: 3, ..first }, At { group: 30, ..later }]
            } else {
                [first, later]
            };
            let alias = project[first.group].0.clone();
            let path = |at: At| format!("{}alias alias {alias}", at.group_path());
            project[later.group].0.clone_from(&alias);
            ("RepeatedAlias", format!("{} first {}", path(later), path(first)))
        }
        5 => {
            later.slave(project).station = first.slave(project).station.clone();
            let path = |at: At| at.slave_path(".station") + &at.numbers(project);
            ("RepeatedStation", format!("{} first {}", path(later), path(first)))
        }
        6 | 7 => {
            let both = [At { area: 0, ..at }, At { area: 1, ..at }];
            let slave = at.slave(project);
            let rest = if fault == 6 {
                slave.areas[1].sm = slave.areas[0].sm.clone();
                ".sm"
            } else {
                slave.areas[1].phys = format!("{}", 0x1103);
                ""
            };
            let path = |at: At| at.area_path(rest) + &at.numbers(project);
            let name = if fault == 6 { "RepeatedSyncManager" } else { "OverlappingAreas" };
            (name, format!("{} first {}", path(both[1]), path(both[0])))
        }
        8 => {
            let name = first.spoilt(project).pdos[1].entries[0][0].clone();
            later.spoilt(project).pdos[0].entries[1][0] = name;
            let path = |at: At, rest| at.area_path(rest) + &at.numbers(project);
            ("RepeatedVariable", format!("{} first {}", path(later, ".pdo[0].entries[1][0]"), path(first, ".pdo[1].entries[0][0]")))
        }
        9 => {
            let numbers = at.numbers(project);
            let area = at.spoilt(project);
            let place = match draws.below(3) {
                0 => {
                    area.assigned.push("5640".into());
                    at.area_path(".assigned[2]") + &numbers
                }
                1 => {
                    area.assigned[1] = area.assigned[0].clone();
                    format!("{}{numbers} first {}{numbers}", at.area_path(".assigned[1]"), at.area_path(".assigned[0]"))
                }
                _ => {
                    area.assigned.clear();
                    area.pdos[1].index = area.pdos[0].index.clone();
                    format!("{}{numbers} first {}{numbers}", at.area_path(".pdo[1].index"), at.area_path(".pdo[0].index"))
                }
            };
            ("UnknownPdo", place)
        }
        _ => {
            widen(at.spoilt(project));
            ("AreaTooBig", at.area_path(".assigned[2]") + &at.numbers(project))
        }
    }
}

/// What the program prints for a text, and its status.
fn run(words: &[String], text: &str) -> Option<(String, i32)> {
    let mut child = Command::new(&words[0]).args(&words[1..]).stdin(Stdio::piped()).stdout(Stdio::piped()).spawn().ok()?;
    child.stdin.take()?.write_all(text.as_bytes()).ok()?;
    let output = child.wait_with_output().ok()?;
    Some((String::from_utf8(output.stdout).ok()?, output.status.code()?))
}

/// Whether the program prints what is wanted.
fn is_printed(words: &[String], text: &str, wanted: &str, status: i32) -> bool {
    let printed = run(words, text);
    if printed.as_ref().is_some_and(|(said, code)| said == wanted && *code == status) {
        return true;
    }
    println!("{wanted:?} with status {status} is wanted, and {printed:?} was printed");
    false
}

fn main() -> ExitCode {
    let words: Vec<String> = std::env::args().skip(1).collect();
    if words.is_empty() {
        eprintln!("usage: places PROGRAM [ARGUMENT..]");
        return ExitCode::from(64);
    }
    if !is_printed(&words, &text_of(&project()), "ok\n", 0) {
        return ExitCode::from(1);
    }
    let mut draws = Draws(7);
    for fault in 1..=10 {
        for _ in 0..DRAWS {
            let mut spoilt = project();
            let (name, place) = spoil(fault, &mut draws, &mut spoilt);
            let wanted = format!("project fault {fault} {name}\nat {place}\n");
            if !is_printed(&words, &text_of(&spoilt), &wanted, 3) {
                return ExitCode::from(1);
            }
        }
    }
    println!("{} spoilt projects of {} slaves are told with their places", 10 * DRAWS, GROUPS * SLAVES);
    ExitCode::SUCCESS
}
