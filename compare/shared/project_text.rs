//! The text of a project, as docs/use/PROJECT_TEXT.md has it.

use std::fmt::Write;

/// A PDO that an area offers: its index, and its entries, each a variable, 0 for a gap, and its bits.
#[derive(Clone)]
pub struct Pdo {
    pub index: u16,
    pub entries: Vec<(u32, u8)>,
}

/// What the text says of an area.
pub struct AreaKeys<'a> {
    pub is_out: bool,
    pub sm: u8,
    pub phys: u16,
    pub task: u8,
    pub assigned: &'a [u16],
    pub offered: &'a [Pdo],
}

/// Begins a group; the mandatory one, with alias 0, needs no words.
pub fn add_group(text: &mut String, alias: u16) {
    if alias > 0 {
        writeln!(text, "[[group]]\nalias = {alias}").expect("memory");
    }
}

/// The name of the array that has the slaves of a group.
fn slaves_of(alias: u16) -> &'static str {
    if alias == 0 { "slave" } else { "group.slave" }
}

/// Adds a slave to the group with the alias, the last that was begun.
pub fn add_slave(text: &mut String, alias: u16, station: u16) {
    writeln!(text, "[[{}]]\nstation = {station}", slaves_of(alias)).expect("memory");
}

/// Adds an area to the last slave of the group with the alias.
pub fn add_area(text: &mut String, alias: u16, area: &AreaKeys) {
    let AreaKeys { is_out, sm, phys, task, assigned, offered } = area;
    let (slaves, dir) = (slaves_of(alias), if *is_out { "out" } else { "in" });
    writeln!(text, "[[{slaves}.area]]\nsm = {sm}\ndir = \"{dir}\"\nphys = {phys}\ntask = {task}").expect("memory");
    write!(text, "assigned = {assigned:?}\npdo = [").expect("memory");
    for Pdo { index, entries } in *offered {
        let entries: Vec<[u32; 2]> = entries.iter().map(|(variable, bits)| [*variable, u32::from(*bits)]).collect();
        write!(text, "{{ index = {index}, entries = {entries:?} }},").expect("memory");
    }
    text.push_str("]\n");
}
