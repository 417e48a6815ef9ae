//! A project's text, read as far as the forms go in which the scripts here have it: arrays of tables under headers or in one
//! line, integers, strings, arrays and comments; the keys of a table come right after its header.

use super::records::{Area, Group, Pdo, Slave};
use std::iter::Peekable;
use std::str::Chars;

enum Value {
    Number(u32),
    Text(String),
    List(Vec<Value>),
    Table(Vec<(String, Value)>),
    /// Another word.
    Other,
}

/// The numbers of the faults that a text can have before its numbers are looked at: it is no TOML document; a needed key isn't
/// there or is of another kind.
const NOT_TOML: usize = 1;
const MISSING_FIELD: usize = 2;

/// What is left of a text.
struct Rest<'a> {
    chars: Peekable<Chars<'a>>,
}

impl Rest<'_> {
    /// Passes over blanks, line feeds and comments.
    fn skip(&mut self) {
        while let Some(next) = self.chars.peek() {
            match next {
                ' ' | '\t' | '\r' | '\n' => drop(self.chars.next()),
                '#' => while self.chars.next_if(|own| *own != '\n').is_some() {},
                _ => return,
            }
        }
    }

    /// Whether this comes next; then it is passed over.
    fn takes(&mut self, wanted: char) -> bool {
        self.skip();
        self.chars.next_if_eq(&wanted).is_some()
    }

    fn word(&mut self) -> Option<String> {
        self.skip();
        let mut word = String::new();
        while let Some(next) = self.chars.next_if(|own| own.is_ascii_alphanumeric() || "_-.".contains(*own)) {
            word.push(next);
        }
        (!word.is_empty()).then_some(word)
    }

    /// Values up to a closing bracket, parted by commas.
    fn list<T>(&mut self, closing: char, one: impl Fn(&mut Self) -> Option<T>) -> Option<Vec<T>> {
        let mut list = Vec::new();
        while !self.takes(closing) {
            list.push(one(self)?);
            if !self.takes(',') {
                return self.takes(closing).then_some(list);
            }
        }
        Some(list)
    }

    fn value(&mut self) -> Option<Value> {
        if self.takes('[') {
            return self.list(']', Rest::value).map(Value::List);
        }
        if self.takes('{') {
            return self.list('}', Rest::pair).map(Value::Table);
        }
        if self.takes('"') {
            let mut text = String::new();
            while let Some(next) = self.chars.next_if(|own| *own != '"') {
                text.push(next);
            }
            return self.chars.next().map(|_| Value::Text(text));
        }
        let word = self.word()?;
        Some(number(&word).map_or(Value::Other, Value::Number))
    }

    /// A key and its value.
    fn pair(&mut self) -> Option<(String, Value)> {
        let key = self.word()?;
        if self.takes('=') { Some((key, self.value()?)) } else { None }
    }
}

fn number(word: &str) -> Option<u32> {
    let word = word.replace('_', "");
    word.strip_prefix("0x").map_or_else(|| word.parse().ok(), |digits| u32::from_str_radix(digits, 16).ok())
}

impl Value {
    fn number<T: TryFrom<u32>>(&self) -> Option<T> {
        if let Value::Number(number) = self { T::try_from(*number).ok() } else { None }
    }

    fn list<T>(&self, one: impl Fn(&Value) -> Option<T>) -> Option<Vec<T>> {
        if let Value::List(list) = self { list.iter().map(one).collect() } else { None }
    }
}

fn entry(value: &Value) -> Option<(u32, u8)> {
    let Value::List(pair) = value else {
        return None;
    };
    let [variable, bits] = &pair[..] else {
        return None;
    };
    Some((variable.number()?, bits.number()?))
}

fn set_pdo(pdo: &mut Pdo, key: &str, value: &Value) -> Option<()> {
    match key {
        "index" => pdo.index = value.number()?,
        "entries" => pdo.entries = value.list(entry)?,
        _ => {}
    }
    Some(())
}

fn pdo_of(value: &Value) -> Option<Pdo> {
    let Value::Table(pairs) = value else {
        return None;
    };
    let mut pdo = Pdo { index: 0, entries: Vec::new() };
    for (key, value) in pairs {
        set_pdo(&mut pdo, key, value)?;
    }
    let has = |name: &&str| pairs.iter().any(|(key, _)| key == name);
    ["index", "entries"].iter().all(has).then_some(pdo)
}

fn set_area(area: &mut Area, key: &str, value: &Value) -> Option<()> {
    match (key, value) {
        ("sm", _) => area.sm = value.number()?,
        ("dir", Value::Text(dir)) => area.is_out = dir == "out",
        ("dir", _) => return None,
        ("phys", _) => area.phys = value.number()?,
        ("task", _) => area.task = value.number()?,
        ("assigned", _) => area.assigned = value.list(Value::number)?,
        ("pdo", _) => area.offered = value.list(pdo_of)?,
        _ => {}
    }
    Some(())
}

/// Begins the table of a header: the keys that it needs.
fn begin(groups: &mut Vec<Group>, header: &str) -> Option<Vec<&'static str>> {
    if header == "group" {
        groups.push(Group { alias: 0, slaves: Vec::new() });
        return Some(vec!["alias"]);
    }
    let group = if header.starts_with("group") { groups.last_mut()? } else { groups.first_mut()? };
    match header.strip_prefix("group.").unwrap_or(header) {
        "slave" => {
            group.slaves.push(Slave { station: 0, areas: Vec::new() });
            Some(vec!["station"])
        }
        "slave.area" => {
            let (offered, assigned) = (Vec::new(), Vec::new());
            let area = Area { is_out: false, sm: 0, phys: 0, task: 0, offered, assigned };
            group.slaves.last_mut()?.areas.push(area);
            Some(vec!["sm", "dir", "phys", "task", "assigned"])
        }
        "slave.area.pdo" => {
            group.slaves.last_mut()?.areas.last_mut()?.offered.push(Pdo { index: 0, entries: Vec::new() });
            Some(vec!["index", "entries"])
        }
        _ => None,
    }
}

/// Sets a key of the table that was begun last.
fn set(groups: &mut [Group], header: &str, key: &str, value: &Value) -> Option<()> {
    if header.is_empty() {
        return Some(());
    }
    let group = if header.starts_with("group") { groups.last_mut()? } else { groups.first_mut()? };
    match header.strip_prefix("group.").unwrap_or(header) {
        "group" if key == "alias" => group.alias = value.number()?,
        "group" => {}
        "slave" if key == "station" => group.slaves.last_mut()?.station = value.number()?,
        "slave" => {}
        "slave.area" => set_area(group.slaves.last_mut()?.areas.last_mut()?, key, value)?,
        _ => set_pdo(group.slaves.last_mut()?.areas.last_mut()?.offered.last_mut()?, key, value)?,
    }
    Some(())
}

/// Sets a key, or begins the tables that follow it in one line.
fn take(groups: &mut Vec<Group>, header: &str, key: &str, value: &Value) -> Option<()> {
    let name = if header.is_empty() { key.to_string() } else { format!("{header}.{key}") };
    if !["group", "slave", "area"].contains(&key) {
        return set(groups, header, key, value);
    }
    let Value::List(tables) = value else {
        return None;
    };
    tables.iter().try_for_each(|table| nest(groups, &name, table))
}

/// A table in one line, as if it came under a header.
fn nest(groups: &mut Vec<Group>, header: &str, table: &Value) -> Option<()> {
    let Value::Table(pairs) = table else {
        return None;
    };
    let needed = begin(groups, header)?;
    for (key, value) in pairs {
        take(groups, header, key, value)?;
    }
    needed.iter().all(|name| pairs.iter().any(|(key, _)| key == name)).then_some(())
}

/// A header between its brackets.
fn header(rest: &mut Rest) -> Option<String> {
    let header = rest.takes('[').then(|| rest.word())??;
    (rest.takes(']') && rest.takes(']')).then_some(header)
}

/// The groups of a project's text, the mandatory one first, or the number of the fault that shows before a number is looked at.
pub fn groups_of(text: &str) -> Result<Vec<Group>, usize> {
    let mut rest = Rest { chars: text.chars().peekable() };
    let mut groups = vec![Group { alias: 0, slaves: Vec::new() }];
    let (mut table, mut needed, mut is_missing) = (String::new(), Vec::new(), false);
    loop {
        rest.skip();
        if rest.chars.peek().is_none() {
            break;
        }
        if rest.takes('[') {
            is_missing |= !needed.is_empty();
            table = header(&mut rest).ok_or(NOT_TOML)?;
            needed = begin(&mut groups, &table).ok_or(NOT_TOML)?;
        } else {
            let (key, value) = rest.pair().ok_or(NOT_TOML)?;
            is_missing |= take(&mut groups, &table, &key, &value).is_none();
            needed.retain(|own| *own != key);
        }
    }
    is_missing |= !needed.is_empty() || groups[1..].iter().any(|group| group.slaves.is_empty());
    if is_missing { Err(MISSING_FIELD) } else { Ok(groups) }
}
