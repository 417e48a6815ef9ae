//! What the program is given to read, and what it must print.

use super::draws::Draws;
use super::records::{Group, text_of};

/// The most bytes that the program reads.
pub const MOST_INPUT: usize = 4_194_304;

/// A line that is wanted, and the number of the input's line that it answers, counted from 1.
pub struct Wanted {
    pub line: usize,
    pub text: String,
}

/// An input with its answers.
pub struct Script {
    pub seed: u64,
    pub input: String,
    pub wanted: Vec<Wanted>,
    pub status: i32,
    /// Drawn apart from everything else: how numbers and lines are spelt.
    spelling: Draws,
    lines: usize,
}

impl Script {
    /// The project's text and the line after it.
    pub fn of(seed: u64, groups: &[Group]) -> Script {
        let input = text_of(groups) + "%%\n";
        let lines = input.lines().count();
        Script { seed, input, wanted: Vec::new(), status: 0, spelling: Draws(!seed), lines }
    }

    /// A number in decimal or hexadecimal digits.
    fn number(&mut self, number: u64) -> String {
        match self.spelling.below(12) {
            0 => format!("0x{number:x}"),
            1 => format!("0x{number:X}"),
            2 => format!("00{number}"),
            _ => number.to_string(),
        }
    }

    /// A gap between words, or before the first and after the last where `least` is 0.
    fn gap(&mut self, least: usize) -> String {
        let more = if self.spelling.is(3) { self.spelling.between(1, 3) } else { 0 };
        " ".repeat(least + more)
    }

    fn end_line(&mut self) {
        self.input.push_str(if self.spelling.is(3) { "\r\n" } else { "\n" });
        self.lines += 1;
    }

    /// A line of words, and its number.
    fn add_line(&mut self, words: &[String]) -> usize {
        if self.spelling.is(1) {
            self.end_line();
        }
        let front = self.gap(0);
        self.input.push_str(&front);
        for (place, word) in words.iter().enumerate() {
            let gap = if place == 0 { String::new() } else { self.gap(1) };
            self.input.push_str(&gap);
            self.input.push_str(word);
        }
        let after = self.gap(0);
        self.input.push_str(&after);
        self.end_line();
        self.lines
    }

    fn add_words(&mut self, words: &[String], answer: Vec<String>) {
        let line = self.add_line(words);
        self.wanted.extend(answer.into_iter().map(|text| Wanted { line, text }));
    }

    /// A line `declare`, and the lines of a document. The line's number.
    fn add_document(&mut self, document: &str) -> usize {
        let line = self.add_line(&["declare".to_string()]);
        self.input.push_str(document);
        self.lines += document.lines().count();
        line
    }

    /// A declaration, with the lines that answer it.
    pub fn add_declaration(&mut self, document: &str, answer: Vec<String>) {
        let line = self.add_document(document);
        self.input.push_str("%%");
        self.end_line();
        self.wanted.extend(answer.into_iter().map(|text| Wanted { line, text }));
    }

    /// A declaration that no line closes; it ends the run, and its content isn't read.
    pub fn add_unclosed(&mut self, document: &str) {
        let line = self.add_document(document);
        self.wanted.push(Wanted { line, text: format!("line {line}: bad command") });
        self.status = 2;
    }

    /// A line that is no command, and so ends the run.
    pub fn add_malformed(&mut self, words: &[String]) {
        let line = self.add_line(words);
        self.wanted.push(Wanted { line, text: format!("line {line}: bad command") });
        self.status = 2;
    }

    fn numbers(&mut self, numbers: &[u32]) -> Vec<String> {
        numbers.iter().map(|number| self.number((*number).into())).collect()
    }

    /// A command of a name and numbers, with the lines that answer it.
    pub fn add(&mut self, name: &str, numbers: &[u32], answer: Vec<String>) {
        let words: Vec<String> = [name.to_string()].into_iter().chain(self.numbers(numbers)).collect();
        self.add_words(&words, answer);
    }

    /// The words of a post: its task, and variables with their values.
    pub fn post_words(&mut self, task: u8, settings: &[(u32, u64)]) -> Vec<String> {
        let mut words = vec!["post".to_string(), self.number(task.into())];
        words.extend(settings.iter().map(|(variable, value)| {
            let variable = self.number((*variable).into());
            format!("{variable}={}", self.number(*value))
        }));
        words
    }

    pub fn add_post(&mut self, task: u8, settings: &[(u32, u64)], answer: Vec<String>) {
        let words = self.post_words(task, settings);
        self.add_words(&words, answer);
    }

    /// A command of a name and bytes.
    pub fn add_bytes(&mut self, name: &str, bytes: &[u8], answer: Vec<String>) {
        self.add_range(name, &[], bytes, answer);
    }

    /// A command of a name, numbers, and bytes after them.
    pub fn add_range(&mut self, name: &str, numbers: &[u32], bytes: &[u8], answer: Vec<String>) {
        let is_upper = self.spelling.is(10);
        let digits = bytes.iter().map(|byte| if is_upper { format!("{byte:02X}") } else { format!("{byte:02x}") });
        let digits: String = digits.collect();
        let words: Vec<String> = [name.to_string()].into_iter().chain(self.numbers(numbers)).chain([digits]).collect();
        self.add_words(&words, answer);
    }

    pub fn wanted_text(&self) -> String {
        self.wanted.iter().map(|wanted| wanted.text.clone() + "\n").collect()
    }
}
