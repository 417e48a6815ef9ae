//! A script while it is drawn: what comes next is drawn along the model, which says what must be printed.

use super::arrivals::{KINDS, Kind, bytes_of, drawn, returned};
use super::machines::MEMORY;
use super::met::Met;
use super::model::{Model, Reply, answer_lines, sent_lines};
use super::posting::{drawn_settings, drawn_task, drawn_view, malformed};
use super::posts::WAITING;
use super::record::{Sending, owed, sent_tasks, sent_write};
use crate::shared::cases::Case;
use crate::shared::documents::{Drawn, drawn_edit, fault_line};
use crate::shared::draws::Draws;
use crate::shared::edits::Edit;
use crate::shared::packing::TASKS;
use crate::shared::questions::{Names, ask};
use crate::shared::scripts::Script;

pub struct Run<'a> {
    pub draws: Draws,
    pub case: &'a Case,
    pub names: Names,
    pub model: Model,
    /// All bytes that arrived.
    pub arrived: Vec<Vec<u8>>,
    pub script: Script,
    pub met: &'a mut Met,
    pub events: usize,
}

fn place_of(kind: Kind) -> usize {
    KINDS.iter().position(|(own, _)| *own == kind).expect("a kind")
}

fn words_of(tasks: &[u8]) -> Vec<u32> {
    tasks.iter().map(|task| u32::from(*task)).collect()
}

impl Run<'_> {
    /// What a reply prints, its refusal counted.
    fn printed(&mut self, reply: Reply) -> Vec<String> {
        reply.unwrap_or_else(|refusal| self.met.refuse(refusal))
    }

    /// The line that answers an edit.
    fn edited(&mut self, edit: &Edit) -> String {
        let reply = self.model.edit(edit);
        if let (Ok(_), Edit::Declare(group)) = (&reply, edit) {
            self.met.declared += 1;
            self.names.add(group);
        }
        self.printed(reply).remove(0)
    }

    pub fn edit(&mut self, drawn: &Drawn) {
        self.met.edits += 1;
        self.events += 1;
        let answer = match drawn.edit() {
            Ok(edit) => self.edited(&edit),
            Err(number) => {
                self.met.faults.add(number);
                fault_line(number)
            }
        };
        drawn.add(&mut self.script, answer);
    }

    fn drawn_edit(&mut self) {
        let drawn = drawn_edit(&mut self.draws, &self.model.line().state, self.case.shape, self.case.declarations);
        self.edit(&drawn);
    }

    fn count_sent(&mut self, sendings: &[Sending]) {
        self.met.together += sendings.iter().filter(|sending| sending.datagrams.len() > 1).count();
        let datagrams = sendings.iter().flat_map(|sending| &sending.datagrams);
        self.met.filled += datagrams.filter(|(_, one, _)| one.data.iter().any(|byte| *byte != 0)).count();
    }

    fn write(&mut self) -> Vec<Sending> {
        self.met.writes += 1;
        self.events += 1;
        let (answer, sendings) = match self.model.write() {
            Ok(sending) => (sent_lines(&[sending.clone()]), vec![sending]),
            Err(refusal) => (self.met.refuse(refusal), Vec::new()),
        };
        self.script.add("write", &[], answer);
        sendings
    }

    fn drawn_tasks(&mut self) -> Vec<u8> {
        let mut tasks: Vec<u8> = (0..TASKS).collect();
        self.draws.shuffle(&mut tasks);
        tasks.sort_by_key(|task| usize::from(*task) >= self.case.shape.tasks);
        let most = self.case.shape.tasks.min(self.draws.between(1, TASKS.into()));
        tasks.truncate(most.max(if self.draws.is(10) { 3 } else { 1 }));
        if self.draws.is(2) {
            tasks.insert(0, self.draws.between(TASKS.into(), 255) as u8);
            tasks.truncate(TASKS.into());
        }
        tasks
    }

    fn send(&mut self, tasks: &[u8]) -> Vec<Sending> {
        self.met.sends += 1;
        self.events += 1;
        let (answer, sendings) = match self.model.send(tasks) {
            Ok(sendings) => (sent_lines(&sendings), sendings),
            Err(refusal) => (self.met.refuse(refusal), Vec::new()),
        };
        self.count_sent(&sendings);
        self.script.add("send", &words_of(tasks), answer);
        sendings
    }

    fn drawn_send(&mut self) -> Vec<Sending> {
        let tasks = self.drawn_tasks();
        self.send(&tasks)
    }

    fn arrive(&mut self, kind: usize, bytes: Vec<u8>) {
        self.met.arrived[kind] += 1;
        self.events += 1;
        let lines = match self.model.arrive(&bytes) {
            Err(refusal) => self.met.refuse(refusal),
            Ok(answer) => {
                self.met.answer(&answer);
                answer_lines(&answer)
            }
        };
        self.script.add_bytes("arrive", &bytes, lines);
        self.arrived.push(bytes);
    }

    /// A frame comes back from every slave.
    fn come_back(&mut self, sending: &Sending) {
        let arrival = returned(&mut self.draws, self.model.line(), sending);
        let bytes = bytes_of(&mut self.draws, &arrival);
        self.arrive(place_of(Kind::True), bytes);
    }

    fn drawn_arrival(&mut self) {
        if let Some((kind, bytes)) = drawn(&mut self.draws, &self.model.history, &self.arrived) {
            self.arrive(place_of(kind), bytes);
        }
    }

    fn read(&mut self, task: u8) {
        self.met.reads += 1;
        self.events += 1;
        let reply = self.model.read(task);
        let lines = self.printed(reply);
        let empty = lines.iter().filter(|line| line.ends_with(" none")).count();
        self.met.empty_slots += empty;
        self.met.full_slots += lines.len() - 1 - empty;
        self.script.add("read", &[task.into()], lines);
    }

    fn drawn_read(&mut self) {
        let task = if self.draws.is(3) { self.draws.between(8, 255) } else { self.draws.below(self.case.shape.tasks) };
        self.read(task as u8);
    }

    /// Owed blocks are written, and most writes answered at once.
    fn program(&mut self) {
        for _ in 0..60 {
            if owed(&self.model.history).is_empty() || !self.draws.is(98) {
                return;
            }
            for sending in self.write() {
                if self.draws.is(96) {
                    self.come_back(&sending);
                }
            }
        }
    }

    /// Tasks are sent, and their frames come back in some order.
    fn cycle(&mut self) {
        let mut sendings = self.drawn_send();
        if self.draws.is(20) {
            self.draws.shuffle(&mut sendings);
        }
        for sending in sendings {
            self.come_back(&sending);
        }
        self.drawn_read();
    }

    /// A frame comes before it is sent, and the same bytes again after that.
    fn foretell(&mut self) {
        let (history, task) = (&self.model.history, self.draws.below(self.case.shape.tasks) as u8);
        let sending = sent_write(history).ok().or_else(|| sent_tasks(history, &[task]).ok()?.into_iter().next());
        let Some(sending) = sending else {
            return;
        };
        let arrival = returned(&mut self.draws, self.model.line(), &sending);
        let bytes = bytes_of(&mut self.draws, &arrival);
        self.arrive(place_of(Kind::Early), bytes.clone());
        if self.write().is_empty() {
            self.send(&[task]);
        }
        self.arrive(place_of(Kind::Repeated), bytes);
    }

    fn post(&mut self, task: u8) {
        self.met.posts += 1;
        self.events += 1;
        let settings = drawn_settings(&mut self.draws, self.model.line(), task, self.names.variables());
        let answer = self.model.post(task, &settings).unwrap_or_else(|refusal| {
            self.met.posts_refused.add(refusal.number);
            vec![refusal.line()]
        });
        self.script.add_post(task, &settings, answer);
    }

    fn take(&mut self) {
        self.events += 1;
        let taken = self.model.take();
        self.met.take(taken);
        self.script.add("take", &[], vec![format!("taken {} refused {}", taken.accepted, taken.refused)]);
    }

    /// Posts of a task, at times more than can wait; most are taken at once, some after an edit.
    fn post_some(&mut self) {
        let task = drawn_task(&mut self.draws, self.model.line(), true);
        let count = if self.draws.is(10) { WAITING + 1 } else { self.draws.between(1, 2) };
        for _ in 0..count {
            self.post(task);
        }
        match self.draws.below(20) {
            0 => {
                self.drawn_edit();
                self.take();
            }
            1..=11 => self.take(),
            _ => {}
        }
    }

    fn view(&mut self) {
        self.met.views += 1;
        self.events += 1;
        let (task, variable) = drawn_view(&mut self.draws, self.model.line(), self.names.variables());
        let answer = self.model.view(task, variable).unwrap_or_else(|refusal| {
            self.met.views_refused.add(refusal.number);
            vec![refusal.line()]
        });
        self.script.add("view", &[task.into(), variable], answer);
    }

    fn program_along(&mut self) {
        self.met.programs += 1;
        let (done, left) = self.model.program();
        self.met.missed_along += usize::from(left > 0);
        self.script.add("program", &[], vec![format!("written {done} owed {left}")]);
    }

    fn cycle_along(&mut self) {
        self.met.cycles += 1;
        let tasks = self.drawn_tasks();
        let lines: Vec<String> = match self.model.cycle(&tasks) {
            Err(refusal) => self.met.refuse(refusal),
            Ok(answers) if answers.is_empty() => sent_lines(&[]),
            Ok(answers) => {
                answers.iter().for_each(|answer| self.met.answer(answer));
                answers.iter().flat_map(answer_lines).collect()
            }
        };
        self.met.wrong_along += lines.iter().filter(|line| line.starts_with("wrong count")).count();
        self.script.add("cycle", &words_of(&tasks), lines);
    }

    fn scan(&mut self) {
        self.met.scans += 1;
        let lines = self.model.scan();
        self.script.add("scan", &[], lines);
    }

    fn name(&mut self) {
        self.met.names += 1;
        let lines = self.model.name();
        self.script.add("name", &[], lines);
    }

    /// A station address, most often of a slave of the line, and a range of memory: registers that decide what frames do,
    /// process memory, or any other.
    fn drawn_range(&mut self, most: usize) -> (u16, usize, usize) {
        let stations: Vec<u16> = self.model.line().state.slaves().map(|(_, slave)| slave.station).collect();
        let is_drawn = stations.is_empty() || self.draws.is(3);
        let station = if is_drawn { self.draws.below(0x1_0000) as u16 } else { *self.draws.one_of(&stations) };
        let at = match self.draws.below(10) {
            0 => 0x0010 + self.draws.below(4),
            1 | 2 => 0x0600 + self.draws.below(0x80),
            3..=8 => 0x1000 + self.draws.below(0x2000),
            _ => self.draws.below(MEMORY),
        };
        (station, at, self.draws.between(1, most.min(MEMORY - at)))
    }

    fn poke(&mut self) {
        self.met.pokes += 1;
        let most = if self.draws.is(10) { 400 } else { 4 };
        let (station, at, count) = self.drawn_range(most);
        let bytes: Vec<u8> = (0..count).map(|_| self.draws.below(256) as u8).collect();
        let reply = self.model.poke(station, at, &bytes);
        let lines = self.printed(reply);
        self.script.add_range("poke", &[station.into(), at as u32], &bytes, lines);
    }

    fn peek(&mut self) {
        self.met.peeks += 1;
        let most = if self.draws.is(10) { 1486 } else { 20 };
        let (station, at, count) = self.drawn_range(most);
        let reply = self.model.peek(station, at, count);
        let lines = self.printed(reply);
        self.script.add("peek", &[station.into(), at as u32, count as u32], lines);
    }

    /// A command of the simulated line.
    fn go_along(&mut self) {
        self.events += 1;
        match self.draws.below(20) {
            0 => self.scan(),
            1 | 2 => self.name(),
            3..=7 => self.program_along(),
            8..=13 => self.cycle_along(),
            14..=16 => self.poke(),
            _ => self.peek(),
        }
    }

    /// A question that is no event.
    fn ask(&mut self) {
        if self.draws.is(20) {
            return self.script.add("layout", &[], self.model.layout());
        }
        let model = &self.model;
        ask(&mut self.draws, &mut self.script, model.line(), &self.names, |task, number| model.show(task, number));
    }

    pub fn step(&mut self) {
        match self.draws.below(100) {
            0..=11 => return self.go_along(),
            12..=17 => return self.post_some(),
            18 | 19 => return self.take(),
            20..=25 => return self.view(),
            _ => {}
        }
        let is_owed = !owed(&self.model.history).is_empty();
        match self.draws.below(100) {
            0..=2 => self.drawn_edit(),
            3..=7 if is_owed => self.program(),
            3..=7 => self.cycle(),
            8..=36 if is_owed => drop(self.write()),
            8..=36 => drop(self.drawn_send()),
            37 | 38 => drop(self.drawn_send()),
            39 | 40 => drop(self.write()),
            41 => self.foretell(),
            42..=87 => self.drawn_arrival(),
            88..=96 => self.drawn_read(),
            _ => self.ask(),
        }
    }

    /// Some scripts end with a declaration that no line closes, and some with a line that is no command.
    pub fn end(&mut self) {
        match self.draws.below(5) {
            0 | 1 => self.script.add_unclosed("connect 0\n"),
            2 | 3 => {
                let words = self.script.post_words(0, &[(1, 1)]);
                let words = malformed(&mut self.draws, words);
                self.met.malformed += 1;
                self.script.add_malformed(&words);
            }
            _ => {}
        }
    }
}
