//! Questions about a line beside its layout, drawn.

use super::draws::Draws;
use super::line::Line;
use super::printed::{place_line, regs_lines};
use super::records::Group;
use super::scripts::Script;

/// What a project declares that can be asked about, whether it is there or not.
pub struct Names {
    stations: Vec<u16>,
    variables: Vec<u32>,
}

impl Names {
    pub fn of(groups: &[Group]) -> Names {
        let mut names = Names { stations: Vec::new(), variables: Vec::new() };
        for group in groups {
            names.add(group);
        }
        names
    }

    pub fn variables(&self) -> &[u32] {
        &self.variables
    }

    /// And the questions about a group that is declared later.
    pub fn add(&mut self, group: &Group) {
        self.stations.extend(group.slaves.iter().map(|slave| slave.station));
        self.variables.extend(group.variables());
    }
}

/// Asks for a slave's blocks, a variable's place or a datagram's frame; `show` prints the frame of a task's datagram.
pub fn ask(draws: &mut Draws, script: &mut Script, line: &Line, names: &Names, show: impl Fn(u8, u8) -> String) {
    match draws.below(4) {
        0 | 1 => {
            let is_drawn = names.stations.is_empty() || draws.is(5);
            let station = if is_drawn { draws.below(0x1_0000) as u16 } else { *draws.one_of(&names.stations) };
            script.add("regs", &[station.into()], regs_lines(&line.state, &line.layout, station));
        }
        2 => {
            let is_drawn = names.variables.is_empty() || draws.is(5);
            let variable = if is_drawn { draws.below(0x8000_0000) as u32 } else { *draws.one_of(&names.variables) };
            script.add("place", &[variable], vec![place_line(&line.state, &line.layout, variable)]);
        }
        _ => {
            let [task, number] = [draws.below(9), draws.below(17).min(draws.below(17))].map(|number| number as u8);
            script.add("show", &[task.into(), number.into()], vec![show(task, number)]);
        }
    }
}
