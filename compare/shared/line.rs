//! A line as it is between two edits: its state, and all that follows from it, worked out from nothing.

use super::blocks::{Block, line_blocks, moved};
use super::boundaries::recut;
use super::edits::{Edit, Refusal, edited};
use super::packing::{Layout, Place, layout_of, over_limit_task};
use super::records::{Group, State};
use std::cell::OnceCell;
use std::collections::BTreeMap;

pub struct Line {
    pub state: State,
    pub layout: Layout,
    /// The register blocks in line and block order, each with the station address of its slave.
    pub blocks: Vec<(u16, Block)>,
    /// Worked out where someone asks for it.
    variables: OnceCell<BTreeMap<u32, Place>>,
}

impl Line {
    pub fn of(state: State) -> Line {
        let line = state.line();
        let layout = layout_of(&line);
        let blocks = line_blocks(&line, &layout);
        Line { state, layout, blocks, variables: OnceCell::new() }
    }

    /// The place of each variable of the line.
    pub fn variables(&self) -> &BTreeMap<u32, Place> {
        self.variables.get_or_init(|| self.layout.variables(&self.state.line()))
    }

    /// The line at its opening, or the lowest task that needs too many datagrams.
    pub fn opened(groups: &[Group]) -> Result<Line, u8> {
        let state = State::opened(groups);
        let over_limit = over_limit_task(&state.line());
        over_limit.map_or_else(|| Ok(Line::of(state)), Err)
    }

    /// The line after an edit, and what became different.
    pub fn edited(&self, edit: &Edit) -> Result<(Line, usize, usize), Refusal> {
        let new = Line::of(edited(&self.state, edit)?);
        let (recut, moved) = (recut(&self.layout, &new.layout), moved(&self.blocks, &new.blocks));
        Ok((new, recut, moved))
    }

    /// Whether a slave is in the line.
    pub fn has(&self, station: u16) -> bool {
        self.state.slaves().any(|(is_present, slave)| is_present && slave.station == station)
    }
}
