//! Look-ups in sorted arrays with the standard library's binary searches: of a plan whose groups are all connected. The areas
//! of each task are sorted by their keys, as a plan keeps them that edits change.

use super::layout::{Area, Block, Place, fmmu_block, sync_block};
use super::plan::{Group, Plan};

/// A slave of the line, with the number of blocks before it.
struct Slave {
    station: u16,
    areas: Vec<Area>,
    front: u32,
}

pub struct Sorted<'a> {
    line: Vec<Slave>,
    /// Station addresses with positions.
    stations: Vec<(u16, u16)>,
    /// Of each task the keys of its areas with their datagrams and bits.
    tasks: [Vec<(u32, u8, u16)>; 8],
    blocks: u32,
    plan: &'a Plan,
}

/// The key of an area in its task: its direction, its slave's position and its number.
fn key_of(area: &Area, position: usize, number: u8) -> u32 {
    u32::from(!area.is_out) << 24 | (position as u32) << 8 | u32::from(number)
}

impl<'a> Sorted<'a> {
    pub fn new(plan: &'a Plan, groups: &[Group]) -> Sorted<'a> {
        let mut sorted = Sorted { line: Vec::new(), stations: Vec::new(), tasks: Default::default(), blocks: 0, plan };
        for slave in groups.iter().flat_map(|group| &group.slaves) {
            let (at, mut areas) = (sorted.line.len(), slave.areas.clone());
            areas.iter_mut().for_each(Area::measure);
            for (number, area) in (0..).zip(&areas) {
                let location = plan.location(8 * at + usize::from(number));
                let row = (key_of(area, at, number), location.datagram, location.bit);
                sorted.tasks[usize::from(area.task)].push(row);
            }
            sorted.stations.push((slave.station, at as u16));
            let front = sorted.blocks;
            sorted.blocks += 2 * areas.len() as u32;
            sorted.line.push(Slave { station: slave.station, areas, front });
        }
        sorted.stations.sort_unstable();
        sorted.tasks.iter_mut().for_each(|task| task.sort_unstable());
        sorted
    }

    fn block_at(&self, at: usize, own: u8) -> Option<Block> {
        let area = self.line[at].areas.get(usize::from(own / 2))?;
        if own % 2 == 0 {
            return Some(sync_block(area));
        }
        let (task, key) = (&self.tasks[usize::from(area.task)], key_of(area, at, own / 2));
        let (_, datagram, bit) = task[task.partition_point(|row| row.0 < key)];
        let Area { is_out, sm, phys, task, width, .. } = *area;
        let (offered, assigned) = (Vec::new(), Vec::new());
        Some(fmmu_block(own / 2, &Area { is_out, sm, phys, task, offered, assigned, width, datagram, bit }))
    }

    pub fn position(&self, station: u16) -> Option<usize> {
        let at = self.stations.binary_search_by_key(&station, |row| row.0).ok()?;
        Some(self.stations[at].1.into())
    }

    /// The block with a number of the slave with a station address.
    pub fn block(&self, station: u16, own: u8) -> Option<Block> {
        self.block_at(self.position(station)?, own)
    }

    /// The block with a number of the line, and its slave's station address.
    pub fn nth_block(&self, number: u32) -> Option<(u16, Block)> {
        if number >= self.blocks {
            return None;
        }
        let at = self.line.partition_point(|slave| slave.front <= number) - 1;
        let slave = &self.line[at];
        Some((slave.station, self.block_at(at, (number - slave.front) as u8)?))
    }

    pub fn station(&self, position: u32) -> Option<u16> {
        self.line.get(position as usize).map(|slave| slave.station)
    }

    pub fn place(&self, variable: u32) -> Option<Place> {
        let rows = self.plan.rows();
        let at = rows.binary_search_by_key(&variable, |row| row.0).ok()?;
        Some(rows[at].1)
    }
}
