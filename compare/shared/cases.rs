//! The drawn projects of a comparison, and its scripts over a program, one for each.

use super::projects::{Shape, Widths};
use super::running::compare;
use super::scripts::Script;

/// A drawn project with so many steps: edits or events.
pub struct Case {
    pub seed: u64,
    pub shape: Shape,
    pub steps: usize,
    /// How many in a hundred edits are declarations.
    pub declarations: usize,
}

pub const fn case(
    seed: u64, [slaves, groups, areas, tasks]: [usize; 4], widths: Widths, steps: usize, declarations: usize,
) -> Case {
    Case { seed, shape: Shape { slaves, groups, areas, tasks, widths }, steps, declarations }
}

/// How much was compared: the lines that were wanted, and the bytes that were read.
#[derive(Default)]
pub struct Compared {
    pub lines: usize,
    pub bytes: usize,
}

/// Compares what a program prints over the scripts of all cases, or over the script of one seed.
pub fn compare_cases(
    program: &[String], cases: &[Case], seed: Option<u64>, mut script_of: impl FnMut(&Case) -> Script,
) -> Result<Compared, String> {
    let mut compared = Compared::default();
    for case in cases.iter().filter(|case| seed.is_none_or(|seed| seed == case.seed)) {
        let script = script_of(case);
        compare(program, &script)?;
        compared.lines += script.wanted.len();
        compared.bytes += script.input.len();
    }
    Ok(compared)
}

/// The script of a seed, where a case has it.
pub fn script_of_seed(cases: &[Case], seed: u64, script_of: impl FnOnce(&Case) -> Script) -> Option<Script> {
    cases.iter().find(|case| case.seed == seed).map(script_of)
}
