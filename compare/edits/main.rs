//! Compares what the program prints after edits with a plain model that works each line out from nothing: lists are
//! packed from their front, boundaries and blocks are compared list by list.

#[allow(dead_code)]
#[path = "../shared/mod.rs"]
mod shared;

use shared::cases::{Case, case, compare_cases, script_of_seed};
use shared::counts::Counts;
use shared::documents::{FAULTS, drawn_edit, fault_line};
use shared::draws::Draws;
use shared::edits::{Edit, Refusal};
use shared::line::Line;
use shared::packing::Datagram;
use shared::printed::{edit_line, layout_lines, show_line};
use shared::projects::Widths::{Brimming, Mixed};
use shared::projects::project;
use shared::questions::{Names, ask};
use shared::running::main_of;
use shared::scripts::Script;
use std::process::ExitCode;

/// From one slave to hundreds; where many PDOs are wide, or many areas share a task, tasks get crowded. The last two have
/// nearly as many groups, and as many slaves, as can be declared, and most of their edits are declarations.
const CASES: [Case; 21] = [
    case(1, [1, 0, 8, 3], Mixed(30), 300, 10),
    case(2, [1, 1, 8, 8], Mixed(30), 400, 10),
    case(3, [3, 2, 4, 2], Mixed(0), 500, 10),
    case(4, [6, 4, 3, 1], Mixed(5), 600, 10),
    case(5, [12, 6, 8, 8], Mixed(10), 600, 10),
    case(6, [16, 8, 8, 1], Mixed(40), 900, 10),
    case(7, [20, 9, 6, 1], Mixed(40), 900, 10),
    case(8, [24, 8, 8, 3], Mixed(60), 900, 10),
    case(9, [40, 12, 3, 1], Mixed(40), 800, 10),
    case(10, [40, 39, 2, 2], Mixed(0), 500, 10),
    case(11, [64, 16, 8, 5], Mixed(25), 700, 10),
    case(12, [100, 20, 4, 1], Mixed(12), 700, 10),
    case(13, [160, 30, 2, 4], Mixed(15), 500, 10),
    case(14, [240, 40, 4, 2], Mixed(10), 500, 10),
    case(15, [300, 60, 8, 8], Mixed(3), 400, 10),
    case(16, [40, 0, 8, 1], Mixed(60), 0, 10),
    case(17, [350, 80, 8, 1], Mixed(2), 400, 10),
    case(19, [14, 5, 2, 2], Brimming, 700, 10),
    case(18, [500, 100, 4, 2], Mixed(6), 300, 10),
    case(20, [680, 507, 1, 8], Mixed(0), 40, 70),
    case(21, [2042, 60, 1, 8], Mixed(0), 40, 70),
];

/// What was met in all cases.
#[derive(Default)]
struct Met {
    /// Accepted edits that connect, disconnect, remap, move and declare.
    accepted: [usize; 5],
    /// Refusals by their number.
    refused: Counts,
    /// Faults of documents by their number.
    faults: Counts,
    /// Edits that recut a span, that left a datagram with areas settled, and that moved a block.
    recut: usize,
    moved: usize,
    others: usize,
}

fn kind_of(edit: &Edit) -> usize {
    match edit {
        Edit::Connect(_) => 0,
        Edit::Disconnect(_) => 1,
        Edit::Remap { .. } => 2,
        Edit::Move { .. } => 3,
        Edit::Declare(_) => 4,
    }
}

fn script_of(case: &Case, met: &mut Met) -> Script {
    let mut draws = Draws(case.seed);
    let groups = project(&mut draws, case.shape);
    let mut script = Script::of(case.seed, &groups);
    let mut line = match Line::opened(&groups) {
        Ok(line) => line,
        Err(task) => {
            script.add("layout", &[], vec![format!("open fault 1 TooManyDatagrams {task}")]);
            script.status = 3;
            return script;
        }
    };
    let mut names = Names::of(&groups);
    script.add("layout", &[], layout_lines(0, &line.layout));
    for _ in 0..case.steps {
        let drawn = drawn_edit(&mut draws, &line.state, case.shape, case.declarations);
        let edit = match drawn.edit() {
            Ok(edit) => edit,
            Err(number) => {
                met.faults.add(number);
                drawn.add(&mut script, fault_line(number));
                continue;
            }
        };
        let answer = line.edited(&edit);
        let answered = match &answer {
            Ok((new, recut, moved)) => Ok((new.state.epoch, *recut, *moved)),
            Err(refusal) => Err(*refusal),
        };
        drawn.add(&mut script, edit_line(answered));
        match answer {
            Ok((new, recut, moved)) => {
                met.accepted[kind_of(&edit)] += 1;
                met.recut += usize::from(recut > 0);
                met.moved += usize::from(moved > 0);
                line = new;
                if let Edit::Declare(group) = &edit {
                    names.add(group);
                }
            }
            Err(Refusal { number, .. }) => met.refused.add(number),
        }
        script.add("layout", &[], layout_lines(line.state.epoch, &line.layout));
        if draws.is(60) {
            met.others += 1;
            let zeros = |own: &Datagram| vec![0; own.length as usize];
            let show = |task, number| show_line(&line.layout, 0, task, number, zeros);
            ask(&mut draws, &mut script, &line, &names, show);
        }
    }
    if draws.is(50) {
        script.add_unclosed(if draws.is(50) { "layout\n %%\n" } else { "" });
    }
    script
}

/// Whether the draws met what they are for.
fn meets_enough(met: &Met) -> bool {
    met.accepted.iter().sum::<usize>() + met.refused.total() >= 5000
        && met.accepted.iter().all(|count| *count >= 200)
        && met.refused.have_each((1..=12).chain(31..=33), 10)
        && met.refused.have_each(34..=35, 5)
        && met.faults.have_each(FAULTS, 5)
}

fn compare_all(program: &[String], seed: Option<u64>) -> Result<(), String> {
    let mut met = Met::default();
    let compared = compare_cases(program, &CASES, seed, |case| script_of(case, &mut met))?;
    let Met { accepted: [connected, disconnected, remapped, moved, declared], refused, .. } = &met;
    let edits = met.accepted.iter().sum::<usize>() + refused.total();
    println!("{edits} edits: {connected} connect, {disconnected} disconnect, {remapped} remap, {moved} move, {declared} declare");
    println!("refused by number: {refused}");
    println!("faults of documents by number: {}", met.faults);
    let (recut, moved, others) = (met.recut, met.moved, met.others);
    println!("{recut} edits recut spans, {moved} moved blocks; {others} questions beside the layouts");
    println!("{} bytes read, {} lines compared", compared.bytes, compared.lines);
    if seed.is_none() && !meets_enough(&met) { Err("the draws meet too little".to_string()) } else { Ok(()) }
}

fn main() -> ExitCode {
    let drawn = |seed| script_of_seed(&CASES, seed, |case| script_of(case, &mut Met::default()));
    main_of("edits", drawn, compare_all)
}
