//! Compares what the program prints for events with a plain model that keeps the whole list of them: for each answer it
//! looks back over that list.

#[path = "../shared/mod.rs"]
mod shared;

mod arrivals;
mod drawing;
mod machines;
mod met;
mod model;
mod player;
mod posting;
mod posts;
mod reading;
mod record;

use drawing::Run;
use met::Met;
use model::Model;
use shared::cases::{Case, case, compare_cases, script_of_seed};
use shared::documents::Drawn;
use shared::draws::Draws;
use shared::edits::Edit;
use shared::line::Line;
use shared::projects::Widths::{Brimming, Mixed};
use shared::projects::project;
use shared::questions::Names;
use shared::running::main_of;
use shared::scripts::Script;
use std::process::ExitCode;

const CASES: [Case; 15] = [
    case(101, [1, 0, 2, 1], Mixed(0), 1500, 25),
    case(119, [1, 1, 3, 2], Mixed(10), 1500, 25),
    case(103, [2, 1, 3, 2], Mixed(0), 3000, 25),
    case(104, [3, 2, 3, 3], Mixed(10), 3000, 25),
    case(105, [4, 2, 2, 8], Mixed(0), 3000, 25),
    case(106, [5, 3, 4, 8], Mixed(0), 3000, 25),
    case(107, [5, 2, 3, 3], Mixed(20), 3000, 25),
    case(108, [6, 3, 3, 1], Mixed(30), 2500, 25),
    case(109, [8, 4, 2, 4], Mixed(5), 3000, 25),
    case(110, [10, 6, 3, 6], Mixed(5), 3000, 25),
    case(111, [12, 4, 2, 2], Mixed(25), 2500, 25),
    case(112, [16, 15, 1, 3], Mixed(5), 3000, 25),
    case(113, [24, 6, 3, 8], Mixed(3), 3000, 25),
    case(114, [40, 10, 2, 5], Mixed(2), 3000, 25),
    case(118, [6, 1, 1, 6], Brimming, 2000, 25),
];

fn script_of(case: &Case, met: &mut Met) -> Script {
    let mut draws = Draws(case.seed);
    let groups = project(&mut draws, case.shape);
    let script = Script::of(case.seed, &groups);
    let opened = Line::opened(&groups).ok().expect("a line that can be opened");
    let (names, model) = (Names::of(&groups), Model::of(opened));
    let mut run = Run { draws, case, names, model, arrived: Vec::new(), script, met, events: 0 };
    for group in &groups[1..] {
        if run.draws.is(70) {
            run.edit(&Drawn::Words(Edit::Connect(group.alias)));
        }
    }
    while run.events < case.steps {
        run.step();
    }
    run.end();
    run.script
}

fn compare_all(program: &[String], seed: Option<u64>) -> Result<(), String> {
    let mut met = Met::default();
    let compared = compare_cases(program, &CASES, seed, |case| script_of(case, &mut met))?;
    met.print();
    println!("{} bytes read, {} lines compared", compared.bytes, compared.lines);
    if seed.is_none() && !met.is_enough() { Err("the draws meet too little".to_string()) } else { Ok(()) }
}

fn main() -> ExitCode {
    let words: Vec<String> = std::env::args().skip(1).collect();
    if let ["--answer", unpublished @ ..] = &words.iter().map(String::as_str).collect::<Vec<&str>>()[..] {
        let input = std::io::read_to_string(std::io::stdin()).expect("a text");
        let number = unpublished.first().map(|number| number.parse().expect("a number"));
        return ExitCode::from(player::answer(&input, number));
    }
    let drawn = |seed| script_of_seed(&CASES, seed, |case| script_of(case, &mut Met::default()));
    main_of("events", drawn, compare_all)
}
