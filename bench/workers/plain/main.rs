//! The machine of docs/PROTOCOL.md in plain Rust, run by workers as denovo's are: the same rounds, passes and rules, and a
//! `Mutex` for each object that they share. It proves nothing; it is what denovo's workers are measured beside.
//!
//!     plain WORKERS SEED [histories] < NUMBERS
//!     plain alone SEED < NUMBERS
//!     plain flat 0 < NUMBERS
//!
//! writes what `denovo --workers WORKERS --seed SEED` writes, and to standard error how long the run took, from the checked program to
//! its ending, in how many rounds and passes. With `histories` each object keeps all its calls, as those of denovo do. With `alone` one
//! thread makes the run, by the same picks as denovo's one worker: it writes exactly what `denovo --seed SEED` writes. With `flat` the run is
//! that of the reference machine: it writes exactly what `denovo --mode flat` writes.
mod alone;
mod flat;
mod homes;
mod mail;
mod node;
mod program;
mod task;
mod workers;

use crate::homes::{Bank, Home};
use crate::mail::{Grant, KINDS};
use crate::node::Node;
use crate::program::Program;
use crate::task::End;
use crate::workers::TaskEnd;
use std::fmt::Write;
use std::time::Instant;
use std::{env, io};

/// How all tasks stand in the end, the memory, and the outcome.
struct Ending {
    tasks: Vec<TaskEnd>,
    memory: Vec<u32>,
}

fn word(nodes: &[Node], banks: &[Bank], word: u32) -> u32 {
    if let Some((value, _)) = nodes
        .iter()
        .filter_map(|node| node.value(word))
        .find(|held| held.1)
    {
        return value;
    }
    match banks[word as usize % banks.len()].home(word) {
        Home::Here(value) => value,
        Home::At(core) => nodes[core as usize].value(word).map_or(0, |held| held.0),
    }
}

fn ending(program: &Program, nodes: &[Node], banks: &[Bank], ends: &[TaskEnd]) -> Ending {
    let waiting = nodes
        .iter()
        .filter_map(|node| node.shown())
        .filter(|end| matches!(end.2, End::Waits(_)));
    let mut tasks: Vec<TaskEnd> = ends.iter().copied().chain(waiting).collect();
    tasks.sort();
    Ending {
        tasks,
        memory: (0..program.memory.len() as u32)
            .map(|place| word(nodes, banks, place))
            .collect(),
    }
}

fn outcome(tasks: &[TaskEnd]) -> &'static str {
    let ends = |wanted: fn(&End) -> bool| tasks.iter().any(|task| wanted(&task.2));
    if ends(|end| matches!(end, End::Waits(_))) {
        "stuck"
    } else if ends(|end| matches!(end, End::Trap { .. })) {
        "trapped"
    } else if ends(|end| matches!(end, End::Fuel)) {
        "fuel"
    } else {
        "done"
    }
}

fn told(end: &End) -> String {
    match end {
        End::Finished => "finished".to_string(),
        End::Fuel => "fuel".to_string(),
        End::Trap { kind, pc, value } => {
            format!("trap {} pc 0x{pc:08x} value 0x{value:08x}", kind.name())
        }
        End::Waits(lock) => format!("waits {lock}"),
    }
}

fn answer(text: &mut String, ending: &Ending) -> std::fmt::Result {
    writeln!(text, "outcome {}", outcome(&ending.tasks))?;
    for (phase, core, end, retired) in &ending.tasks {
        writeln!(text, "task {phase} {core} {} retired {retired}", told(end))?;
    }
    writeln!(text, "words {}", ending.memory.len())?;
    for (place, &value) in ending.memory.iter().enumerate().filter(|word| *word.1 != 0) {
        text.push_str("word ");
        push_word(text, 0x1000_0000 + 4 * place as u32);
        text.push(' ');
        push_word(text, value);
        text.push('\n');
    }
    Ok(())
}

/// Most lines of an answer have two words, which `write!` would take long for.
fn push_word(text: &mut String, value: u32) {
    let digits = (0..8).rev().map(|place| value >> (4 * place) & 15);
    let mut shown = *b"0x00000000";
    for (shown, digit) in shown[2..].iter_mut().zip(digits) {
        *shown = b"0123456789abcdef"[digit as usize];
    }
    text.push_str(std::str::from_utf8(&shown).expect("digits"));
}

fn list_grants(text: &mut String, grants: impl Iterator<Item = Grant>) -> std::fmt::Result {
    for grant in grants {
        writeln!(text, "grant {} {} {}", grant.phase, grant.core, grant.lock)?;
    }
    Ok(())
}

fn report(
    ending: &Ending,
    grants: impl Iterator<Item = Grant>,
    counts: &[u64; 17],
) -> Result<String, std::fmt::Error> {
    let mut text = String::new();
    answer(&mut text, ending)?;
    list_grants(&mut text, grants)?;
    writeln!(text, "count events {}", counts.iter().sum::<u64>())?;
    for (name, count) in KINDS.iter().zip(counts) {
        writeln!(text, "count {name} {count}")?;
    }
    Ok(text)
}

fn run_alone(program: &Program, seed: u32) -> String {
    let begun = Instant::now();
    let run = alone::run(program, seed);
    let ending = ending(program, &run.nodes, &run.banks, &run.ends);
    let micros = begun.elapsed().as_micros();
    eprintln!("events {} micros {micros}", run.log.events.len());
    report(&ending, run.log.grants.into_iter(), &run.log.counts).expect("a string takes all")
}

fn run_by_workers(program: &Program, workers: u32, seed: u32, keeps_histories: bool) -> String {
    let begun = Instant::now();
    let run = workers::run(program, workers, seed, keeps_histories);
    let ending = ending(program, &run.nodes, &run.banks, &run.ends);
    let micros = begun.elapsed().as_micros();
    let passes: Vec<String> = run.passes.iter().map(u64::to_string).collect();
    eprintln!(
        "events {} rounds {} passes {} micros {micros}",
        run.events.len(),
        run.rounds,
        passes.join("+")
    );
    let mut counts = [0; 17];
    for noted in &run.events {
        counts[usize::from(noted.kind)] += 1;
    }
    let grants = run.events.iter().filter_map(|noted| noted.granted);
    report(&ending, grants, &counts).expect("a string takes all")
}

fn run_flat(program: &Program) -> String {
    let begun = Instant::now();
    let run = flat::run(program);
    let micros = begun.elapsed().as_micros();
    eprintln!("grants {} micros {micros}", run.grants.len());
    let ending = Ending {
        tasks: run.ends,
        memory: run.memory,
    };
    let mut text = String::new();
    answer(&mut text, &ending)
        .and_then(|()| list_grants(&mut text, run.grants.into_iter()))
        .expect("a string takes all");
    text
}

fn main() {
    let words: Vec<String> = env::args().skip(1).collect();
    let number = |place: usize| words.get(place).and_then(|word| word.parse::<u32>().ok());
    let is = |name: &str| words.first().is_some_and(|word| word == name);
    let workers = if is("alone") || is("flat") {
        Some(1)
    } else {
        number(0)
    };
    let (Some(workers), Some(seed)) = (workers, number(1)) else {
        eprintln!(
            "plain: WORKERS SEED [histories] < NUMBERS, plain: alone SEED < NUMBERS, or plain: flat 0 < NUMBERS"
        );
        std::process::exit(1);
    };
    let text = io::read_to_string(io::stdin()).expect("standard input");
    let program = Program::read(&text);
    let told = if is("alone") {
        run_alone(&program, seed)
    } else if is("flat") {
        run_flat(&program)
    } else {
        run_by_workers(&program, workers.clamp(1, 16), seed, words.len() > 2)
    };
    print!("{told}");
}
