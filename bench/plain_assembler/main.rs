//! A plain program that reads, assembles, checks and lists source texts, written in an ordinary style for comparison.
mod assemble;
mod check;
mod encode;
mod list;
mod parse;
mod tokens;

use std::io::{Read, Write};
use std::process::exit;

/// A fault of a source text.
#[derive(Clone, Copy, Debug, PartialEq, Eq)]
pub struct Fault {
    pub line: usize,
    pub kind: &'static str,
}

pub fn fault<T>(line: usize, kind: &'static str) -> Result<T, Fault> {
    Err(Fault { line, kind })
}

fn answer(mode: &str, text: &[u8]) -> Result<String, String> {
    let program = assemble::assemble(text).map_err(|fault| {
        if fault.line == 0 {
            format!("refused source {}\n", fault.kind)
        } else {
            format!("refused source {} {}\n", fault.line, fault.kind)
        }
    })?;
    if mode == "list" {
        return Ok(list::listing(&program));
    }
    check::check(&program).map_err(|conflict| format!("refused check {conflict}\n"))?;
    let tasks: usize = program.phases.iter().map(|phase| phase.len()).sum();
    Ok(format!("checked {} {} {}\n", program.phases.len(), tasks, program.memory.len()))
}

fn main() {
    let words: Vec<String> = std::env::args().collect();
    if words.len() != 3 || words[1] != "--mode" || !["check", "list"].contains(&words[2].as_str()) {
        eprintln!("usage: plain --mode check|list < TEXT");
        exit(1);
    }
    let mut text = Vec::new();
    if std::io::stdin().read_to_end(&mut text).is_err() {
        exit(6);
    }
    let (out, status) = match answer(&words[2], &text) {
        Ok(out) => (out, 0),
        Err(out) => (out, 2),
    };
    if std::io::stdout().write_all(out.as_bytes()).is_err() {
        exit(7);
    }
    exit(status);
}
