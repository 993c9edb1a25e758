//! From lines to a program.
use crate::encode::*;
use crate::parse::{parse, Code, Line, Statement, Target};
use crate::{fault, Fault};
use std::collections::HashMap;

pub struct Region {
    pub name: Vec<u8>,
    pub start: u32,
    pub len: u32,
}

#[derive(Default)]
pub struct Task {
    pub core: u32,
    pub entry: u32,
    pub arg: u32,
    pub reads: Vec<(u32, u32)>,
    pub writes: Vec<(u32, u32)>,
    pub guarded_reads: Vec<Vec<(u32, u32)>>,
    pub guarded_writes: Vec<Vec<(u32, u32)>>,
}

pub struct Program {
    pub code: Vec<u32>,
    pub memory: Vec<u32>,
    pub regions: Vec<Region>,
    pub locks: Vec<Vec<u8>>,
    pub phases: Vec<Vec<Task>>,
}

#[derive(Clone, Copy, PartialEq, Eq)]
enum Meaning {
    Label { place: u32 },
    Region { start: u32, len: i64 },
    Lock { number: u32 },
}

/// What each name means, and the line that declares it first.
type Names<'a> = HashMap<&'a [u8], (usize, bool, Meaning)>;

fn is_length(len: i64) -> bool {
    (1..=65536).contains(&len)
}

fn collect<'a>(lines: &[Result<Line<'a>, Fault>]) -> Names<'a> {
    let mut names = Names::new();
    let (mut code, mut words, mut locks) = (0u32, 0u32, 0u32);
    for line in lines.iter().flatten() {
        if let Some(label) = line.label {
            names.entry(label).or_insert((line.number, true, Meaning::Label { place: code }));
        }
        match line.statement {
            Statement::Code(statement) => code += statement.words(),
            Statement::Region { name, len } => {
                names.entry(name).or_insert((line.number, false, Meaning::Region { start: words, len }));
                words = words.saturating_add(if is_length(len) { len as u32 } else { 0 });
            }
            Statement::Lock { name } => {
                names.entry(name).or_insert((line.number, false, Meaning::Lock { number: locks }));
                locks += 1;
            }
            _ => {}
        }
    }
    names
}

enum Emitted {
    One(u32),
    Two(u32, u32),
    OutOfRange,
    Unknown,
}

fn one_if(fits: bool, word: u32) -> Emitted {
    if fits { Emitted::One(word) } else { Emitted::OutOfRange }
}

fn loaded(rd: u32, value: u32) -> Emitted {
    Emitted::Two(u_type(0x37, rd, value.wrapping_add(0x800) >> 12), i_type(0x13, rd, 0, rd, i64::from(value & 0xfff)))
}

struct Assembler<'a> {
    names: Names<'a>,
    version_2: bool,
    program: Program,
    words: u32,
    values: Vec<(u32, u32)>,
    /// The cores of the current tasks.
    family: std::ops::Range<u32>,
    tasks: usize,
}

impl<'a> Assembler<'a> {
    fn meaning(&self, name: &[u8]) -> Option<Meaning> {
        self.names.get(name).map(|found| found.2)
    }

    fn region(&self, name: &[u8]) -> Option<(u32, i64)> {
        match self.meaning(name) {
            Some(Meaning::Region { start, len }) => Some((start, len)),
            _ => None,
        }
    }

    fn label(&self, name: &[u8]) -> Option<u32> {
        match self.meaning(name) {
            Some(Meaning::Label { place }) => Some(place),
            _ => None,
        }
    }

    fn offset(&self, target: Target) -> Option<i64> {
        match target {
            Target::Number(number) => Some(number),
            Target::Name(name) => Some((i64::from(self.label(name)?) - self.program.code.len() as i64) * 4),
        }
    }

    fn emit(&self, code: Code) -> Emitted {
        let is_imm = |imm: i64| (-2048..2048).contains(&imm);
        match code {
            Code::Upper { opcode, rd, imm } => one_if((0..1 << 20).contains(&imm), u_type(opcode, rd, imm as u32)),
            Code::Jal { rd, target } => match self.offset(target) {
                Some(o) => one_if((-(1 << 20)..1 << 20).contains(&o) && o % 2 == 0, j_type(rd, o)),
                None => Emitted::Unknown,
            },
            Code::Jalr { rd, base, offset } => one_if(is_imm(offset), i_type(0x67, rd, 0, base, offset)),
            Code::Branch { funct3, a, b, target } => match self.offset(target) {
                Some(o) => one_if((-4096..4096).contains(&o) && o % 2 == 0, b_type(funct3, a, b, o)),
                None => Emitted::Unknown,
            },
            Code::Load { funct3, rd, base, offset } => one_if(is_imm(offset), i_type(0x03, rd, funct3, base, offset)),
            Code::Store { funct3, src, base, offset } => one_if(is_imm(offset), s_type(funct3, base, src, offset)),
            Code::OpImm { op, rd, a, imm } if op.is_shift() => {
                one_if((0..32).contains(&imm), r_type(0x13, rd, op.funct3(), a, imm as u32 & 31, op.funct7()))
            }
            Code::OpImm { op, rd, a, imm } => one_if(is_imm(imm), i_type(0x13, rd, op.funct3(), a, imm)),
            Code::Op { op, rd, a, b } => Emitted::One(r_type(0x33, rd, op.funct3(), a, b, op.funct7())),
            Code::Word(word) => Emitted::One(word),
            Code::LoadNumber { rd, value } => loaded(rd, value),
            Code::LoadAddress { rd, name } => match self.meaning(name) {
                Some(Meaning::Label { place }) => loaded(rd, 0x1000u32.wrapping_add(place.wrapping_mul(4))),
                Some(Meaning::Region { start, .. }) => loaded(rd, 0x1000_0000u32.wrapping_add(start.wrapping_mul(4))),
                _ => Emitted::Unknown,
            },
        }
    }

    fn is_out_of_range(&self, statement: &Statement, emitted: &Option<Emitted>) -> bool {
        match *statement {
            Statement::Code(_) => matches!(emitted, Some(Emitted::OutOfRange)),
            Statement::Region { len, .. } => !is_length(len),
            Statement::Word { region, index, .. } => match self.region(region) {
                Some((_, len)) => !(0..len).contains(&index),
                None => false,
            },
            Statement::Tasks { core, count, entry, .. } => {
                let bad_entry = match entry {
                    Target::Number(number) => !(0..1 << 32).contains(&number) || number % 4 != 0,
                    Target::Name(_) => false,
                };
                core < 0 || count < 1 || i128::from(core) + i128::from(count) > 16 || bad_entry
            }
            Statement::Uses { region, extent, .. } => match (self.region(region), extent) {
                (Some((_, len)), Some((lo, hi, step))) => {
                    let last = i64::from(self.family.end - self.family.start) - 1;
                    let fits = |lo: i64, hi: i64| 0 <= lo && lo < hi && hi <= len;
                    if let Statement::Uses { stepped: true, .. } = *statement {
                        last >= 0 && !(fits(lo, hi) && fits(lo + step * last, hi + step * last))
                    } else {
                        !fits(lo, hi)
                    }
                }
                _ => false,
            },
            _ => false,
        }
    }

    fn is_double(&self, line: &Line) -> bool {
        let declares = |name: &[u8], label: bool| match self.names.get(name) {
            Some(&(first, is_label, _)) => first != line.number || is_label != label,
            None => true,
        };
        line.label.is_some_and(|label| declares(label, true))
            || match line.statement {
                Statement::Region { name, .. } | Statement::Lock { name } => declares(name, false),
                _ => false,
            }
    }

    fn is_unknown(&self, statement: &Statement, emitted: &Option<Emitted>) -> bool {
        match *statement {
            Statement::Code(_) => matches!(emitted, Some(Emitted::Unknown)),
            Statement::Word { region, .. } => self.region(region).is_none(),
            Statement::Tasks { entry: Target::Name(name), .. } => self.label(name).is_none(),
            Statement::Uses { region, lock, .. } => {
                self.region(region).is_none()
                    || lock.is_some_and(|lock| !matches!(self.meaning(lock), Some(Meaning::Lock { .. })))
            }
            _ => false,
        }
    }

    fn is_misplaced(&self, statement: &Statement) -> bool {
        match *statement {
            Statement::Tasks { core, count, .. } => match self.program.phases.last() {
                None => true,
                Some(phase) => phase.iter().any(|task| (core..core + count).contains(&i64::from(task.core))),
            },
            Statement::Uses { .. } => self.family.is_empty(),
            _ => false,
        }
    }

    fn add(&mut self, statement: &Statement, emitted: Option<Emitted>) {
        match emitted {
            Some(Emitted::One(word)) => self.program.code.push(word),
            Some(Emitted::Two(first, second)) => self.program.code.extend([first, second]),
            _ => {}
        }
        match *statement {
            Statement::Nothing | Statement::Code(_) => {}
            Statement::Region { name, len } => {
                self.program.regions.push(Region { name: name.to_vec(), start: self.words, len: len as u32 });
                self.words += len as u32;
            }
            Statement::Word { region, index, value } => {
                if let Some((start, _)) = self.region(region) {
                    self.values.push((start + index as u32, value));
                }
            }
            Statement::Lock { name } => self.program.locks.push(name.to_vec()),
            Statement::Phase => {
                self.program.phases.push(Vec::new());
                self.family = 0..0;
            }
            Statement::Tasks { core, count, entry, arg, step } => {
                let entry = match entry {
                    Target::Number(number) => number as u32,
                    Target::Name(name) => 0x1000 + 4 * self.label(name).unwrap_or(0),
                };
                self.family = core as u32..(core + count) as u32;
                self.tasks += count as usize;
                let phase = self.program.phases.last_mut().unwrap();
                for (at, core) in self.family.clone().enumerate() {
                    let arg = arg.wrapping_add(step.wrapping_mul(at as u32));
                    phase.push(Task { core, entry, arg, ..Task::default() });
                }
            }
            Statement::Uses { writes, lock, region, extent, .. } => {
                let Some((start, len)) = self.region(region) else { return };
                let lock = lock.and_then(|lock| match self.meaning(lock) {
                    Some(Meaning::Lock { number }) => Some(number as usize),
                    _ => None,
                });
                let (lo, hi, step) = extent.unwrap_or((0, len, 0));
                let first = self.family.start;
                let family = self.family.clone();
                for task in self.program.phases.last_mut().unwrap() {
                    if !family.contains(&task.core) {
                        continue;
                    }
                    let by = step * i64::from(task.core - first);
                    let interval = ((i64::from(start) + lo + by) as u32, (i64::from(start) + hi + by) as u32);
                    let set = match (lock, writes) {
                        (None, false) => &mut task.reads,
                        (None, true) => &mut task.writes,
                        (Some(lock), writes) => {
                            let sets = if writes { &mut task.guarded_writes } else { &mut task.guarded_reads };
                            if sets.len() <= lock {
                                sets.resize(lock + 1, Vec::new());
                            }
                            &mut sets[lock]
                        }
                    };
                    set.push(interval);
                }
            }
        }
    }

    fn is_over_limit(&self) -> bool {
        self.program.code.len() > 16384
            || self.words > 65536
            || self.program.regions.len() > if self.version_2 { 4096 } else { 256 }
            || self.program.locks.len() > 32
            || self.program.phases.len() > 64
            || self.tasks > 64
    }

    fn add_line(&mut self, line: &Line) -> Result<(), Fault> {
        let emitted = match line.statement {
            Statement::Code(code) => Some(self.emit(code)),
            _ => None,
        };
        if self.is_out_of_range(&line.statement, &emitted) {
            return fault(line.number, "out-of-range");
        }
        if self.is_double(line) {
            return fault(line.number, "double-name");
        }
        if self.is_unknown(&line.statement, &emitted) {
            return fault(line.number, "unknown-name");
        }
        if self.is_misplaced(&line.statement) {
            return fault(line.number, "misplaced");
        }
        self.add(&line.statement, emitted);
        if self.is_over_limit() {
            return fault(line.number, "limit");
        }
        Ok(())
    }

    fn finish(mut self) -> Program {
        let mut memory = vec![0; self.words as usize];
        for &(word, value) in &self.values {
            memory[word as usize] = value;
        }
        let locks = self.program.locks.len();
        for task in self.program.phases.iter_mut().flatten() {
            task.guarded_reads.resize(locks, Vec::new());
            task.guarded_writes.resize(locks, Vec::new());
            for set in [&mut task.reads, &mut task.writes] {
                unite(set);
            }
            for set in task.guarded_reads.iter_mut().chain(&mut task.guarded_writes) {
                unite(set);
            }
        }
        for phase in &mut self.program.phases {
            phase.sort_by_key(|task| task.core);
        }
        self.program.memory = memory;
        self.program
    }
}

/// Sorts intervals and joins those that touch.
fn unite(set: &mut Vec<(u32, u32)>) {
    set.sort_unstable();
    let mut joined: Vec<(u32, u32)> = Vec::new();
    for &(lo, hi) in set.iter() {
        match joined.last_mut() {
            Some(last) if lo <= last.1 => last.1 = last.1.max(hi),
            _ => joined.push((lo, hi)),
        }
    }
    *set = joined;
}

pub fn assemble(text: &[u8]) -> Result<Program, Fault> {
    if text.len() > 1048576 {
        return fault(0, "too-large");
    }
    let (version_2, lines) = parse(text);
    let names = collect(&lines);
    let program = Program { code: Vec::new(), memory: Vec::new(), regions: Vec::new(), locks: Vec::new(), phases: Vec::new() };
    let mut assembler = Assembler { names, version_2, program, words: 0, values: Vec::new(), family: 0..0, tasks: 0 };
    for line in &lines {
        assembler.add_line(line.as_ref().map_err(|fault| *fault)?)?;
    }
    Ok(assembler.finish())
}
