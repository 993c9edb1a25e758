//! A program as `numbers_of.py` writes it down: numbers alone, in a fixed order.
use crate::task::{Instr, decode};

/// Words, as rising intervals that don't touch.
pub struct Words(Vec<(u32, u32)>);

impl Words {
    pub fn has(&self, word: u32) -> bool {
        let behind = self.0.partition_point(|&(lo, _)| lo <= word);
        behind > 0 && word < self.0[behind - 1].1
    }
}

pub struct TaskDecl {
    pub core: u32,
    pub entry: u32,
    pub arg: u32,
    pub reads: Words,
    pub writes: Words,
    /// For each lock.
    pub greads: Vec<Words>,
    pub gwrites: Vec<Words>,
}

pub struct Phase {
    pub tasks: Vec<TaskDecl>,
    /// The words that the phase may have written.
    pub written: Words,
    /// The words that each lock guards.
    pub guarded: Vec<Words>,
}

pub struct Program {
    pub code: Vec<u32>,
    pub decoded: Vec<Option<Instr>>,
    pub memory: Vec<u32>,
    pub locks: u32,
    pub phases: Vec<Phase>,
    pub cores: u32,
    pub banks: u32,
    pub sets: u32,
    pub ways: u32,
    pub fuel: u32,
}

struct Numbers<'a>(std::str::SplitAsciiWhitespace<'a>);

impl Numbers<'_> {
    fn one(&mut self) -> u32 {
        self.0
            .next()
            .expect("a number more")
            .parse()
            .expect("a number")
    }

    fn list(&mut self) -> Vec<u32> {
        (0..self.one()).map(|_| self.one()).collect()
    }

    fn words(&mut self) -> Words {
        Words((0..self.one()).map(|_| (self.one(), self.one())).collect())
    }

    fn for_locks(&mut self, locks: u32) -> Vec<Words> {
        (0..locks).map(|_| self.words()).collect()
    }

    fn task(&mut self, locks: u32) -> TaskDecl {
        TaskDecl {
            core: self.one(),
            entry: self.one(),
            arg: self.one(),
            reads: self.words(),
            writes: self.words(),
            greads: self.for_locks(locks),
            gwrites: self.for_locks(locks),
        }
    }

    fn phase(&mut self, locks: u32) -> Phase {
        Phase {
            tasks: (0..self.one()).map(|_| self.task(locks)).collect(),
            written: self.words(),
            guarded: self.for_locks(locks),
        }
    }
}

impl Program {
    /// With the sizes that the command takes where none are asked for.
    pub fn read(text: &str) -> Program {
        let mut numbers = Numbers(text.split_ascii_whitespace());
        let code = numbers.list();
        let memory = numbers.list();
        let locks = numbers.one();
        let phases: Vec<Phase> = (0..numbers.one()).map(|_| numbers.phase(locks)).collect();
        let cores = phases
            .iter()
            .flat_map(|phase| phase.tasks.iter().map(|task| task.core + 1))
            .max()
            .unwrap_or(1);
        let decoded = code.iter().map(|&word| decode(word)).collect();
        Program {
            code,
            decoded,
            memory,
            locks,
            phases,
            cores,
            banks: 4,
            sets: 64,
            ways: 4,
            fuel: 32_768,
        }
    }

    pub fn task(&self, phase: u32, core: u32) -> Option<&TaskDecl> {
        self.phases
            .get(phase as usize)?
            .tasks
            .iter()
            .find(|task| task.core == core)
    }
}
