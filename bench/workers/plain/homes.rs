//! The banks with their words and locks, and the keeper of the barrier.
use crate::mail::{Actor, Message, Sent, Signature};
use crate::program::Program;
use std::collections::VecDeque;

#[derive(Clone, Copy)]
pub enum Home {
    Here(u32),
    At(u32),
}

struct Lock {
    holder: Option<u32>,
    queue: VecDeque<u32>,
    signature: Signature,
}

/// The words and locks whose number is the bank's modulo the banks.
pub struct Bank {
    banks: u32,
    words: Vec<Home>,
    locks: Vec<Lock>,
}

fn to_core(core: u32, message: Message) -> Option<Sent> {
    Some((Actor::Core(core), message))
}

impl Bank {
    pub fn new(program: &Program, number: u32) -> Bank {
        let banks = program.banks;
        let is_own = |&place: &u32| place % banks == number;
        let lock = |_| Lock {
            holder: None,
            queue: VecDeque::new(),
            signature: Signature::empty(0),
        };
        Bank {
            banks,
            words: (0..program.memory.len() as u32)
                .filter(is_own)
                .map(|w| Home::Here(program.memory[w as usize]))
                .collect(),
            locks: (0..program.locks).filter(is_own).map(lock).collect(),
        }
    }

    pub fn home(&self, word: u32) -> Home {
        self.words[(word / self.banks) as usize]
    }

    pub fn handle(&mut self, message: Message) -> Option<Sent> {
        match message {
            Message::Acquire { lock, core } => self.acquire(lock, core),
            Message::Release {
                lock,
                core,
                signature,
            } => self.release(lock, core, &signature),
            Message::ReadReq { word, core } => match self.home(word) {
                Home::Here(value) => to_core(core, Message::DataReply { word, value }),
                Home::At(owner) => to_core(owner, Message::ReadFwd { word, core }),
            },
            Message::RegReq { word, core } => {
                let before = self.home(word);
                self.words[(word / self.banks) as usize] = Home::At(core);
                match before {
                    Home::At(owner) if owner != core => {
                        to_core(owner, Message::RegFwd { word, core })
                    }
                    _ => to_core(core, Message::RegAck { word }),
                }
            }
            Message::WriteBack { word, value, core } => {
                if matches!(self.home(word), Home::At(owner) if owner == core) {
                    self.words[(word / self.banks) as usize] = Home::Here(value);
                }
                to_core(core, Message::WbAck { word })
            }
            _ => None,
        }
    }

    fn acquire(&mut self, number: u32, core: u32) -> Option<Sent> {
        let lock = &mut self.locks[(number / self.banks) as usize];
        if lock.holder.is_none() {
            lock.holder = Some(core);
            return to_core(
                core,
                Message::Grant {
                    lock: number,
                    signature: Box::new(lock.signature),
                },
            );
        }
        if !lock.queue.contains(&core) {
            lock.queue.push_back(core);
        }
        None
    }

    fn release(&mut self, number: u32, core: u32, signature: &Signature) -> Option<Sent> {
        let lock = &mut self.locks[(number / self.banks) as usize];
        if lock.holder != Some(core) {
            return None;
        }
        lock.signature.join(signature);
        lock.holder = lock.queue.pop_front();
        to_core(
            lock.holder?,
            Message::Grant {
                lock: number,
                signature: Box::new(lock.signature),
            },
        )
    }
}

pub struct Keeper {
    cores: u32,
    phases: u32,
    phase: u32,
    there: u32,
    is_bad: bool,
    is_over: bool,
}

impl Keeper {
    pub fn new(program: &Program) -> Keeper {
        Keeper {
            cores: program.cores,
            phases: program.phases.len() as u32,
            phase: 0,
            there: 0,
            is_bad: false,
            is_over: false,
        }
    }

    /// The message for each core, if there is one.
    pub fn handle(&mut self, message: Message) -> Option<Message> {
        let Message::Arrived { core, is_bad } = message else {
            return None;
        };
        if self.is_over || self.there >> core & 1 == 1 {
            return None;
        }
        self.there |= 1 << core;
        self.is_bad |= is_bad;
        if self.there.count_ones() < self.cores {
            return None;
        }
        if self.is_bad || self.phase + 1 >= self.phases {
            self.is_over = true;
            return Some(Message::Halt);
        }
        self.phase += 1;
        self.there = 0;
        Some(Message::Go { phase: self.phase })
    }
}
