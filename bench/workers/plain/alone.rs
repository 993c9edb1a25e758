//! The run by one thread, as denovo's one worker makes it: each event is the one that the next word of the seed's generator picks,
//! of the cores' own events and then the handlings of the messages in flight. It keeps the list of its events.
use crate::homes::{Bank, Keeper};
use crate::mail::{Actor, Draws, Grant, Own, Sent};
use crate::node::Node;
use crate::program::Program;
use crate::workers::TaskEnd;

/// What was made: a core's own event, or the handling of the message that was in flight at this place. With the list of all of them the run
/// can be made again.
#[allow(dead_code)]
#[derive(Clone, Copy)]
pub enum Made {
    Own { core: u32, own: Own },
    Handled { place: u32 },
}

/// The events of a run, the grants among them, and how many there were of each kind.
#[derive(Default)]
pub struct Log {
    pub events: Vec<Made>,
    pub grants: Vec<Grant>,
    pub counts: [u64; 17],
}

impl Log {
    fn note(&mut self, made: Made, kind: u8) {
        self.events.push(made);
        self.counts[usize::from(kind)] += 1;
    }
}

struct Machine<'a> {
    nodes: Vec<Node<'a>>,
    banks: Vec<Bank>,
    keeper: Keeper,
    /// The messages in flight.
    flying: Vec<Sent>,
    /// The cores that have an own event, in rising order.
    ready: Vec<u32>,
    ends: Vec<TaskEnd>,
    log: Log,
}

impl<'a> Machine<'a> {
    fn new(program: &'a Program) -> Machine<'a> {
        let cores = 0..program.cores;
        let mut machine = Machine {
            nodes: cores.clone().map(|core| Node::new(program, core)).collect(),
            banks: (0..program.banks)
                .map(|bank| Bank::new(program, bank))
                .collect(),
            keeper: Keeper::new(program),
            flying: Vec::new(),
            ready: Vec::new(),
            ends: Vec::new(),
            log: Log::default(),
        };
        machine.ready =
            (cores.filter(|&core| machine.nodes[core as usize].own.is_some())).collect();
        machine
    }

    /// Keeps the list of the cores that are ready, where this one was and may be so no more, or wasn't and may be so now.
    #[inline(always)]
    fn keep(&mut self, core: u32, was_ready: bool) {
        if self.nodes[core as usize].own.is_some() != was_ready {
            self.turn(core, was_ready);
        }
    }

    #[inline(never)]
    fn turn(&mut self, core: u32, was_ready: bool) {
        let place = self.ready.partition_point(|&other| other < core);
        if was_ready {
            self.ready.remove(place);
        } else {
            self.ready.insert(place, core);
        }
    }

    fn make(&mut self, core: u32) {
        let node = &mut self.nodes[core as usize];
        let Some(own) = node.own else {
            return;
        };
        self.log.note(Made::Own { core, own }, own.kind());
        if let Own::Arrive = own {
            self.ends.extend(node.shown());
        }
        if let Some(sent) = node.make(own) {
            self.flying.push(sent);
        }
        self.keep(core, true);
    }

    fn handle(&mut self, place: usize) {
        let (to, message) = self.flying.swap_remove(place);
        let made = Made::Handled {
            place: place as u32,
        };
        self.log.note(made, message.kind());
        match to {
            Actor::Core(core) => {
                let node = &mut self.nodes[core as usize];
                let was_ready = node.own.is_some();
                let (sent, granted) = node.receive(message);
                if let Some(sent) = sent {
                    self.flying.push(sent);
                }
                self.log.grants.extend(granted);
                self.keep(core, was_ready);
            }
            Actor::Bank(bank) => {
                if let Some(sent) = self.banks[bank as usize].handle(message) {
                    self.flying.push(sent);
                }
            }
            Actor::Keeper => {
                if let Some(message) = self.keeper.handle(message) {
                    let cores = 0..self.nodes.len() as u32;
                    self.flying
                        .extend(cores.map(|core| (Actor::Core(core), message.clone())));
                }
            }
        }
    }

    /// Makes the event that the draw picks; tells whether there was one.
    fn step(&mut self, draw: u32) -> bool {
        let ready = self.ready.len();
        let count = ready + self.flying.len();
        if count == 0 {
            return false;
        }
        let place = draw as usize % count;
        match self.ready.get(place) {
            Some(&core) => self.make(core),
            None => self.handle(place - ready),
        }
        true
    }
}

/// What a run leaves.
pub struct Run<'a> {
    pub nodes: Vec<Node<'a>>,
    pub banks: Vec<Bank>,
    pub ends: Vec<TaskEnd>,
    pub log: Log,
}

pub fn run(program: &Program, seed: u32) -> Run<'_> {
    let mut machine = Machine::new(program);
    let mut draws = Draws::new(u64::from(seed));
    while machine.step(draws.draw()) {}
    Run {
        nodes: machine.nodes,
        banks: machine.banks,
        ends: machine.ends,
        log: machine.log,
    }
}
