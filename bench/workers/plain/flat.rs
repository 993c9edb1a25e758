//! The reference machine: one memory and one thread, which takes the phases in order and grants each lock to the lowest core that can
//! take it, as denovo's mode flat does.
use crate::mail::Grant;
use crate::program::Program;
use crate::task::{End, Next, Task, part_of};
use crate::workers::TaskEnd;

pub struct Run {
    pub ends: Vec<TaskEnd>,
    pub memory: Vec<u32>,
    pub grants: Vec<Grant>,
}

struct Machine<'a> {
    program: &'a Program,
    memory: Vec<u32>,
    /// The locks that are held.
    held: u32,
}

impl Machine<'_> {
    /// Runs a task until it ends, or waits for a lock, which is given.
    fn go(&mut self, task: &mut Task<'_>) -> Option<u32> {
        loop {
            match task.next(self.program) {
                Next::Compute { rd, value, goal } => task.complete(rd, value, goal),
                Next::Load { word, rd, kind, at } => {
                    task.loaded(rd, part_of(self.memory[word as usize], kind, at));
                }
                Next::Store { word, mask, bits } => {
                    let place = word as usize;
                    self.memory[place] = self.memory[place] & !mask | bits;
                    task.retire();
                }
                Next::Release(lock) => {
                    task.held &= !(1 << lock);
                    self.held &= !(1 << lock);
                    task.retire();
                }
                Next::Acquire(lock) => return Some(lock),
                Next::End(end) => {
                    task.stop(end);
                    return None;
                }
                Next::Nothing => return None,
            }
        }
    }
}

/// Runs a phase: how its tasks end. The grants are added.
fn phase(machine: &mut Machine<'_>, number: u32, grants: &mut Vec<Grant>) -> Vec<TaskEnd> {
    let decls = &machine.program.phases[number as usize].tasks;
    let mut order: Vec<usize> = (0..decls.len()).collect();
    order.sort_by_key(|&place| decls[place].core);
    let mut tasks: Vec<Task<'_>> = order
        .iter()
        .map(|&place| Task::new(&decls[place]))
        .collect();
    let mut waits: Vec<Option<u32>> = tasks.iter_mut().map(|task| machine.go(task)).collect();
    while let Some((place, lock)) = waits.iter().enumerate().find_map(|(place, wait)| {
        wait.filter(|lock| machine.held >> lock & 1 == 0)
            .map(|lock| (place, lock))
    }) {
        let task = &mut tasks[place];
        machine.held |= 1 << lock;
        task.held |= 1 << lock;
        task.retire();
        grants.push(Grant {
            phase: number,
            core: task.decl.core,
            lock,
        });
        waits[place] = machine.go(task);
    }
    tasks
        .iter()
        .zip(&waits)
        .map(|(task, wait)| {
            let end = task
                .end
                .or(wait.map(End::Waits))
                .expect("a task ends or waits");
            (number, task.decl.core, end, task.retired)
        })
        .collect()
}

pub fn run(program: &Program) -> Run {
    let memory = program.memory.clone();
    let mut machine = Machine {
        program,
        memory,
        held: 0,
    };
    let (mut ends, mut grants) = (Vec::new(), Vec::new());
    for number in 0..program.phases.len() as u32 {
        let ended = phase(&mut machine, number, &mut grants);
        let is_well = ended.iter().all(|end| matches!(end.2, End::Finished));
        ends.extend(ended);
        if !is_well {
            break;
        }
    }
    Run {
        ends,
        memory: machine.memory,
        grants,
    }
}
