//! The checker of effects.
use crate::assemble::{Program, Task};

type Set = [(u32, u32)];

fn least_common(a: &Set, b: &Set) -> Option<u32> {
    let (mut i, mut j) = (0, 0);
    while i < a.len() && j < b.len() {
        if a[i].1 <= b[j].0 {
            i += 1;
        } else if b[j].1 <= a[i].0 {
            j += 1;
        } else {
            return Some(a[i].0.max(b[j].0));
        }
    }
    None
}

fn least(a: Option<u32>, b: Option<u32>) -> Option<u32> {
    match (a, b) {
        (Some(a), Some(b)) => Some(a.min(b)),
        _ => a.or(b),
    }
}

fn plain(set: &Set, user: &Task) -> Option<u32> {
    least(least_common(set, &user.reads), least_common(set, &user.writes))
}

fn guarded(tasks: &[Task], lock: usize, set: &Set) -> Option<u32> {
    tasks
        .iter()
        .map(|task| least(least_common(&task.guarded_reads[lock], set), least_common(&task.guarded_writes[lock], set)))
        .fold(None, least)
}

fn check_phase(number: usize, tasks: &[Task], locks: usize) -> Result<(), String> {
    for a in tasks {
        for b in tasks {
            if a.core != b.core {
                if let Some(word) = plain(&a.writes, b) {
                    return Err(format!("phase {number} plain-conflict cores {} {} word {word}", a.core, b.core));
                }
            }
        }
    }
    for lock in 0..locks {
        for user in tasks {
            if let Some(word) = least(guarded(tasks, lock, &user.reads), guarded(tasks, lock, &user.writes)) {
                return Err(format!("phase {number} guarded-plain lock {lock} core {} word {word}", user.core));
            }
        }
    }
    for a in 0..locks {
        for b in a + 1..locks {
            let word = tasks
                .iter()
                .map(|task| least(guarded(tasks, b, &task.guarded_reads[a]), guarded(tasks, b, &task.guarded_writes[a])))
                .fold(None, least);
            if let Some(word) = word {
                return Err(format!("phase {number} two-locks locks {a} {b} word {word}"));
            }
        }
    }
    Ok(())
}

pub fn check(program: &Program) -> Result<(), String> {
    for (number, tasks) in program.phases.iter().enumerate() {
        check_phase(number, tasks, program.locks.len())?;
    }
    Ok(())
}
