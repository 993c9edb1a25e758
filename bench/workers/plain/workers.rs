//! The run by workers: each owns cores and banks, and makes passes over what all share, an inbox of each core, the banks with
//! their inboxes, and the keeper with its own, each under a `Mutex`.
use crate::homes::{Bank, Keeper};
use crate::mail::{Actor, Draws, Event, Grant, Mail, Noted, Own, Sender, Sent};
use crate::node::Node;
use crate::program::Program;
use crate::task::End;
use std::sync::Mutex;
use std::thread;

const MOST_PASSES: u32 = 4_096;
const IDLE_PASSES: u32 = 64;

/// What a call was given and what it answered. It is kept where the histories are asked for, and read by nobody.
#[allow(dead_code)]
enum Call {
    Posted(Mail),
    Taken {
        pick: u32,
        mail: Option<Mail>,
    },
    Stepped {
        pick: u32,
        noted: Option<Noted>,
        reply: Option<Mail>,
    },
}

/// What one lock guards: what handles mails, its inbox, and its calls with the worker that made each.
struct Shared<T> {
    own: T,
    inbox: Vec<Mail>,
    calls: Vec<(u32, Call)>,
}

impl<T> Shared<T> {
    fn new(own: T) -> Mutex<Shared<T>> {
        Mutex::new(Shared {
            own,
            inbox: Vec::new(),
            calls: Vec::new(),
        })
    }

    fn take(&mut self, pick: u32) -> Option<Mail> {
        if self.inbox.is_empty() {
            return None;
        }
        Some(self.inbox.swap_remove(pick as usize % self.inbox.len()))
    }
}

struct Homes {
    bank: Bank,
    sender: Sender,
}

struct Barrier {
    keeper: Keeper,
    sender: Sender,
}

struct Hall {
    ports: Vec<Mutex<Shared<()>>>,
    banks: Vec<Mutex<Shared<Homes>>>,
    keeper: Mutex<Shared<Barrier>>,
    keeps_histories: bool,
}

fn handling(mail: &Mail, stamp: u64, actor: Actor, granted: Option<Grant>) -> Noted {
    let event = Event::Handle {
        sender: mail.sender,
        number: mail.number,
    };
    Noted {
        stamp,
        actor,
        event,
        kind: mail.message.kind(),
        granted,
    }
}

impl Hall {
    fn post_to<T>(&self, place: &Mutex<Shared<T>>, worker: u32, mail: Mail) {
        let mut shared = place.lock().unwrap();
        if self.keeps_histories {
            shared.calls.push((worker, Call::Posted(mail.clone())));
        }
        shared.inbox.push(mail);
    }

    fn post(&self, worker: u32, mail: Mail) {
        match mail.to {
            Actor::Core(core) => self.post_to(&self.ports[core as usize], worker, mail),
            Actor::Bank(bank) => self.post_to(&self.banks[bank as usize], worker, mail),
            Actor::Keeper => self.post_to(&self.keeper, worker, mail),
        }
    }

    fn take(&self, worker: u32, core: u32, pick: u32) -> Option<Mail> {
        let mut port = self.ports[core as usize].lock().unwrap();
        let mail = port.take(pick);
        if self.keeps_histories {
            let mail = mail.clone();
            port.calls.push((worker, Call::Taken { pick, mail }));
        }
        mail
    }

    fn step_bank(&self, worker: u32, bank: u32, pick: u32) -> Option<(Noted, Option<Mail>)> {
        let mut shared = self.banks[bank as usize].lock().unwrap();
        let stepped = shared.take(pick).map(|mail| {
            let Homes { bank, sender } = &mut shared.own;
            let stamp = sender.tick(mail.stamp);
            let noted = handling(&mail, stamp, sender.actor, None);
            let reply = bank.handle(mail.message).map(|sent| sender.mail(sent));
            (noted, reply)
        });
        if self.keeps_histories {
            let noted = stepped.as_ref().map(|s| s.0);
            let reply = stepped.as_ref().and_then(|s| s.1.clone());
            shared
                .calls
                .push((worker, Call::Stepped { pick, noted, reply }));
        }
        stepped
    }

    fn step_keeper(&self, worker: u32, pick: u32, cores: u32) -> Option<(Noted, Vec<Mail>)> {
        let mut shared = self.keeper.lock().unwrap();
        let stepped = shared.take(pick).map(|mail| {
            let Barrier { keeper, sender } = &mut shared.own;
            let stamp = sender.tick(mail.stamp);
            let noted = handling(&mail, stamp, Actor::Keeper, None);
            let letter = keeper.handle(mail.message);
            let letters = letter.map_or(Vec::new(), |message| {
                (0..cores)
                    .map(|core| sender.mail((Actor::Core(core), message.clone())))
                    .collect()
            });
            (noted, letters)
        });
        if self.keeps_histories {
            let noted = stepped.as_ref().map(|s| s.0);
            shared.calls.push((
                worker,
                Call::Stepped {
                    pick,
                    noted,
                    reply: None,
                },
            ));
        }
        stepped
    }
}

pub type TaskEnd = (u32, u32, End, u32);

struct Owned<'a> {
    node: Node<'a>,
    sender: Sender,
    log: Vec<Noted>,
    ends: Vec<TaskEnd>,
}

impl Owned<'_> {
    fn handle(&mut self, mail: Mail) -> Option<Mail> {
        let stamp = self.sender.tick(mail.stamp);
        let noted = handling(&mail, stamp, self.sender.actor, None);
        let (sent, granted) = self.node.receive(mail.message);
        self.log.push(Noted { granted, ..noted });
        self.letter(sent)
    }

    fn make(&mut self, own: Own) -> Option<Mail> {
        let stamp = self.sender.tick(0);
        if let Own::Arrive = own {
            self.ends.extend(self.node.shown());
        }
        let sent = self.node.make(own);
        self.log.push(Noted {
            stamp,
            actor: self.sender.actor,
            event: Event::Own(own),
            kind: own.kind(),
            granted: None,
        });
        self.letter(sent)
    }

    fn letter(&mut self, sent: Option<Sent>) -> Option<Mail> {
        Some(self.sender.mail(sent?))
    }
}

struct Crew<'a> {
    worker: u32,
    cores: Vec<Owned<'a>>,
    banks: Vec<(u32, Vec<Noted>)>,
    keeper: Option<Vec<Noted>>,
    passes: u64,
}

impl Crew<'_> {
    /// One pass over the hall; tells how many events it made.
    fn pass(&mut self, hall: &Hall, draws: &mut Draws) -> u32 {
        let mut made = 0;
        for owned in &mut self.cores {
            if let Some(mail) = hall.take(self.worker, owned.node.core, draws.draw()) {
                made += 1;
                if let Some(sent) = owned.handle(mail) {
                    hall.post(self.worker, sent);
                }
            }
            if let Some(own) = owned.node.own {
                made += 1;
                if let Some(sent) = owned.make(own) {
                    hall.post(self.worker, sent);
                }
            }
        }
        for (bank, log) in &mut self.banks {
            if let Some((noted, reply)) = hall.step_bank(self.worker, *bank, draws.draw()) {
                made += 1;
                log.push(noted);
                if let Some(sent) = reply {
                    hall.post(self.worker, sent);
                }
            }
        }
        if let Some(log) = &mut self.keeper {
            if let Some((noted, letters)) =
                hall.step_keeper(self.worker, draws.draw(), hall.ports.len() as u32)
            {
                made += 1;
                log.push(noted);
                for sent in letters {
                    hall.post(self.worker, sent);
                }
            }
        }
        self.passes += 1;
        made
    }

    fn work(&mut self, hall: &Hall, seed: u32) {
        let mut draws = Draws::new((u64::from(self.worker) << 32) + u64::from(seed));
        let mut idle = 0;
        for _ in 0..MOST_PASSES {
            if self.pass(hall, &mut draws) > 0 {
                idle = 0;
                continue;
            }
            idle += 1;
            if idle == IDLE_PASSES {
                return;
            }
            thread::yield_now();
        }
    }

    /// Its logs, which are left empty.
    fn logs(&mut self) -> impl Iterator<Item = &mut Vec<Noted>> {
        self.cores
            .iter_mut()
            .map(|owned| &mut owned.log)
            .chain(self.banks.iter_mut().map(|bank| &mut bank.1))
            .chain(&mut self.keeper)
    }
}

/// What a run leaves.
pub struct Run<'a> {
    pub rounds: u32,
    /// Of each worker.
    pub passes: Vec<u64>,
    pub events: Vec<Noted>,
    pub ends: Vec<TaskEnd>,
    pub nodes: Vec<Node<'a>>,
    pub banks: Vec<Bank>,
}

fn hall_of(program: &Program, keeps_histories: bool) -> Hall {
    let bank = |number| Homes {
        bank: Bank::new(program, number),
        sender: Sender::new(Actor::Bank(number)),
    };
    Hall {
        ports: (0..program.cores).map(|_| Shared::new(())).collect(),
        banks: (0..program.banks)
            .map(|number| Shared::new(bank(number)))
            .collect(),
        keeper: Shared::new(Barrier {
            keeper: Keeper::new(program),
            sender: Sender::new(Actor::Keeper),
        }),
        keeps_histories,
    }
}

fn crew_of(program: &Program, worker: u32, workers: u32) -> Crew<'_> {
    let is_own = |number: &u32| number % workers == worker;
    let owned = |core| Owned {
        node: Node::new(program, core),
        sender: Sender::new(Actor::Core(core)),
        log: Vec::new(),
        ends: Vec::new(),
    };
    Crew {
        worker,
        cores: (0..program.cores).filter(is_own).map(owned).collect(),
        banks: (0..program.banks)
            .filter(is_own)
            .map(|bank| (bank, Vec::new()))
            .collect(),
        keeper: (worker == 0).then(Vec::new),
        passes: 0,
    }
}

/// Clocks and stamps begin at 0 in each round.
fn reopen<T>(place: &mut Mutex<Shared<T>>, clock: impl FnOnce(&mut T)) -> bool {
    let shared = place.get_mut().unwrap();
    clock(&mut shared.own);
    shared.calls = Vec::new();
    for mail in &mut shared.inbox {
        mail.stamp = 0;
    }
    !shared.inbox.is_empty()
}

/// Whether an event may come in the next round, for which all is set up.
fn next_round(hall: &mut Hall, crews: &mut [Crew]) -> bool {
    let mut comes = reopen(&mut hall.keeper, |own| own.sender.clock = 0);
    for port in &mut hall.ports {
        comes |= reopen(port, |()| ());
    }
    for bank in &mut hall.banks {
        comes |= reopen(bank, |own| own.sender.clock = 0);
    }
    for owned in crews.iter_mut().flat_map(|crew| &mut crew.cores) {
        owned.sender.clock = 0;
        comes |= owned.node.own.is_some();
    }
    comes
}

pub fn run(program: &Program, workers: u32, seed: u32, keeps_histories: bool) -> Run<'_> {
    let mut hall = hall_of(program, keeps_histories);
    let mut crews: Vec<Crew> = (0..workers)
        .map(|worker| crew_of(program, worker, workers))
        .collect();
    let mut events: Vec<Noted> = Vec::new();
    let mut rounds: u32 = 0;
    while next_round(&mut hall, &mut crews) {
        thread::scope(|scope| {
            for crew in &mut crews {
                let hall = &hall;
                scope.spawn(move || crew.work(hall, seed.wrapping_add(rounds)));
            }
        });
        let begun = events.len();
        for log in crews.iter_mut().flat_map(Crew::logs) {
            events.append(log);
        }
        events[begun..].sort_by_key(|noted| (noted.stamp, noted.actor));
        rounds += 1;
    }
    let passes = crews.iter().map(|crew| crew.passes).collect();
    let mut cores: Vec<Owned> = crews.into_iter().flat_map(|crew| crew.cores).collect();
    cores.sort_by_key(|owned| owned.node.core);
    let ends = cores
        .iter_mut()
        .flat_map(|owned| std::mem::take(&mut owned.ends))
        .collect();
    let banks = hall
        .banks
        .into_iter()
        .map(|bank| bank.into_inner().unwrap().own.bank)
        .collect();
    let nodes = cores.into_iter().map(|owned| owned.node).collect();
    Run {
        rounds,
        passes,
        events,
        ends,
        nodes,
        banks,
    }
}
