//! A core with its task and its cache, by the tables of docs/PROTOCOL.md.
use crate::mail::{Actor, Grant, Message, Own, Sent, Signature};
use crate::program::Program;
use crate::task::{End, Next, Task, part_of};

#[derive(Clone, Copy, PartialEq, Eq)]
enum State {
    Valid,
    /// Valid, and touched by an access that no lock guards.
    Marked,
    Registered,
    /// Registered, and not acknowledged yet.
    Pending,
    Leaving,
}

/// A place of a cache: the word that it holds, or none.
#[derive(Clone, Copy)]
struct Entry {
    word: u32,
    value: u32,
    /// When it was used last.
    used: u32,
    state: State,
}

/// No word of a program has this number.
const NO_WORD: u32 = u32::MAX;
const FREE: Entry = Entry {
    word: NO_WORD,
    value: 0,
    used: 0,
    state: State::Valid,
};

/// All places of a cache, set by set.
struct Cache {
    entries: Vec<Entry>,
    sets: u32,
    ways: u32,
    /// How often an entry was used.
    uses: u32,
}

impl Cache {
    fn new(sets: u32, ways: u32) -> Cache {
        Cache {
            entries: vec![FREE; (sets * ways) as usize],
            sets,
            ways,
            uses: 0,
        }
    }

    /// The places of the set of a word.
    fn set_of(&self, word: u32) -> std::ops::Range<usize> {
        let first = (word % self.sets * self.ways) as usize;
        first..first + self.ways as usize
    }

    /// The place where a word is, or would be free for it.
    fn place_of(&self, word: u32, wanted: u32) -> Option<usize> {
        let set = self.set_of(word);
        let first = set.start;
        self.entries[set]
            .iter()
            .position(|entry| entry.word == wanted)
            .map(|way| first + way)
    }

    fn find(&self, word: u32) -> Option<usize> {
        self.place_of(word, word)
    }

    fn room_for(&self, word: u32) -> Option<usize> {
        self.place_of(word, NO_WORD)
    }

    /// The least recently used word of the set that may leave it.
    fn victim(&self, word: u32) -> Option<u32> {
        self.entries[self.set_of(word)]
            .iter()
            .filter(|entry| !matches!(entry.state, State::Pending | State::Leaving))
            .min_by_key(|entry| entry.used)
            .map(|entry| entry.word)
    }

    /// The place holds this, and was used last.
    fn put(&mut self, place: usize, word: u32, value: u32, state: State) {
        self.uses += 1;
        self.entries[place] = Entry {
            word,
            value,
            used: self.uses,
            state,
        };
    }

    /// The valid copies of words that pass the test go.
    fn drop_copies(&mut self, goes: impl Fn(u32, State) -> bool) {
        for entry in &mut self.entries {
            let is_copy = matches!(entry.state, State::Valid | State::Marked);
            if entry.word != NO_WORD && is_copy && goes(entry.word, entry.state) {
                entry.word = NO_WORD;
            }
        }
    }
}

#[derive(Clone, Copy, PartialEq, Eq)]
enum Wait {
    Nothing,
    Reading(u32),
    Filled,
    Locking(u32),
}

pub struct Node<'a> {
    pub core: u32,
    /// Its own event, if it has one.
    pub own: Option<Own>,
    program: &'a Program,
    phase: u32,
    task: Option<Task<'a>>,
    next: Next,
    /// Where the word of the next load or store is, if it is in the cache.
    place: Option<usize>,
    wait: Wait,
    cache: Cache,
    pending: u32,
    signatures: Vec<Signature>,
    has_arrived: bool,
    is_halted: bool,
}

impl<'a> Node<'a> {
    pub fn new(program: &'a Program, core: u32) -> Node<'a> {
        let mut node = Node {
            core,
            own: None,
            program,
            phase: 0,
            task: None,
            next: Next::Nothing,
            place: None,
            wait: Wait::Nothing,
            cache: Cache::new(program.sets, program.ways),
            pending: 0,
            signatures: Vec::new(),
            has_arrived: false,
            is_halted: program.phases.is_empty(),
        };
        node.begin(0);
        node.own = node.find_own();
        node
    }

    fn begin(&mut self, phase: u32) {
        self.phase = phase;
        self.wait = Wait::Nothing;
        self.signatures = vec![Signature::empty(phase); self.program.locks as usize];
        self.task = self.program.task(phase, self.core).map(Task::new);
        self.look();
    }

    /// Looks at the next instruction.
    #[inline(never)]
    fn look(&mut self) {
        self.next = match &self.task {
            Some(task) if task.end.is_none() => task.next(self.program),
            _ => Next::Nothing,
        };
    }

    fn home(&self, word: u32) -> Actor {
        Actor::Bank(word % self.program.banks)
    }

    fn find_own(&mut self) -> Option<Own> {
        if self.is_halted
            || self.has_arrived
            || matches!(self.wait, Wait::Reading(_) | Wait::Locking(_))
        {
            return None;
        }
        self.going()
    }

    /// The own event of a core that waits neither for a message nor at the barrier.
    #[inline(always)]
    fn going(&mut self) -> Option<Own> {
        match self.next {
            Next::Nothing => (self.pending == 0).then_some(Own::Arrive),
            Next::Release(_) => (self.pending == 0).then_some(Own::Instr),
            Next::Load { word, .. } | Next::Store { word, .. } => self.access(word),
            _ => Some(Own::Instr),
        }
    }

    /// What comes next where the next instruction loads or stores the word.
    fn access(&mut self, word: u32) -> Option<Own> {
        self.place = self.cache.find(word);
        match self.place {
            Some(place) if self.cache.entries[place].state == State::Leaving => None,
            Some(_) => Some(Own::Instr),
            None if self.cache.room_for(word).is_some() => Some(Own::Instr),
            None if self.wait != Wait::Nothing => None,
            None => self.cache.victim(word).map(Own::Evict),
        }
    }

    /// Makes its own event, and tells what is sent.
    #[inline(always)]
    pub fn make(&mut self, own: Own) -> Option<Sent> {
        match own {
            Own::Instr => self.retire(),
            Own::Evict(word) => {
                let sent = self.evict(word);
                self.own = self.find_own();
                sent
            }
            Own::Arrive => {
                self.own = None;
                Some(self.arrive())
            }
        }
    }

    #[inline(always)]
    fn retire(&mut self) -> Option<Sent> {
        let task = self.task.as_mut()?;
        let mut sent = None;
        match self.next {
            Next::Compute { rd, value, goal } => task.complete(rd, value, goal),
            Next::Load { word, rd, kind, at } => {
                let Some(place) = self.place else {
                    return self.ask(word);
                };
                let value = self.load(place);
                self.task.as_mut()?.loaded(rd, part_of(value, kind, at));
            }
            Next::Store { word, mask, bits } => {
                if self.place.is_none() && mask != u32::MAX {
                    return self.ask(word);
                }
                sent = self.store(word, mask, bits);
            }
            Next::End(end) => {
                task.stop(end);
                self.next = Next::Nothing;
                self.own = self.going();
                return None;
            }
            Next::Acquire(lock) => {
                self.wait = Wait::Locking(lock);
                self.own = None;
                let message = Message::Acquire {
                    lock,
                    core: self.core,
                };
                return Some((Actor::Bank(lock % self.program.banks), message));
            }
            Next::Release(lock) => {
                task.held &= !(1 << lock);
                task.retire();
                let message = Message::Release {
                    lock,
                    core: self.core,
                    signature: Box::new(self.signatures[lock as usize]),
                };
                sent = Some((Actor::Bank(lock % self.program.banks), message));
            }
            Next::Nothing => return None,
        }
        self.next = self.task.as_ref()?.next(self.program);
        self.own = self.going();
        sent
    }

    #[cold]
    fn ask(&mut self, word: u32) -> Option<Sent> {
        self.wait = Wait::Reading(word);
        self.own = None;
        Some((
            self.home(word),
            Message::ReadReq {
                word,
                core: self.core,
            },
        ))
    }

    /// The value of the word at this place, which is used.
    fn load(&mut self, place: usize) -> u32 {
        self.wait = Wait::Nothing;
        self.cache.uses += 1;
        let entry = &mut self.cache.entries[place];
        entry.used = self.cache.uses;
        if entry.state == State::Valid {
            if let Some(task) = &self.task {
                if task.decl.reads.has(entry.word) || task.decl.writes.has(entry.word) {
                    entry.state = State::Marked;
                }
            }
        }
        entry.value
    }

    fn store(&mut self, word: u32, mask: u32, bits: u32) -> Option<Sent> {
        let task = self.task.as_mut()?;
        let (place, old, state) = match self.place {
            Some(place) => {
                let entry = self.cache.entries[place];
                (place, entry.value, entry.state)
            }
            None => (self.cache.room_for(word)?, 0, State::Valid),
        };
        let is_new = !matches!(state, State::Registered | State::Pending);
        let state = if is_new { State::Pending } else { state };
        self.cache.put(place, word, old & !mask | bits, state);
        if task.held != 0 {
            for (lock, guarded) in task.decl.gwrites.iter().enumerate() {
                if task.held >> lock & 1 == 1 && guarded.has(word) {
                    self.signatures[lock].insert(word, self.phase);
                }
            }
        }
        task.retire();
        self.wait = Wait::Nothing;
        if !is_new {
            return None;
        }
        self.pending += 1;
        Some((
            self.home(word),
            Message::RegReq {
                word,
                core: self.core,
            },
        ))
    }

    fn evict(&mut self, word: u32) -> Option<Sent> {
        let home = self.home(word);
        let place = self.cache.find(word)?;
        let entry = &mut self.cache.entries[place];
        if entry.state != State::Registered {
            entry.word = NO_WORD;
            return None;
        }
        entry.state = State::Leaving;
        Some((
            home,
            Message::WriteBack {
                word,
                value: entry.value,
                core: self.core,
            },
        ))
    }

    fn arrive(&mut self) -> Sent {
        self.has_arrived = true;
        let is_bad = self
            .task
            .as_ref()
            .is_some_and(|task| task.end != Some(End::Finished));
        (
            Actor::Keeper,
            Message::Arrived {
                core: self.core,
                is_bad,
            },
        )
    }

    /// The entry of a word that is in this state.
    fn entry_in(&mut self, word: u32, state: State) -> Option<&mut Entry> {
        let place = self.cache.find(word)?;
        let entry = &mut self.cache.entries[place];
        (entry.state == state).then_some(entry)
    }

    /// Handles a message, and tells what is sent and the grant that came.
    pub fn receive(&mut self, message: Message) -> (Option<Sent>, Option<Grant>) {
        let told = self.react(message);
        self.own = self.find_own();
        told
    }

    fn react(&mut self, message: Message) -> (Option<Sent>, Option<Grant>) {
        match message {
            Message::Grant { lock, signature } => return (None, self.granted(lock, &signature)),
            Message::Go { phase } => self.go(phase),
            Message::Halt => self.is_halted |= self.has_arrived,
            Message::DataReply { word, value } => self.filled(word, value),
            Message::RegAck { word } => {
                if let Some(entry) = self.entry_in(word, State::Pending) {
                    entry.state = State::Registered;
                    self.pending -= 1;
                }
            }
            Message::WbAck { word } => {
                if let Some(entry) = self.entry_in(word, State::Leaving) {
                    entry.word = NO_WORD;
                }
            }
            Message::RegFwd { word, core } => {
                if let Some(entry) = self.entry_in(word, State::Registered) {
                    entry.word = NO_WORD;
                }
                return (Some((Actor::Core(core), Message::RegAck { word })), None);
            }
            Message::ReadFwd { word, core } => {
                let found = self.cache.find(word).map(|place| self.cache.entries[place]);
                let sent = match found {
                    Some(entry) if !matches!(entry.state, State::Valid | State::Marked) => {
                        let value = entry.value;
                        (Actor::Core(core), Message::DataReply { word, value })
                    }
                    _ => (self.home(word), Message::ReadReq { word, core }),
                };
                return (Some(sent), None);
            }
            _ => {}
        }
        (None, None)
    }

    fn filled(&mut self, word: u32, value: u32) {
        if self.wait != Wait::Reading(word) || self.cache.find(word).is_some() {
            return;
        }
        if let Some(place) = self.cache.room_for(word) {
            self.cache.put(place, word, value, State::Valid);
            self.wait = Wait::Filled;
        }
    }

    fn granted(&mut self, lock: u32, signature: &Signature) -> Option<Grant> {
        if self.wait != Wait::Locking(lock) {
            return None;
        }
        let phase = self.phase;
        let guarded = &self.program.phases[phase as usize].guarded[lock as usize];
        self.cache
            .drop_copies(|word, _| guarded.has(word) && signature.may_hold(word, phase));
        self.signatures[lock as usize] = signature.in_phase(phase);
        let task = self.task.as_mut()?;
        task.held |= 1 << lock;
        task.retire();
        self.wait = Wait::Nothing;
        self.look();
        Some(Grant {
            phase,
            core: self.core,
            lock,
        })
    }

    fn go(&mut self, phase: u32) {
        let is_next = phase == self.phase + 1 && (phase as usize) < self.program.phases.len();
        if !self.has_arrived || self.is_halted || !is_next {
            return;
        }
        let written = &self.program.phases[self.phase as usize].written;
        self.cache
            .drop_copies(|word, state| state == State::Valid && written.has(word));
        for entry in &mut self.cache.entries {
            if entry.state == State::Marked {
                entry.state = State::Valid;
            }
        }
        self.has_arrived = false;
        self.begin(phase);
    }

    /// How the task stands, where it has ended or waits for a lock.
    pub fn shown(&self) -> Option<(u32, u32, End, u32)> {
        let task = self.task.as_ref()?;
        let end = match (task.end, self.wait) {
            (Some(end), _) => end,
            (None, Wait::Locking(lock)) => End::Waits(lock),
            _ => return None,
        };
        Some((self.phase, self.core, end, task.retired))
    }

    /// The value that it holds of a word, and whether it is about to register it.
    pub fn value(&self, word: u32) -> Option<(u32, bool)> {
        let entry = self.cache.entries[self.cache.find(word)?];
        match entry.state {
            State::Registered => Some((entry.value, false)),
            State::Pending => Some((entry.value, true)),
            State::Leaving => Some((entry.value, false)),
            State::Valid | State::Marked => None,
        }
    }
}
