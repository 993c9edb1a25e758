//! Mails, signatures, and what is noted of events.

/// Ordered as the one list of all events wants it at equal stamps.
#[derive(Clone, Copy, PartialEq, Eq, PartialOrd, Ord)]
pub enum Actor {
    Core(u32),
    Bank(u32),
    Keeper,
}

/// The words that were written under a lock in a phase: a Bloom filter of 256 bits.
#[derive(Clone, Copy)]
pub struct Signature {
    bits: [u64; 4],
    phase: u32,
}

/// The two bits of a word.
fn bits_of(word: u32) -> [usize; 2] {
    [
        word as usize % 256,
        (word.wrapping_mul(2_654_435_769) >> 24) as usize,
    ]
}

impl Signature {
    pub fn empty(phase: u32) -> Signature {
        Signature {
            bits: [0; 4],
            phase,
        }
    }

    pub fn insert(&mut self, word: u32, phase: u32) {
        if self.phase != phase {
            *self = Signature::empty(phase);
        }
        for bit in bits_of(word) {
            self.bits[bit / 64] |= 1 << (bit % 64);
        }
    }

    pub fn may_hold(&self, word: u32, phase: u32) -> bool {
        self.phase == phase
            && bits_of(word)
                .iter()
                .all(|bit| self.bits[bit / 64] >> (bit % 64) & 1 == 1)
    }

    pub fn join(&mut self, other: &Signature) {
        if self.phase == other.phase {
            for (mine, more) in self.bits.iter_mut().zip(other.bits) {
                *mine |= more;
            }
        } else if self.phase < other.phase {
            *self = *other;
        }
    }

    /// The same, where it is of this phase.
    pub fn in_phase(&self, phase: u32) -> Signature {
        if self.phase == phase {
            *self
        } else {
            Signature::empty(phase)
        }
    }
}

#[derive(Clone)]
pub enum Message {
    ReadReq {
        word: u32,
        core: u32,
    },
    ReadFwd {
        word: u32,
        core: u32,
    },
    DataReply {
        word: u32,
        value: u32,
    },
    RegReq {
        word: u32,
        core: u32,
    },
    RegFwd {
        word: u32,
        core: u32,
    },
    RegAck {
        word: u32,
    },
    WriteBack {
        word: u32,
        value: u32,
        core: u32,
    },
    WbAck {
        word: u32,
    },
    Acquire {
        lock: u32,
        core: u32,
    },
    Release {
        lock: u32,
        core: u32,
        signature: Box<Signature>,
    },
    Grant {
        lock: u32,
        signature: Box<Signature>,
    },
    Arrived {
        core: u32,
        is_bad: bool,
    },
    Go {
        phase: u32,
    },
    Halt,
}

pub const KINDS: [&str; 17] = [
    "instr",
    "evict",
    "arrive",
    "read-req",
    "read-fwd",
    "data-reply",
    "reg-req",
    "reg-fwd",
    "reg-ack",
    "write-back",
    "wb-ack",
    "acquire",
    "release",
    "grant",
    "arrived",
    "go",
    "halt",
];

impl Message {
    /// The place of its kind in `KINDS`.
    pub fn kind(&self) -> u8 {
        match self {
            Message::ReadReq { .. } => 3,
            Message::ReadFwd { .. } => 4,
            Message::DataReply { .. } => 5,
            Message::RegReq { .. } => 6,
            Message::RegFwd { .. } => 7,
            Message::RegAck { .. } => 8,
            Message::WriteBack { .. } => 9,
            Message::WbAck { .. } => 10,
            Message::Acquire { .. } => 11,
            Message::Release { .. } => 12,
            Message::Grant { .. } => 13,
            Message::Arrived { .. } => 14,
            Message::Go { .. } => 15,
            Message::Halt => 16,
        }
    }
}

/// Where a message goes, and the message.
pub type Sent = (Actor, Message);

#[derive(Clone)]
pub struct Mail {
    pub sender: Actor,
    pub number: u32,
    pub to: Actor,
    pub message: Message,
    pub stamp: u64,
}

/// A core's own event.
#[derive(Clone, Copy)]
pub enum Own {
    Instr,
    Evict(u32),
    Arrive,
}

impl Own {
    /// The place in `KINDS`.
    pub fn kind(self) -> u8 {
        match self {
            Own::Instr => 0,
            Own::Evict(_) => 1,
            Own::Arrive => 2,
        }
    }
}

/// Which mail was handled is noted, and read by nobody.
#[allow(dead_code)]
#[derive(Clone, Copy)]
pub enum Event {
    Own(Own),
    Handle { sender: Actor, number: u32 },
}

#[derive(Clone, Copy)]
pub struct Grant {
    pub phase: u32,
    pub core: u32,
    pub lock: u32,
}

#[allow(dead_code)]
#[derive(Clone, Copy)]
pub struct Noted {
    pub stamp: u64,
    pub actor: Actor,
    pub event: Event,
    pub kind: u8,
    pub granted: Option<Grant>,
}

/// What an actor handles or sends has a clock and numbers.
pub struct Sender {
    pub actor: Actor,
    pub clock: u64,
    pub next: u32,
}

impl Sender {
    pub fn new(actor: Actor) -> Sender {
        Sender {
            actor,
            clock: 0,
            next: 0,
        }
    }

    /// Goes on to the stamp of handling the mail, or of an own event.
    pub fn tick(&mut self, handled: u64) -> u64 {
        self.clock = self.clock.max(handled) + 1;
        self.clock
    }

    pub fn mail(&mut self, (to, message): Sent) -> Mail {
        let number = self.next;
        self.next += 1;
        Mail {
            sender: self.actor,
            number,
            to,
            message,
            stamp: self.clock,
        }
    }
}

/// The generator PCG XSH RR 64/32, seeded by a number of 64 bits.
pub struct Draws {
    state: u64,
    more: u64,
}

const STEP: u64 = 6_364_136_223_846_793_005;

fn output(state: u64) -> u32 {
    let word = (((state >> 18) ^ state) >> 27) as u32;
    word.rotate_right((state >> 59) as u32)
}

impl Draws {
    pub fn new(mut seed: u64) -> Draws {
        let words = [(); 4].map(|()| {
            seed = seed
                .wrapping_mul(STEP)
                .wrapping_add(11_634_580_027_462_260_723);
            u64::from(output(seed))
        });
        let more = (words[3] << 32 | words[2]) | 1;
        let state = (words[1] << 32 | words[0]).wrapping_add(more);
        Draws {
            state: state.wrapping_mul(STEP).wrapping_add(more),
            more,
        }
    }

    pub fn draw(&mut self) -> u32 {
        let word = output(self.state);
        self.state = self.state.wrapping_mul(STEP).wrapping_add(self.more);
        word
    }
}
