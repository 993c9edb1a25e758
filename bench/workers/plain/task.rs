//! RV32I, and one task: what its next instruction needs, and what it does.
use crate::program::{Program, TaskDecl};

#[derive(Clone, Copy)]
pub enum Instr {
    Const {
        rd: u8,
        value: u32,
    },
    Auipc {
        rd: u8,
        value: u32,
    },
    Jal {
        rd: u8,
        offset: u32,
    },
    Jalr {
        rd: u8,
        base: u8,
        offset: u32,
    },
    Branch {
        kind: u32,
        a: u8,
        b: u8,
        offset: u32,
    },
    Load {
        kind: u32,
        rd: u8,
        base: u8,
        offset: u32,
    },
    Store {
        kind: u32,
        from: u8,
        base: u8,
        offset: u32,
    },
    OpImm {
        op: Op,
        rd: u8,
        a: u8,
        imm: u32,
    },
    Op {
        op: Op,
        rd: u8,
        a: u8,
        b: u8,
    },
    Fence,
    Ecall,
    Ebreak,
}

#[derive(Clone, Copy)]
pub enum Op {
    Add,
    Sub,
    Sll,
    Slt,
    Sltu,
    Xor,
    Srl,
    Sra,
    Or,
    And,
}

fn op_of(funct3: u32, funct7: u32) -> Option<Op> {
    Some(match (funct3, funct7) {
        (0, 0) => Op::Add,
        (0, 32) => Op::Sub,
        (1, 0) => Op::Sll,
        (2, 0) => Op::Slt,
        (3, 0) => Op::Sltu,
        (4, 0) => Op::Xor,
        (5, 0) => Op::Srl,
        (5, 32) => Op::Sra,
        (6, 0) => Op::Or,
        (7, 0) => Op::And,
        _ => return None,
    })
}

impl Op {
    fn of(self, a: u32, b: u32) -> u32 {
        match self {
            Op::Add => a.wrapping_add(b),
            Op::Sub => a.wrapping_sub(b),
            Op::Sll => a << (b & 31),
            Op::Slt => u32::from((a as i32) < b as i32),
            Op::Sltu => u32::from(a < b),
            Op::Xor => a ^ b,
            Op::Srl => a >> (b & 31),
            Op::Sra => ((a as i32) >> (b & 31)) as u32,
            Op::Or => a | b,
            Op::And => a & b,
        }
    }
}

fn is_taken(kind: u32, a: u32, b: u32) -> bool {
    match kind {
        0 => a == b,
        1 => a != b,
        4 => (a as i32) < b as i32,
        5 => (a as i32) >= b as i32,
        6 => a < b,
        _ => a >= b,
    }
}

/// The bits of a number of so many bits, with its sign.
fn signed(value: u32, bits: u32) -> u32 {
    (((value << (32 - bits)) as i32) >> (32 - bits)) as u32
}

pub fn decode(word: u32) -> Option<Instr> {
    let (rd, a, b) = (
        (word >> 7 & 31) as u8,
        (word >> 15 & 31) as u8,
        (word >> 20 & 31) as u8,
    );
    let (funct3, funct7) = (word >> 12 & 7, word >> 25);
    let imm = signed(word >> 20, 12);
    Some(match word & 127 {
        0x37 => Instr::Const {
            rd,
            value: word & 0xFFFF_F000,
        },
        0x17 => Instr::Auipc {
            rd,
            value: word & 0xFFFF_F000,
        },
        0x6F => {
            let offset = word >> 31 << 20
                | (word >> 12 & 0xFF) << 12
                | (word >> 20 & 1) << 11
                | (word >> 21 & 0x3FF) << 1;
            Instr::Jal {
                rd,
                offset: signed(offset, 21),
            }
        }
        0x67 if funct3 == 0 => Instr::Jalr {
            rd,
            base: a,
            offset: imm,
        },
        0x63 if funct3 != 2 && funct3 != 3 => {
            let offset = word >> 31 << 12
                | (word >> 7 & 1) << 11
                | (word >> 25 & 63) << 5
                | (word >> 8 & 15) << 1;
            Instr::Branch {
                kind: funct3,
                a,
                b,
                offset: signed(offset, 13),
            }
        }
        0x03 if matches!(funct3, 0 | 1 | 2 | 4 | 5) => Instr::Load {
            kind: funct3,
            rd,
            base: a,
            offset: imm,
        },
        0x23 if funct3 < 3 => Instr::Store {
            kind: funct3,
            from: b,
            base: a,
            offset: signed(funct7 << 5 | u32::from(rd), 12),
        },
        0x13 if funct3 == 1 || funct3 == 5 => {
            if funct3 == 1 && funct7 != 0 {
                return None;
            }
            Instr::OpImm {
                op: op_of(funct3, funct7)?,
                rd,
                a,
                imm: u32::from(b),
            }
        }
        0x13 => Instr::OpImm {
            op: op_of(funct3, 0)?,
            rd,
            a,
            imm,
        },
        0x33 => Instr::Op {
            op: op_of(funct3, funct7)?,
            rd,
            a,
            b,
        },
        0x0F if funct3 == 0 => Instr::Fence,
        0x73 if word == 0x73 => Instr::Ecall,
        0x73 if word == 0x10_0073 => Instr::Ebreak,
        _ => return None,
    })
}

/// Why an instruction can't retire.
#[derive(Clone, Copy, PartialEq, Eq, PartialOrd, Ord)]
pub enum Trap {
    Fetch,
    Illegal,
    Target,
    Misaligned,
    Outside,
    Break,
    Call,
    NoLock,
    Held,
    NotHeld,
    HeldEnd,
}

const TRAPS: [&str; 11] = [
    "fetch",
    "illegal",
    "target",
    "misaligned",
    "outside",
    "break",
    "call",
    "nolock",
    "held",
    "nothold",
    "heldend",
];

impl Trap {
    pub fn name(self) -> &'static str {
        TRAPS[self as usize]
    }
}

#[derive(Clone, Copy, PartialEq, Eq, PartialOrd, Ord)]
pub enum End {
    Finished,
    Fuel,
    Trap { kind: Trap, pc: u32, value: u32 },
    Waits(u32),
}

/// What the next instruction of a task needs, with all that completing it takes.
#[derive(Clone, Copy)]
pub enum Next {
    /// Nothing: the task has ended.
    Nothing,
    /// It puts this value into a register, and goes on there.
    Compute {
        rd: u8,
        value: u32,
        goal: u32,
    },
    /// It puts this part of the word into a register.
    Load {
        word: u32,
        rd: u8,
        kind: u8,
        at: u8,
    },
    /// It replaces the bits of the mask in the word.
    Store {
        word: u32,
        mask: u32,
        bits: u32,
    },
    Acquire(u32),
    Release(u32),
    End(End),
}

/// The part of a word's value that a load of this kind gives, at this byte of the word.
pub fn part_of(value: u32, kind: u8, at: u8) -> u32 {
    let part = value >> (8 * at);
    match kind {
        0 => part as u8 as i8 as u32,
        1 => part as u16 as i16 as u32,
        2 => part,
        4 => u32::from(part as u8),
        _ => u32::from(part as u16),
    }
}

pub struct Task<'a> {
    pub decl: &'a TaskDecl,
    pub held: u32,
    pub retired: u32,
    pub end: Option<End>,
    regs: [u32; 32],
    pc: u32,
}

impl<'a> Task<'a> {
    pub fn new(decl: &'a TaskDecl) -> Task<'a> {
        let mut regs = [0; 32];
        regs[10] = decl.arg;
        Task {
            decl,
            held: 0,
            retired: 0,
            end: None,
            regs,
            pc: decl.entry,
        }
    }

    fn holds(&self, lock: u32) -> bool {
        self.held >> lock & 1 == 1
    }

    fn may_use(&self, word: u32, is_store: bool) -> bool {
        let decl = self.decl;
        if decl.writes.has(word) || !is_store && decl.reads.has(word) {
            return true;
        }
        self.held != 0
            && (0..decl.gwrites.len()).any(|lock| {
                self.holds(lock as u32)
                    && (decl.gwrites[lock].has(word) || !is_store && decl.greads[lock].has(word))
            })
    }

    #[cold]
    fn trap(&self, kind: Trap, value: u32) -> Next {
        Next::End(End::Trap {
            kind,
            pc: self.pc,
            value,
        })
    }

    fn reg(&self, register: u8) -> u32 {
        self.regs[register as usize & 31]
    }

    /// What the next instruction needs. The task hasn't ended.
    #[inline(always)]
    pub fn next(&self, program: &Program) -> Next {
        if self.retired == program.fuel {
            return Next::End(End::Fuel);
        }
        let place = self.pc.wrapping_sub(0x1000).rotate_right(2) as usize;
        let Some(decoded) = program.decoded.get(place) else {
            return self.trap(Trap::Fetch, self.pc);
        };
        let Some(instr) = *decoded else {
            return self.trap(Trap::Illegal, program.code[place]);
        };
        let below = self.pc.wrapping_add(4);
        match instr {
            Instr::OpImm { op, rd, a, imm } => Next::Compute {
                rd,
                value: op.of(self.reg(a), imm),
                goal: below,
            },
            Instr::Op { op, rd, a, b } => Next::Compute {
                rd,
                value: op.of(self.reg(a), self.reg(b)),
                goal: below,
            },
            Instr::Branch { kind, a, b, offset } => {
                let is_taken = is_taken(kind, self.reg(a), self.reg(b));
                self.jump(
                    0,
                    0,
                    if is_taken {
                        self.pc.wrapping_add(offset)
                    } else {
                        below
                    },
                )
            }
            Instr::Load {
                kind,
                rd,
                base,
                offset,
            } => {
                let at = self.reg(base).wrapping_add(offset);
                match self.accessed(program, at, kind, false) {
                    Ok(word) => Next::Load {
                        word,
                        rd,
                        kind: kind as u8,
                        at: at as u8 & 3,
                    },
                    Err(kind) => self.trap(kind, at),
                }
            }
            Instr::Store {
                kind,
                from,
                base,
                offset,
            } => {
                let at = self.reg(base).wrapping_add(offset);
                match self.accessed(program, at, kind, true) {
                    Ok(word) => {
                        let mask = (u32::MAX >> (32 - (8 << kind))) << (8 * (at & 3));
                        Next::Store {
                            word,
                            mask,
                            bits: self.reg(from) << (8 * (at & 3)) & mask,
                        }
                    }
                    Err(kind) => self.trap(kind, at),
                }
            }
            Instr::Const { rd, value } => Next::Compute {
                rd,
                value,
                goal: below,
            },
            Instr::Auipc { rd, value } => Next::Compute {
                rd,
                value: self.pc.wrapping_add(value),
                goal: below,
            },
            Instr::Jal { rd, offset } => self.jump(rd, below, self.pc.wrapping_add(offset)),
            Instr::Jalr { rd, base, offset } => {
                self.jump(rd, below, self.reg(base).wrapping_add(offset) & !1)
            }
            Instr::Fence => Next::Compute {
                rd: 0,
                value: 0,
                goal: below,
            },
            Instr::Ebreak => self.trap(Trap::Break, 0),
            Instr::Ecall => self.call(program),
        }
    }

    fn jump(&self, rd: u8, value: u32, goal: u32) -> Next {
        if goal % 4 == 0 {
            Next::Compute { rd, value, goal }
        } else {
            self.trap(Trap::Target, goal)
        }
    }

    /// The word at an address, where an access of this kind may use it.
    fn accessed(&self, program: &Program, at: u32, kind: u32, is_store: bool) -> Result<u32, Trap> {
        let width = 1 << (kind & 3);
        if at & (width - 1) != 0 {
            return Err(Trap::Misaligned);
        }
        let word = at.wrapping_sub(0x1000_0000) / 4;
        if at < 0x1000_0000
            || word as usize >= program.memory.len()
            || !self.may_use(word, is_store)
        {
            return Err(Trap::Outside);
        }
        Ok(word)
    }

    #[cold]
    fn call(&self, program: &Program) -> Next {
        let (call, lock) = (self.regs[17], self.regs[10]);
        match call {
            0 if self.held != 0 => self.trap(Trap::HeldEnd, self.held.trailing_zeros()),
            0 => Next::End(End::Finished),
            1 | 2 if lock >= program.locks => self.trap(Trap::NoLock, lock),
            1 if self.holds(lock) => self.trap(Trap::Held, lock),
            1 => Next::Acquire(lock),
            2 if self.holds(lock) => Next::Release(lock),
            2 => self.trap(Trap::NotHeld, lock),
            _ => self.trap(Trap::Call, call),
        }
    }

    /// An instruction retires that changes no register.
    pub fn retire(&mut self) {
        self.pc = self.pc.wrapping_add(4);
        self.retired += 1;
    }

    /// An instruction retires that puts this value into a register, and the task goes on there.
    pub fn complete(&mut self, rd: u8, value: u32, goal: u32) {
        self.regs[rd as usize & 31] = value;
        self.regs[0] = 0;
        self.pc = goal;
        self.retired += 1;
    }

    /// A load retires.
    pub fn loaded(&mut self, rd: u8, value: u32) {
        self.complete(rd, value, self.pc.wrapping_add(4));
    }

    pub fn stop(&mut self, end: End) {
        self.end = Some(end);
        if end == End::Finished {
            self.retired += 1;
        }
    }
}
