//! Statements of a line.
use crate::encode::Op;
use crate::tokens::{tokens, Token};
use crate::{fault, Fault};

#[derive(Clone, Copy, Debug)]
pub enum Target<'a> {
    Number(i64),
    Name(&'a [u8]),
}

#[derive(Clone, Copy, Debug)]
pub enum Code<'a> {
    Upper { opcode: u32, rd: u32, imm: i64 },
    Jal { rd: u32, target: Target<'a> },
    Jalr { rd: u32, base: u32, offset: i64 },
    Branch { funct3: u32, a: u32, b: u32, target: Target<'a> },
    Load { funct3: u32, rd: u32, base: u32, offset: i64 },
    Store { funct3: u32, src: u32, base: u32, offset: i64 },
    OpImm { op: Op, rd: u32, a: u32, imm: i64 },
    Op { op: Op, rd: u32, a: u32, b: u32 },
    Word(u32),
    LoadNumber { rd: u32, value: u32 },
    LoadAddress { rd: u32, name: &'a [u8] },
}

impl Code<'_> {
    pub fn words(&self) -> u32 {
        match self {
            Code::LoadNumber { .. } | Code::LoadAddress { .. } => 2,
            _ => 1,
        }
    }
}

#[derive(Clone, Copy, Debug)]
pub enum Statement<'a> {
    Nothing,
    Code(Code<'a>),
    Region { name: &'a [u8], len: i64 },
    Word { region: &'a [u8], index: i64, value: u32 },
    Lock { name: &'a [u8] },
    Phase,
    Tasks { core: i64, count: i64, entry: Target<'a>, arg: u32, step: u32 },
    Uses { writes: bool, lock: Option<&'a [u8]>, region: &'a [u8], extent: Option<(i64, i64, i64)>, stepped: bool },
}

#[derive(Debug)]
pub struct Line<'a> {
    pub number: usize,
    pub label: Option<&'a [u8]>,
    pub statement: Statement<'a>,
}

fn register(name: &[u8]) -> Option<u32> {
    let number = match name {
        b"zero" => 0,
        b"ra" => 1,
        b"sp" => 2,
        b"gp" => 3,
        b"tp" => 4,
        b"fp" => 8,
        [b'x', digits @ ..] => return plain_number(digits, 32),
        [b't', digits @ ..] => return plain_number(digits, 7).map(|n| if n < 3 { 5 + n } else { 25 + n }),
        [b's', digits @ ..] => return plain_number(digits, 12).map(|n| if n < 2 { 8 + n } else { 16 + n }),
        [b'a', digits @ ..] => return plain_number(digits, 8).map(|n| 10 + n),
        _ => return None,
    };
    Some(number)
}

/// A number below `most` in one or two digits without a leading zero.
fn plain_number(digits: &[u8], most: u32) -> Option<u32> {
    let number = match digits {
        [d @ b'0'..=b'9'] => u32::from(d - b'0'),
        [a @ b'1'..=b'9', b @ b'0'..=b'9'] => u32::from(a - b'0') * 10 + u32::from(b - b'0'),
        _ => return None,
    };
    (number < most).then_some(number)
}

/// What is left of a statement's operands.
struct Operands<'t, 'a> {
    line: usize,
    rest: &'t [Token<'a>],
}

impl<'t, 'a> Operands<'t, 'a> {
    fn bad<T>(&self) -> Result<T, Fault> {
        fault(self.line, "bad-operand")
    }

    fn next(&mut self) -> Result<Token<'a>, Fault> {
        match self.rest.split_first() {
            Some((first, rest)) => {
                self.rest = rest;
                Ok(*first)
            }
            None => self.bad(),
        }
    }

    fn mark(&mut self, mark: Token<'a>) -> Result<(), Fault> {
        if self.next()? == mark { Ok(()) } else { self.bad() }
    }

    fn comma(&mut self) -> Result<(), Fault> {
        self.mark(Token::Comma)
    }

    fn register(&mut self) -> Result<u32, Fault> {
        match self.next()? {
            Token::Name(name) => match register(name) {
                Some(number) => Ok(number),
                None => self.bad(),
            },
            _ => self.bad(),
        }
    }

    fn number(&mut self) -> Result<i64, Fault> {
        match self.next()? {
            Token::Number(number) => Ok(number),
            _ => self.bad(),
        }
    }

    fn name(&mut self) -> Result<&'a [u8], Fault> {
        match self.next()? {
            Token::Name(name) if name[0] != b'.' => Ok(name),
            _ => self.bad(),
        }
    }

    fn target(&mut self) -> Result<Target<'a>, Fault> {
        match self.next()? {
            Token::Number(number) => Ok(Target::Number(number)),
            Token::Name(name) if name[0] != b'.' => Ok(Target::Name(name)),
            _ => self.bad(),
        }
    }

    fn comma_register(&mut self) -> Result<u32, Fault> {
        self.comma()?;
        self.register()
    }

    fn comma_number(&mut self) -> Result<i64, Fault> {
        self.comma()?;
        self.number()
    }

    fn comma_target(&mut self) -> Result<Target<'a>, Fault> {
        self.comma()?;
        self.target()
    }

    /// `rd, offset(base)`
    fn access(&mut self) -> Result<(u32, u32, i64), Fault> {
        let reg = self.register()?;
        let offset = self.comma_number()?;
        self.mark(Token::Left)?;
        let base = self.register()?;
        self.mark(Token::Right)?;
        Ok((reg, base, offset))
    }

    /// `rd, a`
    fn two(&mut self) -> Result<(u32, u32), Fault> {
        Ok((self.register()?, self.comma_register()?))
    }
}

fn branch<'a>(o: &mut Operands<'_, 'a>, funct3: u32) -> Result<Code<'a>, Fault> {
    let (a, b) = o.two()?;
    Ok(Code::Branch { funct3, a, b, target: o.comma_target()? })
}

fn branch_zero<'a>(o: &mut Operands<'_, 'a>, funct3: u32) -> Result<Code<'a>, Fault> {
    Ok(Code::Branch { funct3, a: o.register()?, b: 0, target: o.comma_target()? })
}

fn load<'a>(o: &mut Operands<'_, 'a>, funct3: u32) -> Result<Code<'a>, Fault> {
    let (rd, base, offset) = o.access()?;
    Ok(Code::Load { funct3, rd, base, offset })
}

fn store<'a>(o: &mut Operands<'_, 'a>, funct3: u32) -> Result<Code<'a>, Fault> {
    let (src, base, offset) = o.access()?;
    Ok(Code::Store { funct3, src, base, offset })
}

fn op_imm<'a>(o: &mut Operands<'_, 'a>, op: Op) -> Result<Code<'a>, Fault> {
    let (rd, a) = o.two()?;
    Ok(Code::OpImm { op, rd, a, imm: o.comma_number()? })
}

fn op<'a>(o: &mut Operands<'_, 'a>, op: Op) -> Result<Code<'a>, Fault> {
    let (rd, a) = o.two()?;
    Ok(Code::Op { op, rd, a, b: o.comma_register()? })
}

/// The words of an effect: none, `, lo, hi`, or in version 2 `, lo, hi, step`.
fn uses<'a>(o: &mut Operands<'_, 'a>, version_2: bool, writes: bool, guarded: bool) -> Result<Statement<'a>, Fault> {
    let lock = if guarded {
        let lock = o.name()?;
        o.comma()?;
        Some(lock)
    } else {
        None
    };
    let region = o.name()?;
    let mut extent = None;
    let mut stepped = false;
    if !o.rest.is_empty() {
        let (lo, hi) = (o.comma_number()?, o.comma_number()?);
        let mut step = 0;
        if version_2 && !o.rest.is_empty() {
            step = o.comma_number()?;
            stepped = true;
        }
        extent = Some((lo, hi, step));
    }
    Ok(Statement::Uses { writes, lock, region, extent, stepped })
}

fn statement<'a>(line: usize, version_2: bool, tokens: &[Token<'a>]) -> Result<Statement<'a>, Fault> {
    let (word, rest) = match tokens {
        [] => return Ok(Statement::Nothing),
        [Token::Name(word), rest @ ..] => (*word, rest),
        _ => return fault(line, "bad-operand"),
    };
    let o = &mut Operands { line, rest };
    let code = match word {
        b"lui" => Code::Upper { opcode: 0x37, rd: o.register()?, imm: o.comma_number()? },
        b"auipc" => Code::Upper { opcode: 0x17, rd: o.register()?, imm: o.comma_number()? },
        b"jal" => Code::Jal { rd: o.register()?, target: o.comma_target()? },
        b"jalr" => {
            let (rd, base, offset) = o.access()?;
            Code::Jalr { rd, base, offset }
        }
        b"beq" => branch(o, 0)?,
        b"bne" => branch(o, 1)?,
        b"blt" => branch(o, 4)?,
        b"bge" => branch(o, 5)?,
        b"bltu" => branch(o, 6)?,
        b"bgeu" => branch(o, 7)?,
        b"lb" => load(o, 0)?,
        b"lh" => load(o, 1)?,
        b"lw" => load(o, 2)?,
        b"lbu" => load(o, 4)?,
        b"lhu" => load(o, 5)?,
        b"sb" => store(o, 0)?,
        b"sh" => store(o, 1)?,
        b"sw" => store(o, 2)?,
        b"addi" => op_imm(o, Op::Add)?,
        b"slti" => op_imm(o, Op::Slt)?,
        b"sltiu" => op_imm(o, Op::Sltu)?,
        b"xori" => op_imm(o, Op::Xor)?,
        b"ori" => op_imm(o, Op::Or)?,
        b"andi" => op_imm(o, Op::And)?,
        b"slli" => op_imm(o, Op::Sll)?,
        b"srli" => op_imm(o, Op::Srl)?,
        b"srai" => op_imm(o, Op::Sra)?,
        b"add" => op(o, Op::Add)?,
        b"sub" => op(o, Op::Sub)?,
        b"sll" => op(o, Op::Sll)?,
        b"slt" => op(o, Op::Slt)?,
        b"sltu" => op(o, Op::Sltu)?,
        b"xor" => op(o, Op::Xor)?,
        b"srl" => op(o, Op::Srl)?,
        b"sra" => op(o, Op::Sra)?,
        b"or" => op(o, Op::Or)?,
        b"and" => op(o, Op::And)?,
        b"fence" => Code::Word(0x0ff0000f),
        b"ecall" => Code::Word(0x73),
        b"ebreak" => Code::Word(0x100073),
        b"nop" => Code::OpImm { op: Op::Add, rd: 0, a: 0, imm: 0 },
        b"mv" => {
            let (rd, a) = o.two()?;
            Code::OpImm { op: Op::Add, rd, a, imm: 0 }
        }
        b"not" => {
            let (rd, a) = o.two()?;
            Code::OpImm { op: Op::Xor, rd, a, imm: -1 }
        }
        b"neg" => {
            let (rd, b) = o.two()?;
            Code::Op { op: Op::Sub, rd, a: 0, b }
        }
        b"seqz" => {
            let (rd, a) = o.two()?;
            Code::OpImm { op: Op::Sltu, rd, a, imm: 1 }
        }
        b"snez" => {
            let (rd, b) = o.two()?;
            Code::Op { op: Op::Sltu, rd, a: 0, b }
        }
        b"beqz" => branch_zero(o, 0)?,
        b"bnez" => branch_zero(o, 1)?,
        b"j" => Code::Jal { rd: 0, target: o.target()? },
        b"jr" => Code::Jalr { rd: 0, base: o.register()?, offset: 0 },
        b"ret" => Code::Jalr { rd: 0, base: 1, offset: 0 },
        b"li" => Code::LoadNumber { rd: o.register()?, value: o.comma_number()? as u32 },
        b"la" => {
            let rd = o.register()?;
            o.comma()?;
            Code::LoadAddress { rd, name: o.name()? }
        }
        b".raw" => Code::Word(o.number()? as u32),
        _ => {
            let statement = directive(line, version_2, word, o)?;
            return if o.rest.is_empty() { Ok(statement) } else { o.bad() };
        }
    };
    if o.rest.is_empty() { Ok(Statement::Code(code)) } else { o.bad() }
}

fn directive<'a>(line: usize, version_2: bool, word: &[u8], o: &mut Operands<'_, 'a>) -> Result<Statement<'a>, Fault> {
    match word {
        b".region" => Ok(Statement::Region { name: o.name()?, len: o.comma_number()? }),
        b".word" => Ok(Statement::Word { region: o.name()?, index: o.comma_number()?, value: o.comma_number()? as u32 }),
        b".lock" => Ok(Statement::Lock { name: o.name()? }),
        b".phase" => Ok(Statement::Phase),
        b".task" => {
            let core = o.number()?;
            let entry = o.comma_target()?;
            Ok(Statement::Tasks { core, count: 1, entry, arg: o.comma_number()? as u32, step: 0 })
        }
        b".forall" if version_2 => {
            let (core, count, entry) = (o.number()?, o.comma_number()?, o.comma_target()?);
            Ok(Statement::Tasks { core, count, entry, arg: o.comma_number()? as u32, step: o.comma_number()? as u32 })
        }
        b".reads" => uses(o, version_2, false, false),
        b".writes" => uses(o, version_2, true, false),
        b".greads" => uses(o, version_2, false, true),
        b".gwrites" => uses(o, version_2, true, true),
        _ => fault(line, "unknown-word"),
    }
}

/// The label and the statement of a line.
fn parse_line<'a>(number: usize, version_2: bool, tokens: &[Token<'a>]) -> Result<Line<'a>, Fault> {
    if let [Token::Name(label), Token::Colon, rest @ ..] = tokens {
        let statement = statement(number, version_2, rest)?;
        if label[0] == b'.' {
            return fault(number, "bad-operand");
        }
        return Ok(Line { number, label: Some(label), statement });
    }
    Ok(Line { number, label: None, statement: statement(number, version_2, tokens)? })
}

fn is_version(bytes: &[u8]) -> bool {
    let code = bytes.split(|&byte| byte == b'#').next().unwrap_or(&[]);
    let mut words = code.split(|byte| b" \t\r".contains(byte)).filter(|word| !word.is_empty());
    words.next() == Some(b".version") && words.next() == Some(b"2") && words.next().is_none()
}

/// All lines of a text, or for each its fault by its form.
pub fn parse(text: &[u8]) -> (bool, Vec<Result<Line<'_>, Fault>>) {
    let mut lines = Vec::new();
    let mut seen = false;
    let mut version_2 = false;
    let body = text.strip_suffix(b"\n").unwrap_or(text);
    if text.is_empty() {
        return (false, lines);
    }
    for (at, bytes) in body.split(|&byte| byte == b'\n').enumerate() {
        let number = at + 1;
        let line = tokens(number, bytes).and_then(|tokens| {
            if !seen && !tokens.is_empty() {
                seen = true;
                if is_version(bytes) {
                    version_2 = true;
                    return Ok(Line { number, label: None, statement: Statement::Nothing });
                }
            }
            parse_line(number, version_2, &tokens)
        });
        seen |= line.is_err();
        lines.push(line);
    }
    (version_2, lines)
}
