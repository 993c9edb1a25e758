//! Instruction words of RV32I.

#[derive(Clone, Copy, Debug, PartialEq, Eq)]
pub enum Op {
    Add,
    Sub,
    Sll,
    Slt,
    Sltu,
    Xor,
    Srl,
    Sra,
    Or,
    And,
}

impl Op {
    pub fn funct3(self) -> u32 {
        match self {
            Op::Add | Op::Sub => 0,
            Op::Sll => 1,
            Op::Slt => 2,
            Op::Sltu => 3,
            Op::Xor => 4,
            Op::Srl | Op::Sra => 5,
            Op::Or => 6,
            Op::And => 7,
        }
    }

    pub fn funct7(self) -> u32 {
        match self {
            Op::Sub | Op::Sra => 0x20,
            _ => 0,
        }
    }

    pub fn is_shift(self) -> bool {
        matches!(self, Op::Sll | Op::Srl | Op::Sra)
    }
}

pub fn r_type(opcode: u32, rd: u32, funct3: u32, rs1: u32, rs2: u32, funct7: u32) -> u32 {
    opcode | rd << 7 | funct3 << 12 | rs1 << 15 | rs2 << 20 | funct7 << 25
}

pub fn i_type(opcode: u32, rd: u32, funct3: u32, rs1: u32, imm: i64) -> u32 {
    opcode | rd << 7 | funct3 << 12 | rs1 << 15 | (imm as u32 & 0xfff) << 20
}

pub fn s_type(funct3: u32, rs1: u32, rs2: u32, imm: i64) -> u32 {
    let imm = imm as u32;
    0x23 | (imm & 31) << 7 | funct3 << 12 | rs1 << 15 | rs2 << 20 | (imm >> 5 & 0x7f) << 25
}

pub fn b_type(funct3: u32, rs1: u32, rs2: u32, offset: i64) -> u32 {
    let imm = offset as u32;
    let low = (imm >> 1 & 15) << 1 | imm >> 11 & 1;
    let high = (imm >> 12 & 1) << 6 | imm >> 5 & 63;
    0x63 | low << 7 | funct3 << 12 | rs1 << 15 | rs2 << 20 | high << 25
}

pub fn u_type(opcode: u32, rd: u32, imm: u32) -> u32 {
    opcode | rd << 7 | imm << 12
}

pub fn j_type(rd: u32, offset: i64) -> u32 {
    let imm = offset as u32;
    0x6f | rd << 7 | (imm >> 12 & 255) << 12 | (imm >> 11 & 1) << 20 | (imm >> 1 & 1023) << 21 | (imm >> 20 & 1) << 31
}
