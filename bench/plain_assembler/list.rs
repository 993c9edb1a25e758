//! The listing of a program.
use crate::assemble::{Program, Region};
use crate::encode::*;
use std::fmt::Write;

const OPS: [Op; 10] = [Op::Add, Op::Sub, Op::Sll, Op::Slt, Op::Sltu, Op::Xor, Op::Srl, Op::Sra, Op::Or, Op::And];

fn op_name(op: Op) -> &'static str {
    match op {
        Op::Add => "add",
        Op::Sub => "sub",
        Op::Sll => "sll",
        Op::Slt => "slt",
        Op::Sltu => "sltu",
        Op::Xor => "xor",
        Op::Srl => "srl",
        Op::Sra => "sra",
        Op::Or => "or",
        Op::And => "and",
    }
}

fn imm_name(op: Op) -> &'static str {
    match op {
        Op::Sltu => "sltiu",
        Op::Add => "addi",
        Op::Sub => "subi",
        Op::Sll => "slli",
        Op::Slt => "slti",
        Op::Xor => "xori",
        Op::Srl => "srli",
        Op::Sra => "srai",
        Op::Or => "ori",
        Op::And => "andi",
    }
}

/// Writes the instruction of a word, if it has one.
fn write_instruction(out: &mut String, word: u32) -> Option<()> {
    let (rd, funct3, rs1, rs2, funct7) = (word >> 7 & 31, word >> 12 & 7, word >> 15 & 31, word >> 20 & 31, word >> 25);
    let imm = word as i32 >> 20;
    let written = match word & 0x7f {
        0x37 => write!(out, "lui x{rd}, {}", word >> 12),
        0x17 => write!(out, "auipc x{rd}, {}", word >> 12),
        0x6f => {
            let offset = (word as i32 >> 31) << 20 | (word & 0xff000) as i32 | (word >> 9 & 0x800) as i32 | (word >> 20 & 0x7fe) as i32;
            write!(out, "jal x{rd}, {offset}")
        }
        0x67 if funct3 == 0 => write!(out, "jalr x{rd}, {imm}(x{rs1})"),
        0x63 => {
            let name = match funct3 {
                0 => "beq",
                1 => "bne",
                4 => "blt",
                5 => "bge",
                6 => "bltu",
                7 => "bgeu",
                _ => return None,
            };
            let offset = (word as i32 >> 31) << 12 | (word << 4 & 0x800) as i32 | (word >> 20 & 0x7e0) as i32 | (word >> 7 & 0x1e) as i32;
            write!(out, "{name} x{rs1}, x{rs2}, {offset}")
        }
        0x03 => {
            let name = match funct3 {
                0 => "lb",
                1 => "lh",
                2 => "lw",
                4 => "lbu",
                5 => "lhu",
                _ => return None,
            };
            write!(out, "{name} x{rd}, {imm}(x{rs1})")
        }
        0x23 => {
            let name = match funct3 {
                0 => "sb",
                1 => "sh",
                2 => "sw",
                _ => return None,
            };
            let offset = (word as i32 >> 25) << 5 | rd as i32;
            write!(out, "{name} x{rs2}, {offset}(x{rs1})")
        }
        0x13 => {
            let op = *OPS.iter().find(|op| op.funct3() == funct3 && **op != Op::Sub && (!op.is_shift() || op.funct7() == funct7))?;
            let imm = if op.is_shift() { rs2 as i32 } else { imm };
            write!(out, "{} x{rd}, x{rs1}, {imm}", imm_name(op))
        }
        0x33 => {
            let op = *OPS.iter().find(|op| op.funct3() == funct3 && op.funct7() == funct7)?;
            write!(out, "{} x{rd}, x{rs1}, x{rs2}", op_name(op))
        }
        0x0f if word == 0x0ff0000f => write!(out, "fence"),
        _ if word == 0x73 => write!(out, "ecall"),
        _ if word == 0x100073 => write!(out, "ebreak"),
        _ => return None,
    };
    written.ok()
}

fn write_set(out: &mut String, regions: &[Region], word: &str, lock: Option<&str>, set: &[(u32, u32)]) {
    let mut from = 0;
    for &(lo, hi) in set {
        while from < regions.len() {
            let region = &regions[from];
            let (first, last) = (lo.max(region.start), hi.min(region.start + region.len));
            if first < last {
                out.push_str(word);
                out.push(' ');
                if let Some(lock) = lock {
                    let _ = write!(out, "{lock}, ");
                }
                let name = std::str::from_utf8(&region.name).unwrap();
                let _ = writeln!(out, "{name}, {}, {}", first - region.start, last - region.start);
            }
            if hi < region.start + region.len {
                break;
            }
            from += 1;
        }
    }
}

pub fn listing(program: &Program) -> String {
    let mut out = String::new();
    if program.regions.len() > 256 {
        out.push_str(".version 2\n");
    }
    for region in &program.regions {
        let name = std::str::from_utf8(&region.name).unwrap();
        let _ = writeln!(out, ".region {name}, {}", region.len);
    }
    for region in &program.regions {
        let name = std::str::from_utf8(&region.name).unwrap();
        for index in 0..region.len {
            let value = program.memory[(region.start + index) as usize];
            if value != 0 {
                let _ = writeln!(out, ".word {name}, {index}, 0x{value:08x}");
            }
        }
    }
    for lock in &program.locks {
        let _ = writeln!(out, ".lock {}", std::str::from_utf8(lock).unwrap());
    }
    for phase in &program.phases {
        out.push_str(".phase\n");
        for task in phase {
            let _ = writeln!(out, ".task {}, 0x{:08x}, 0x{:08x}", task.core, task.entry, task.arg);
            write_set(&mut out, &program.regions, ".reads", None, &task.reads);
            write_set(&mut out, &program.regions, ".writes", None, &task.writes);
            for (number, lock) in program.locks.iter().enumerate() {
                let lock = std::str::from_utf8(lock).unwrap();
                write_set(&mut out, &program.regions, ".greads", Some(lock), &task.guarded_reads[number]);
                write_set(&mut out, &program.regions, ".gwrites", Some(lock), &task.guarded_writes[number]);
            }
        }
    }
    for &word in &program.code {
        if write_instruction(&mut out, word).is_none() {
            let _ = write!(out, ".raw 0x{word:08x}");
        }
        out.push('\n');
    }
    out
}
