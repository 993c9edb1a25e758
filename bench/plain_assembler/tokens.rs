//! Tokens of a line.
use crate::{fault, Fault};

#[derive(Clone, Copy, Debug, PartialEq, Eq)]
pub enum Token<'a> {
    Name(&'a [u8]),
    Number(i64),
    Comma,
    Colon,
    Left,
    Right,
}

fn is_word(byte: u8) -> bool {
    byte.is_ascii_alphanumeric() || byte == b'_' || byte == b'.'
}

fn is_allowed(byte: u8) -> bool {
    is_word(byte) || matches!(byte, b' ' | b'\t' | b'\r' | b'-' | b',' | b':' | b'(' | b')')
}

fn number(word: &[u8]) -> Option<i64> {
    let (digits, negative) = match word.strip_prefix(b"-") {
        Some(rest) => (rest, true),
        None => (word, false),
    };
    let (digits, base) = match digits.strip_prefix(b"0x") {
        Some(rest) => (rest, 16),
        None => (digits, 10),
    };
    if digits.is_empty() {
        return None;
    }
    let mut value: u64 = 0;
    for &digit in digits {
        value = value * base + u64::from((digit as char).to_digit(base as u32)?);
        if value > u64::from(u32::MAX) {
            return None;
        }
    }
    match negative {
        true if value <= 1 << 31 => Some(-(value as i64)),
        true => None,
        false => Some(value as i64),
    }
}

/// The tokens of a line.
pub fn tokens(line: usize, bytes: &[u8]) -> Result<Vec<Token<'_>>, Fault> {
    let code = match bytes.iter().position(|&byte| byte == b'#') {
        Some(end) => &bytes[..end],
        None => bytes,
    };
    if !code.iter().all(|&byte| is_allowed(byte)) {
        return fault(line, "bad-byte");
    }
    let mut tokens = Vec::new();
    let mut at = 0;
    while at < code.len() {
        let start = at;
        at += 1;
        match code[start] {
            b' ' | b'\t' | b'\r' => {}
            b',' => tokens.push(Token::Comma),
            b':' => tokens.push(Token::Colon),
            b'(' => tokens.push(Token::Left),
            b')' => tokens.push(Token::Right),
            first => {
                while at < code.len() && is_word(code[at]) {
                    at += 1;
                }
                let word = &code[start..at];
                if first == b'-' || first.is_ascii_digit() {
                    match number(word) {
                        Some(value) => tokens.push(Token::Number(value)),
                        None => return fault(line, "bad-number"),
                    }
                } else {
                    tokens.push(Token::Name(word));
                }
            }
        }
    }
    if bytes.len() > 1024 || line > 65536 {
        return fault(line, "line-limit");
    }
    Ok(tokens)
}
