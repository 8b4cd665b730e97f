//! Instructions and the code file: one table of opcodes, and a reader that goes field by field.
//!
//! A code file is the mark `NCF2`, the number of local variables, the number of prefix sets, each set as the number of its
//! patterns and the patterns, the number of sets of ints, each set as the number of its ranges and the ranges, the number
//! of instructions, and each instruction as its opcode and operand. Nothing follows. Numbers of patterns, ranges and
//! instructions have two bytes. The high byte of a number comes first. A file with the mark `NCF1` has no sets of ints,
//! nor their number.

use crate::int_sets::{IntRange, IntSet};
use crate::patterns::{Pattern, PatternSet};
use crate::route::Prefix;

pub const MARK: [u8; 4] = *b"NCF2";
pub const MOST_LOCALS: u8 = 16;
pub const MOST_SETS: u8 = 64;
pub const MOST_PATTERNS: u16 = 1_024;
pub const MOST_INT_SETS: u8 = 64;
pub const MOST_RANGES: u16 = 1_024;
pub const MOST_INSTRUCTIONS: u16 = 1_024;

#[derive(Clone, Copy, Debug, PartialEq, Eq)]
pub enum Instruction {
    Int(u32),
    Bool(bool),
    Address(u32),
    Prefix(Prefix),
    Load(u8),
    Store(u8),
    Net,
    Metric,
    Received,
    SetMetric,
    Add,
    Sub,
    Mul,
    Div,
    Max,
    Equal,
    Less,
    LessOrEqual,
    Not,
    AddressOf,
    LengthOf,
    Mask(u8),
    Within,
    Member(u8),
    InSet(u8),
    Jump(u16),
    JumpIfNot(u16),
    Accept,
    Reject,
}

pub struct Code {
    pub locals: u8,
    pub sets: Vec<PatternSet>,
    pub int_sets: Vec<IntSet>,
    pub instructions: Vec<Instruction>,
}

/// The first fault of a file: its code, and the place of the byte at which it stands.
#[derive(Clone, Copy, Debug, PartialEq, Eq)]
pub struct FileFault {
    pub code: &'static str,
    pub at: usize,
}

impl FileFault {
    const fn new(code: &'static str, at: usize) -> FileFault {
        FileFault { code, at }
    }
}

/// What is left of a file, and how much of it was read.
struct Reader<'a> {
    bytes: &'a [u8],
    at: usize,
}

impl<'a> Reader<'a> {
    /// The next field of `N` bytes with the place of its first byte; C2 at the file's length where it is not whole.
    fn field<const N: usize>(&mut self) -> Result<([u8; N], usize), FileFault> {
        match self.bytes[self.at..].first_chunk::<N>() {
            Some(field) => {
                let at = self.at;
                self.at += N;
                Ok((*field, at))
            }
            None => Err(FileFault::new("C2", self.bytes.len())),
        }
    }

    fn byte(&mut self) -> Result<(u8, usize), FileFault> {
        let ([byte], at) = self.field()?;
        Ok((byte, at))
    }

    /// Whether the mark is that of files with sets of ints.
    fn mark(&mut self) -> Result<bool, FileFault> {
        for wanted in &MARK[..3] {
            let (byte, at) = self.byte()?;
            if byte != *wanted {
                return Err(FileFault::new("C1", at));
            }
        }
        match self.byte()? {
            (b'1', _) => Ok(false),
            (b'2', _) => Ok(true),
            (_, at) => Err(FileFault::new("C1", at)),
        }
    }

    /// A number of one byte; C5 where it is over its limit.
    fn count(&mut self, most: u8) -> Result<u8, FileFault> {
        let (count, at) = self.byte()?;
        if count > most {
            return Err(FileFault::new("C5", at));
        }
        Ok(count)
    }

    /// A number of two bytes; C5 where it is over its limit.
    fn long_count(&mut self, most: u16) -> Result<u16, FileFault> {
        let (field, at) = self.field()?;
        let count = u16::from_be_bytes(field);
        if count > most {
            return Err(FileFault::new("C5", at));
        }
        Ok(count)
    }

    fn pattern(&mut self) -> Result<Pattern, FileFault> {
        let ([a, b, c, d, length, low, high], at) = self.field()?;
        spelled_prefix([a, b, c, d, length])
            .and_then(|prefix| Pattern::new(prefix, low, high))
            .ok_or(FileFault::new("C4", at))
    }

    fn set(&mut self) -> Result<PatternSet, FileFault> {
        let count = self.long_count(MOST_PATTERNS)?;
        (0..count).map(|_| self.pattern()).collect()
    }

    fn sets(&mut self) -> Result<Vec<PatternSet>, FileFault> {
        let count = self.count(MOST_SETS)?;
        (0..count).map(|_| self.set()).collect()
    }

    fn range(&mut self) -> Result<IntRange, FileFault> {
        let (low, at) = self.field()?;
        let high = self.number()?;
        IntRange::new(u32::from_be_bytes(low), high).ok_or(FileFault::new("C4", at))
    }

    fn int_set(&mut self) -> Result<IntSet, FileFault> {
        let count = self.long_count(MOST_RANGES)?;
        (0..count).map(|_| self.range()).collect()
    }

    fn int_sets(&mut self) -> Result<Vec<IntSet>, FileFault> {
        let count = self.count(MOST_INT_SETS)?;
        (0..count).map(|_| self.int_set()).collect()
    }

    /// An operand of `N` bytes and what it means; C4 where it means nothing.
    fn operand<const N: usize, T>(&mut self, meaning: impl Fn([u8; N]) -> Option<T>) -> Result<T, FileFault> {
        let (field, at) = self.field()?;
        meaning(field).ok_or(FileFault::new("C4", at))
    }

    fn number(&mut self) -> Result<u32, FileFault> {
        Ok(u32::from_be_bytes(self.field()?.0))
    }

    fn distance(&mut self) -> Result<u16, FileFault> {
        Ok(u16::from_be_bytes(self.field()?.0))
    }

    fn index(&mut self) -> Result<u8, FileFault> {
        Ok(self.byte()?.0)
    }

    fn instruction(&mut self, has_int_sets: bool) -> Result<Instruction, FileFault> {
        let (opcode, at) = self.byte()?;
        Ok(match opcode {
            0x01 => Instruction::Int(self.number()?),
            0x02 => Instruction::Bool(self.operand(spelled_bool)?),
            0x03 => Instruction::Address(self.number()?),
            0x04 => Instruction::Prefix(self.operand(spelled_prefix)?),
            0x10 => Instruction::Load(self.index()?),
            0x11 => Instruction::Store(self.index()?),
            0x12 => Instruction::Net,
            0x13 => Instruction::Metric,
            0x14 => Instruction::Received,
            0x15 => Instruction::SetMetric,
            0x20 => Instruction::Add,
            0x21 => Instruction::Sub,
            0x22 => Instruction::Mul,
            0x23 => Instruction::Div,
            0x24 => Instruction::Max,
            0x30 => Instruction::Equal,
            0x31 => Instruction::Less,
            0x32 => Instruction::LessOrEqual,
            0x33 => Instruction::Not,
            0x40 => Instruction::AddressOf,
            0x41 => Instruction::LengthOf,
            0x42 => Instruction::Mask(self.operand(spelled_length)?),
            0x50 => Instruction::Within,
            0x51 => Instruction::Member(self.index()?),
            0x52 if has_int_sets => Instruction::InSet(self.index()?),
            0x60 => Instruction::Jump(self.distance()?),
            0x61 => Instruction::JumpIfNot(self.distance()?),
            0x70 => Instruction::Accept,
            0x71 => Instruction::Reject,
            _ => return Err(FileFault::new("C3", at)),
        })
    }

    fn instructions(&mut self, has_int_sets: bool) -> Result<Vec<Instruction>, FileFault> {
        let count = self.long_count(MOST_INSTRUCTIONS)?;
        (0..count).map(|_| self.instruction(has_int_sets)).collect()
    }

    fn end(&self) -> Result<(), FileFault> {
        if self.at < self.bytes.len() {
            return Err(FileFault::new("C6", self.at));
        }
        Ok(())
    }
}

fn spelled_bool([byte]: [u8; 1]) -> Option<bool> {
    match byte {
        0 => Some(false),
        1 => Some(true),
        _ => None,
    }
}

fn spelled_length([length]: [u8; 1]) -> Option<u8> {
    (length <= 32).then_some(length)
}

/// A prefix of the file: no bit is set past its length.
fn spelled_prefix([a, b, c, d, length]: [u8; 5]) -> Option<Prefix> {
    let address = u32::from_be_bytes([a, b, c, d]);
    Prefix::new(address, length).filter(|prefix| prefix.address == address)
}

/// The code that `bytes` spell, or their first fault.
pub fn read_code(bytes: &[u8]) -> Result<Code, FileFault> {
    let mut reader = Reader { bytes, at: 0 };
    let has_int_sets = reader.mark()?;
    let locals = reader.count(MOST_LOCALS)?;
    let sets = reader.sets()?;
    let int_sets = if has_int_sets { reader.int_sets()? } else { Vec::new() };
    let instructions = reader.instructions(has_int_sets)?;
    reader.end()?;
    Ok(Code { locals, sets, int_sets, instructions })
}

fn hexadecimal_digit(byte: u8) -> Option<u8> {
    match byte {
        b'0'..=b'9' => Some(byte - b'0'),
        b'a'..=b'f' => Some(byte - b'a' + 10),
        b'A'..=b'F' => Some(byte - b'A' + 10),
        _ => None,
    }
}

/// The bytes that an even number of hexadecimal digits spell.
pub fn decode_hexadecimal(text: &[u8]) -> Option<Vec<u8>> {
    if text.len() % 2 != 0 {
        return None;
    }
    text.chunks_exact(2).map(|pair| Some(hexadecimal_digit(pair[0])? << 4 | hexadecimal_digit(pair[1])?)).collect()
}
