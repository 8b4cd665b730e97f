//! `check --size N`: a filter's text is compiled and verified, as `ncroute check` does it.

use std::io::{Read, Write};

use crate::code::{Instruction, MARK};
use crate::lexer::Fault;
use crate::lines::{push_decimal, push_refusal, StreamFault};
use crate::parser::{compile, Compiled};
use crate::script::cost_and_peak;
use crate::verifier::verify;

const INPUT_LIMIT: usize = 1_048_576;
const TEXT_LIMIT: usize = 65_536;

fn push_instruction(file: &mut Vec<u8>, instruction: &Instruction) {
    let (opcode, operand): (u8, &[u8]) = match instruction {
        Instruction::Int(number) => (0x01, &number.to_be_bytes()),
        Instruction::Bool(truth) => (0x02, &[u8::from(*truth)]),
        Instruction::Address(address) => (0x03, &address.to_be_bytes()),
        Instruction::Prefix(prefix) => {
            file.push(0x04);
            file.extend_from_slice(&prefix.address.to_be_bytes());
            return file.push(prefix.length);
        }
        Instruction::Load(index) => (0x10, &[*index]),
        Instruction::Store(index) => (0x11, &[*index]),
        Instruction::Net => (0x12, &[]),
        Instruction::Metric => (0x13, &[]),
        Instruction::Received => (0x14, &[]),
        Instruction::SetMetric => (0x15, &[]),
        Instruction::Add => (0x20, &[]),
        Instruction::Sub => (0x21, &[]),
        Instruction::Mul => (0x22, &[]),
        Instruction::Div => (0x23, &[]),
        Instruction::Max => (0x24, &[]),
        Instruction::Equal => (0x30, &[]),
        Instruction::Less => (0x31, &[]),
        Instruction::LessOrEqual => (0x32, &[]),
        Instruction::Not => (0x33, &[]),
        Instruction::AddressOf => (0x40, &[]),
        Instruction::LengthOf => (0x41, &[]),
        Instruction::Mask(bits) => (0x42, &[*bits]),
        Instruction::Within => (0x50, &[]),
        Instruction::Member(index) => (0x51, &[*index]),
        Instruction::InSet(index) => (0x52, &[*index]),
        Instruction::Jump(skipped) => (0x60, &skipped.to_be_bytes()),
        Instruction::JumpIfNot(skipped) => (0x61, &skipped.to_be_bytes()),
        Instruction::Accept => (0x70, &[]),
        Instruction::Reject => (0x71, &[]),
    };
    file.push(opcode);
    file.extend_from_slice(operand);
}

/// The code file of a code.
fn write_code(code: &Compiled) -> Vec<u8> {
    let mut file = MARK.to_vec();
    file.extend_from_slice(&[code.locals, code.sets.len() as u8]);
    for set in &code.sets {
        file.extend_from_slice(&(set.len() as u16).to_be_bytes());
        for (prefix, low, high) in set {
            file.extend_from_slice(&prefix.address.to_be_bytes());
            file.extend_from_slice(&[prefix.length, *low, *high]);
        }
    }
    file.push(code.int_sets.len() as u8);
    for set in &code.int_sets {
        file.extend_from_slice(&(set.len() as u16).to_be_bytes());
        for range in set {
            file.extend_from_slice(&range.low.to_be_bytes());
            file.extend_from_slice(&range.high.to_be_bytes());
        }
    }
    file.extend_from_slice(&(code.instructions.len() as u16).to_be_bytes());
    code.instructions.iter().for_each(|instruction| push_instruction(&mut file, instruction));
    file
}

fn push_hexadecimal(out: &mut Vec<u8>, bytes: &[u8]) {
    const DIGITS: &[u8; 16] = b"0123456789abcdef";
    out.reserve(2 * bytes.len());
    for byte in bytes {
        out.extend_from_slice(&[DIGITS[usize::from(byte >> 4)], DIGITS[usize::from(byte & 15)]]);
    }
}

/// Writes what is answered to a text for domains of a size, up to a refusal.
fn report(text: &[u8], size: u32, out: &mut Vec<u8>) -> Result<(), Fault> {
    if text.len() > INPUT_LIMIT {
        return Err(Fault { code: "O7", at: 1 });
    }
    if text.len() > TEXT_LIMIT {
        return Err(Fault { code: "P7", at: TEXT_LIMIT });
    }
    let code = compile(text)?;
    out.extend_from_slice(b"code ");
    push_hexadecimal(out, &write_code(&code));
    out.push(b'\n');
    verify(&code, size)?;
    let (cost, peak) = cost_and_peak(&code.instructions);
    out.extend_from_slice(b"verified ");
    push_decimal(out, cost);
    out.push(b' ');
    push_decimal(out, peak);
    out.push(b'\n');
    Ok(())
}

/// Answers the text of a reader. Whether it is verified.
pub fn check(reader: &mut impl Read, writer: &mut impl Write, size: u32) -> Result<bool, StreamFault> {
    let mut text = Vec::new();
    reader.take(INPUT_LIMIT as u64 + 1).read_to_end(&mut text).map_err(|_| StreamFault::Read)?;
    let mut out = Vec::new();
    let reported = report(&text, size, &mut out);
    if let Err(Fault { code, at }) = reported {
        push_refusal(&mut out, code, at as u32);
    }
    writer.write_all(&out).and_then(|()| writer.flush()).map_err(|_| StreamFault::Write)?;
    Ok(reported.is_ok())
}
