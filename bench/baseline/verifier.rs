//! The verifier: what is known at each instruction of a code, in one sweep forward.

use crate::code::Instruction;
use crate::lexer::{Fault, Kind};
use crate::parser::Compiled;

const MOST_OPERANDS: usize = 32;
const MOST_LOCALS: usize = 16;

/// What is known of a value. The range and the mark are those of an int.
#[derive(Clone, Copy)]
struct Fact {
    kind: Kind,
    /// Whether it is at least the metric that was received.
    is_raised: bool,
    low: u32,
    high: u32,
}

const EMPTY: Fact = Fact { kind: Kind::Bool, is_raised: false, low: 0, high: 0 };

/// What is known before an instruction.
#[derive(Clone)]
struct Frame {
    depth: usize,
    stack: [Fact; MOST_OPERANDS],
    locals: [Option<Fact>; MOST_LOCALS],
    /// V9 or V2, where ways met that do not agree.
    clash: Option<&'static str>,
}

fn join_facts(one: Fact, other: Fact) -> Fact {
    Fact {
        kind: one.kind,
        is_raised: one.is_raised && other.is_raised,
        low: one.low.min(other.low),
        high: one.high.max(other.high),
    }
}

impl Frame {
    fn join(&mut self, other: &Frame) {
        if self.depth != other.depth || other.clash == Some("V9") {
            self.clash = Some("V9");
            return;
        }
        for (fact, other) in self.stack[..self.depth].iter_mut().zip(&other.stack) {
            if fact.kind != other.kind {
                self.clash = self.clash.or(Some("V2"));
            }
            *fact = join_facts(*fact, *other);
        }
        for (local, other) in self.locals.iter_mut().zip(&other.locals) {
            *local = match (*local, *other) {
                (Some(one), Some(other)) if one.kind == other.kind => Some(join_facts(one, other)),
                _ => None,
            };
        }
        self.clash = self.clash.or(other.clash);
    }

    fn top(&self) -> Fact {
        self.stack[self.depth - 1]
    }

    fn below(&self) -> Fact {
        self.stack[self.depth - 2]
    }

    fn push(&mut self, fact: Fact) -> Result<(), &'static str> {
        *self.stack.get_mut(self.depth).ok_or("V5")? = fact;
        self.depth += 1;
        Ok(())
    }

    /// Puts a fact in the place of the top ones.
    fn replace(&mut self, taken: usize, fact: Fact) {
        self.depth -= taken - 1;
        self.stack[self.depth - 1] = fact;
    }

    fn need(&self, count: usize) -> Result<(), &'static str> {
        if self.depth < count {
            Err("V1")
        } else {
            Ok(())
        }
    }

    /// The one operand, if it is of a kind.
    fn one(&self, kind: Kind) -> Result<Fact, &'static str> {
        self.need(1)?;
        Some(self.top()).filter(|fact| fact.kind == kind).ok_or("V2")
    }

    /// The two operands, if both are ints.
    fn ints(&self) -> Result<(Fact, Fact), &'static str> {
        self.need(2)?;
        let (a, b) = (self.below(), self.top());
        if a.kind == Kind::Int && b.kind == Kind::Int {
            Ok((a, b))
        } else {
            Err("V2")
        }
    }
}

struct Verifier<'a> {
    code: &'a Compiled,
    size: u32,
}

impl Verifier<'_> {
    fn int(&self, low: u32, high: u32, is_raised: bool) -> Fact {
        Fact { kind: Kind::Int, is_raised: is_raised || low >= self.size, low, high }
    }

    fn calculated(&self, instruction: Instruction, a: Fact, b: Fact) -> Result<Fact, &'static str> {
        let unknown = self.int(0, u32::MAX, false);
        Ok(match instruction {
            Instruction::Add => match a.high.checked_add(b.high) {
                Some(high) => self.int(a.low + b.low, high, a.is_raised || b.is_raised),
                None => unknown,
            },
            Instruction::Sub if a.low >= b.high => self.int(a.low - b.high, a.high - b.low, false),
            Instruction::Sub => unknown,
            Instruction::Mul => match a.high.checked_mul(b.high) {
                Some(high) => self.int(a.low * b.low, high, a.is_raised && b.low >= 1 || b.is_raised && a.low >= 1),
                None => unknown,
            },
            Instruction::Div if b.low == 0 => return Err("V3"),
            Instruction::Div => self.int(a.low / b.high, a.high / b.low, false),
            _ => self.int(a.low.max(b.low), a.high.max(b.high), a.is_raised || b.is_raised),
        })
    }

    /// What is known after an instruction, in place of what is known before it.
    #[inline]
    fn carry_out(&self, frame: &mut Frame, instruction: Instruction) -> Result<(), &'static str> {
        let is = |kind| Fact { kind, ..EMPTY };
        match instruction {
            Instruction::Int(number) => frame.push(self.int(number, number, false)),
            Instruction::Bool(_) => frame.push(is(Kind::Bool)),
            Instruction::Address(_) => frame.push(is(Kind::Ip)),
            Instruction::Prefix(_) | Instruction::Net => frame.push(is(Kind::Prefix)),
            Instruction::Metric | Instruction::Received => frame.push(self.int(0, self.size, true)),
            Instruction::Load(index) => {
                let index = self.local(index)?;
                frame.push(frame.locals[index].ok_or("V2")?)
            }
            Instruction::Store(index) => {
                let index = self.local(index)?;
                frame.need(1)?;
                frame.locals[index] = Some(frame.top());
                frame.depth -= 1;
                Ok(())
            }
            Instruction::SetMetric => {
                if !frame.one(Kind::Int)?.is_raised {
                    return Err("V6");
                }
                frame.depth -= 1;
                Ok(())
            }
            Instruction::Add | Instruction::Sub | Instruction::Mul | Instruction::Div | Instruction::Max => {
                let (a, b) = frame.ints()?;
                frame.replace(2, self.calculated(instruction, a, b)?);
                Ok(())
            }
            Instruction::Equal | Instruction::Less | Instruction::LessOrEqual | Instruction::Within => {
                frame.need(2)?;
                let (a, b) = (frame.below().kind, frame.top().kind);
                let is_good = match instruction {
                    Instruction::Equal => a == b,
                    Instruction::Within => matches!(a, Kind::Ip | Kind::Prefix) && b == Kind::Prefix,
                    _ => a == b && matches!(a, Kind::Int | Kind::Ip),
                };
                if !is_good {
                    return Err("V2");
                }
                frame.replace(2, is(Kind::Bool));
                Ok(())
            }
            Instruction::Not => frame.one(Kind::Bool).map(|_| ()),
            Instruction::AddressOf => frame.one(Kind::Prefix).map(|_| frame.replace(1, is(Kind::Ip))),
            Instruction::LengthOf => frame.one(Kind::Prefix).map(|_| frame.replace(1, self.int(0, 32, false))),
            Instruction::Mask(_) => frame.one(Kind::Ip).map(|_| ()),
            Instruction::Member(index) => {
                if usize::from(index) >= self.code.sets.len() {
                    return Err("V7");
                }
                frame.one(Kind::Prefix).map(|_| frame.replace(1, is(Kind::Bool)))
            }
            Instruction::InSet(index) => {
                if usize::from(index) >= self.code.int_sets.len() {
                    return Err("V7");
                }
                frame.one(Kind::Int).map(|_| frame.replace(1, is(Kind::Bool)))
            }
            Instruction::JumpIfNot(_) => frame.one(Kind::Bool).map(|_| frame.depth -= 1),
            Instruction::Jump(_) | Instruction::Accept | Instruction::Reject => Ok(()),
        }
    }

    fn local(&self, index: u8) -> Result<usize, &'static str> {
        if index < self.code.locals {
            Ok(usize::from(index))
        } else {
            Err("V7")
        }
    }

    /// The first test that fails.
    fn verify(&self) -> Result<(), Fault> {
        let count = self.code.instructions.len();
        if count == 0 {
            return Err(Fault { code: "V4", at: 0 });
        }
        let mut waiting: Vec<Option<Box<Frame>>> = vec![None; count];
        let mut frame = Frame { depth: 0, stack: [EMPTY; MOST_OPERANDS], locals: [None; MOST_LOCALS], clash: None };
        let mut is_reached = true;
        for (at, &instruction) in self.code.instructions.iter().enumerate() {
            match waiting[at].take() {
                Some(other) if is_reached => frame.join(&other),
                Some(other) => frame = *other,
                None if is_reached => {}
                None => continue,
            }
            let judged = frame.clash.map_or(Ok(()), Err).and_then(|()| self.carry_out(&mut frame, instruction));
            judged.map_err(|code| Fault { code, at })?;
            if let Instruction::Jump(skipped) | Instruction::JumpIfNot(skipped) = instruction {
                let outside = Fault { code: "V4", at };
                match waiting.get_mut(at + 1 + usize::from(skipped)).ok_or(outside)? {
                    Some(other) => other.join(&frame),
                    empty => *empty = Some(Box::new(frame.clone())),
                }
            }
            is_reached = !matches!(instruction, Instruction::Jump(_) | Instruction::Accept | Instruction::Reject);
            if is_reached && at + 1 == count {
                return Err(Fault { code: "V4", at });
            }
        }
        Ok(())
    }
}

/// Verifies code for domains of a size.
pub fn verify(code: &Compiled, size: u32) -> Result<(), Fault> {
    if !(2..=250).contains(&size) {
        return Err(Fault { code: "V8", at: 0 });
    }
    Verifier { code, size }.verify()
}
