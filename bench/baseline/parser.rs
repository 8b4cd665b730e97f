//! A filter's text, read and compiled in one pass: its grammar, its names and kinds, and its code.

use crate::code::Instruction;
use crate::int_sets::{first_shared_label, IntRange};
use crate::lexer::{Fault, Kind, Lexer, Token};
use crate::route::Prefix;

const MOST_VARIABLES: usize = 16;
const MOST_NESTED: u32 = 32;
const MOST_INSTRUCTIONS: usize = 1_024;
const MOST_SETS: usize = 64;
const MOST_PATTERNS: usize = 1_024;
const MOST_INT_SETS: usize = 64;
const MOST_RANGES: usize = 1_024;

/// A pattern as it is written: a prefix, and the least and the greatest length.
pub type Spelled = (Prefix, u8, u8);

/// The code of a filter.
pub struct Compiled {
    pub locals: u8,
    pub sets: Vec<Vec<Spelled>>,
    pub int_sets: Vec<Vec<IntRange>>,
    pub instructions: Vec<Instruction>,
}

/// An operand that was read: its kind, and its first byte.
#[derive(Clone, Copy)]
struct Operand {
    kind: Kind,
    at: usize,
}

struct Parser<'a> {
    lexer: Lexer<'a>,
    /// The token that is next, and its first byte.
    token: Token<'a>,
    at: usize,
    /// How many blocks, parentheses, `!`, `if`s and `case`s enclose it.
    nested: u32,
    variables: Vec<(&'a [u8], Kind)>,
    /// The first fault of a name or a kind, which counts where the grammar has none.
    fault: Option<Fault>,
    /// The code so far; no more than one instruction over the limit is kept.
    instructions: Vec<Instruction>,
    sets: Vec<Vec<Spelled>>,
    int_sets: Vec<Vec<IntRange>>,
}

/// A `case` as far as its parts were read.
struct Case {
    argument: Vec<Instruction>,
    /// How many sets of ints come before its labels.
    sets_before: usize,
    /// The ranges of its labels so far, each with the place of its label.
    labelled: Vec<(IntRange, usize)>,
    /// The code of its `else` part, once it was read.
    other: Option<Vec<Instruction>>,
    /// The jumps from the end of a part to the end of the `case`.
    jumps: Vec<usize>,
}

type Parsed<T> = Result<T, Fault>;

/// The code of the filter that a text is.
pub fn compile(text: &[u8]) -> Parsed<Compiled> {
    let mut lexer = Lexer::new(text);
    let (token, at) = lexer.next()?;
    if token == Token::Quoted {
        return Err(Fault { code: "P10", at });
    }
    let mut parser = Parser {
        lexer,
        token,
        at,
        nested: 0,
        variables: Vec::new(),
        fault: None,
        instructions: Vec::with_capacity(128),
        sets: Vec::new(),
        int_sets: Vec::new(),
    };
    parser.filter()?;
    parser.fault.map_or(Ok(()), Err)?;
    let Parser { variables, instructions, sets, int_sets, .. } = parser;
    if instructions.len() > MOST_INSTRUCTIONS {
        return Err(Fault { code: "G1", at: 0 });
    }
    if sets.len() > MOST_SETS || sets.iter().any(|set| set.len() > MOST_PATTERNS) {
        return Err(Fault { code: "G2", at: 0 });
    }
    if int_sets.len() > MOST_INT_SETS || int_sets.iter().any(|set| set.len() > MOST_RANGES) {
        return Err(Fault { code: "G2", at: 0 });
    }
    Ok(Compiled { locals: variables.len() as u8, sets, int_sets, instructions })
}

impl<'a> Parser<'a> {
    fn unexpected<T>(&self) -> Parsed<T> {
        Err(Fault { code: if self.token == Token::End { "P9" } else { "P2" }, at: self.at })
    }

    /// Goes on to the next token, which may be a quoted text.
    #[inline]
    fn advance_to_any(&mut self) -> Parsed<()> {
        (self.token, self.at) = self.lexer.next()?;
        Ok(())
    }

    #[inline]
    fn advance(&mut self) -> Parsed<()> {
        self.advance_to_any()?;
        if self.token == Token::Quoted {
            return Err(Fault { code: "P10", at: self.at });
        }
        Ok(())
    }

    fn expect(&mut self, token: Token<'_>) -> Parsed<()> {
        if self.token != token {
            return self.unexpected();
        }
        self.advance()
    }

    fn expect_sign(&mut self, sign: u8) -> Parsed<()> {
        self.expect(Token::Sign(sign))
    }

    /// Goes into what the token opens.
    fn enter(&mut self) -> Parsed<()> {
        if self.nested == MOST_NESTED {
            return Err(Fault { code: "P5", at: self.at });
        }
        self.nested += 1;
        self.advance()
    }

    #[cold]
    fn note(&mut self, code: &'static str, at: usize) {
        self.fault = self.fault.or(Some(Fault { code, at }));
    }

    #[inline]
    fn want(&mut self, operand: Operand, kind: Kind) {
        if operand.kind != kind {
            self.note("Y3", operand.at);
        }
    }

    #[inline]
    fn emit(&mut self, instruction: Instruction) -> usize {
        let at = self.instructions.len();
        if at <= MOST_INSTRUCTIONS {
            self.instructions.push(instruction);
        }
        at
    }

    fn emit_all(&mut self, instructions: &[Instruction]) {
        let free = (MOST_INSTRUCTIONS + 1).saturating_sub(self.instructions.len());
        self.instructions.extend_from_slice(&instructions[..free.min(instructions.len())]);
    }

    /// Leads the jump at a place to what is emitted next.
    fn land(&mut self, at: usize) {
        let over = self.instructions.len() as u16;
        match self.instructions.get_mut(at) {
            Some(Instruction::Jump(skipped) | Instruction::JumpIfNot(skipped)) => {
                *skipped = over.wrapping_sub(at as u16 + 1)
            }
            _ => {}
        }
    }

    fn filter(&mut self) -> Parsed<()> {
        self.expect(Token::Filter)?;
        let Token::Name(_) = self.token else { return self.unexpected() };
        self.advance()?;
        self.declarations()?;
        self.expect_sign(b'{')?;
        self.declarations()?;
        while self.token != Token::Sign(b'}') {
            self.command()?;
        }
        self.advance()?;
        self.emit(Instruction::Reject);
        match self.token {
            Token::End => Ok(()),
            _ => self.unexpected(),
        }
    }

    fn declarations(&mut self) -> Parsed<()> {
        while let Token::Kind(kind) = self.token {
            self.advance()?;
            let Token::Name(name) = self.token else { return self.unexpected() };
            self.declare(name, kind);
            self.advance()?;
            self.expect_sign(b';')?;
        }
        Ok(())
    }

    fn declare(&mut self, name: &'a [u8], kind: Kind) {
        if self.variables.iter().any(|(other, _)| *other == name) {
            return self.note("Y2", self.at);
        }
        if self.variables.len() == MOST_VARIABLES {
            return self.note("Y5", self.at);
        }
        self.emit(match kind {
            Kind::Int => Instruction::Int(0),
            Kind::Bool => Instruction::Bool(false),
            Kind::Ip => Instruction::Address(0),
            Kind::Prefix => Instruction::Prefix(Prefix { address: 0, length: 0 }),
        });
        self.emit(Instruction::Store(self.variables.len() as u8));
        self.variables.push((name, kind));
    }

    /// A variable's number and kind; an undeclared one is noted, and passes for the first int.
    fn variable(&mut self, name: &[u8]) -> (u8, Kind) {
        match self.variables.iter().position(|(other, _)| *other == name) {
            Some(index) => (index as u8, self.variables[index].1),
            None => {
                self.note("Y1", self.at);
                (0, Kind::Int)
            }
        }
    }

    fn command(&mut self) -> Parsed<()> {
        match self.token {
            Token::Sign(b';') => self.advance(),
            Token::Sign(b'{') => {
                self.enter()?;
                while self.token != Token::Sign(b'}') {
                    self.command()?;
                }
                self.nested -= 1;
                self.advance()
            }
            Token::If => self.conditional(),
            Token::Case => self.case(),
            Token::Name(name) => {
                let (index, kind) = self.variable(name);
                self.assign(kind)?;
                self.emit(Instruction::Store(index));
                self.expect_sign(b';')
            }
            Token::Metric => {
                self.assign(Kind::Int)?;
                self.emit(Instruction::Received);
                self.emit(Instruction::Max);
                self.emit(Instruction::SetMetric);
                self.expect_sign(b';')
            }
            Token::Net => {
                self.note("Y4", self.at);
                self.assign(Kind::Prefix)?;
                self.expect_sign(b';')
            }
            Token::Accept => self.verdict(Instruction::Accept),
            Token::Reject => self.verdict(Instruction::Reject),
            _ => self.unexpected(),
        }
    }

    /// What follows the left side of an assignment, up to its `;`.
    fn assign(&mut self, kind: Kind) -> Parsed<()> {
        self.advance()?;
        self.expect_sign(b'=')?;
        let right = self.expression()?;
        self.want(right, kind);
        Ok(())
    }

    fn verdict(&mut self, instruction: Instruction) -> Parsed<()> {
        self.advance_to_any()?;
        if self.token == Token::Quoted {
            self.advance()?;
        }
        self.emit(instruction);
        self.expect_sign(b';')
    }

    fn conditional(&mut self) -> Parsed<()> {
        self.enter()?;
        let condition = self.expression()?;
        self.want(condition, Kind::Bool);
        self.expect(Token::Then)?;
        let over = self.emit(Instruction::JumpIfNot(0));
        self.command()?;
        if self.token == Token::Else && !self.is_label() {
            let out = self.emit(Instruction::Jump(0));
            self.land(over);
            self.advance()?;
            self.command()?;
            self.land(out);
        } else {
            self.land(over);
        }
        self.nested -= 1;
        Ok(())
    }

    /// Whether an `else` is the label of a part of a `case`.
    fn is_label(&self) -> bool {
        matches!({ self.lexer }.next(), Ok((Token::Sign(b':'), _)))
    }

    fn case(&mut self) -> Parsed<()> {
        self.enter()?;
        let start = self.instructions.len();
        let argument = self.expression()?;
        self.want(argument, Kind::Int);
        self.expect_sign(b'{')?;
        let mut case = Case {
            argument: self.instructions.split_off(start),
            sets_before: self.int_sets.len(),
            labelled: Vec::new(),
            other: None,
            jumps: Vec::new(),
        };
        loop {
            match self.token {
                Token::Number(_) => self.labelled_part(&mut case)?,
                Token::Else if case.other.is_none() => case.other = Some(self.else_part()?),
                _ => break,
            }
        }
        self.expect_sign(b'}')?;
        self.end_case(case);
        self.nested -= 1;
        Ok(())
    }

    fn labelled_part(&mut self, case: &mut Case) -> Parsed<()> {
        let label = self.at;
        let ranges = self.ranges()?;
        self.expect_sign(b':')?;
        case.labelled.extend(ranges.iter().map(|range| (*range, label)));
        self.int_sets.push(ranges);
        let over = self.ask(&case.argument, self.int_sets.len() - 1);
        self.commands_of_part()?;
        case.jumps.push(self.emit(Instruction::Jump(0)));
        self.land(over);
        Ok(())
    }

    /// Emits the question whether an argument is in a set, and the jump where it is not.
    fn ask(&mut self, argument: &[Instruction], set: usize) -> usize {
        self.emit_all(argument);
        self.emit(Instruction::InSet(set as u8));
        self.emit(Instruction::JumpIfNot(0))
    }

    /// The code of an `else` part.
    fn else_part(&mut self) -> Parsed<Vec<Instruction>> {
        self.advance()?;
        self.expect_sign(b':')?;
        let start = self.instructions.len();
        self.commands_of_part()?;
        Ok(self.instructions.split_off(start))
    }

    /// Commands up to the next part, or the end of the parts.
    fn commands_of_part(&mut self) -> Parsed<()> {
        while let Token::Sign(b';' | b'{')
        | Token::If
        | Token::Case
        | Token::Name(_)
        | Token::Metric
        | Token::Net
        | Token::Accept
        | Token::Reject = self.token
        {
            self.command()?;
        }
        Ok(())
    }

    /// Emits what comes after the labelled parts.
    fn end_case(&mut self, mut case: Case) {
        let mut other = case.other.take().unwrap_or_default();
        if case.jumps.is_empty() {
            self.open(&mut case, &mut other);
        }
        self.emit_all(&other);
        case.jumps.iter().for_each(|jump| self.land(*jump));
        if let Some(at) = first_shared_label(&case.labelled) {
            // It counts before the faults of the commands after that label.
            if self.fault.is_none_or(|fault| fault.at > at) {
                self.fault = Some(Fault { code: "Y7", at });
            }
        }
    }

    /// Without a labelled part, a part with no ranges and no commands comes first.
    #[cold]
    fn open(&mut self, case: &mut Case, other: &mut [Instruction]) {
        self.int_sets.insert(case.sets_before, Vec::new());
        for instruction in other {
            if let Instruction::InSet(set) = instruction {
                *set = set.wrapping_add(u8::from(usize::from(*set) >= case.sets_before));
            }
        }
        let over = self.ask(&case.argument, case.sets_before);
        case.jumps.push(self.emit(Instruction::Jump(0)));
        self.land(over);
    }

    fn expression(&mut self) -> Parsed<Operand> {
        let left = self.comparison()?;
        match self.token {
            Token::And => self.all_of(left),
            Token::Or => self.any_of(left),
            _ => Ok(left),
        }
    }

    fn all_of(&mut self, left: Operand) -> Parsed<Operand> {
        let mut left = left;
        while self.token == Token::And {
            self.advance()?;
            let over = self.emit(Instruction::JumpIfNot(0));
            let right = self.comparison()?;
            self.want(left, Kind::Bool);
            self.want(right, Kind::Bool);
            let out = self.emit(Instruction::Jump(0));
            self.land(over);
            self.emit(Instruction::Bool(false));
            self.land(out);
            left.kind = Kind::Bool;
        }
        self.end_chain(Token::Or, left)
    }

    fn any_of(&mut self, left: Operand) -> Parsed<Operand> {
        let mut left = left;
        while self.token == Token::Or {
            self.advance()?;
            let over = self.emit(Instruction::JumpIfNot(0));
            self.emit(Instruction::Bool(true));
            let out = self.emit(Instruction::Jump(0));
            self.land(over);
            let right = self.comparison()?;
            self.want(left, Kind::Bool);
            self.want(right, Kind::Bool);
            self.land(out);
            left.kind = Kind::Bool;
        }
        self.end_chain(Token::And, left)
    }

    /// Ends a chain of one sign, which the other must not follow.
    fn end_chain(&self, other: Token<'_>, chain: Operand) -> Parsed<Operand> {
        if self.token == other {
            return Err(Fault { code: "P6", at: self.at });
        }
        Ok(chain)
    }

    fn comparison(&mut self) -> Parsed<Operand> {
        let left = self.sum()?;
        let (instruction, is_negated) = match self.token {
            Token::Sign(b'=') => (Instruction::Equal, false),
            Token::NotEqual => (Instruction::Equal, true),
            Token::Sign(b'<') => (Instruction::Less, false),
            Token::GreaterOrEqual => (Instruction::Less, true),
            Token::LessOrEqual => (Instruction::LessOrEqual, false),
            Token::Sign(b'>') => (Instruction::LessOrEqual, true),
            Token::Sign(b'~') => (Instruction::Within, false),
            Token::NotWithin => (Instruction::Within, true),
            _ => return Ok(left),
        };
        self.advance()?;
        let instruction = match instruction {
            Instruction::Within if self.token == Token::Sign(b'[') => {
                let (member, kind) = self.set()?;
                self.want(left, kind);
                member
            }
            instruction => {
                let right = self.sum()?;
                self.judge(instruction, left, right);
                instruction
            }
        };
        self.emit(instruction);
        if is_negated {
            self.emit(Instruction::Not);
        }
        Ok(Operand { kind: Kind::Bool, at: left.at })
    }

    /// Notes which operand of a comparison is of the wrong kind.
    fn judge(&mut self, instruction: Instruction, left: Operand, right: Operand) {
        let (is_left_good, is_right_good) = match instruction {
            Instruction::Equal => (true, left.kind == right.kind),
            Instruction::Within => (matches!(left.kind, Kind::Ip | Kind::Prefix), right.kind == Kind::Prefix),
            _ => (matches!(left.kind, Kind::Int | Kind::Ip), left.kind == right.kind),
        };
        if !is_left_good {
            self.note("Y3", left.at);
        } else if !is_right_good {
            self.note("Y3", right.at);
        }
    }

    fn sum(&mut self) -> Parsed<Operand> {
        let mut left = self.product()?;
        loop {
            let instruction = match self.token {
                Token::Sign(b'+') => Instruction::Add,
                Token::Sign(b'-') => Instruction::Sub,
                _ => return Ok(left),
            };
            self.advance()?;
            let right = self.product()?;
            left = self.calculate(instruction, left, right);
        }
    }

    fn product(&mut self) -> Parsed<Operand> {
        let mut left = self.unary()?;
        loop {
            let instruction = match self.token {
                Token::Sign(b'*') => Instruction::Mul,
                Token::Sign(b'/') => Instruction::Div,
                _ => return Ok(left),
            };
            self.advance()?;
            let right = self.unary()?;
            left = self.calculate(instruction, left, right);
        }
    }

    #[inline]
    fn calculate(&mut self, instruction: Instruction, left: Operand, right: Operand) -> Operand {
        self.want(left, Kind::Int);
        self.want(right, Kind::Int);
        self.emit(instruction);
        Operand { kind: Kind::Int, at: left.at }
    }

    fn unary(&mut self) -> Parsed<Operand> {
        if self.token != Token::Sign(b'!') {
            return self.postfix();
        }
        let at = self.at;
        self.enter()?;
        let operand = self.unary()?;
        self.nested -= 1;
        self.want(operand, Kind::Bool);
        self.emit(Instruction::Not);
        Ok(Operand { kind: Kind::Bool, at })
    }

    fn postfix(&mut self) -> Parsed<Operand> {
        let mut operand = self.primary()?;
        while self.token == Token::Sign(b'.') {
            self.advance()?;
            let (kind, wanted, instruction) = match self.token {
                Token::Kind(Kind::Ip) => (Kind::Ip, Kind::Prefix, Instruction::AddressOf),
                Token::Name(b"len") => (Kind::Int, Kind::Prefix, Instruction::LengthOf),
                Token::Name(b"mask") => (Kind::Ip, Kind::Ip, self.mask()?),
                _ => return self.unexpected(),
            };
            self.advance()?;
            self.want(operand, wanted);
            self.emit(instruction);
            operand.kind = kind;
        }
        Ok(operand)
    }

    /// `mask`, up to its `)`.
    fn mask(&mut self) -> Parsed<Instruction> {
        self.advance()?;
        self.expect_sign(b'(')?;
        let Token::Number(bits) = self.token else { return self.unexpected() };
        if bits > 32 {
            return Err(Fault { code: "P4", at: self.at });
        }
        self.advance()?;
        if self.token != Token::Sign(b')') {
            return self.unexpected();
        }
        Ok(Instruction::Mask(bits as u8))
    }

    fn primary(&mut self) -> Parsed<Operand> {
        let at = self.at;
        let (kind, instruction) = match self.token {
            Token::Number(number) => (Kind::Int, Instruction::Int(number)),
            Token::Name(name) => {
                let (index, kind) = self.variable(name);
                (kind, Instruction::Load(index))
            }
            Token::Metric => (Kind::Int, Instruction::Metric),
            Token::Net => (Kind::Prefix, Instruction::Net),
            Token::Address(address) => (Kind::Ip, Instruction::Address(address)),
            Token::Prefix(prefix) => (Kind::Prefix, Instruction::Prefix(prefix)),
            Token::Bool(truth) => (Kind::Bool, Instruction::Bool(truth)),
            Token::Defined => {
                self.advance()?;
                self.expect_sign(b'(')?;
                let (Token::Net | Token::Metric) = self.token else { return self.unexpected() };
                self.advance()?;
                if self.token != Token::Sign(b')') {
                    return self.unexpected();
                }
                (Kind::Bool, Instruction::Bool(true))
            }
            Token::Sign(b'(') => {
                self.enter()?;
                let inner = self.expression()?;
                self.nested -= 1;
                self.expect_sign(b')')?;
                return Ok(Operand { kind: inner.kind, at });
            }
            _ => return self.unexpected(),
        };
        self.emit(instruction);
        self.advance()?;
        Ok(Operand { kind, at })
    }

    /// A set, from its `[` to what follows its `]`: the instruction that asks for it, and the kind of its members.
    fn set(&mut self) -> Parsed<(Instruction, Kind)> {
        self.advance()?;
        if let Token::Number(_) = self.token {
            let ranges = self.ranges()?;
            self.expect_sign(b']')?;
            self.int_sets.push(ranges);
            return Ok((Instruction::InSet((self.int_sets.len() - 1) as u8), Kind::Int));
        }
        let mut patterns = vec![self.pattern()?];
        while self.token == Token::Sign(b',') {
            self.advance()?;
            patterns.push(self.pattern()?);
        }
        self.expect_sign(b']')?;
        self.sets.push(patterns);
        Ok((Instruction::Member((self.sets.len() - 1) as u8), Kind::Prefix))
    }

    /// Ranges, of which there is one at least.
    fn ranges(&mut self) -> Parsed<Vec<IntRange>> {
        let mut ranges = vec![self.range()?];
        while self.token == Token::Sign(b',') {
            self.advance()?;
            ranges.push(self.range()?);
        }
        Ok(ranges)
    }

    fn range(&mut self) -> Parsed<IntRange> {
        let (Token::Number(low), at) = (self.token, self.at) else { return self.unexpected() };
        self.advance()?;
        let mut high = low;
        if self.token == Token::UpTo {
            self.advance()?;
            let Token::Number(number) = self.token else { return self.unexpected() };
            if low > number {
                return Err(Fault { code: "P4", at });
            }
            high = number;
            self.advance()?;
        }
        Ok(IntRange { low, high })
    }

    fn pattern(&mut self) -> Parsed<Spelled> {
        let Token::Prefix(prefix) = self.token else { return self.unexpected() };
        self.advance()?;
        match self.token {
            Token::Sign(b'+') => self.advance().map(|()| (prefix, prefix.length, 32)),
            Token::Sign(b'-') => self.advance().map(|()| (prefix, 0, prefix.length)),
            Token::Sign(b'{') => self.lengths(prefix),
            _ => Ok((prefix, prefix.length, prefix.length)),
        }
    }

    fn lengths(&mut self, prefix: Prefix) -> Parsed<Spelled> {
        let at = self.at;
        self.advance()?;
        let Token::Number(low) = self.token else { return self.unexpected() };
        self.advance()?;
        self.expect_sign(b',')?;
        let Token::Number(high) = self.token else { return self.unexpected() };
        self.advance()?;
        if self.token != Token::Sign(b'}') {
            return self.unexpected();
        }
        if low > high || high > 32 {
            return Err(Fault { code: "P4", at });
        }
        self.advance()?;
        Ok((prefix, low as u8, high as u8))
    }
}
