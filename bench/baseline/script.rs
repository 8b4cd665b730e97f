//! `run`: the operator's script, as `ncroute run` answers it, without proofs. There is no compiler and no verifier here: `load` is an unknown
//! command, and `code` takes any code file and answers its cost and its peak.

use std::collections::HashMap;
use std::sync::Arc;

use crate::code::{decode_hexadecimal, read_code, Code, Instruction};
use crate::lines::{push_decimal, push_refusal, words, LineReply, Service, LINE_LIMIT};
use crate::route::{default_prefix, read_number, read_prefix, Prefix};
use crate::router::{Event, Message, Reply, Router, Via};

const LARGEST_LIMIT: u32 = 1_000_000;
const NAME_LIMIT: usize = 64;

enum Command<'a> {
    Network(u16, u16, u32),
    Prefix(u16, Prefix),
    Code(&'a [u8], Vec<u8>),
    Import(u16, &'a [u8]),
    Export(u16, &'a [u8]),
    Up(u16),
    Down(u16),
    Receive(u16, u16, u16),
    Take(u16),
    Show(u16),
}

/// A number up to 65,535.
pub fn number(word: &[u8]) -> Result<u16, &'static str> {
    read_number(word).and_then(|number| u16::try_from(number).ok()).ok_or("O2")
}

fn is_name(word: &[u8]) -> bool {
    word.len() <= NAME_LIMIT
        && !word[0].is_ascii_digit()
        && word.iter().all(|byte| byte.is_ascii_alphanumeric() || *byte == b'_')
}

pub fn name(word: &[u8]) -> Result<&[u8], &'static str> {
    if is_name(word) {
        Ok(word)
    } else {
        Err("O1")
    }
}

fn read_network(line: &[u8]) -> Result<Command<'_>, &'static str> {
    let (size, me, limit) = match words::<4>(line) {
        Some([_, size, me, limit]) => (size, me, Some(limit)),
        None => {
            let [_, size, me] = words(line).ok_or("O1")?;
            (size, me, None)
        }
    };
    let size = number(size).ok().filter(|size| (2..=250).contains(size)).ok_or("O2")?;
    let me = number(me).ok().filter(|me| *me < size).ok_or("O2")?;
    let limit = match limit {
        Some(limit) => read_number(limit).filter(|limit| (1..=LARGEST_LIMIT).contains(limit)).ok_or("O2")?,
        None => LARGEST_LIMIT,
    };
    Ok(Command::Network(size, me, limit))
}

/// `recv`, `show` and `take` in their usual spelling, which most lines have: one blank between the words, and numbers of at most
/// three digits. None: the line is read word by word.
fn read_plain(line: &[u8]) -> Option<Command<'_>> {
    let (verb, rest) = line.split_first_chunk::<4>()?;
    let (node, rest) = blank_and_number(rest)?;
    match (verb, rest) {
        (b"show", []) => Some(Command::Show(node)),
        (b"take", []) => Some(Command::Take(node)),
        (b"recv", _) => {
            let (dest, rest) = blank_and_number(rest)?;
            let (dist, rest) = blank_and_number(rest)?;
            rest.is_empty().then_some(Command::Receive(node, dest, dist))
        }
        _ => None,
    }
}

/// A blank and a number of at most three digits, and what follows them.
#[inline(always)]
fn blank_and_number(text: &[u8]) -> Option<(u16, &[u8])> {
    let [b' ', first @ b'0'..=b'9', rest @ ..] = text else { return None };
    let mut number = u16::from(first - b'0');
    let mut rest = rest;
    for _ in 1..3 {
        let [digit @ b'0'..=b'9', more @ ..] = rest else { break };
        number = number * 10 + u16::from(digit - b'0');
        rest = more;
    }
    Some((number, rest))
}

/// The command of a line, or the code of its refusal: O7 first, then O1, and then the words from the left.
fn read_command(line: &[u8]) -> Result<Command<'_>, &'static str> {
    read_plain(line).map_or_else(|| read_words(line), Ok)
}

/// The same, word by word.
fn read_words(line: &[u8]) -> Result<Command<'_>, &'static str> {
    if line.len() > LINE_LIMIT {
        return Err("O7");
    }
    let verb = line.split(|byte| *byte == b' ' || *byte == b'\t').find(|word| !word.is_empty()).ok_or("O1")?;
    let one = || -> Result<u16, &'static str> {
        let [_, node] = words(line).ok_or("O1")?;
        number(node)
    };
    let use_of = || -> Result<(u16, &[u8]), &'static str> {
        let [_, node, filter] = words(line).ok_or("O1")?;
        let filter = name(filter)?;
        Ok((number(node)?, filter))
    };
    match verb {
        b"recv" => {
            let [_, node, dest, dist] = words(line).ok_or("O1")?;
            Ok(Command::Receive(number(node)?, number(dest)?, number(dist)?))
        }
        b"show" => one().map(Command::Show),
        b"take" => one().map(Command::Take),
        b"up" => one().map(Command::Up),
        b"down" => one().map(Command::Down),
        b"import" => use_of().map(|(node, filter)| Command::Import(node, filter)),
        b"export" => use_of().map(|(node, filter)| Command::Export(node, filter)),
        b"code" => {
            let [_, filter, file] = words(line).ok_or("O1")?;
            Ok(Command::Code(name(filter)?, decode_hexadecimal(file).ok_or("O3")?))
        }
        b"prefix" => {
            let [_, node, prefix] = words(line).ok_or("O1")?;
            Ok(Command::Prefix(number(node)?, read_prefix(prefix).ok_or("O8")?))
        }
        b"network" => read_network(line),
        _ => Err("O1"),
    }
}

/// The most steps of a run, and the most operands at a time, of code whose jumps stay inside and whose ways meet at equal depths.
pub fn cost_and_peak(instructions: &[Instruction]) -> (u32, u32) {
    let count = instructions.len();
    let mut costs = vec![0; count + 1];
    for (at, instruction) in instructions.iter().enumerate().rev() {
        let cost_at = |skipped: u16| costs.get(at + 1 + usize::from(skipped)).copied().unwrap_or(0);
        costs[at] = 1 + match instruction {
            Instruction::Accept | Instruction::Reject => 0,
            Instruction::Jump(skipped) => cost_at(*skipped),
            Instruction::JumpIfNot(skipped) => cost_at(0).max(cost_at(*skipped)),
            _ => cost_at(0),
        };
    }
    let mut depths = vec![0_u32; count + 1];
    let mut peak = 0;
    for (at, instruction) in instructions.iter().enumerate() {
        let (takes, gives, skipped) = match instruction {
            Instruction::Int(_) | Instruction::Bool(_) | Instruction::Address(_) | Instruction::Prefix(_) => {
                (0, 1, None)
            }
            Instruction::Load(_) | Instruction::Net | Instruction::Metric | Instruction::Received => (0, 1, None),
            Instruction::Store(_) | Instruction::SetMetric => (1, 0, None),
            Instruction::Not | Instruction::AddressOf | Instruction::LengthOf => (1, 1, None),
            Instruction::Mask(_) | Instruction::Member(_) | Instruction::InSet(_) => (1, 1, None),
            Instruction::Jump(skipped) => (0, 0, Some(*skipped)),
            Instruction::JumpIfNot(skipped) => (1, 0, Some(*skipped)),
            Instruction::Accept | Instruction::Reject => (0, 0, None),
            _ => (2, 1, None),
        };
        let after = depths[at].saturating_sub(takes) + gives;
        peak = peak.max(after);
        if let Some(depth) = depths.get_mut(at + 1 + usize::from(skipped.unwrap_or(0))) {
            *depth = after;
        }
        if !matches!(instruction, Instruction::Jump(_) | Instruction::Accept | Instruction::Reject) {
            depths[at + 1] = after;
        }
    }
    (costs[0], peak)
}

struct Opening {
    me: u16,
    prefixes: Vec<Prefix>,
    limit: u32,
}

/// A router and all that happened to it.
struct Journal {
    router: Router,
    entries: Vec<(Event, Reply)>,
    limit: u32,
}

enum Stage {
    Empty,
    Setting(Opening),
    Open(Journal),
}

/// A script between two lines.
pub struct Script {
    stage: Stage,
    filters: HashMap<Vec<u8>, Arc<Code>>,
}

type Refusal = (&'static str, u32);

impl Script {
    pub fn new() -> Script {
        Script { stage: Stage::Empty, filters: HashMap::new() }
    }

    fn network(&mut self, size: u16, me: u16, limit: u32) -> Result<(), &'static str> {
        let Stage::Empty = self.stage else { return Err("O5") };
        self.stage = Stage::Setting(Opening { me, prefixes: (0..size).map(default_prefix).collect(), limit });
        Ok(())
    }

    fn prefix(&mut self, node: u16, prefix: Prefix) -> Result<(), &'static str> {
        match &mut self.stage {
            Stage::Empty => Err("O4"),
            Stage::Setting(opening) => {
                *opening.prefixes.get_mut(usize::from(node)).ok_or("O2")? = prefix;
                Ok(())
            }
            Stage::Open(_) => Err("O5"),
        }
    }

    fn code(&mut self, number: u32, name: &[u8], file: &[u8], out: &mut Vec<u8>) -> Result<(), Refusal> {
        if let Stage::Empty = self.stage {
            return Err(("O4", number));
        }
        let code = read_code(file).map_err(|fault| (fault.code, fault.at as u32))?;
        let (cost, peak) = cost_and_peak(&code.instructions);
        self.filters.insert(name.to_vec(), Arc::new(code));
        out.extend_from_slice(b"verified ");
        push_decimal(out, cost);
        out.push(b' ');
        push_decimal(out, peak);
        Ok(())
    }

    fn filter(&self, name: &[u8]) -> Result<Arc<Code>, &'static str> {
        match self.stage {
            Stage::Empty => Err("O4"),
            _ => self.filters.get(name).map(Arc::clone).ok_or("O6"),
        }
    }

    /// The journal, which the first event opens.
    fn journal(&mut self) -> Result<&mut Journal, &'static str> {
        if let Stage::Setting(Opening { me, prefixes, limit }) = &mut self.stage {
            let router = Router::new(*me, std::mem::take(prefixes));
            self.stage = Stage::Open(Journal { router, entries: Vec::new(), limit: *limit });
        }
        match &mut self.stage {
            Stage::Open(journal) => Ok(journal),
            _ => Err("O4"),
        }
    }

    fn happen(&mut self, number: u32, event: impl FnOnce(&Router) -> Event, out: &mut Vec<u8>) -> Result<(), Refusal> {
        let Journal { router, entries, limit } = self.journal().map_err(|code| (code, number))?;
        let at = entries.len() as u32;
        if at == *limit {
            return Err(("J1", at));
        }
        let event = event(router);
        let reply = router.apply(&event);
        let answered = push_reply(out, &reply).map_err(|code| (code, at));
        entries.push((event, reply));
        answered
    }

    fn execute(&mut self, number: u32, command: Command<'_>, out: &mut Vec<u8>) -> Result<(), Refusal> {
        let at_line = |code| (code, number);
        match command {
            Command::Receive(node, dest, dist) => {
                self.happen(number, |router| Event::Receive(router.session(node), dest, dist), out)
            }
            Command::Show(node) => self.happen(number, |_| Event::Show(node), out),
            Command::Take(node) => self.happen(number, |router| Event::Take(router.session(node), 65_535), out),
            Command::Up(node) => self.happen(number, |_| Event::Up(node), out),
            Command::Down(node) => self.happen(number, |router| Event::Down(router.session(node)), out),
            Command::Import(node, name) => {
                let filter = self.filter(name).map_err(at_line)?;
                self.happen(number, |_| Event::Import(node, filter), out)
            }
            Command::Export(node, name) => {
                let filter = self.filter(name).map_err(at_line)?;
                self.happen(number, |_| Event::Export(node, filter), out)
            }
            Command::Code(name, file) => self.code(number, name, &file, out),
            Command::Prefix(node, prefix) => {
                out.extend_from_slice(b"ok");
                self.prefix(node, prefix).map_err(at_line)
            }
            Command::Network(size, me, limit) => {
                out.extend_from_slice(b"ok");
                self.network(size, me, limit).map_err(at_line)
            }
        }
    }
}

/// Puts a sign and a number at a place of a text. The place after them.
#[inline(always)]
fn put_number(text: &mut [u8; 8], at: usize, sign: u8, number: u8) -> usize {
    let (hundred, ten, one) = (b'0' + number / 100, b'0' + number / 10 % 10, b'0' + number % 10);
    text[at] = sign;
    match number {
        0..=9 => {
            text[at + 1] = one;
            at + 2
        }
        10..=99 => {
            text[at + 1..at + 3].copy_from_slice(&[ten, one]);
            at + 3
        }
        _ => {
            text[at + 1..at + 4].copy_from_slice(&[hundred, ten, one]);
            at + 4
        }
    }
}

/// Writes eight bytes at once, and takes back those that a message does not have.
fn push_message(out: &mut Vec<u8>, message: &Message) {
    let mut text = [0; 8];
    let middle = put_number(&mut text, 0, b' ', message.dest);
    let end = put_number(&mut text, middle, b':', message.dist);
    out.extend_from_slice(&text);
    out.truncate(out.len() - (text.len() - end));
}

fn push_number(out: &mut Vec<u8>, word: &str, number: u32) {
    out.extend_from_slice(word.as_bytes());
    push_decimal(out, number);
}

fn push_reply(out: &mut Vec<u8>, reply: &Reply) -> Result<(), &'static str> {
    match reply {
        Reply::Opened(session) => push_number(out, "opened ", *session),
        Reply::Done(changed @ 0..=9) => out.extend_from_slice(&[b'd', b'o', b'n', b'e', b' ', b'0' + *changed as u8]),
        Reply::Done(changed) => push_number(out, "done ", (*changed).into()),
        Reply::Messages(messages) => {
            out.extend_from_slice(b"messages");
            messages.iter().for_each(|message| push_message(out, message));
        }
        Reply::Route(dist, via) => {
            push_number(out, "route ", (*dist).into());
            match via {
                Via::Local => out.extend_from_slice(b" local"),
                Via::Node(node) => push_number(out, " via ", (*node).into()),
                Via::Nowhere => out.extend_from_slice(b" none"),
            }
        }
        Reply::Refused(code) => return Err(code),
    }
    Ok(())
}

impl Service for Script {
    fn answer(&mut self, number: u32, line: &[u8], out: &mut Vec<u8>) -> LineReply {
        let from = out.len();
        let answered = read_command(line).map_err(|code| (code, number));
        match answered.and_then(|command| self.execute(number, command, out)) {
            Ok(()) => {
                out.push(b'\n');
                LineReply::Answered
            }
            Err((code, at)) => {
                out.truncate(from);
                push_refusal(out, code, at);
                LineReply::Refused
            }
        }
    }

    fn finish(&mut self, _out: &mut Vec<u8>) -> LineReply {
        LineReply::Answered
    }
}
