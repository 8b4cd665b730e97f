//! Lines in, answers out: reads in blocks, answers each whole line in place, and writes and flushes the answers of a
//! block before it waits for the next.

use std::io::{ErrorKind, Read, Write};

/// The longest line, its line end not counted.
pub const LINE_LIMIT: usize = 1_048_576;
/// The longest input.
pub const INPUT_LIMIT: usize = 16_777_216;
const BLOCK: usize = 65_536;

#[derive(Clone, Copy, Debug, PartialEq, Eq)]
pub enum StreamFault {
    Read,
    Write,
    TooLong,
}

impl StreamFault {
    pub fn code(self) -> &'static str {
        match self {
            StreamFault::Read => "E1",
            StreamFault::Write => "E2",
            StreamFault::TooLong => "E4",
        }
    }
}

#[derive(Clone, Copy, Debug, PartialEq, Eq)]
pub enum LineReply {
    Answered,
    Refused,
    /// Refused, and nothing behind it is read.
    Ended,
}

/// What answers the lines.
pub trait Service {
    /// Answers the line of this number, which is not a skipped one.
    fn answer(&mut self, number: u32, line: &[u8], out: &mut Vec<u8>) -> LineReply;
    /// Answers the end of the input, where it is owed an answer.
    fn finish(&mut self, out: &mut Vec<u8>) -> LineReply;
}

pub fn push_decimal(out: &mut Vec<u8>, number: u32) {
    let (ten, one) = (b'0' + (number / 10 % 10) as u8, b'0' + (number % 10) as u8);
    match number {
        0..=9 => out.push(one),
        10..=99 => out.extend_from_slice(&[ten, one]),
        100..=999 => out.extend_from_slice(&[b'0' + (number / 100) as u8, ten, one]),
        _ => push_long(out, number),
    }
}

/// The same, of any number of digits.
fn push_long(out: &mut Vec<u8>, number: u32) {
    let mut digits = [0; 10];
    let mut first = digits.len();
    let mut left = number;
    loop {
        first -= 1;
        digits[first] = b'0' + (left % 10) as u8;
        left /= 10;
        if left == 0 {
            break;
        }
    }
    out.extend_from_slice(&digits[first..]);
}

pub fn push_refusal(out: &mut Vec<u8>, code: &str, at: u32) {
    out.extend_from_slice(b"refused ");
    out.extend_from_slice(code.as_bytes());
    out.push(b' ');
    push_decimal(out, at);
    out.push(b'\n');
}

fn is_blank(byte: &u8) -> bool {
    *byte == b' ' || *byte == b'\t'
}

/// The words of a line, where it has just `N` of them.
pub fn words<const N: usize>(line: &[u8]) -> Option<[&[u8]; N]> {
    let mut found = line.split(is_blank).filter(|word| !word.is_empty());
    let mut words = [&line[..0]; N];
    for word in &mut words {
        *word = found.next()?;
    }
    found.next().is_none().then_some(words)
}

pub fn trim_blanks(line: &[u8]) -> &[u8] {
    let Some(first) = line.iter().position(|byte| !is_blank(byte)) else { return &[] };
    let last = line.iter().rposition(|byte| !is_blank(byte)).unwrap_or(first);
    &line[first..=last]
}

/// The place of the first line feed, looked for in eight bytes at once.
fn find_line_feed(bytes: &[u8]) -> Option<usize> {
    const ONES: u64 = 0x0101_0101_0101_0101;
    let (chunks, rest) = bytes.as_chunks::<8>();
    for (index, chunk) in chunks.iter().enumerate() {
        // The lowest byte of these that has its high bit is the first line feed.
        let others = u64::from_le_bytes(*chunk) ^ ONES * u64::from(b'\n');
        let found = others.wrapping_sub(ONES) & !others & ONES << 7;
        if found != 0 {
            return Some(index * 8 + found.trailing_zeros() as usize / 8);
        }
    }
    Some(chunks.len() * 8 + rest.iter().position(|byte| *byte == b'\n')?)
}

/// The state between blocks: the bytes that wait for their line end, and what was counted so far.
struct Engine<'a, S> {
    service: &'a mut S,
    /// The first `filled` bytes have been read and not yet answered.
    pending: Vec<u8>,
    filled: usize,
    total: usize,
    out: Vec<u8>,
    number: u32,
    refused: u32,
}

impl<S: Service> Engine<'_, S> {
    fn count(&mut self, reply: LineReply) -> LineReply {
        self.refused += u32::from(reply != LineReply::Answered);
        reply
    }

    /// Answers the line `pending[from..to]`, its LF left off and a CR before that too.
    fn answer(&mut self, from: usize, to: usize) -> LineReply {
        self.number += 1;
        let line = &self.pending[from..to];
        if line.is_empty() || line[0] == b'#' {
            return LineReply::Answered;
        }
        let reply = self.service.answer(self.number, line, &mut self.out);
        self.count(reply)
    }

    /// Reads one block behind what is pending, at most one byte past the limit. The number of bytes read.
    fn read_block(&mut self, reader: &mut impl Read) -> Result<usize, StreamFault> {
        if self.filled == self.pending.len() {
            self.pending.resize(self.filled + self.filled.max(BLOCK), 0);
        }
        let room = (self.pending.len() - self.filled).min(INPUT_LIMIT + 1 - self.total);
        let space = &mut self.pending[self.filled..self.filled + room];
        loop {
            match reader.read(space) {
                Err(fault) if fault.kind() == ErrorKind::Interrupted => {}
                read => return read.map_err(|_| StreamFault::Read),
            }
        }
    }

    /// Answers each line that ends in the `fresh` bytes behind what was pending, and moves the rest to the front.
    fn answer_block(&mut self, fresh: usize) -> LineReply {
        let end = self.filled + fresh;
        let (mut from, mut sought) = (0, self.filled);
        while let Some(length) = find_line_feed(&self.pending[sought..end]) {
            let feed = sought + length;
            let to = if self.pending[from..feed].ends_with(b"\r") { feed - 1 } else { feed };
            if self.answer(from, to) == LineReply::Ended {
                return LineReply::Ended;
            }
            from = feed + 1;
            sought = from;
        }
        self.pending.copy_within(from..end, 0);
        self.filled = end - from;
        LineReply::Answered
    }

    fn write_out(&mut self, writer: &mut impl Write) -> Result<(), StreamFault> {
        if self.out.is_empty() {
            return Ok(());
        }
        let written = writer.write_all(&self.out).and_then(|()| writer.flush());
        self.out.clear();
        written.map_err(|_| StreamFault::Write)
    }

    /// Answers a last line without LF, and the end.
    fn finish(&mut self, writer: &mut impl Write) -> Result<u32, StreamFault> {
        if self.filled == 0 || self.answer(0, self.filled) != LineReply::Ended {
            let reply = self.service.finish(&mut self.out);
            self.count(reply);
        }
        self.write_out(writer)?;
        Ok(self.refused)
    }
}

/// Answers all lines of `reader`, and gives the number of refusals.
pub fn answer_lines<S: Service>(
    reader: &mut impl Read,
    writer: &mut impl Write,
    service: &mut S,
) -> Result<u32, StreamFault> {
    let (pending, out) = (vec![0; BLOCK], Vec::with_capacity(BLOCK));
    let mut engine = Engine { service, pending, filled: 0, total: 0, out, number: 0, refused: 0 };
    loop {
        let read = engine.read_block(reader)?;
        if read == 0 {
            return engine.finish(writer);
        }
        engine.total += read;
        let excess = engine.total.saturating_sub(INPUT_LIMIT);
        let reply = engine.answer_block(read - excess);
        engine.write_out(writer)?;
        if excess > 0 {
            return Err(StreamFault::TooLong);
        }
        if reply == LineReply::Ended {
            return Ok(engine.refused);
        }
    }
}
