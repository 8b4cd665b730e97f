//! `router ROUNDS`: has the plain router answer the events of standard input again and again.
//!
//! `network SIZE ME` comes first, then `filter HEX` lines and the events `up W`, `down W`, `recv W V D`, `take W`, `import W K`,
//! `export W K` and `show V`. The events before a line `begin` are answered once.

use std::io;
use std::sync::Arc;

use crate::code::{decode_hexadecimal, read_code, Code};
use crate::lines::{answer_lines, LineReply, Service, StreamFault};
use crate::route::default_prefix;
use crate::router::{Event, Reply, Router};

/// An event, before it is known which sessions are present.
#[derive(Clone, Copy)]
pub enum Step {
    Up(u16),
    Down(u16),
    Receive(u16, u16, u16),
    Take(u16),
    Import(u16, usize),
    Export(u16, usize),
    Show(u16),
}

/// The events that are answered once, and those that are answered again and again.
pub struct Input {
    size: u16,
    me: u16,
    filters: Vec<Arc<Code>>,
    once: usize,
    steps: Vec<Step>,
}

impl Input {
    /// The events of standard input.
    pub fn read() -> Result<Input, StreamFault> {
        let mut input = Input { size: 0, me: 0, filters: Vec::new(), once: 0, steps: Vec::new() };
        answer_lines(&mut io::stdin().lock(), &mut io::sink(), &mut input)?;
        Ok(input)
    }

    /// The router that they are for.
    pub fn router(&self) -> Router {
        Router::new(self.me, (0..self.size).map(default_prefix).collect())
    }

    /// The events of the beginning, and those of a round.
    pub fn steps(&self) -> (&[Step], &[Step]) {
        self.steps.split_at(self.once)
    }

    fn take(&mut self, line: &[u8]) -> Option<()> {
        let line = std::str::from_utf8(line).ok()?;
        let words: Vec<&str> = line.split_ascii_whitespace().collect();
        let number = |at: usize| words.get(at)?.parse::<u16>().ok();
        let step = match *words.first()? {
            "network" => {
                (self.size, self.me) = (number(1)?, number(2)?);
                return Some(());
            }
            "begin" => {
                self.once = self.steps.len();
                return Some(());
            }
            "filter" => {
                self.filters.push(Arc::new(read_code(&decode_hexadecimal(words.get(1)?.as_bytes())?).ok()?));
                return Some(());
            }
            "up" => Step::Up(number(1)?),
            "down" => Step::Down(number(1)?),
            "recv" => Step::Receive(number(1)?, number(2)?, number(3)?),
            "take" => Step::Take(number(1)?),
            "import" => Step::Import(number(1)?, usize::from(number(2)?)),
            "export" => Step::Export(number(1)?, usize::from(number(2)?)),
            "show" => Step::Show(number(1)?),
            _ => return None,
        };
        self.steps.push(step);
        Some(())
    }

    /// The event of a step, under the sessions that are present.
    pub fn event(&self, router: &Router, step: Step) -> Event {
        match step {
            Step::Up(node) => Event::Up(node),
            Step::Down(node) => Event::Down(router.session(node)),
            Step::Receive(node, dest, dist) => Event::Receive(router.session(node), dest, dist),
            Step::Take(node) => Event::Take(router.session(node), 65_535),
            Step::Import(node, filter) => Event::Import(node, Arc::clone(&self.filters[filter])),
            Step::Export(node, filter) => Event::Export(node, Arc::clone(&self.filters[filter])),
            Step::Show(node) => Event::Show(node),
        }
    }
}

impl Service for Input {
    fn answer(&mut self, _number: u32, line: &[u8], _out: &mut Vec<u8>) -> LineReply {
        match self.take(line) {
            Some(()) => LineReply::Answered,
            None => LineReply::Ended,
        }
    }

    fn finish(&mut self, _out: &mut Vec<u8>) -> LineReply {
        LineReply::Answered
    }
}

/// What all replies said.
#[derive(Default)]
pub struct Sums {
    pub events: u64,
    pub refused: u64,
    pub changed: u64,
    pub messages: u64,
    pub distances: u64,
}

impl Sums {
    pub fn add(&mut self, reply: &Reply) {
        self.events += 1;
        match reply {
            Reply::Opened(_) => {}
            Reply::Done(changed) => self.changed += u64::from(*changed),
            Reply::Messages(messages) => {
                self.messages += messages.len() as u64;
                self.distances += messages.iter().map(|message| u64::from(message.dist)).sum::<u64>();
            }
            Reply::Route(dist, _) => self.distances += u64::from(*dist),
            Reply::Refused(_) => self.refused += 1,
        }
    }
}

/// Has a router answer the events of standard input.
pub fn measured(rounds: u32) -> Result<Sums, StreamFault> {
    let input = Input::read()?;
    let (first, round) = input.steps();
    let mut router = input.router();
    let mut sums = Sums::default();
    let mut answer = |step: &Step| sums.add(&router.apply(&input.event(&router, *step)));
    first.iter().for_each(&mut answer);
    for _ in 0..rounds {
        round.iter().for_each(&mut answer);
    }
    Ok(sums)
}
