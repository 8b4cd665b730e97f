//! `rounds N`: takes routes through a code again and again, so that the time of the machine alone can be measured.

use std::io;

use crate::code::Code;
use crate::lines::{answer_lines, LineReply, Service, StreamFault};
use crate::machine::{run, Memory, Outcome};
use crate::read_file_line;
use crate::route::{read_route, Route};

/// The number of nodes of the network whose routes are taken. Lines that are no such routes are left out.
const SIZE: u32 = 64;

/// What was read: the code of the first line, and the routes behind it.
struct Input {
    code: Option<Code>,
    routes: Vec<Route>,
}

impl Service for Input {
    fn answer(&mut self, number: u32, line: &[u8], _out: &mut Vec<u8>) -> LineReply {
        if self.code.is_none() {
            self.code = read_file_line(number, line).ok();
            return if self.code.is_some() { LineReply::Answered } else { LineReply::Ended };
        }
        self.routes.extend(read_route(line).filter(|route| route.size == SIZE));
        LineReply::Answered
    }

    fn finish(&mut self, _out: &mut Vec<u8>) -> LineReply {
        LineReply::Answered
    }
}

/// What all runs said.
#[derive(Default)]
pub struct Sums {
    pub accepted: u64,
    pub rejected: u64,
    pub metrics: u64,
}

impl Sums {
    fn add(&mut self, outcome: Outcome) {
        match outcome {
            Outcome::Accepted(metric) => {
                self.accepted += 1;
                self.metrics += u64::from(metric);
            }
            _ => self.rejected += 1,
        }
    }
}

/// Takes the routes of standard input through its code.
pub fn measured(rounds: u32) -> Result<Sums, StreamFault> {
    let mut input = Input { code: None, routes: Vec::new() };
    answer_lines(&mut io::stdin().lock(), &mut io::sink(), &mut input)?;
    let mut sums = Sums::default();
    let Some(code) = input.code else { return Ok(sums) };
    let mut memory = Memory::new();
    for _ in 0..rounds {
        for route in &input.routes {
            sums.add(run(&mut memory, &code, route));
        }
    }
    Ok(sums)
}
