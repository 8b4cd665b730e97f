//! The plain program that `ncroute` is compared with: the same work, without proofs.
//!
//! `eval`: standard input is a code file in hexadecimal on the first line that is not skipped, and then lines
//! `NET METRIC SIZE`. Each gives one line: `accept D`, `reject`, `fault K AT` or `refused CODE LINE`.
//!
//! `run`: standard input is an operator's script; see `script.rs`.
//!
//! `check --size N`: standard input is a filter's text; see `check.rs`.
//!
//! `domain`: it is the script of a domain; see `domain.rs`.

mod callers;
mod check;
mod code;
mod domain;
mod events;
mod int_sets;
mod lexer;
mod lines;
mod machine;
mod parser;
mod patterns;
mod rounds;
mod route;
mod router;
mod script;
mod verifier;

use std::io;
use std::process::ExitCode;

use code::{decode_hexadecimal, read_code, Code};
use domain::Domain;
use lines::{
    answer_lines, push_decimal, push_refusal, trim_blanks, words, LineReply, Service, StreamFault, LINE_LIMIT,
};
use machine::{run, Memory, Outcome};
use rounds::{measured, Sums};
use route::{read_prefix, read_route};
use script::Script;

/// Answers route lines with the code of the file line, once that was read.
struct Eval {
    code: Option<Code>,
    memory: Memory,
}

/// The code of the file line, or the code and the place of its refusal.
fn read_file_line(number: u32, line: &[u8]) -> Result<Code, (&'static str, u32)> {
    if line.len() > LINE_LIMIT {
        return Err(("O7", number));
    }
    let bytes = decode_hexadecimal(trim_blanks(line)).ok_or(("O3", number))?;
    read_code(&bytes).map_err(|fault| (fault.code, fault.at as u32))
}

/// Why a line that spells no route is refused: its length first, the number of words, then the words from the left.
fn refusal(line: &[u8]) -> &'static str {
    if line.len() > LINE_LIMIT {
        return "O7";
    }
    match words(line) {
        None => "O1",
        Some([net, _, _]) if read_prefix(net).is_none() => "O8",
        Some(_) => "O2",
    }
}

fn push_outcome(out: &mut Vec<u8>, outcome: Outcome) {
    match outcome {
        Outcome::Accepted(metric) => return push_accept(out, metric),
        Outcome::Rejected => return out.extend_from_slice(b"reject\n"),
        Outcome::Faulted(kind, place) => {
            out.extend_from_slice(b"fault ");
            out.extend_from_slice(kind.code().as_bytes());
            out.push(b' ');
            push_decimal(out, place as u32);
        }
    }
    out.push(b'\n');
}

fn push_accept(out: &mut Vec<u8>, metric: u32) {
    // Most metrics have one or two digits: the line is put there at once.
    let (ten, one) = (b'0' + (metric / 10 % 10) as u8, b'0' + (metric % 10) as u8);
    match metric {
        0..=9 => out.extend_from_slice(&[b'a', b'c', b'c', b'e', b'p', b't', b' ', one, b'\n']),
        10..=99 => out.extend_from_slice(&[b'a', b'c', b'c', b'e', b'p', b't', b' ', ten, one, b'\n']),
        _ => {
            out.extend_from_slice(b"accept ");
            push_decimal(out, metric);
            out.push(b'\n');
        }
    }
}

impl Service for Eval {
    fn answer(&mut self, number: u32, line: &[u8], out: &mut Vec<u8>) -> LineReply {
        let Some(code) = &self.code else {
            return match read_file_line(number, line) {
                Ok(code) => {
                    self.code = Some(code);
                    LineReply::Answered
                }
                Err((code, at)) => {
                    push_refusal(out, code, at);
                    LineReply::Ended
                }
            };
        };
        match read_route(line) {
            Some(route) if line.len() <= LINE_LIMIT => {
                push_outcome(out, run(&mut self.memory, code, &route));
                LineReply::Answered
            }
            _ => {
                push_refusal(out, refusal(line), number);
                LineReply::Refused
            }
        }
    }

    fn finish(&mut self, out: &mut Vec<u8>) -> LineReply {
        if self.code.is_some() {
            return LineReply::Answered;
        }
        push_refusal(out, "O1", 0);
        LineReply::Refused
    }
}

/// Answers standard input. Whether no line was refused.
fn eval() -> Result<bool, StreamFault> {
    let mut eval = Eval { code: None, memory: Memory::new() };
    Ok(answer_lines(&mut io::stdin().lock(), &mut io::stdout().lock(), &mut eval)? == 0)
}

/// Answers the script of standard input. Whether no line was refused.
fn run_script() -> Result<bool, StreamFault> {
    Ok(answer_lines(&mut io::stdin().lock(), &mut io::stdout().lock(), &mut Script::new())? == 0)
}

/// Answers the script of a domain on standard input. Whether no line was refused.
fn run_domain() -> Result<bool, StreamFault> {
    Ok(answer_lines(&mut io::stdin().lock(), &mut io::stdout().lock(), &mut Domain::new())? == 0)
}

/// Takes routes through the machine again and again, and prints what it said.
fn measure(rounds: u32) -> Result<bool, StreamFault> {
    let Sums { accepted, rejected, metrics } = measured(rounds)?;
    println!("accepted {accepted} rejected {rejected} metrics {metrics}");
    Ok(true)
}

/// Has a router answer events again and again, and prints what it said.
fn measure_router(rounds: u32) -> Result<bool, StreamFault> {
    print_sums(events::measured(rounds)?);
    Ok(true)
}

/// The same with callers in threads of their own.
fn measure_callers(callers: u32, rounds: u32) -> Result<bool, StreamFault> {
    let sums = callers::measured(callers, rounds)?;
    let is_good = sums.is_some();
    sums.map(print_sums);
    Ok(is_good)
}

fn print_sums(sums: events::Sums) {
    let events::Sums { events, refused, changed, messages, distances } = sums;
    println!("events {events} refused {refused} changed {changed} messages {messages} distances {distances}");
}

fn main() -> ExitCode {
    let words: Vec<String> = std::env::args().skip(1).collect();
    let words: Vec<&str> = words.iter().map(String::as_str).collect();
    let done = match words[..] {
        ["eval"] => eval(),
        ["run"] => run_script(),
        ["check", "--size", number] => match number.parse() {
            Ok(size) => check::check(&mut io::stdin().lock(), &mut io::stdout().lock(), size),
            Err(_) => return usage(),
        },
        ["domain"] => run_domain(),
        ["rounds", number] => match number.parse() {
            Ok(rounds) => measure(rounds),
            Err(_) => return usage(),
        },
        ["router", number] => match number.parse() {
            Ok(rounds) => measure_router(rounds),
            Err(_) => return usage(),
        },
        ["callers", callers, number] => match (callers.parse(), number.parse()) {
            (Ok(callers), Ok(rounds)) => measure_callers(callers, rounds),
            _ => return usage(),
        },
        _ => return usage(),
    };
    match done {
        Ok(true) => ExitCode::SUCCESS,
        Ok(false) => ExitCode::FAILURE,
        Err(fault) => {
            eprintln!("baseline: {}", fault.code());
            ExitCode::FAILURE
        }
    }
}

fn usage() -> ExitCode {
    eprintln!(
        "usage: baseline eval | run | domain | check --size NUMBER | rounds NUMBER | router NUMBER | callers NUMBER NUMBER"
    );
    ExitCode::from(2)
}
