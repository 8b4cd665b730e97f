//! `callers N ROUNDS`: the plain router with its history under one `Mutex`, called by N threads. Each thread enters the events of
//! the round so many times.

use std::sync::Mutex;
use std::thread;

use crate::events::{Input, Step, Sums};
use crate::lines::StreamFault;
use crate::router::{Event, Reply, Router};

/// A router with its history.
struct Journal<'a> {
    input: &'a Input,
    router: Router,
    entries: Vec<(Event, Reply)>,
    sums: Sums,
}

impl Journal<'_> {
    /// Answers an event and enters it: its position and the reply.
    fn apply(&mut self, step: Step) -> (u32, Reply) {
        let event = self.input.event(&self.router, step);
        let reply = self.router.apply(&event);
        self.sums.add(&reply);
        self.entries.push((event, reply.clone()));
        (self.entries.len() as u32 - 1, reply)
    }
}

/// One caller: whether each of its calls has a later position than the one before.
fn call(journal: &Mutex<Journal>, steps: &[Step], rounds: u32) -> bool {
    let (mut least, mut in_order) = (0, true);
    for _ in 0..rounds {
        for step in steps {
            let (at, _reply) = journal.lock().expect("no caller panics").apply(*step);
            in_order &= at >= least;
            least = at + 1;
        }
    }
    in_order
}

/// Has a router answer the events of standard input; what all replies said, unless the history is not whole or a caller's calls are out of order.
pub fn measured(callers: u32, rounds: u32) -> Result<Option<Sums>, StreamFault> {
    let input = Input::read()?;
    let (first, round) = input.steps();
    let mut journal = Journal { input: &input, router: input.router(), entries: Vec::new(), sums: Sums::default() };
    for step in first {
        journal.apply(*step);
    }
    let journal = Mutex::new(journal);
    let in_order = thread::scope(|scope| {
        let started: Vec<_> = (0..callers).map(|_| scope.spawn(|| call(&journal, round, rounds))).collect();
        started.into_iter().all(|caller| caller.join().unwrap_or(false))
    });
    let Journal { sums, entries, .. } = journal.into_inner().expect("no caller panics");
    let is_whole = entries.len() as u64 == sums.events;
    Ok((in_order && is_whole).then_some(sums))
}
