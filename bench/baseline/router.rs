//! The same router as the proved one, without proofs: tables of distances that are kept step by step, queues, sessions and filters.

use std::collections::VecDeque;
use std::sync::Arc;

use crate::code::Code;
use crate::machine::{run, Memory, Outcome};
use crate::route::{Prefix, Route};

/// What happens to a router.
pub enum Event {
    Up(u16),
    Down(u32),
    Receive(u32, u16, u16),
    Take(u32, u16),
    Import(u16, Arc<Code>),
    Export(u16, Arc<Code>),
    Show(u16),
}

#[derive(Clone, Copy, Debug, PartialEq, Eq)]
pub enum Via {
    Local,
    Node(u16),
    Nowhere,
}

#[derive(Clone, Copy)]
pub struct Message {
    pub dest: u8,
    pub dist: u8,
}

/// The answer to an event.
#[derive(Clone)]
pub enum Reply {
    Opened(u32),
    Done(u16),
    Messages(Box<[Message]>),
    Route(u16, Via),
    Refused(&'static str),
}

#[derive(Default)]
struct Neighbour {
    /// What it advertised last, by node; nothing before it was up first.
    advertised: Vec<u8>,
    imports: Option<Arc<Code>>,
    exports: Option<Arc<Code>>,
    queue: VecDeque<Message>,
}

#[derive(Clone, Copy, PartialEq, Eq)]
struct Best {
    dist: u8,
    /// The next hop, or the size of the domain where there is none or the node is the router's own.
    via: u8,
}

/// The distance that a filter makes of another.
#[inline(always)]
pub fn filtered_distance(memory: &mut Memory, filter: Option<&Code>, size: u8, net: Prefix, dist: u8) -> u8 {
    match filter {
        Some(filter) if dist != size => filtered(memory, filter, size, net, dist),
        _ => dist,
    }
}

fn filtered(memory: &mut Memory, filter: &Code, size: u8, net: Prefix, dist: u8) -> u8 {
    let route = Route { net, metric: u32::from(dist), size: u32::from(size) };
    match run(memory, filter, &route) {
        Outcome::Accepted(metric) => metric as u8,
        _ => size,
    }
}

/// A router of a domain of at most 250 nodes, so that a distance is a byte.
pub struct Router {
    size: u8,
    me: u8,
    prefixes: Vec<Prefix>,
    memory: Memory,
    /// By session, less 1: the node that it is with.
    nodes: Vec<u8>,
    /// By node: its present session, 0 where it is down.
    sessions: Vec<u32>,
    /// The nodes that are up, the least first.
    up: Vec<u8>,
    neighbours: Vec<Neighbour>,
    /// By node and then by neighbour: how far the node is from it, after the import filter.
    through: Vec<u8>,
    best: Vec<Best>,
}

impl Router {
    /// The router of node `me`, with one prefix a node.
    pub fn new(me: u16, prefixes: Vec<Prefix>) -> Router {
        let count = prefixes.len();
        let (size, me) = (count as u8, me as u8);
        let mut best = vec![Best { dist: size, via: size }; count];
        best[usize::from(me)].dist = 0;
        Router {
            size,
            me,
            prefixes,
            memory: Memory::new(),
            nodes: Vec::new(),
            sessions: vec![0; count],
            up: Vec::new(),
            neighbours: (0..count).map(|_| Neighbour::default()).collect(),
            through: vec![size; count * count],
            best,
        }
    }

    /// The place of a node that is another one of the domain.
    fn neighbour(&self, node: u16) -> Result<u8, &'static str> {
        if node < u16::from(self.size) && node != u16::from(self.me) {
            Ok(node as u8)
        } else {
            Err("N1")
        }
    }

    fn holder(&self, session: u32) -> Result<u8, &'static str> {
        match self.nodes.get((session as usize).wrapping_sub(1)) {
            Some(&node) if self.sessions[usize::from(node)] == session => Ok(node),
            _ => Err("N3"),
        }
    }

    /// The present session of a node, 0 where it is not up.
    pub fn session(&self, node: u16) -> u32 {
        self.sessions.get(usize::from(node)).map_or(0, |session| *session)
    }

    /// The nearest of the neighbours of a node that are up, the least number first.
    fn nearest(&self, node: u8) -> Best {
        let from = usize::from(node) * usize::from(self.size);
        let row = &self.through[from..from + usize::from(self.size)];
        let mut best = Best { dist: self.size, via: self.size };
        for &neighbour in &self.up {
            let dist = row[usize::from(neighbour)];
            if dist + 1 < best.dist {
                best = Best { dist: dist + 1, via: neighbour };
            }
        }
        best
    }

    /// Takes in how far a node is from a neighbour. Whether the router's own distance changed.
    #[inline(always)]
    fn put(&mut self, node: u8, neighbour: u8, dist: u8) -> bool {
        let old = self.best[usize::from(node)];
        self.through[usize::from(node) * usize::from(self.size) + usize::from(neighbour)] = dist;
        if node == self.me {
            return false;
        }
        let offered = dist + 1;
        let new = if old.via == neighbour && offered > old.dist {
            self.nearest(node)
        } else if offered < self.size && (offered < old.dist || (offered == old.dist && neighbour < old.via)) {
            Best { dist: offered, via: neighbour }
        } else {
            return false;
        };
        self.best[usize::from(node)] = new;
        if new.dist == old.dist {
            return false;
        }
        self.tell(node, new.dist);
        true
    }

    /// Queues a distance for every up neighbour.
    fn tell(&mut self, node: u8, dist: u8) {
        let Router { neighbours, memory, prefixes, size, up, .. } = self;
        for &neighbour in &*up {
            let Neighbour { exports, queue, .. } = &mut neighbours[usize::from(neighbour)];
            let dist = filtered_distance(memory, exports.as_deref(), *size, prefixes[usize::from(node)], dist);
            queue.push_back(Message { dest: node, dist });
        }
    }

    /// Queues all distances for one neighbour.
    fn tell_all(&mut self, node: u8) {
        let Router { neighbours, memory, prefixes, size, best, .. } = self;
        let Neighbour { exports, queue, .. } = &mut neighbours[usize::from(node)];
        queue.reserve(prefixes.len());
        for (dest, (best, prefix)) in best.iter().zip(prefixes).enumerate() {
            let dist = filtered_distance(memory, exports.as_deref(), *size, *prefix, best.dist);
            queue.push_back(Message { dest: dest as u8, dist });
        }
    }

    /// Takes in anew how far all nodes are from an up neighbour. How many distances changed.
    fn put_all(&mut self, neighbour: u8) -> u16 {
        let mut changed = 0;
        for node in 0..self.size {
            let Neighbour { advertised, imports, .. } = &self.neighbours[usize::from(neighbour)];
            let net = self.prefixes[usize::from(node)];
            let dist =
                filtered_distance(&mut self.memory, imports.as_deref(), self.size, net, advertised[usize::from(node)]);
            changed += u16::from(self.put(node, neighbour, dist));
        }
        changed
    }

    fn up(&mut self, node: u16) -> Result<Reply, &'static str> {
        let node = self.neighbour(node)?;
        if self.sessions[usize::from(node)] != 0 {
            return Err("N2");
        }
        let session = u32::try_from(self.nodes.len() + 1).map_err(|_| "N7")?;
        self.nodes.push(node);
        self.sessions[usize::from(node)] = session;
        self.up.insert(self.up.partition_point(|other| *other < node), node);
        let advertised = &mut self.neighbours[usize::from(node)].advertised;
        advertised.clear();
        advertised.resize(usize::from(self.size), self.size);
        self.tell_all(node);
        Ok(Reply::Opened(session))
    }

    fn down(&mut self, session: u32) -> Result<Reply, &'static str> {
        let node = self.holder(session)?;
        self.sessions[usize::from(node)] = 0;
        self.up.retain(|other| *other != node);
        self.neighbours[usize::from(node)].queue.clear();
        let mut changed = 0;
        for dest in 0..self.size {
            changed += u16::from(self.put(dest, node, self.size));
        }
        Ok(Reply::Done(changed))
    }

    fn receive(&mut self, session: u32, dest: u16, dist: u16) -> Result<Reply, &'static str> {
        let node = self.holder(session)?;
        if dest >= u16::from(self.size) {
            return Err("N4");
        }
        if dist > u16::from(self.size) {
            return Err("N5");
        }
        let (dest, dist) = (dest as u8, dist as u8);
        let neighbour = &mut self.neighbours[usize::from(node)];
        neighbour.advertised[usize::from(dest)] = dist;
        let net = self.prefixes[usize::from(dest)];
        let dist = filtered_distance(&mut self.memory, neighbour.imports.as_deref(), self.size, net, dist);
        Ok(Reply::Done(u16::from(self.put(dest, node, dist))))
    }

    fn take(&mut self, session: u32, most: u16) -> Result<Reply, &'static str> {
        let node = self.holder(session)?;
        let queue = &mut self.neighbours[usize::from(node)].queue;
        Ok(Reply::Messages(queue.drain(..usize::from(most).min(queue.len())).collect()))
    }

    fn import(&mut self, node: u16, filter: &Arc<Code>) -> Result<Reply, &'static str> {
        let node = self.neighbour(node)?;
        self.neighbours[usize::from(node)].imports = Some(Arc::clone(filter));
        let is_up = self.sessions[usize::from(node)] != 0;
        Ok(Reply::Done(if is_up { self.put_all(node) } else { 0 }))
    }

    fn export(&mut self, node: u16, filter: &Arc<Code>) -> Result<Reply, &'static str> {
        let node = self.neighbour(node)?;
        self.neighbours[usize::from(node)].exports = Some(Arc::clone(filter));
        if self.sessions[usize::from(node)] != 0 {
            self.tell_all(node);
        }
        Ok(Reply::Done(0))
    }

    fn show(&self, node: u16) -> Result<Reply, &'static str> {
        let best = self.best.get(usize::from(node)).ok_or("N4")?;
        let via = if node == u16::from(self.me) {
            Via::Local
        } else if best.via == self.size {
            Via::Nowhere
        } else {
            Via::Node(best.via.into())
        };
        Ok(Reply::Route(best.dist.into(), via))
    }

    /// Answers an event. A refused one changes nothing.
    pub fn apply(&mut self, event: &Event) -> Reply {
        let replied = match event {
            Event::Up(node) => self.up(*node),
            Event::Down(session) => self.down(*session),
            Event::Receive(session, dest, dist) => self.receive(*session, *dest, *dist),
            Event::Take(session, most) => self.take(*session, *most),
            Event::Import(node, filter) => self.import(*node, filter),
            Event::Export(node, filter) => self.export(*node, filter),
            Event::Show(node) => self.show(*node),
        };
        replied.unwrap_or_else(Reply::Refused)
    }
}
