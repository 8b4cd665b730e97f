//! `domain`: the routes of a whole domain at rest, as `ncroute domain` computes them, without proofs. Of its commands there are `domain`,
//! `code`, `link`, `import`, `export`, `table`, `failures` and `failures nodes`; another is unknown. There is no verifier: `code` takes any code
//! file.

use std::collections::HashMap;
use std::sync::Arc;

use crate::code::{decode_hexadecimal, read_code, Code};
use crate::lines::{push_decimal, push_refusal, words, LineReply, Service};
use crate::machine::Memory;
use crate::route::{default_prefix, Prefix};
use crate::router::filtered_distance;
use crate::script::{cost_and_peak, name, number};

/// What a node has for a neighbour.
#[derive(Clone)]
struct Link {
    node: u8,
    linked: bool,
    imports: Option<Arc<Code>>,
    exports: Option<Arc<Code>>,
}

#[derive(Clone, Copy, PartialEq)]
struct Best {
    dist: u8,
    via: u8,
}

/// The nodes of a domain and, for each, those it has a link with or a filter for.
struct Plan {
    prefixes: Vec<Prefix>,
    links: Vec<Vec<Link>>,
}

impl Plan {
    fn new(size: u16) -> Plan {
        Plan { prefixes: (0..size).map(default_prefix).collect(), links: vec![Vec::new(); size.into()] }
    }

    /// The number of nodes, at most 250.
    fn size(&self) -> u8 {
        self.links.len() as u8
    }

    /// What the first node has for the second.
    fn link_mut(&mut self, from: u16, to: u16) -> &mut Link {
        let links = &mut self.links[usize::from(from)];
        let at = links.iter().position(|link| u16::from(link.node) == to).unwrap_or_else(|| {
            links.push(Link { node: to as u8, linked: false, imports: None, exports: None });
            links.len() - 1
        });
        &mut links[at]
    }

    /// The routes to a node: in Dijkstra's order, as no filter makes a distance less. The lowest of several next hops is taken.
    fn routes_to(&self, memory: &mut Memory, dest: u8) -> Vec<Best> {
        let size = self.size();
        let mut best = vec![Best { dist: size, via: size }; usize::from(size)];
        best[usize::from(dest)].dist = 0;
        self.spread(memory, dest, &mut best, vec![false; usize::from(size)]);
        best
    }

    /// Adds what a node is offered by a neighbour that has a distance.
    fn offer(&self, memory: &mut Memory, dest: u8, dist: u8, from: usize, link: &Link, best: &mut [Best]) {
        let (size, net, to) = (self.size(), self.prefixes[usize::from(dest)], usize::from(link.node));
        let told = filtered_distance(memory, link.exports.as_deref(), size, net, dist);
        let imports = self.links[to].iter().find(|back| usize::from(back.node) == from);
        let filtered = filtered_distance(memory, imports.and_then(|back| back.imports.as_deref()), size, net, told);
        let offered = Best { dist: filtered + 1, via: from as u8 };
        let old = best[to];
        if offered.dist < size && to != usize::from(dest) && (offered.dist, offered.via) < (old.dist, old.via) {
            best[to] = offered;
        }
    }

    /// Takes the nodes that are not done, the nearest first, and has each offer its distance to its neighbours that are not done.
    fn spread(&self, memory: &mut Memory, dest: u8, best: &mut [Best], mut done: Vec<bool>) {
        while let Some(from) = (0..best.len()).filter(|&node| !done[node]).min_by_key(|&node| best[node].dist) {
            done[from] = true;
            let dist = best[from].dist;
            for link in self.links[from].iter().filter(|link| link.linked && !done[usize::from(link.node)]) {
                self.offer(memory, dest, dist, from, link, best);
            }
        }
    }

    /// The routes to a node where links are cut: those that led over one are found again, and the others are what they were.
    fn routes_again(&self, memory: &mut Memory, dest: u8, old: &[Best], cut: &[(u8, u8)]) -> Vec<Best> {
        let size = self.size();
        let mut nearest: Vec<usize> = (0..old.len()).collect();
        nearest.sort_by_key(|&node| old[node].dist);
        let mut best = old.to_vec();
        let mut done = vec![true; old.len()];
        for &u in nearest.iter().filter(|&&u| old[u].via < size) {
            let via = old[u].via;
            let over = |&(one, other): &(u8, u8)| (u, via) == (one.into(), other) || (u, via) == (other.into(), one);
            if !done[usize::from(via)] || cut.iter().any(over) {
                best[u] = Best { dist: size, via: size };
                done[u] = false;
            }
        }
        for from in (0..old.len()).filter(|&from| done[from] && old[from].dist < size) {
            for link in self.links[from].iter().filter(|link| link.linked && !done[usize::from(link.node)]) {
                self.offer(memory, dest, old[from].dist, from, link, &mut best);
            }
        }
        self.spread(memory, dest, &mut best, done);
        best
    }

    /// Cuts the link between two nodes, or links them again.
    fn set_linked(&mut self, u: u8, w: u8, linked: bool) {
        self.link_mut(u.into(), w.into()).linked = linked;
        self.link_mut(w.into(), u.into()).linked = linked;
    }

    /// The neighbours of a node.
    fn neighbours(&self, u: u8) -> Vec<u8> {
        self.links[usize::from(u)].iter().filter(|link| link.linked).map(|link| link.node).collect()
    }

    /// What a failure changes, of the routes to each node to which one led over a link that is cut.
    fn failure(&mut self, memory: &mut Memory, before: &[Vec<Best>], cut: &[(u8, u8)], failed: Option<u8>) -> Failure {
        for &(u, w) in cut {
            self.set_linked(u, w, false);
        }
        let size = self.size();
        let mut found = Failure { changed: 0, lost: 0, moved: 0, farthest: 0, still: size };
        for (v, old) in before.iter().enumerate() {
            let is_felt = cut.iter().any(|&(u, w)| old[usize::from(u)].via == w || old[usize::from(w)].via == u);
            let again = if is_felt { Some(self.routes_again(memory, v as u8, old, cut)) } else { None };
            let new = again.as_ref().unwrap_or(old);
            found.farthest = new.iter().map(|best| best.dist).max().unwrap_or(0).max(found.farthest);
            if !is_felt || failed == Some(v as u8) {
                continue;
            }
            let mut still = size;
            for (u, (old, new)) in old.iter().zip(new).enumerate() {
                if failed == Some(u as u8) || old == new {
                    continue;
                }
                found.changed += 1;
                found.lost += u32::from(old.dist < size && new.dist == size);
                if old.dist != new.dist {
                    still = still.min(old.dist.min(new.dist));
                }
            }
            found.moved += u32::from(still < size);
            found.still = found.still.min(still);
        }
        for &(u, w) in cut {
            self.set_linked(u, w, true);
        }
        found
    }
}

/// What a failure changes of all routes, the greatest distance after it, and the bound below which no distance is another.
struct Failure {
    changed: u32,
    lost: u32,
    moved: u32,
    farthest: u8,
    still: u8,
}

impl Failure {
    fn push(&self, size: u8, out: &mut Vec<u8>) {
        let rounds = if self.farthest < size { self.farthest + 1 } else { size };
        let numbers = [self.changed, self.lost, self.moved, rounds.into(), self.still.into()];
        for (word, number) in [" changed ", " lost ", " moved ", " rounds ", " still "].iter().zip(numbers) {
            out.extend_from_slice(word.as_bytes());
            push_decimal(out, number.into());
        }
    }
}

fn push_number(out: &mut Vec<u8>, before: u8, number: u16) {
    out.push(before);
    push_decimal(out, number.into());
}

/// All routes of a plan, by destination, which are computed where they are not there.
fn routes_of<'a>(plan: &Plan, memory: &mut Memory, routes: &'a mut Option<Vec<Vec<Best>>>) -> &'a [Vec<Best>] {
    routes.get_or_insert_with(|| (0..plan.size()).map(|v| plan.routes_to(memory, v)).collect())
}

/// The script of a domain between two lines.
pub struct Domain {
    plan: Option<Plan>,
    filters: HashMap<Vec<u8>, Arc<Code>>,
    memory: Memory,
    /// By destination, where they were computed since the last change.
    routes: Option<Vec<Vec<Best>>>,
}

impl Domain {
    pub fn new() -> Domain {
        Domain { plan: None, filters: HashMap::new(), memory: Memory::new(), routes: None }
    }

    fn pair(&self, u: u16, w: u16) -> Result<(), &'static str> {
        let size = self.plan.as_ref().ok_or("O4")?.size().into();
        if u < size && w < size && u != w {
            Ok(())
        } else {
            Err("D1")
        }
    }

    /// What the first node has for the second, which is about to change.
    fn changed(&mut self, u: u16, w: u16) -> Result<&mut Link, &'static str> {
        self.pair(u, w)?;
        self.routes = None;
        Ok(self.plan.as_mut().ok_or("O4")?.link_mut(u, w))
    }

    fn link(&mut self, u: u16, w: u16) -> Result<(), &'static str> {
        if std::mem::replace(&mut self.changed(u, w)?.linked, true) {
            return Err("D2");
        }
        self.changed(w, u)?.linked = true;
        Ok(())
    }

    fn filter(&self, name: &[u8]) -> Result<Arc<Code>, &'static str> {
        self.filters.get(name).map(Arc::clone).ok_or("O6")
    }

    fn table(&mut self, u: u16, out: &mut Vec<u8>) -> Result<(), &'static str> {
        let plan = self.plan.as_ref().ok_or("O4")?;
        if u >= plan.size().into() {
            return Err("D1");
        }
        let routes = routes_of(plan, &mut self.memory, &mut self.routes);
        out.extend_from_slice(b"table");
        for (v, to) in routes.iter().enumerate() {
            let Best { dist, via } = to[usize::from(u)];
            push_number(out, b' ', v as u16);
            push_number(out, b':', dist.into());
            if via != plan.size() {
                push_number(out, b':', via.into());
            }
        }
        Ok(())
    }

    fn failures(&mut self, out: &mut Vec<u8>) -> Result<(), &'static str> {
        let plan = self.plan.as_mut().ok_or("O4")?;
        let before = routes_of(plan, &mut self.memory, &mut self.routes);
        let size = plan.size();
        let links: Vec<(u8, u8)> =
            (0..size).flat_map(|u| (u + 1..size).map(move |w| (u, w))).filter(|&(u, w)| plan.neighbours(u).contains(&w)).collect();
        out.extend_from_slice(b"failures ");
        push_decimal(out, links.len() as u32);
        for (u, w) in links {
            let found = plan.failure(&mut self.memory, before, &[(u, w)], None);
            out.extend_from_slice(b"\nlink");
            push_number(out, b' ', u.into());
            push_number(out, b' ', w.into());
            found.push(size, out);
        }
        Ok(())
    }

    fn node_failures(&mut self, out: &mut Vec<u8>) -> Result<(), &'static str> {
        let plan = self.plan.as_mut().ok_or("O4")?;
        let before = routes_of(plan, &mut self.memory, &mut self.routes);
        let size = plan.size();
        out.extend_from_slice(b"failures ");
        push_decimal(out, size.into());
        for x in 0..size {
            let cut: Vec<(u8, u8)> = plan.neighbours(x).into_iter().map(|w| (x, w)).collect();
            let found = plan.failure(&mut self.memory, before, &cut, Some(x));
            out.extend_from_slice(b"\nnode");
            push_number(out, b' ', x.into());
            found.push(size, out);
        }
        Ok(())
    }

    fn code(&mut self, number: u32, filter: &[u8], file: &[u8], out: &mut Vec<u8>) -> Result<(), (&'static str, u32)> {
        let code = read_code(file).map_err(|fault| (fault.code, fault.at as u32))?;
        if self.plan.is_none() {
            return Err(("O4", number));
        }
        let (cost, peak) = cost_and_peak(&code.instructions);
        self.filters.insert(filter.to_vec(), Arc::new(code));
        out.extend_from_slice(b"verified ");
        push_decimal(out, cost);
        out.push(b' ');
        push_decimal(out, peak);
        Ok(())
    }

    fn set_up(&mut self, size: u16) -> Result<(), &'static str> {
        if !(2..=250).contains(&size) {
            return Err("O2");
        }
        if self.plan.is_some() {
            return Err("O5");
        }
        self.plan = Some(Plan::new(size));
        Ok(())
    }

    fn execute(&mut self, line_number: u32, line: &[u8], out: &mut Vec<u8>) -> Result<(), (&'static str, u32)> {
        let at_line = |code| (code, line_number);
        let verb = line
            .split(|byte| *byte == b' ' || *byte == b'\t')
            .find(|word| !word.is_empty())
            .ok_or(("O1", line_number))?;
        let two = || -> Result<(u16, u16), &'static str> {
            let [_, u, w] = words(line).ok_or("O1")?;
            Ok((number(u)?, number(w)?))
        };
        let used = || -> Result<(u16, u16, &[u8]), &'static str> {
            let [_, u, w, filter] = words(line).ok_or("O1")?;
            let filter = name(filter)?;
            Ok((number(u)?, number(w)?, filter))
        };
        let one = || -> Result<u16, &'static str> {
            let [_, node] = words(line).ok_or("O1")?;
            number(node)
        };
        match verb {
            b"table" => return one().and_then(|u| self.table(u, out)).map_err(at_line),
            b"failures" => {
                return match words(line) {
                    Some([_]) => self.failures(out),
                    _ => match words(line) {
                        Some([_, b"nodes"]) => self.node_failures(out),
                        _ => Err("O1"),
                    },
                }
                .map_err(at_line);
            }
            b"code" => {
                let [_, filter, file] = words(line).ok_or(("O1", line_number))?;
                let filter = name(filter).map_err(at_line)?;
                let file = decode_hexadecimal(file).ok_or(("O3", line_number))?;
                return self.code(line_number, filter, &file, out);
            }
            b"link" => two().and_then(|(u, w)| self.link(u, w)),
            b"import" => used().and_then(|(u, w, filter)| {
                let filter = self.filter(filter)?;
                self.changed(u, w)?.imports = Some(filter);
                Ok(())
            }),
            b"export" => used().and_then(|(u, w, filter)| {
                let filter = self.filter(filter)?;
                self.changed(u, w)?.exports = Some(filter);
                Ok(())
            }),
            b"domain" => one().and_then(|size| self.set_up(size)),
            _ => Err("O1"),
        }
        .map_err(at_line)?;
        out.extend_from_slice(b"ok");
        Ok(())
    }
}

impl Service for Domain {
    fn answer(&mut self, number: u32, line: &[u8], out: &mut Vec<u8>) -> LineReply {
        let from = out.len();
        match self.execute(number, line, out) {
            Ok(()) => {
                out.push(b'\n');
                LineReply::Answered
            }
            Err((code, at)) => {
                out.truncate(from);
                push_refusal(out, code, at);
                LineReply::Refused
            }
        }
    }

    fn finish(&mut self, _out: &mut Vec<u8>) -> LineReply {
        LineReply::Answered
    }
}
