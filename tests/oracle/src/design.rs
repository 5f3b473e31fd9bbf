//! Questions about the modules of a job, written from document 01 alone.

use std::collections::{HashMap, HashSet};

use crate::job::{Conn, Dir, Inst, Job, Kind, Module, Style};

/// Calls of the type search; instances on the way of a walk.
const CALLS: usize = 4_096;
const DEPTH: usize = 32;

pub struct Design<'a> {
    modules: HashMap<&'a str, &'a Module>,
}

impl<'a> Design<'a> {
    pub fn new(job: &'a Job) -> Design<'a> {
        Design { modules: job.modules.iter().map(|m| (m.name.as_str(), m)).collect() }
    }

    pub fn module(&self, name: &str) -> Option<&'a Module> {
        self.modules.get(name).copied()
    }

    /// The module at the end of a chain of instances; arrays are passed too.
    pub fn module_at(&self, from: &'a Module, path: &[&str]) -> Option<&'a Module> {
        path.iter().try_fold(from, |m, part| self.module(&instance(m, part)?.module))
    }

    /// The way to the first instance of a type, depth first; `Err` past the
    /// calls that are allowed, `None` where there is none.
    pub fn find_by_type(&self, top: &'a Module, target: &str) -> Result<Option<Vec<String>>, ()> {
        let mut calls = 0;
        let mut way = Vec::new();
        let found = self.search(top, target, 0, &mut calls, &mut way)?;
        Ok(found.then_some(way))
    }

    fn search(
        &self,
        m: &'a Module,
        target: &str,
        depth: usize,
        calls: &mut usize,
        way: &mut Vec<String>,
    ) -> Result<bool, ()> {
        *calls += 1;
        if *calls > CALLS {
            return Err(());
        }
        if depth > DEPTH {
            return Ok(false);
        }
        for i in &m.insts {
            way.push(i.name.clone());
            if i.module == target {
                return Ok(true);
            }
            if let Some(below) = self.module(&i.module) {
                if self.search(below, target, depth + 1, calls, way)? {
                    return Ok(true);
                }
            }
            way.pop();
        }
        Ok(false)
    }
}

pub fn instance<'a>(m: &'a Module, name: &str) -> Option<&'a Inst> {
    m.insts.iter().find(|i| i.name == name)
}

/// Header and body ports with their directions. In style ansi `none` takes
/// the last direction, before any it is an input; header names of style
/// nonansi are neither.
fn directed(m: &Module) -> (Vec<(Dir, &str)>, Vec<(Dir, &str)>) {
    let mut header = Vec::new();
    let mut last = Dir::In;
    if m.style == Style::Ansi {
        for (dir, name) in &m.ports {
            last = dir.unwrap_or(last);
            header.push((last, name.as_str()));
        }
    }
    let body = m.decls.iter().filter_map(|d| match d.kind {
        Kind::Port(dir) => Some((dir, d.name.as_str())),
        _ => None,
    });
    (header, body.collect())
}

/// Output ports in order: header names as often as they stand there, body
/// names that are new.
pub fn outputs(m: &Module) -> Vec<&str> {
    let (header, body) = directed(m);
    let out = |p: &&(Dir, &'_ str)| p.0 == Dir::Out;
    let mut all: Vec<&str> = header.iter().filter(out).map(|p| p.1).collect();
    for (_, name) in body.iter().filter(out) {
        if !all.contains(name) {
            all.push(name);
        }
    }
    all
}

/// The losable names: output ports, then `net` and `data` without dimensions,
/// none that is also a non-output port; each one time.
pub fn losable(m: &Module) -> Vec<&str> {
    let (header, body) = directed(m);
    let others: HashSet<&str> = header.iter().chain(&body).filter(|p| p.0 != Dir::Out).map(|p| p.1).collect();
    let plain = m
        .decls
        .iter()
        .filter(|d| !d.dims && matches!(d.kind, Kind::Net | Kind::Data))
        .map(|d| d.name.as_str());
    let mut seen = HashSet::new();
    let names = outputs(m).into_iter().chain(plain);
    names.filter(|n| !others.contains(n) && seen.insert(*n)).collect()
}

/// The net at an instance's port, where it is a plain one.
pub fn net_at(inst: &Inst, sub: &Module, port: &str) -> Option<String> {
    for (n, c) in inst.conns.iter().enumerate() {
        match c {
            Conn::Implicit(p) if p == port => return Some(port.into()),
            Conn::Named(p, net) if p == port => return net.clone(),
            Conn::Pos(net) if sub.ports.get(n).is_some_and(|p| p.1 == port) => return net.clone(),
            _ => {}
        }
    }
    inst.conns.contains(&Conn::Star).then(|| port.into())
}

/// Past one of the limits of a domain's walk.
pub struct TooMuch;

const ENTERED: usize = 4_096;
const PATHS: usize = 1_024;
const BYTES: usize = 32_768;

/// The walk of one domain: what it lists, with its limits counted.
pub struct Walk<'a> {
    pub design: &'a Design<'a>,
    pub retained: &'a HashSet<String>,
    pub paths: Vec<String>,
    known: HashSet<String>,
    pub entered: usize,
    bytes: usize,
}

impl<'a> Walk<'a> {
    pub fn new(design: &'a Design<'a>, retained: &'a HashSet<String>) -> Walk<'a> {
        Walk { design, retained, paths: Vec::new(), known: HashSet::new(), entered: 0, bytes: 0 }
    }

    /// Goes down from `m`, which stands at `path`.
    pub fn enter(&mut self, m: &'a Module, path: &str, depth: usize) -> Result<(), TooMuch> {
        if depth > DEPTH || self.retained.contains(path) {
            return Ok(());
        }
        self.entered += 1;
        if self.entered > ENTERED {
            return Err(TooMuch);
        }
        for name in losable(m) {
            self.list(below(path, name))?;
        }
        for i in m.insts.iter().filter(|i| !i.dims) {
            if let Some(sub) = self.design.module(&i.module) {
                self.enter(sub, &below(path, &i.name), depth + 1)?;
            }
        }
        Ok(())
    }

    fn list(&mut self, path: String) -> Result<(), TooMuch> {
        if !self.known.insert(path.clone()) {
            return Ok(());
        }
        self.bytes += path.len();
        self.paths.push(path);
        match self.paths.len() <= PATHS && self.bytes <= BYTES {
            true => Ok(()),
            false => Err(TooMuch),
        }
    }
}

fn below(path: &str, name: &str) -> String {
    match path {
        "" => name.into(),
        _ => format!("{path}.{name}"),
    }
}
