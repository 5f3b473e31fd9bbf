//! A job in document 01's form: checks 2 to 7, written from the document alone.

use std::collections::HashSet;

#[derive(Clone, Copy, PartialEq, Eq, Debug)]
pub enum Style {
    Ansi,
    NonAnsi,
    Empty,
}

#[derive(Clone, Copy, PartialEq, Eq, Debug)]
pub enum Dir {
    In,
    Out,
    Inout,
    Ref,
}

#[derive(Clone, Copy, PartialEq, Eq, Debug)]
pub enum Kind {
    Net,
    Data,
    Odd,
    Port(Dir),
}

/// A NET of `None` is `-`: not a plain identifier.
#[derive(Clone, PartialEq, Eq, Debug)]
pub enum Conn {
    Star,
    Implicit(String),
    Named(String, Option<String>),
    Pos(Option<String>),
}

#[derive(Clone, Debug)]
pub struct Decl {
    pub kind: Kind,
    pub dims: bool,
    pub name: String,
}

#[derive(Clone, Debug)]
pub struct Inst {
    pub dims: bool,
    pub name: String,
    pub module: String,
    pub conns: Vec<Conn>,
}

#[derive(Clone, Debug)]
pub struct Module {
    pub name: String,
    pub style: Style,
    /// A direction of `None` is the job's `none`.
    pub ports: Vec<(Option<Dir>, String)>,
    pub decls: Vec<Decl>,
    pub insts: Vec<Inst>,
}

#[derive(Clone, Debug)]
pub struct Job {
    pub top: String,
    pub over: String,
    pub start: String,
    /// Path and text.
    pub files: Vec<(String, String)>,
    pub modules: Vec<Module>,
}

/// A refusal's number and place.
pub type Fault = (u32, u32);

pub const MAX_JOB: usize = 65_536;
const MAX_FILES: usize = 32;
const MAX_MODULES: usize = 128;
const MAX_PORTS: usize = 64;
const MAX_DECLS: usize = 128;
const MAX_INSTS: usize = 64;
const MAX_CONNS: usize = 64;

/// Checks 2 to 7.
pub fn parse(bytes: &[u8]) -> Result<Job, Fault> {
    if bytes.len() > MAX_JOB {
        return Err((2, 0));
    }
    if !bytes.is_ascii() {
        return Err((3, 0));
    }
    let text = std::str::from_utf8(bytes).map_err(|_| (3, 0))?;
    let job = lines(text)?;
    let listed = job.files.iter().any(|f| f.0 == job.start) && job.modules.iter().any(|m| m.name == job.top);
    if listed {
        Ok(job)
    } else {
        Err((7, 0))
    }
}

/// The place in the job: what is left, and the number of the line at hand.
struct Place<'a> {
    rest: &'a str,
    line: u32,
}

impl<'a> Place<'a> {
    fn fault<T>(&self, number: u32) -> Result<T, Fault> {
        Err((number, self.line))
    }

    /// The line at hand; a missing line, or one without LF, is a fault of it.
    fn here(&self) -> Result<&'a str, Fault> {
        match self.rest.split_once('\n') {
            Some((line, _)) => Ok(line),
            None => self.fault(4),
        }
    }

    fn has(&self, key: &str) -> Result<bool, Fault> {
        Ok(self.here()?.starts_with(key))
    }

    /// The value of the line at hand, which must have this key.
    fn value(&self, key: &str) -> Result<&'a str, Fault> {
        self.here()?.strip_prefix(key).ok_or((4, self.line))
    }

    /// Form, limit and newness of the line at hand, in this order; then on.
    fn pass(&mut self, form: bool, limit: bool, new: bool) -> Result<(), Fault> {
        for (holds, number) in [(form, 4), (limit, 5), (new, 6)] {
            if !holds {
                return self.fault(number);
            }
        }
        self.rest = &self.rest[self.here()?.len() + 1..];
        self.line += 1;
        Ok(())
    }
}

fn lines(text: &str) -> Result<Job, Fault> {
    let mut at = Place { rest: text, line: 1 };
    let top = at.value("top=")?;
    at.pass(is_name(top), true, true)?;
    let over = at.value("override=")?;
    at.pass(true, true, true)?;
    let start = at.value("start=")?;
    at.pass(is_path(start), true, true)?;
    let files = files(&mut at)?;
    let modules = modules(&mut at)?;
    at.value("end=").and_then(|v| at.pass(v.is_empty(), true, true))?;
    if !at.rest.is_empty() {
        return at.fault(4);
    }
    Ok(Job { top: top.into(), over: over.into(), start: start.into(), files, modules })
}

/// One or more files.
fn files(at: &mut Place) -> Result<Vec<(String, String)>, Fault> {
    let mut all: Vec<(String, String)> = Vec::new();
    while all.is_empty() || at.has("file=")? {
        let path = at.value("file=")?;
        let new = all.iter().all(|f| f.0 != path);
        at.pass(is_path(path), all.len() < MAX_FILES, new)?;
        all.push((path.into(), body(at)?));
    }
    Ok(all)
}

/// A `bytes=` line and its body. A body that runs past the job, or lacks its
/// LF, is a fault of that line, for any number of digits.
fn body(at: &mut Place) -> Result<String, Fault> {
    let digits = at.value("bytes=")?;
    let form = !digits.is_empty()
        && digits.bytes().all(|b| b.is_ascii_digit())
        && (digits == "0" || !digits.starts_with('0'));
    let size = digits.parse::<usize>().unwrap_or(usize::MAX);
    let after = &at.rest[at.here()?.len() + 1..];
    let whole = size < after.len() && after.as_bytes()[size] == b'\n';
    at.pass(form && whole, true, true)?;
    at.rest = &after[size + 1..];
    Ok(after[..size].into())
}

/// One or more modules.
fn modules(at: &mut Place) -> Result<Vec<Module>, Fault> {
    let mut all: Vec<Module> = Vec::new();
    let mut names: HashSet<String> = HashSet::new();
    while all.is_empty() || at.has("module=")? {
        let name = at.value("module=")?;
        at.pass(is_name(name), all.len() < MAX_MODULES, !names.contains(name))?;
        names.insert(name.into());
        let style = match at.value("style=")? {
            "ansi" => Style::Ansi,
            "nonansi" => Style::NonAnsi,
            "empty" => Style::Empty,
            _ => return at.fault(4),
        };
        at.pass(true, true, true)?;
        all.push(Module {
            name: name.into(),
            style,
            ports: ports(at, style)?,
            decls: decls(at)?,
            insts: insts(at)?,
        });
    }
    Ok(all)
}

fn ports(at: &mut Place, style: Style) -> Result<Vec<(Option<Dir>, String)>, Fault> {
    let mut all = Vec::new();
    while at.has("port=")? {
        let fields = fields(at.value("port=")?);
        let (dir, name) = match fields[..] {
            ["none", name] if style != Style::Empty => (None, name),
            [dir, name] if style == Style::Ansi => match direction(dir) {
                Some(d) => (Some(d), name),
                None => return at.fault(4),
            },
            _ => return at.fault(4),
        };
        at.pass(is_name(name), all.len() < MAX_PORTS, true)?;
        all.push((dir, name.into()));
    }
    Ok(all)
}

fn decls(at: &mut Place) -> Result<Vec<Decl>, Fault> {
    let mut all = Vec::new();
    while at.has("decl=")? {
        let fields = fields(at.value("decl=")?);
        let [kind, d, name] = fields[..] else {
            return at.fault(4);
        };
        let (Some(kind), Some(dims)) = (kind_of(kind), dims_of(d)) else {
            return at.fault(4);
        };
        at.pass(is_name(name), all.len() < MAX_DECLS, true)?;
        all.push(Decl { kind, dims, name: name.into() });
    }
    Ok(all)
}

fn insts(at: &mut Place) -> Result<Vec<Inst>, Fault> {
    let mut all: Vec<Inst> = Vec::new();
    while at.has("inst=")? {
        let fields = fields(at.value("inst=")?);
        let [d, name, module] = fields[..] else {
            return at.fault(4);
        };
        let Some(dims) = dims_of(d) else {
            return at.fault(4);
        };
        let new = all.iter().all(|i| i.name != name);
        let form = is_name(name) && is_name(module);
        at.pass(form, all.len() < MAX_INSTS, new)?;
        all.push(Inst { dims, name: name.into(), module: module.into(), conns: conns(at)? });
    }
    Ok(all)
}

fn conns(at: &mut Place) -> Result<Vec<Conn>, Fault> {
    let mut all = Vec::new();
    while at.has("conn=")? {
        let Some(conn) = conn(&fields(at.value("conn=")?)) else {
            return at.fault(4);
        };
        at.pass(true, all.len() < MAX_CONNS, true)?;
        all.push(conn);
    }
    Ok(all)
}

fn conn(fields: &[&str]) -> Option<Conn> {
    match *fields {
        ["star"] => Some(Conn::Star),
        ["implicit", port] if is_name(port) => Some(Conn::Implicit(port.into())),
        ["named", port, net] if is_name(port) => Some(Conn::Named(port.into(), net_of(net)?)),
        ["pos", net] => Some(Conn::Pos(net_of(net)?)),
        _ => None,
    }
}

fn net_of(net: &str) -> Option<Option<String>> {
    match net {
        "-" => Some(None),
        n if is_name(n) => Some(Some(n.into())),
        _ => None,
    }
}

fn fields(value: &str) -> Vec<&str> {
    value.split(' ').collect()
}

fn dims_of(d: &str) -> Option<bool> {
    match d {
        "0" => Some(false),
        "1" => Some(true),
        _ => None,
    }
}

fn direction(dir: &str) -> Option<Dir> {
    match dir {
        "in" => Some(Dir::In),
        "out" => Some(Dir::Out),
        "inout" => Some(Dir::Inout),
        "ref" => Some(Dir::Ref),
        _ => None,
    }
}

fn kind_of(kind: &str) -> Option<Kind> {
    match kind {
        "net" => Some(Kind::Net),
        "data" => Some(Kind::Data),
        "odd" => Some(Kind::Odd),
        _ => direction(kind).map(Kind::Port),
    }
}

/// 1 to 64 of letters, digits, `_`, `$`, not beginning with a digit or `$`.
pub fn is_name(name: &str) -> bool {
    let within = |b: u8| b.is_ascii_alphanumeric() || b == b'_' || b == b'$';
    let Some(&first) = name.as_bytes().first() else {
        return false;
    };
    name.len() <= 64 && name.bytes().all(within) && !first.is_ascii_digit() && first != b'$'
}

/// Parts joined by `/`, none empty, `.` or `..`.
pub fn is_path(path: &str) -> bool {
    path.split('/').all(|p| !matches!(p, "" | "." | ".."))
}
