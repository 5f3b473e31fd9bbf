//! Module trees: styles, ports, declarations, instances and connections.

use super::Rng;

/// An instance line and its connection lines.
pub struct Inst {
    pub dim: usize,
    pub name: String,
    pub of: String,
    pub conns: Vec<String>,
}

/// A module of the job.
pub struct Module {
    pub name: String,
    pub style: &'static str,
    pub ports: Vec<(&'static str, String)>,
    pub decls: Vec<(&'static str, usize, String)>,
    pub insts: Vec<Inst>,
}

/// All modules of the job, and the top's name.
pub struct Design {
    pub top: String,
    pub mods: Vec<Module>,
}

/// How large a job may become.
#[derive(Clone, Copy, PartialEq)]
pub enum Size {
    Tiny,
    Usual,
    Large,
}

const PORTS: &[&str] = &["q", "y", "clk", "d", "en", "out_1", "p$", "A", "rst", "z9"];
const NETS: &[&str] = &["w", "r", "n1", "q", "y", "state", "mem", "en", "w2", "d", "_x", "A"];
const INSTS: &[&str] = &["u1", "u2", "s", "k", "i_core", "top", "u$1", "a", "b", "q", "u3", "U"];
const MODULES: &[&str] =
    &["core", "alu", "cell", "mem", "leaf", "q", "blk$", "_m", "u1", "sub", "pad", "iso"];

impl Module {
    fn new(name: &str, style: &'static str) -> Module {
        Module { name: name.to_string(), style, ports: vec![], decls: vec![], insts: vec![] }
    }

    /// Names of the output ports, as a strategy for a whole element takes them.
    pub fn outputs(&self) -> Vec<String> {
        let mut out = Vec::new();
        let mut last = "in";
        for p in &self.ports {
            if p.0 != "none" {
                last = p.0;
            }
            if self.style == "ansi" && last == "out" {
                out.push(p.1.clone());
            }
        }
        for d in &self.decls {
            if d.0 == "out" && !out.contains(&d.2) {
                out.push(d.2.clone());
            }
        }
        out
    }

    /// The module's lines.
    pub fn lines(&self) -> String {
        let mut t = format!("module={}\nstyle={}\n", self.name, self.style);
        for p in &self.ports {
            t.push_str(&format!("port={} {}\n", p.0, p.1));
        }
        for d in &self.decls {
            t.push_str(&format!("decl={} {} {}\n", d.0, d.1, d.2));
        }
        for i in &self.insts {
            t.push_str(&format!("inst={} {} {}\n", i.dim, i.name, i.of));
            for c in &i.conns {
                t.push_str(&format!("conn={}\n", c));
            }
        }
        t
    }
}

impl Design {
    /// The module of this name.
    pub fn find(&self, name: &str) -> Option<&Module> {
        self.mods.iter().find(|m| m.name == name)
    }

    /// Instance paths below a module with the module named there, nearest first, at most `most`.
    pub fn paths(&self, from: &str, most: usize) -> Vec<(String, String)> {
        let mut out: Vec<(String, String)> = Vec::new();
        let mut next = 0;
        let mut at = (String::new(), from.to_string());
        loop {
            if let Some(m) = self.find(&at.1) {
                for i in &m.insts {
                    let p = if at.0.is_empty() { i.name.clone() } else { format!("{}/{}", at.0, i.name) };
                    out.push((p, i.of.clone()));
                }
            }
            if next >= out.len() || out.len() >= most {
                return out;
            }
            at = out[next].clone();
            next += 1;
        }
    }

    /// Modules and names entered from a module, counted up to `most`.
    fn weight(&self, from: &str, depth: usize, most: usize) -> usize {
        let m = match self.find(from) {
            Some(m) if depth <= 32 => m,
            _ => return 0,
        };
        let mut sum = 1 + m.decls.len() + m.ports.len();
        for i in &m.insts {
            if sum > most {
                break;
            }
            sum += self.weight(&i.of, depth + 1, most - sum);
        }
        sum
    }

    /// All module lines.
    pub fn lines(&self) -> String {
        self.mods.iter().map(|m| m.lines()).collect()
    }
}

/// A design of the given size, not heavier than the walk can take (but for a rare one).
pub fn design(r: &mut Rng, size: Size) -> Design {
    let most = match size {
        Size::Tiny => 60,
        Size::Usual => 160,
        Size::Large => 420,
    };
    for _ in 0..12 {
        let d = match r.below(16) {
            0 => chain(r),
            1 => recursive(r),
            _ => tree(r, size),
        };
        if d.weight(&d.top, 0, most) <= most || r.chance(1, 60) {
            return d;
        }
    }
    tree(r, Size::Tiny)
}

fn tree(r: &mut Rng, size: Size) -> Design {
    let n = match size {
        Size::Tiny => r.range(1, 3),
        Size::Usual => r.range(2, 8),
        Size::Large => r.range(8, 60),
    };
    let names: Vec<String> = (0..n).map(module_name).collect();
    let mut mods: Vec<Module> = Vec::new();
    for name in &names {
        mods.push(body(r, name, size));
    }
    for i in 0..n {
        place_insts(r, &names, i, &mut mods);
    }
    connect(r, &mut mods);
    finish(r, mods, "top")
}

fn module_name(i: usize) -> String {
    match i {
        0 => "top".to_string(),
        _ if i <= MODULES.len() => MODULES[i - 1].to_string(),
        _ => format!("m{}", i),
    }
}

fn finish(r: &mut Rng, mut mods: Vec<Module>, top: &str) -> Design {
    if r.chance(1, 2) {
        r.shuffle(&mut mods);
    }
    let other = r.pick(&mods).name.clone();
    let top = if r.chance(1, 25) { other } else { top.to_string() };
    Design { top, mods }
}

/// A module with ports and declarations, no instances.
fn body(r: &mut Rng, name: &str, size: Size) -> Module {
    let style = *r.pick(&["ansi", "ansi", "ansi", "ansi", "nonansi", "nonansi", "empty"]);
    let mut m = Module::new(name, style);
    let most = if size == Size::Large && r.chance(1, 8) { 40 } else { 4 };
    if style != "empty" {
        for _ in 0..r.below(most + 1) {
            m.ports.push((direction(r, style), name_of(r, PORTS)));
        }
    }
    if style == "nonansi" {
        body_ports(r, &mut m);
    }
    for _ in 0..r.below(most + 1) {
        let odd = *r.pick(&["odd", "out", "in", "inout", "ref"]);
        let kind = if r.chance(1, 4) { odd } else { *r.pick(&["net", "data"]) };
        m.decls.push((kind, r.below(6) / 5, name_of(r, NETS)));
    }
    m
}

/// Body declarations of a header without directions; some are left out.
fn body_ports(r: &mut Rng, m: &mut Module) {
    let names: Vec<String> = m.ports.iter().map(|p| p.1.clone()).collect();
    for n in names {
        if r.chance(5, 6) {
            let kind = *r.pick(&["out", "out", "in", "inout", "ref"]);
            m.decls.push((kind, r.below(6) / 5, n));
        }
    }
}

fn direction(r: &mut Rng, style: &str) -> &'static str {
    if style == "nonansi" {
        return "none";
    }
    *r.pick(&["in", "out", "out", "out", "inout", "ref", "none", "none"])
}

fn name_of(r: &mut Rng, pool: &[&str]) -> String {
    match r.below(12) {
        0 => format!("n{}", r.below(100)),
        1 if r.chance(1, 10) => format!("x{}", "y".repeat(r.range(40, 63))),
        _ => r.pick(pool).to_string(),
    }
}

/// Instances of module `i`: mostly of later modules, sometimes of unlisted ones.
fn place_insts(r: &mut Rng, names: &[String], i: usize, mods: &mut [Module]) {
    let left = names.len() - i - 1;
    let n = if i == 0 { r.range(1, 4) } else { *r.pick(&[0, 0, 1, 1, 2, 3]) };
    for k in 0..n {
        let of = if left == 0 || (k > 0 && r.chance(1, 8)) {
            "ghost".to_string()
        } else {
            names[i + 1 + r.below(left.min(6))].clone()
        };
        let name = name_of(r, INSTS);
        if mods[i].insts.iter().all(|x| x.name != name) {
            let dim = r.below(7) / 6;
            mods[i].insts.push(Inst { dim, name, of, conns: vec![] });
        }
    }
}

/// Connection lines for every instance.
fn connect(r: &mut Rng, mods: &mut [Module]) {
    for i in 0..mods.len() {
        for k in 0..mods[i].insts.len() {
            let of = mods[i].insts[k].of.clone();
            let ports: Vec<String> = match mods.iter().find(|m| m.name == of) {
                Some(m) => m.ports.iter().map(|p| p.1.clone()).chain(m.outputs()).collect(),
                None => vec!["q".to_string()],
            };
            let nets: Vec<String> = mods[i].decls.iter().map(|d| d.2.clone()).collect();
            mods[i].insts[k].conns = conns(r, &ports, &nets);
        }
    }
}

fn conns(r: &mut Rng, ports: &[String], nets: &[String]) -> Vec<String> {
    let mut out: Vec<String> = Vec::new();
    let way = r.below(6);
    for p in ports.iter().take(50) {
        let net = if nets.is_empty() || r.chance(1, 5) { name_of(r, NETS) } else { r.pick(nets).clone() };
        let net = if r.chance(1, 8) { "-".to_string() } else { net };
        match way {
            0 | 1 => out.push(format!("named {} {}", p, net)),
            2 => out.push(format!("pos {}", net)),
            3 if r.chance(2, 3) => out.push(format!("implicit {}", p)),
            4 if r.chance(1, 4) => out.push(format!("named {} {}", p, net)),
            _ => {}
        }
    }
    if way == 4 || (way == 5 && r.chance(2, 3)) || r.chance(1, 8) {
        let at = r.below(out.len() + 1);
        out.insert(at, "star".to_string());
    }
    if r.chance(1, 6) {
        let at = r.below(out.len() + 1);
        let odd = *r.pick(&["named q -", "named nope w", "implicit q", "pos -", "pos w", "named q w"]);
        out.insert(at, odd.to_string());
    }
    out
}

/// A chain of 29 to 34 instances.
fn chain(r: &mut Rng) -> Design {
    let n = r.range(29, 34);
    let mut mods = Vec::new();
    for i in 0..n + 1 {
        let name = if i == 0 { "top".to_string() } else { format!("c{}", i) };
        let mut m = Module::new(&name, "ansi");
        if i + 4 > n || r.chance(1, 6) {
            m.ports.push(("out", "q".to_string()));
            m.decls.push(("net", 0, "w".to_string()));
        }
        if i < n {
            let dim = if r.chance(1, 200) { 1 } else { 0 };
            m.insts.push(Inst {
                dim,
                name: "u".to_string(),
                of: format!("c{}", i + 1),
                conns: vec!["star".to_string()],
            });
        }
        mods.push(m);
    }
    finish(r, mods, "top")
}

/// A module that instantiates itself, by one way or through another module.
fn recursive(r: &mut Rng) -> Design {
    let mut top = body(r, "top", Size::Tiny);
    let mut a = body(r, "core", Size::Tiny);
    let mut b = body(r, "alu", Size::Tiny);
    a.decls.truncate(1);
    b.decls.truncate(1);
    a.ports.truncate(2);
    b.ports.truncate(1);
    let (to, back) = match r.below(3) {
        0 => ("core", "leaf"),
        1 => ("alu", "core"),
        _ => ("alu", "top"),
    };
    top.ports.truncate(1);
    top.decls.truncate(1);
    let rows = [(0, "s", "core"), (1, "k", to), (2, "u1", back)];
    let mut mods = vec![top, a, b];
    for row in rows.iter() {
        let inst = Inst { dim: 0, name: row.1.to_string(), of: row.2.to_string(), conns: vec![] };
        mods[row.0].insts.push(inst);
    }
    if r.chance(1, 40) {
        let twice = Inst { dim: 0, name: "k2".to_string(), of: to.to_string(), conns: vec![] };
        mods[1].insts.push(twice);
    }
    connect(r, &mut mods);
    finish(r, mods, "top")
}
