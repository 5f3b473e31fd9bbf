//! Whole jobs in document 01's form, mostly accepted.

use super::commands::{command, load_scope, variable, with_variable, write, Ctx};
use super::design::{design, Design, Size};
use super::Rng;

/// A whole job of at most 65,536 bytes.
pub fn job(r: &mut Rng) -> Vec<u8> {
    let mut size = match r.below(20) {
        0..=6 => Size::Tiny,
        7..=17 => Size::Usual,
        _ => Size::Large,
    };
    loop {
        let out = attempt(r, size);
        if out.len() <= 65_536 {
            return out;
        }
        size = Size::Tiny;
    }
}

fn attempt(r: &mut Rng, size: Size) -> Vec<u8> {
    let d = design(r, size);
    let (over, top_word, from) = root(r, &d);
    let mut book = Book { files: Vec::new(), open: Vec::new(), size, commands: 0 };
    let mut c = context(&d, &from);
    c.retentions = if r.chance(1, 8) { 30 } else { r.below(5) };
    let mut head = Vec::new();
    if let Some(w) = top_word {
        head.extend(write(r, &c, &[b"set_design_top".to_vec(), w.into_bytes()]));
    }
    let start = r.pick(&["p.upf", "p.upf", "d/p.upf", "d/e/top.upf", "p", "my file.upf", "..."]).to_string();
    book.file(r, &mut c, &start, head);
    if r.chance(1, 10) {
        book.files.push(("unused.upf".to_string(), b"bogus {".to_vec()));
    }
    if r.chance(1, 3) {
        r.shuffle(&mut book.files);
    }
    let top = if r.chance(1, 250) { "absent".to_string() } else { d.top.clone() };
    let start = if r.chance(1, 250) { "absent.upf".to_string() } else { start };
    assemble(&top, &over, &start, &book.files, &d.lines())
}

/// The job's bytes.
pub fn assemble(top: &str, over: &str, start: &str, files: &[(String, Vec<u8>)], mods: &str) -> Vec<u8> {
    let mut out = format!("top={}\noverride={}\nstart={}\n", top, over, start).into_bytes();
    for f in files {
        out.extend_from_slice(format!("file={}\nbytes={}\n", f.0, f.1.len()).as_bytes());
        out.extend_from_slice(&f.1);
        out.push(b'\n');
    }
    out.extend_from_slice(mods.as_bytes());
    out.extend_from_slice(b"end=\n");
    out
}

fn context<'a>(d: &'a Design, from: &str) -> Ctx<'a> {
    let mut tops: Vec<String> = vec![d.top.clone()];
    if from != d.top {
        tops = vec![from.to_string()];
    }
    Ctx {
        design: d,
        paths: d.paths(from, 150),
        scope: String::new(),
        domains: Vec::new(),
        nets: vec!["VDD".to_string(), "VSS".to_string()],
        isos: Vec::new(),
        psts: Vec::new(),
        elements: Vec::new(),
        vars: Vec::new(),
        known: Vec::new(),
        made: [0; 10],
        retentions: 0,
        tops,
    }
}

/// The override, the design top to set, and the module that is the scope.
fn root(r: &mut Rng, d: &Design) -> (String, Option<String>, String) {
    let all = d.paths(&d.top, 80);
    let real: Vec<&(String, String)> = all.iter().filter(|p| d.find(&p.1).is_some()).collect();
    let top = d.top.clone();
    match r.below(40) {
        0..=11 => (String::new(), None, top),
        12..=19 => (String::new(), Some(top.clone()), top),
        20..=27 if !real.is_empty() => {
            let p = (*r.pick(&real)).clone();
            (String::new(), Some(p.1.clone()), p.1)
        }
        28..=33 if !real.is_empty() => {
            let p = (*r.pick(&real)).clone();
            let set = if r.chance(1, 2) { Some("absent".to_string()) } else { None };
            (spelled(r, &top, &p.0), set, p.1)
        }
        34 | 35 => {
            let word = r.pick(&["/", &top, ".", "//", "/."]).to_string();
            (word, Some("absent".to_string()), top)
        }
        36 if r.chance(1, 2) => (r.pick(&["nope", "top.top", "u1/nope", " "]).to_string(), None, top),
        37 if r.chance(1, 2) => {
            let word = r.pick(&["ghost", "absent", ""]).to_string();
            (String::new(), Some(word), top)
        }
        _ => (String::new(), None, top),
    }
}

/// One of the spellings of an override.
fn spelled(r: &mut Rng, top: &str, path: &str) -> String {
    let dots = path.replace("/", ".");
    match r.below(7) {
        0 => format!("{}.{}", top, dots),
        1 => format!("/{}/{}", top, path),
        2 => format!("{}/{}", top, path),
        3 => format!("//{}..{}//", top, dots),
        4 if path.split('/').next() != Some(top) => path.to_string(),
        5 if path.split('/').next() != Some(top) => dots,
        _ => format!("{}/{}.", top, path),
    }
}

/// The files of a job while they are written.
struct Book {
    files: Vec<(String, Vec<u8>)>,
    open: Vec<String>,
    size: Size,
    commands: usize,
}

impl Book {
    /// Writes the file of this path, and the files that it loads.
    fn file(&mut self, r: &mut Rng, c: &mut Ctx, path: &str, head: Vec<u8>) {
        let outer = c.known.clone();
        c.known = c.vars.clone();
        self.open.push(path.to_string());
        let mut out = head;
        for _ in 0..self.count(r) {
            out.extend(self.next(r, c, path));
        }
        if self.open.len() == 1 {
            out.extend(supplies(r, c));
            out.extend(self.padding(r));
        }
        if r.chance(1, 40) {
            out.extend_from_slice(
                r.pick(&["puts {open", "puts \"open", "puts [a", "# open", "puts \\", "puts \"\\"])
                    .as_bytes(),
            );
        }
        self.open.pop();
        self.files.push((path.to_string(), out));
        c.known = outer;
    }

    fn count(&mut self, r: &mut Rng) -> usize {
        let n = match (self.size, self.open.len()) {
            (Size::Tiny, 1) => r.range(0, 7),
            (Size::Tiny, _) => r.below(3),
            (Size::Usual, 1) => r.range(6, 30),
            (Size::Usual, _) => r.below(8),
            (Size::Large, 1) => r.range(60, 260),
            (Size::Large, _) => r.range(2, 20),
        };
        if self.commands > 700 {
            0
        } else {
            n
        }
    }

    /// One command's text, or a load with the file it loads.
    fn next(&mut self, r: &mut Rng, c: &mut Ctx, path: &str) -> Vec<u8> {
        self.commands += 1;
        let rare = match self.size {
            Size::Large => 30,
            _ => 12,
        };
        if r.chance(1, rare) && self.open.len() < 18 {
            let mut out = Vec::new();
            for _ in 0..r.below(3) {
                let words = variable(r, c);
                out.extend(write(r, c, &words));
            }
            out.extend(self.load(r, c, path));
            return out;
        }
        if r.chance(1, 6) {
            if let Some(t) = with_variable(r, c) {
                return t;
            }
        }
        let words = command(r, c);
        write(r, c, &words)
    }

    fn load(&mut self, r: &mut Rng, c: &mut Ctx, path: &str) -> Vec<u8> {
        let name = self.target(r, path);
        let mut parts = vec![vec![name.into_bytes()]];
        let mut after = c.scope.clone();
        if r.chance(1, 2) {
            let (word, then) = load_scope(r, c);
            parts.push(vec![b"-scope".to_vec(), word.into_bytes()]);
            after = then;
        }
        if r.chance(1, 5) {
            parts.push(vec![b"-version".to_vec(), b"2.0".to_vec()]);
        }
        if r.chance(1, 2) {
            r.shuffle(&mut parts);
        }
        if r.chance(1, 10) {
            let flag: &[u8] = if r.chance(1, 4) { b"-scope" } else { b"-implementation" };
            parts.push(vec![flag.to_vec()]);
        }
        let mut words = vec![b"load_upf".to_vec()];
        words.extend(parts.into_iter().flatten());
        let text = write(r, c, &words);
        self.loaded(r, c, path, &words, after);
        text
    }

    /// Writes the file that a load names, if it is to exist and is not there yet.
    fn loaded(&mut self, r: &mut Rng, c: &mut Ctx, path: &str, words: &[Vec<u8>], scope: String) {
        let name = match words.iter().find(|w| w.ends_with(b".upf")) {
            Some(w) => String::from_utf8_lossy(w).to_string(),
            None => return,
        };
        let full = joined(path, &name);
        let there = self.files.iter().any(|f| f.0 == full) || self.open.contains(&full);
        let lost = name == "missing.upf" || name.starts_with('.') || name.starts_with('/');
        if there || lost || self.files.len() + self.open.len() > 28 {
            return;
        }
        let saved = c.scope.clone();
        c.scope = scope;
        self.file(r, c, &full, Vec::new());
        c.scope = saved;
    }

    /// The name that a load gives: mostly a new file, else one written already.
    fn target(&mut self, r: &mut Rng, path: &str) -> String {
        if r.chance(1, 150) {
            return r.pick(&["missing.upf", "", "./q0.upf", "/p.upf"]).to_string();
        }
        if r.chance(1, 400) {
            return path.rsplit('/').next().unwrap_or("").to_string();
        }
        let dir = joined(path, "");
        let near: Vec<String> = self
            .files
            .iter()
            .filter(|f| f.0.starts_with(&dir) && f.1.len() < 400)
            .map(|f| f.0[dir.len()..].to_string())
            .collect();
        let full = self.files.len() + self.open.len() > 28;
        if !near.is_empty() && (full || r.chance(1, 4)) {
            return r.pick(&near).clone();
        }
        let n = self.files.len() + self.open.len();
        let sub = *r.pick(&["", "", "d/", "sub/e/", "a b/"]);
        format!("{}q{}.upf", sub, n)
    }

    /// Comments and idle commands that make a large job larger.
    fn padding(&mut self, r: &mut Rng) -> Vec<u8> {
        let mut out = Vec::new();
        if self.size != Size::Large {
            return out;
        }
        let want = r.below(30_000);
        while out.len() < want {
            let n = r.range(1, 90);
            if r.chance(1, 4) && self.commands < 800 {
                self.commands += 1;
                out.extend_from_slice(b"query_x");
                for i in 0..n {
                    out.extend_from_slice(format!(" w{}", i).as_bytes());
                }
            } else {
                out.push(b'#');
                out.extend(vec![b'-'; 8 * n]);
            }
            out.push(b'\n');
        }
        out
    }
}

/// A name joined to the directory of the loading file, as text.
fn joined(path: &str, name: &str) -> String {
    match path.rfind('/') {
        Some(i) => format!("{}/{}", &path[..i], name),
        None => name.to_string(),
    }
}

/// Supplies for most of the domains written, so that they are walked.
fn supplies(r: &mut Rng, c: &Ctx) -> Vec<u8> {
    let mut out = Vec::new();
    for d in c.domains.iter().take(20) {
        if r.chance(1, 2) {
            let words: Vec<Vec<u8>> = vec![
                b"set_domain_supply_net".to_vec(),
                d.as_bytes().to_vec(),
                b"-primary_ground_net".to_vec(),
                b"VSS".to_vec(),
                b"-primary_power_net".to_vec(),
                b"VDD".to_vec(),
            ];
            out.extend(write(r, c, &words));
        }
    }
    out
}
