//! Boundary jobs for the limits of the job itself: size, names, files, modules and their lines.
//!
//! Places are counted by hand. With one file the lines are: 1 top, 2 override, 3 start, 4 file,
//! 5 bytes (body and its LF not counted), 6 first module, 7 its style, 8 its first own line.

use super::job::assemble;
use super::Case;

/// A job put together piece by piece; by default an empty file `p` and an empty module `top`.
pub struct Sheet {
    pub top: String,
    pub over: String,
    pub start: String,
    pub files: Vec<(String, Vec<u8>)>,
    pub mods: String,
}

impl Sheet {
    pub fn new(text: &str) -> Sheet {
        Sheet {
            top: "top".to_string(),
            over: String::new(),
            start: "p".to_string(),
            files: vec![("p".to_string(), text.as_bytes().to_vec())],
            mods: "module=top\nstyle=empty\n".to_string(),
        }
    }

    pub fn top(mut self, name: &str) -> Sheet {
        self.top = name.to_string();
        self
    }

    pub fn over(mut self, text: &str) -> Sheet {
        self.over = text.to_string();
        self
    }

    pub fn file(mut self, path: &str, text: &str) -> Sheet {
        self.files.push((path.to_string(), text.as_bytes().to_vec()));
        self
    }

    pub fn mods(mut self, lines: &str) -> Sheet {
        self.mods = lines.to_string();
        self
    }

    pub fn bytes(&self) -> Vec<u8> {
        assemble(&self.top, &self.over, &self.start, &self.files, &self.mods)
    }
}

/// Notes a case.
pub fn put(all: &mut Vec<Case>, name: &str, job: Vec<u8>, number: u32, place: u32) {
    all.push((name.to_string(), job, number, place));
}

/// The limits of the job's own lines.
pub fn cases(all: &mut Vec<Case>) {
    size(all);
    names(all);
    files(all);
    modules(all);
    module_lines(all);
    before_new(all);
}

/// A job of exactly `n` bytes, its file one comment.
pub fn of_size(n: usize) -> Vec<u8> {
    // An empty file has `bytes=0`; a body of five digits has four bytes more there.
    let plain = Sheet::new("").bytes().len();
    let body = format!("#{}", "c".repeat(n - plain - 4 - 1));
    Sheet::new(&body).bytes()
}

fn size(all: &mut Vec<Case>) {
    put(all, "job of 65,536 bytes", of_size(65_536), 0, 0);
    put(all, "job of 65,537 bytes", of_size(65_537), 2, 0);
}

/// One line kind after another with a name of `n` bytes at the given one of ten spots.
fn named(spot: usize, n: usize) -> Vec<u8> {
    let len = |i: usize| if i == spot { n } else { 64 };
    let nm = |i: usize, c: &str| c.repeat(len(i));
    let head =
        format!("module={}\nstyle=ansi\nport=out {}\ndecl=net 0 {}\n", nm(1, "t"), nm(2, "p"), nm(3, "d"));
    let inst = format!("inst=0 {} {}\nconn=implicit {}\n", nm(4, "i"), nm(5, "m"), nm(6, "p"));
    let conn = format!("conn=named {} {}\nconn=pos {}\n", nm(7, "p"), nm(8, "n"), nm(9, "n"));
    let mods = [head, inst, conn].concat();
    Sheet::new("").top(&nm(0, "t")).mods(&mods).bytes()
}

fn names(all: &mut Vec<Case>) {
    put(all, "all names of 64 bytes", named(99, 64), 0, 0);
    // A longer name is a fault of form: 4 at its line.
    let spots = [
        ("top", 1),
        ("module", 6),
        ("port", 8),
        ("decl", 9),
        ("inst name", 10),
        ("inst module", 10),
        ("conn implicit", 11),
        ("conn named port", 12),
        ("conn named net", 12),
        ("conn pos", 13),
    ];
    for (i, s) in spots.iter().enumerate() {
        put(all, &format!("name of 65 bytes: {}", s.0), named(i, 65), 4, s.1);
    }
}

fn with_files(n: usize) -> Sheet {
    (1..n).fold(Sheet::new(""), |s, i| s.file(&format!("f{}", i), ""))
}

fn files(all: &mut Vec<Case>) {
    put(all, "32 files", with_files(32).bytes(), 0, 0);
    // The 33rd file line: 3 lines, then 32 files of 2 lines, then it: 68.
    put(all, "33 files", with_files(33).bytes(), 5, 68);
}

fn modules(all: &mut Vec<Case>) {
    let lines = |n: usize| -> String {
        let rest: String = (1..n).map(|i| format!("module=m{}\nstyle=empty\n", i)).collect();
        format!("module=top\nstyle=empty\n{}", rest)
    };
    put(all, "128 modules", Sheet::new("").mods(&lines(128)).bytes(), 0, 0);
    // Line 6 is the first, each has 2 lines: the 129th is at 6 + 256.
    put(all, "129 modules", Sheet::new("").mods(&lines(129)).bytes(), 5, 262);
}

/// A module `top` with `n` lines of one kind, numbered, behind `before`.
fn repeat(style: &str, before: &str, line: &str, n: usize) -> Vec<u8> {
    let rest: String = (0..n).map(|i| format!("{}\n", line.replace("@", &i.to_string()))).collect();
    Sheet::new("").mods(&format!("module=top\nstyle={}\n{}{}", style, before, rest)).bytes()
}

fn module_lines(all: &mut Vec<Case>) {
    // The first own line of a module is line 8, so line n + 1 of its kind is at 8 + n.
    put(all, "64 ports", repeat("ansi", "", "port=in p@", 64), 0, 0);
    put(all, "65 ports", repeat("ansi", "", "port=in p@", 65), 5, 72);
    put(all, "64 ports of one name", repeat("nonansi", "", "port=none p", 64), 0, 0);
    put(all, "65 ports of one name", repeat("nonansi", "", "port=none p", 65), 5, 72);
    put(all, "128 declarations", repeat("empty", "", "decl=net 0 d@", 128), 0, 0);
    put(all, "129 declarations", repeat("empty", "", "decl=net 0 d@", 129), 5, 136);
    put(all, "64 instances", repeat("empty", "", "inst=0 i@ m", 64), 0, 0);
    put(all, "65 instances", repeat("empty", "", "inst=0 i@ m", 65), 5, 72);
    // The instance is line 8, its first connection 9.
    put(all, "64 connections", repeat("empty", "inst=0 i m\n", "conn=pos n@", 64), 0, 0);
    put(all, "65 connections", repeat("empty", "inst=0 i m\n", "conn=pos n@", 65), 5, 73);
    let twice = format!("inst=0 i m\n{}inst=0 j m\n", "conn=star\n".repeat(64));
    put(all, "64 connections of each of two instances", repeat("empty", &twice, "conn=star", 64), 0, 0);
    let second = format!("{}module=n\nstyle=ansi\n", "port=in p\n".repeat(64));
    put(all, "64 ports of each of two modules", repeat("ansi", &second, "port=in p", 64), 0, 0);
}

/// Form comes before the limit, the limit before being new.
fn before_new(all: &mut Vec<Case>) {
    put(all, "33 files, the last doubled", with_files(32).file("p", "").bytes(), 5, 68);
    put(all, "33 files, the last malformed", with_files(32).file("/p", "").bytes(), 4, 68);
    let many: String = (0..127).map(|i| format!("module=m{}\nstyle=empty\n", i)).collect();
    let mods = format!("module=top\nstyle=empty\n{}module=top\nstyle=empty\n", many);
    put(all, "129 modules, the last doubled", Sheet::new("").mods(&mods).bytes(), 5, 262);
    let insts: String = (0..64).map(|i| format!("inst=0 i{} m\n", i)).collect();
    let mods = format!("module=top\nstyle=empty\n{}inst=0 i0 m\n", insts);
    put(all, "65 instances, the last doubled", Sheet::new("").mods(&mods).bytes(), 5, 72);
    let mods = format!("module=top\nstyle=empty\n{}inst=2 i0 m\n", insts);
    put(all, "65 instances, the last malformed", Sheet::new("").mods(&mods).bytes(), 4, 72);
    let ports = "port=in p\n".repeat(64);
    let mods = format!("module=top\nstyle=ansi\n{}port=in 9\n", ports);
    put(all, "65 ports, the last malformed", Sheet::new("").mods(&mods).bytes(), 4, 72);
}
