//! The form of a job, checks 1 to 7 and 14, with the decided open points.

use super::{clean, domain, job, worked, Test, SUPPLIES, WORKED};
use crate::check::{Lent, AREAS, STANDARD};

pub fn all(t: &mut Test) {
    lent(t);
    whole(t);
    endings(t);
    names_and_paths(t);
    bodies(t);
    due(t);
    fields(t);
    order(t);
}

fn lent(t: &mut Test) {
    let run = worked(&domain("u1"));
    for n in 0..3 {
        let mut short = STANDARD;
        short.areas[n] -= 1;
        t.same("a short work area", clean(&run, &short).number, 1);
        t.same("asked before all else", clean(b"x", &short).number, 1);
    }
    let lengths: Vec<usize> = clean(&run, &STANDARD).texts.iter().map(|b| b.len()).collect();
    let mut exact = Lent { areas: AREAS, buffers: [0; 4] };
    exact.buffers.copy_from_slice(&lengths);
    t.same("buffers that just fit", clean(&run, &exact).number, 0);
    for n in 0..3 {
        let mut short = exact;
        short.buffers[n] -= 1;
        t.same("a buffer one too short", clean(&run, &short).number, 14);
    }
    let log = worked("puts a");
    let mut short = STANDARD;
    short.buffers[3] = 7;
    t.same("a log one too long", clean(&log, &short).number, 14);
    short.buffers[3] = 8;
    t.same("a log that fits", clean(&log, &short).number, 0);
}

fn whole(t: &mut Test) {
    let upf = "#".repeat(65_536 - worked("").len() - 4);
    let run = worked(&upf);
    t.same("length of the longest job", run.len(), 65_536);
    t.answer("the longest job", &run, (0, 0));
    t.answer("one byte more", &worked(&(upf + "#")), (2, 0));
    t.answer("a byte of 128 in a body", &with(&worked("abc"), "abc", b"a\x80c"), (3, 0));
    t.answer("asked before the form", b"x\xff", (3, 0));
    t.answer("empty job", b"", (4, 1));
    let other = job("", &[("p", "")], "module=other\nstyle=empty\n");
    t.answer("top not listed", &other, (7, 0));
    t.answer("start not listed", &with(&worked(""), "start=p.upf", b"start=q"), (7, 0));
}

/// The job with the first `old` replaced.
fn with(job: &[u8], old: &str, new: &[u8]) -> Vec<u8> {
    let at = job.windows(old.len()).position(|w| w == old.as_bytes()).expect("stands there");
    [&job[..at], new, &job[at + old.len()..]].concat()
}

/// The worked design has lines 6 to 14, and `end=` is line 15.
fn endings(t: &mut Test) {
    let run = worked("");
    t.answer("whole", &run, (0, 0));
    t.answer("end without LF", &run[..run.len() - 1], (4, 15));
    t.answer("no end line", &run[..run.len() - 5], (4, 15));
    t.answer("a byte behind the end", &[&run[..], b"x"].concat(), (4, 16));
    t.answer("an empty line behind the end", &[&run[..], b"\n"].concat(), (4, 16));
    t.answer("end with a value", &with(&run, "end=", b"end=0"), (4, 15));
    t.answer("cut within a line", &run[..run.len() - 8], (4, 14));
    t.answer("only a top line", b"top=top\n", (4, 2));
}

fn names_and_paths(t: &mut Test) {
    let named = |name: &str| with(&worked(""), "decl=net 0 w", format!("decl=net 0 {name}").as_bytes());
    t.answer("a name of 64", &named(&"a".repeat(64)), (0, 0));
    t.answer("a name of 65", &named(&"a".repeat(65)), (4, 13));
    for (name, ok) in [
        ("_$9", true),
        ("Z", true),
        ("", false),
        ("9a", false),
        ("$a", false),
        ("a-b", false),
        ("a\r", false),
    ] {
        t.answer(&format!("name {name:?}"), &named(name), if ok { (0, 0) } else { (4, 13) });
    }
    let at = |path: &str| job("", &[(path, "")], WORKED);
    for path in ["a", "a/b", "...", "a b/\r", "a/.b", "-"] {
        t.answer(&format!("path {path:?}"), &at(path), (0, 0));
    }
    for path in ["", "/a", "a/", "a//b", ".", "..", "a/./b", "../a"] {
        t.answer(&format!("path {path:?}"), &at(path), (4, 3));
        let file = with(&at("a"), "file=a", format!("file={path}").as_bytes());
        t.answer(&format!("file {path:?}"), &file, (4, 4));
    }
    t.answer("any override is well formed", &job(" \r=", &[("p", "")], WORKED), (12, 0));
    t.answer("an override without names", &job("..//", &[("p", "")], WORKED), (0, 0));
}

fn bodies(t: &mut Test) {
    let bytes = |n: &str, body: &str| {
        format!("top=top\noverride=\nstart=p\nfile=p\nbytes={n}\n{body}{WORKED}end=\n").into_bytes()
    };
    t.answer("no bytes", &bytes("0", "\n"), (0, 0));
    t.answer("six of six", &bytes("6", "puts a\n"), (0, 0));
    t.answer("six of seven, the seventh LF", &bytes("6", "puts a\n\n"), (4, 6));
    t.answer("no LF behind the body", &bytes("5", "puts a\n"), (4, 5));
    t.answer("body past the job", &bytes("900", "puts a\n"), (4, 5));
    t.answer("very many digits", &bytes(&"9".repeat(40), "puts a\n"), (4, 5));
    for n in ["06", "00", "", "-1", "+6", "6 ", "0x6", " 6"] {
        t.answer(&format!("bytes={n}"), &bytes(n, "puts a\n"), (4, 5));
    }
    let whole = String::from_utf8(bytes("0", "\n")).unwrap();
    let behind = whole.split_once("bytes=0\n").unwrap().1.len();
    t.answer("body up to the last LF", &bytes(&(behind - 1).to_string(), "\n"), (4, 6));
    t.answer("body up to the end", &bytes(&behind.to_string(), "\n"), (4, 5));
    let lines = worked("puts a\nputs b\nputs c");
    t.answer("lines of a body do not count", &with(&lines, "decl=net 0 w", b"decl=net 0"), (4, 13));
}

fn due(t: &mut Test) {
    let run = worked("");
    t.answer("a missing override", &with(&run, "override=\n", b""), (4, 2));
    t.answer("no file", b"top=top\noverride=\nstart=p\nmodule=top\nstyle=empty\nend=\n", (4, 4));
    t.answer("no module", &job("", &[("p", "")], ""), (4, 6));
    t.answer("no style", &with(&run, "style=empty\n", b""), (4, 7));
    t.answer("a strange style", &with(&run, "style=empty", b"style=Empty"), (4, 7));
    t.answer("a file behind a module", &with(&run, "end=", b"file=q\nbytes=0\n\nend="), (4, 15));
    t.answer("port behind decl", &with(&run, "end=", b"port=in x\nend="), (4, 15));
    t.answer("decl behind inst", &with(&run, "module=core", b"decl=net 0 x\nmodule=core"), (4, 9));
    t.answer("conn before any inst", &with(&run, "end=", b"conn=star\nend="), (4, 15));
    t.answer("conn behind its inst", &with(&run, "module=core", b"conn=star\nmodule=core"), (0, 0));
    t.answer("port in style empty", &with(&run, "inst=0", b"port=none x\ninst=0"), (4, 8));
    t.answer("an unknown key", &with(&run, "inst=0", b"foo=1\ninst=0"), (4, 8));
    t.answer("an empty line", &with(&run, "inst=0", b"\ninst=0"), (4, 8));
    let nonansi = |port: &str| job("", &[("p", "")], &format!("module=top\nstyle=nonansi\nport={port}\n"));
    t.answer("nonansi with none", &nonansi("none q"), (0, 0));
    t.answer("nonansi with a direction", &nonansi("out q"), (4, 8));
}

fn fields(t: &mut Test) {
    let line = |old: &str, new: &str| with(&worked(""), old, new.as_bytes());
    for new in ["port=in  clk", "port=in", "port=In clk", "port=in clk ", "port=in clk x", "port= clk"] {
        t.answer(new, &line("port=in clk", new), (4, 11));
    }
    for new in
        ["decl=net w", "decl=net 2 w", "decl=none 0 w", "decl=net 0 w x", "decl=wire 0 w", "decl=net  0 w"]
    {
        t.answer(new, &line("decl=net 0 w", new), (4, 13));
    }
    for kind in ["net", "data", "odd", "in", "out", "inout", "ref"] {
        t.answer(kind, &line("decl=net 0 w", &format!("decl={kind} 1 w")), (0, 0));
    }
    for new in ["inst=0 u1", "inst=0 u1 9", "inst=2 u1 core", "inst=0 - core"] {
        t.answer(new, &line("inst=0 u1 core", new), (4, 8));
    }
    let conn = |c: &str| line("inst=0 u1 core", &format!("inst=0 u1 core\nconn={c}"));
    for c in ["star", "implicit q", "named q w", "named q -", "pos w", "pos -"] {
        t.answer(c, &conn(c), (0, 0));
    }
    for c in [
        "",
        "star x",
        "implicit",
        "implicit 9",
        "implicit -",
        "named q",
        "named - w",
        "named q 9",
        "pos",
        "pos 9",
        "pos a b",
    ] {
        t.answer(&format!("conn={c}"), &conn(c), (4, 9));
    }
}

/// One line after the other: form, limit, newness.
fn order(t: &mut Test) {
    let run = worked("");
    let twice = with(&run, "module=core", b"inst=0 u1 core\nmodule=core");
    t.answer("an instance twice", &twice, (6, 9));
    t.answer("before a later bad form", &with(&twice, "port=in clk", b"port=in 9"), (6, 9));
    t.answer("a module twice", &with(&run, "module=core", b"module=top"), (6, 9));
    t.answer("the same instance elsewhere", &with(&run, "end=", b"inst=0 u1 core\nend="), (0, 0));
    let files = [("p", ""), ("q", ""), ("p", "")];
    t.answer("a path twice", &job("", &files, WORKED), (6, 8));
    t.answer("a port twice is no fault", &with(&run, "port=out q", b"port=out clk"), (0, 0));
    let top = with(&run, "top=top", b"top=nothing");
    t.answer("form before listing", &with(&top, "decl=odd", b"decl=even"), (4, 14));
    let load = worked(&format!("{SUPPLIES}load_upf x"));
    t.answer("listing before reading", &with(&load, "top=top", b"top=nothing"), (7, 0));
    t.answer("reading before the scope", &with(&load, "override=", b"override=no"), (9, 4));
}
