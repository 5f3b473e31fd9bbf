//! Malformed jobs: refusals 2 to 7, with the place counted by hand.
//!
//! The sound job that they are made from has 26 lines; lines 5 and 7 have bodies behind them.

use super::bounds::{of_size, put};
use super::Case;

const SOUND: &[&str] = &[
    "top=top",         // 1
    "override=",       // 2
    "start=p.upf",     // 3
    "file=p.upf",      // 4
    "bytes=4",         // 5, body `puts`
    "file=d/q.upf",    // 6
    "bytes=0",         // 7, empty body
    "module=top",      // 8
    "style=ansi",      // 9
    "port=in clk",     // 10
    "port=out q",      // 11
    "decl=net 0 w",    // 12
    "decl=odd 1 r",    // 13
    "inst=0 u1 core",  // 14
    "conn=named d w",  // 15
    "conn=star",       // 16
    "inst=1 u2 core",  // 17
    "conn=implicit q", // 18
    "conn=pos -",      // 19
    "module=core",     // 20
    "style=nonansi",   // 21
    "port=none d",     // 22
    "port=none q",     // 23
    "decl=in 0 d",     // 24
    "decl=out 0 q",    // 25
    "end=",            // 26
];

/// The sound job's lines, each with its LF and the body behind it.
fn sound() -> Vec<Vec<u8>> {
    let mut out: Vec<Vec<u8>> = SOUND.iter().map(|l| format!("{}\n", l).into_bytes()).collect();
    out[4].extend_from_slice(b"puts\n");
    out[6].extend_from_slice(b"\n");
    out
}

/// The job with line `n` replaced; the body behind it stays.
fn with(n: usize, line: &str) -> Vec<u8> {
    let mut lines = sound();
    let old = SOUND[n - 1].len();
    lines[n - 1].splice(..old, line.bytes());
    lines.concat()
}

/// The job with a line put before line `n`.
fn before(n: usize, line: &str) -> Vec<u8> {
    let mut lines = sound();
    lines.insert(n - 1, format!("{}\n", line).into_bytes());
    lines.concat()
}

/// The job without lines `from` to `to` and the bodies behind them.
fn without(from: usize, to: usize) -> Vec<u8> {
    let mut lines = sound();
    lines.drain(from - 1..to);
    lines.concat()
}

/// All malformed jobs.
pub fn cases(all: &mut Vec<Case>) {
    put(all, "sound job", sound().concat(), 0, 0);
    for row in REPLACED.iter() {
        for line in row.1 {
            put(all, &format!("line {} is '{}'", row.0, line), with(row.0, line), 4, row.0 as u32);
        }
    }
    fine(all);
    early(all);
    bodies(all);
    order(all);
    left_out(all);
    ends(all);
    doubled(all);
    unlisted(all);
    first_fault(all);
}

/// Lines that are malformed where they stand: 4 at that line.
const REPLACED: &[(usize, &[&str])] = &[
    (
        1,
        &[
            "top=",
            "top=9a",
            "top=$a",
            "top=a b",
            "top= a",
            "top=a ",
            "top=a-b",
            "top=a.b",
            "top=a/b",
            "top=a\r",
            "top=a\u{0}",
            "Top=top",
            "top:top",
            "top",
            "",
            " top=top",
            "\ttop=top",
            "top=top=top",
            "start=p.upf",
            "=top",
        ],
    ),
    (2, &["overrid=", "override", "override:", " override=", "Override=", "start=p.upf", ""]),
    (
        3,
        &[
            "start=",
            "start=/p.upf",
            "start=p.upf/",
            "start=d//q.upf",
            "start=./p.upf",
            "start=p.upf/.",
            "start=d/../p.upf",
            "start=..",
            "start=.",
            "start=/",
            "start",
            "star=p.upf",
            "",
        ],
    ),
    (
        4,
        &[
            "file=",
            "file=/p.upf",
            "file=p.upf/",
            "file=d//q",
            "file=./p",
            "file=a/../b",
            "file=..",
            "file=/",
            "file",
            "File=p.upf",
            "module=top",
            "end=",
            "",
        ],
    ),
    (
        5,
        &[
            "bytes=",
            "bytes=04",
            "bytes=00",
            "bytes=4 ",
            "bytes= 4",
            "bytes=+4",
            "bytes=-4",
            "bytes=0x4",
            "bytes=4a",
            "bytes=3",
            "bytes=5",
            "bytes=0",
            "bytes=400",
            "bytes=99999",
            "bytes=4294967300",
            "bytes=18446744073709551620",
            "bytes=4\r",
            "byte=4",
            "bytes",
            "",
            "bytes=340282366920938463463374607431768211460",
        ],
    ),
    (7, &["bytes=1", "bytes=01", "bytes=10", "file=x", ""]),
    (
        8,
        &[
            "module=",
            "module=9",
            "module=a b",
            "module=$",
            "module",
            "Module=top",
            "style=ansi",
            "port=in a",
            "end=",
            "",
        ],
    ),
    (
        9,
        &[
            "style=",
            "style=ANSI",
            "style=ansi ",
            "style=non-ansi",
            "style=none",
            "style",
            "port=in clk",
            "module=x",
            "",
        ],
    ),
    (
        10,
        &[
            "port=",
            "port=in",
            "port=in ",
            "port=in  clk",
            "port=input clk",
            "port=in clk ",
            "port=clk",
            "port=in 9",
            "port= in clk",
            "port=in a b",
            "port=IN clk",
            "port=in\tclk",
            "port=- clk",
            "port=net clk",
            "style=ansi",
            "file=x",
            "bytes=0",
            "",
            "conn=star",
        ],
    ),
    (
        12,
        &[
            "decl=",
            "decl=net w",
            "decl=net 2 w",
            "decl=net 0",
            "decl=net 0 ",
            "decl=wire 0 w",
            "decl=net 0 w x",
            "decl=none 0 w",
            "decl=net 00 w",
            "decl=net  0 w",
            "decl=ref 1 9",
            "decl=net - w",
            "decl=Net 0 w",
            "decl=net 0 $w",
            "conn=star",
            "",
        ],
    ),
    (
        14,
        &[
            "inst=",
            "inst=u1 core",
            "inst=2 u1 core",
            "inst=0 u1",
            "inst=0 u1 ",
            "inst=0 u1 core x",
            "inst=0 u1 9",
            "inst=0 - core",
            "inst=0 u1 -",
            "inst=01 u1 core",
            "inst=0  u1 core",
            "inst=0 u1 core ",
            "inst",
            "conn=star",
            "",
        ],
    ),
    (
        15,
        &[
            "conn=",
            "conn=named d",
            "conn=named d ",
            "conn=named d w x",
            "conn=named - w",
            "conn=star x",
            "conn=star ",
            "conn=implicit",
            "conn=implicit ",
            "conn=implicit -",
            "conn=implicit 9",
            "conn=implicit a b",
            "conn=pos",
            "conn=pos ",
            "conn=pos a b",
            "conn=pos a.b",
            "conn=pos --",
            "conn=Star",
            "conn=named  d w",
            "conn=*",
            "conn",
            "",
        ],
    ),
    (21, &["style=nonansi\r", "style=Empty", "style=a"]),
    (22, &["port=in d", "port=out d", "port=inout d", "port=ref d", "port=none", "port=none 1"]),
    (
        26,
        &[
            "end",
            "end= ",
            "end=x",
            "End=",
            "end=\r",
            "",
            "module=",
            "style=ansi",
            "port=in a",
            "file=z",
            "top=top",
        ],
    ),
];

/// Lines that look odd and are well formed: the answer is another one or none.
fn fine(all: &mut Vec<Case>) {
    let rows: [(usize, &str, u32); 22] = [
        (1, "top=core", 0),
        (1, "top=_$9", 7),
        (2, "override=\ttop=x", 12),
        (2, "override= ", 12),
        (2, "override=/", 0),
        (2, "override=top.u1", 0),
        (3, "start=...", 7),
        (3, "start=p.upf ", 7),
        (3, "start=d/q.upf", 0),
        (3, "start= p.upf", 7),
        (6, "file= ", 0),
        (6, "file=.x/..y/z.", 0),
        (6, "file=a=b", 0),
        (10, "port=ref q", 0),
        (10, "port=none q", 0),
        (11, "port=out clk", 0),
        (12, "decl=inout 1 q", 0),
        (13, "decl=net 0 w", 0),
        (14, "inst=0 u1 top2", 0),
        (15, "conn=named d -", 0),
        (15, "conn=pos star", 0),
        (19, "conn=named x_1 $", 4),
    ];
    for row in rows.iter() {
        let place = if row.2 == 4 { row.0 as u32 } else { 0 };
        put(all, &format!("line {} is '{}' (odd)", row.0, row.1), with(row.0, row.1), row.2, place);
    }
    put(all, "style ansi for none", with(21, "style=ansi"), 0, 0);
    put(all, "style nonansi for in", with(9, "style=nonansi"), 4, 10);
    put(all, "style empty with a port", with(9, "style=empty"), 4, 10);
}

/// Refusals 2 and 3 come before any look at the lines.
fn early(all: &mut Vec<Case>) {
    put(all, "65,537 bytes of nothing", vec![b'x'; 65_537], 2, 0);
    put(all, "65,537 bytes of 255", vec![255; 65_537], 2, 0);
    put(all, "65,536 bytes of 255", vec![255; 65_536], 3, 0);
    put(all, "65,536 bytes of nothing", vec![b'x'; 65_536], 4, 1);
    put(all, "65,536 bytes of LF", vec![b'\n'; 65_536], 4, 1);
    let mut large = of_size(65_536);
    large[1000] = 128;
    put(all, "65,536 bytes, one of them 128", large, 3, 0);
    for at in [0, 5, 20, 60, 120].iter() {
        let mut job = sound().concat();
        job[*at] |= 128;
        put(all, &format!("byte {} above 127", at), job, 3, 0);
    }
    let mut job = with(1, "top=");
    let last = job.len() - 1;
    job[last] = 200;
    put(all, "malformed, and a last byte above 127", job, 3, 0);
    put(all, "byte 127 in a name", with(1, "top=a\u{7f}"), 4, 1);
}

/// Bodies and the LF behind them.
fn bodies(all: &mut Vec<Case>) {
    let head = "top=top\noverride=\nstart=p\nfile=p\n";
    let tail = "module=top\nstyle=empty\nend=\n";
    let job = |middle: &str| format!("{}{}{}", head, middle, tail).into_bytes();
    put(all, "body of six bytes", job("bytes=6\nputs a\n"), 0, 0);
    put(all, "body without its LF", job("bytes=6\nputs a"), 4, 5);
    // The seventh byte is the LF that the body needs; then an empty line is at fault.
    put(all, "body of seven, six named, ending in LF", job("bytes=6\nputs a\n\n"), 4, 6);
    put(all, "body with lines", job("bytes=14\nputs a\nputs b\n\n"), 0, 0);
    put(all, "body that looks like lines", job("bytes=13\n#file=p\nend=\n\n"), 0, 0);
    put(all, "body of CR LF", job("bytes=2\n\r\n\n"), 0, 0);
    put(all, "body that ends with CR for LF", job("bytes=2\n\r\n\r\n"), 4, 5);
    // The rest of the job from the body on is 7 + 28 bytes; all of it leaves no LF behind.
    put(all, "body to the end of the job", job("bytes=35\nputs a\n"), 4, 5);
    put(all, "body to one before the end", job("bytes=34\nputs a\n"), 4, 6);
    put(all, "body past the end of the job", job("bytes=36\nputs a\n"), 4, 5);
    put(all, "nothing behind bytes", format!("{}bytes=0\n", head).into_bytes(), 4, 5);
    put(all, "an LF behind bytes and no more", format!("{}bytes=0\n\n", head).into_bytes(), 4, 6);
    put(all, "no LF behind bytes", format!("{}bytes=0", head).into_bytes(), 4, 5);
}

/// Lines out of their order.
fn order(all: &mut Vec<Case>) {
    let rows: [(usize, &str, u32); 22] = [
        (1, "end=", 1),
        (2, "top=top", 2),
        (4, "start=p.upf", 4),
        (5, "file=x", 5),
        (6, "bytes=0", 6),
        (8, "top=top", 8),
        (8, "file=x", 9),
        (9, "port=in a", 9),
        (10, "style=ansi", 10),
        (10, "conn=star", 10),
        (12, "conn=star", 12),
        (14, "port=in z", 14),
        (14, "conn=star", 14),
        (14, "style=ansi", 14),
        (15, "decl=net 0 z", 15),
        (15, "port=in z", 15),
        (17, "decl=net 0 z", 17),
        (20, "port=out z", 20),
        (20, "file=z", 20),
        (22, "conn=star", 22),
        (24, "style=empty", 24),
        (26, "override=", 26),
    ];
    for row in rows.iter() {
        put(all, &format!("'{}' before line {}", row.1, row.0), before(row.0, row.1), 4, row.2);
    }
    put(all, "inst before a declaration", before(12, "inst=0 z core"), 4, 13);
    put(all, "declaration before a port", before(11, "decl=net 0 z"), 4, 12);
}

/// Lines left out.
fn left_out(all: &mut Vec<Case>) {
    put(all, "no top line", without(1, 1), 4, 1);
    put(all, "no override line", without(2, 2), 4, 2);
    put(all, "no start line", without(3, 3), 4, 3);
    put(all, "no file line", without(4, 4), 4, 4);
    put(all, "no bytes line", without(5, 5), 4, 5);
    put(all, "no file at all", without(4, 7), 4, 4);
    put(all, "no module at all", without(8, 25), 4, 8);
    put(all, "no style line", without(9, 9), 4, 9);
    put(all, "no instance line", without(14, 14), 4, 14);
    put(all, "no second module line", without(20, 20), 4, 20);
    put(all, "only one file", without(6, 7), 0, 0);
    put(all, "no core", without(20, 25), 0, 0);
    put(all, "no ports", without(10, 11), 0, 0);
}

/// Cut off jobs and bytes behind the end.
fn ends(all: &mut Vec<Case>) {
    put(all, "empty job", Vec::new(), 4, 1);
    put(all, "a lone LF", b"\n".to_vec(), 4, 1);
    for n in 1..26 {
        let job = sound()[..n].concat();
        put(all, &format!("cut behind line {}", n), job.clone(), 4, n as u32 + 1);
        put(
            all,
            &format!("cut before the LF of line {} or its body", n),
            job[..job.len() - 1].to_vec(),
            4,
            n as u32,
        );
    }
    let whole = sound().concat();
    put(all, "end= without LF", whole[..whole.len() - 1].to_vec(), 4, 26);
    for more in ["\n", "x", "end=\n", " ", "\u{0}", "module=z\nstyle=empty\nend=\n"].iter() {
        let job = [&whole[..], more.as_bytes()].concat();
        put(all, &format!("'{}' behind the end", more.escape_default()), job, 4, 27);
    }
    put(all, "end= before the second module", before(20, "end="), 4, 21);
    put(
        all,
        "lines that end in CR LF",
        String::from_utf8_lossy(&whole).replace("\n", "\r\n").into_bytes(),
        4,
        1,
    );
}

/// Refusal 6.
fn doubled(all: &mut Vec<Case>) {
    put(all, "file doubled", with(6, "file=p.upf"), 6, 6);
    put(all, "instance doubled", with(17, "inst=1 u1 core"), 6, 17);
    put(all, "instance doubled with another module", with(17, "inst=0 u1 leaf"), 6, 17);
    put(all, "module doubled", with(20, "module=top"), 6, 20);
    put(all, "module doubled later", before(26, "module=core"), 6, 26);
    put(all, "file doubled in another case", with(6, "file=P.upf"), 0, 0);
    put(all, "module in another case", with(20, "module=Top"), 0, 0);
    put(all, "instance of one name in two modules", before(26, "inst=0 u1 x"), 0, 0);
    put(all, "port doubled", with(11, "port=out clk"), 0, 0);
    put(all, "declaration doubled", with(13, "decl=net 0 w"), 0, 0);
    put(all, "connection doubled", with(16, "conn=named d w"), 0, 0);
    put(all, "instance named as a port and a module", with(14, "inst=0 top core"), 0, 0);
}

/// Refusal 7.
fn unlisted(all: &mut Vec<Case>) {
    put(all, "top not listed", with(1, "top=lost"), 7, 0);
    put(all, "top in another case", with(1, "top=TOP"), 7, 0);
    put(all, "top longer than a module", with(1, "top=topp"), 7, 0);
    put(all, "top shorter than a module", with(1, "top=to"), 7, 0);
    put(all, "start not listed", with(3, "start=lost"), 7, 0);
    put(all, "start without its directory", with(3, "start=q.upf"), 7, 0);
    put(all, "start longer than a file", with(3, "start=p.upf2"), 7, 0);
}

/// The first line at fault answers, and all lines come before 7 and reading.
fn first_fault(all: &mut Vec<Case>) {
    let two = |a: (usize, &str), b: (usize, &str)| {
        let mut lines = sound();
        for x in [a, b].iter() {
            let old = SOUND[x.0 - 1].len();
            lines[x.0 - 1].splice(..old, x.1.bytes());
        }
        lines.concat()
    };
    put(all, "doubled, then malformed", two((6, "file=p.upf"), (10, "port=x y")), 6, 6);
    put(all, "doubled, then its bytes line malformed", two((6, "file=p.upf"), (7, "bytes=x")), 6, 6);
    put(all, "malformed, then doubled", two((10, "port=x y"), (17, "inst=1 u1 core")), 4, 10);
    put(all, "top not listed, and malformed", two((1, "top=lost"), (26, "end")), 4, 26);
    put(all, "start not listed, and doubled", two((3, "start=lost"), (20, "module=top")), 6, 20);
    put(all, "top and start not listed", two((1, "top=lost"), (3, "start=lost")), 7, 0);
    put(all, "top not listed, and a lost override", two((1, "top=lost"), (2, "override=nope")), 7, 0);
    put(all, "malformed end, and bytes past the job", two((5, "bytes=9999"), (26, "end")), 4, 5);
}
