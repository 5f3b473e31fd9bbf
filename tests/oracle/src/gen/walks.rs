//! Boundary jobs for generation: type search, scope, walk, paths, isolated ports, warnings, texts.
//!
//! All places are 0. Text buffers are taken to be 65,536 bytes each.

use super::bounds::{put, Sheet};
use super::Case;

/// A domain over these elements with both supplies.
const DOMAIN: &str = "create_power_domain P -elements {@}
set_domain_supply_net P -primary_power_net a -primary_ground_net b
";

/// top has two instances of core, the second an array, and one of an unlisted module; core has an
/// instance `top` of leaf; lone is used nowhere.
const SCOPES: &str = "module=top
style=empty
inst=0 u1 core
inst=1 u2 core
inst=0 g ghost
module=core
style=empty
inst=0 top leaf
module=leaf
style=empty
module=lone
style=empty
";

/// One-letter names.
const LETTERS: &str = "abcdefghijklmnopqrstuvwxyzABCDEFGHIJKLMNOPQRSTUVWXYZ_";

/// The limits of generation.
pub fn cases(all: &mut Vec<Case>) {
    type_calls(all);
    type_depth(all);
    design_tops(all);
    overrides(all);
    entered(all);
    entered_past(all);
    walk_depth(all);
    paths(all);
    path_bytes(all);
    isolated(all);
    all_warnings(all);
    texts(all);
    runaway(all);
}

fn domain(elements: &str) -> String {
    DOMAIN.replace("@", elements)
}

/// A module without ports that has these instances.
fn module(name: &str, insts: &[(&str, usize)]) -> String {
    let mut t = format!("module={}\nstyle=empty\n", name);
    let mut k = 0;
    for i in insts {
        for _ in 0..i.1 {
            t.push_str(&format!("inst=0 u{} {}\n", k, i.0));
            k += 1;
        }
    }
    t
}

/// top: 63 of a (63 leaves each), one b; b: `leaves` leaves, then what `last` names.
///
/// Calls of the search: top 1, each a 64, b 1, its leaves: 1 + 63 * 64 + 1 + leaves.
fn searched(leaves: usize, last: &[(&str, usize)]) -> String {
    let mut inside = vec![("leaf", leaves)];
    inside.extend_from_slice(last);
    format!(
        "{}{}{}{}{}",
        module("top", &[("a", 63), ("b", 1)]),
        module("a", &[("leaf", 63)]),
        module("b", &inside),
        module("leaf", &[]),
        module("kind", &[])
    )
}

fn type_calls(all: &mut Vec<Case>) {
    let job = |mods: &str| Sheet::new("set_design_top kind").mods(mods).bytes();
    // The instance of the type is found by its name, without a call of its own.
    put(all, "type found by 4,096 calls", job(&searched(62, &[("kind", 1)])), 0, 0);
    put(all, "type found by 4,097 calls", job(&searched(63, &[("kind", 1)])), 13, 0);
    put(all, "type not found by 4,096 calls", job(&searched(62, &[])), 11, 0);
    put(all, "type not found by 4,097 calls", job(&searched(63, &[])), 13, 0);
    // An unlisted module is not called.
    let ghost = job(&searched(62, &[("ghost", 1)]));
    put(all, "type not found by 4,096 calls and an unlisted module", ghost, 11, 0);
    // 13 before 12: the type is found, its module is not listed.
    let unlisted = |n: usize| searched(n, &[("kind", 1)]).replace("module=kind\nstyle=empty\n", "");
    put(all, "unlisted type found by 4,096 calls", job(&unlisted(62)), 12, 0);
    put(all, "unlisted type found by 4,097 calls", job(&unlisted(63)), 13, 0);
    // The search ends at the first instance of the type; behind it are more than 8,000 modules.
    let rest = [module("a", &[("leaf", 64)]), module("leaf", &[("tip", 1)]), module("tip", &[])].concat();
    let early = [module("top", &[("kind", 1), ("a", 63)]), module("kind", &[]), rest].concat();
    put(all, "type found by the first instance", job(&early), 0, 0);
    // With an override, or for the top itself, nothing is searched.
    let over = Sheet::new("set_design_top kind").mods(&searched(63, &[("kind", 1)])).over("/").bytes();
    put(all, "type search of 4,097 calls under an override", over, 0, 0);
    let own = Sheet::new("set_design_top top").mods(&searched(63, &[("kind", 1)])).bytes();
    put(all, "type search of 4,097 calls for the top itself", own, 0, 0);
}

/// A chain top, c1 to c`n`, each with `more(i)` behind the chain's instance.
fn chain(n: usize, more: &dyn Fn(usize) -> Vec<(&'static str, usize)>) -> String {
    let mut t = String::new();
    for i in 0..n + 1 {
        let name = if i == 0 { "top".to_string() } else { format!("c{}", i) };
        let next = format!("c{}", i + 1);
        let mut insts: Vec<(&str, usize)> = Vec::new();
        if i < n {
            insts.push((&next, 1));
        }
        insts.extend(more(i));
        t.push_str(&module(&name, &insts));
    }
    t
}

fn type_depth(all: &mut Vec<Case>) {
    let job = |n: usize, dt: &str| {
        let mods = chain(n, &|_| vec![]);
        Sheet::new(&format!("set_design_top {}", dt)).mods(&mods).bytes()
    };
    put(all, "type 32 instances down", job(32, "c32"), 0, 0);
    put(all, "type 33 instances down", job(33, "c33"), 0, 0);
    put(all, "type 34 instances down", job(34, "c34"), 11, 0);
    // Calls past depth 32 count. top and c1 to c31: 32; c31 has 62 of c32 with 64 leaves: 62 * 65;
    // c30 has 34 or 35 leaves: 32 + 4,030 + 34 = 4,096.
    let past = |n: usize| {
        let mods = format!("{}{}", deep(n), module("kind", &[]));
        Sheet::new("set_design_top kind").mods(&mods).bytes()
    };
    put(all, "type found by 4,096 calls, some past depth 32", past(34), 0, 0);
    put(all, "type found by 4,097 calls, some past depth 32", past(35), 13, 0);
}

/// The chain to c31 whose end has 62 of c32, these 64 leaves each; c30 has `n` leaves.
fn deep(n: usize) -> String {
    let more = |i: usize| match i {
        0 => vec![("kind", 1)],
        30 => vec![("leaf", n)],
        31 => vec![("c32", 62)],
        _ => vec![],
    };
    format!("{}{}{}", chain(31, &more), module("c32", &[("leaf", 64)]), module("leaf", &[]))
}

fn scoped(text: &str, over: &str) -> Vec<u8> {
    Sheet::new(text).over(over).mods(SCOPES).bytes()
}

fn design_tops(all: &mut Vec<Case>) {
    let tops = [
        ("top", 0),
        ("core", 0),
        ("leaf", 0),
        ("lone", 11),
        ("none", 11),
        ("{}", 11),
        ("", 11),
        ("ghost", 12),
        ("u1", 11),
        ("Top", 11),
        ("\"core\"", 0),
    ];
    for t in tops.iter() {
        let text = format!("set_design_top {}", t.0);
        put(all, &format!("design top '{}'", t.0), scoped(&text, ""), t.1, 0);
    }
    // The first design top counts, and only one set at the root.
    put(all, "second design top", scoped("set_design_top core\nset_design_top none", ""), 0, 0);
    put(all, "design top below a scope", scoped("set_scope k\nset_design_top none", ""), 0, 0);
    let after = "set_scope k\nset_scope .\nset_design_top none";
    put(all, "design top after a scope", scoped(after, ""), 11, 0);
}

/// With an override the design top is not looked at.
fn overrides(all: &mut Vec<Case>) {
    let overs = [
        ("u1", 0),
        ("u2", 0),
        ("/u1", 0),
        ("top", 0),
        ("/", 0),
        (".", 0),
        ("top.u1", 0),
        ("/top/u1/", 0),
        ("u1.top", 0),
        ("u1//top", 0),
        ("top.top", 12),
        ("top/u1/top", 0),
        ("g", 12),
        ("nope", 12),
        ("u1/nope", 12),
        ("u1 ", 12),
        (" ", 12),
        ("core", 12),
        ("top.top.u1", 12),
        ("u1/top/x", 12),
    ];
    for o in overs.iter() {
        put(all, &format!("override '{}'", o.0), scoped("set_design_top none", o.0), o.1, 0);
    }
}

/// top: `n` of a (63 leaves each: 64 entered), one b with `leaves`; no names at all.
fn walked(n: usize, leaves: usize) -> String {
    let a = if n > 0 { module("a", &[("leaf", 63)]) } else { String::new() };
    let top = module("top", &[("a", n), ("b", 1)]);
    format!("{}{}{}{}", top, a, module("b", &[("leaf", leaves)]), module("leaf", &[]))
}

fn entered(all: &mut Vec<Case>) {
    let job = |text: &str, mods: &str| Sheet::new(text).mods(mods).bytes();
    // top 1, 63 * 64, b 1, its leaves: 4,034 + leaves.
    put(all, "4,096 modules entered", job(&domain("."), &walked(63, 62)), 0, 0);
    put(all, "4,097 modules entered", job(&domain("."), &walked(63, 63)), 13, 0);
    // A module at a retained path is not entered, nor what is beneath it.
    let kept = |e: &str| format!("{}set_retention R -elements {}\n", domain("."), e);
    put(all, "4,096 modules entered and one retained", job(&kept("u63/u0"), &walked(63, 63)), 0, 0);
    put(all, "4,097 modules entered and a retention of nothing", job(&kept("{}"), &walked(63, 63)), 13, 0);
    put(all, "4,097 modules entered but for the retained top", job(&kept("{{}}"), &walked(63, 63)), 0, 0);
    put(
        all,
        "4,097 modules entered and another retained path",
        job(&kept("u63/u63"), &walked(63, 63)),
        13,
        0,
    );
    // Each time counted: u0 is entered with 64 modules, 64 times.
    let same = |n: usize, more: &str| domain(&format!("{}{}", "u0 ".repeat(n), more));
    put(all, "4,096 modules entered by a repeated element", job(&same(64, ""), &walked(63, 1)), 0, 0);
    put(all, "4,096 modules entered by two elements", job(&same(63, "u63"), &walked(63, 63)), 0, 0);
    put(all, "4,097 modules entered by two elements", job(&same(63, "u63"), &walked(63, 64)), 13, 0);
    // One domain's walk: two domains of 4,096 each are within the limit.
    let two = format!("{}{}", domain("."), domain(".").replace(" P ", " Q "));
    put(all, "4,096 modules entered by each of two domains", job(&two, &walked(63, 62)), 0, 0);
    // Without both supplies there is no walk.
    let off = domain(".").replace(" -primary_ground_net b", "");
    put(all, "4,097 modules below a domain without ground", job(&off, &walked(63, 63)), 0, 0);
}

/// Modules past depth 32 are not entered, an array instance on the way neither.
fn entered_past(all: &mut Vec<Case>) {
    // Entered: top, c1 to c31, 62 of c32, 63 leaves, kind: far below 4,096.
    let mods = format!("{}{}", deep(63), module("kind", &[]));
    put(all, "modules past depth 32 not entered", Sheet::new(&domain(".")).mods(&mods).bytes(), 0, 0);
    // From c1 the leaves of c32 are at depth 32: 31 + 62 * 65 + leaves of c30.
    // Under the element u0: c1 to c31 are 31, 62 * 65 = 4,030, so 35 leaves make 4,096.
    let from = |n: usize| {
        let mods = format!("{}{}", deep(n), module("kind", &[]));
        Sheet::new(&domain("u0")).mods(&mods).bytes()
    };
    put(all, "4,096 modules entered, the last at depth 32", from(35), 0, 0);
    put(all, "4,097 modules entered, the last at depth 32", from(36), 13, 0);
    let arrays = walked(63, 63).replace("inst=0 u63 b", "inst=1 u63 b");
    put(all, "4,097 modules but for an array", Sheet::new(&domain(".")).mods(&arrays).bytes(), 0, 0);
}

/// The texts show that depth 32 is listed and depth 33 is not.
fn walk_depth(all: &mut Vec<Case>) {
    for n in 31..35 {
        let mods = format!("{}decl=net 0 w\n", chain(n, &|_| vec![]));
        // The last module of the chain has no instances, so its declaration may follow.
        put(all, &format!("a name {} instances down", n), Sheet::new(&domain(".")).mods(&mods).bytes(), 0, 0);
    }
}

/// A module with `n` nets of one letter, then instances of one letter.
fn lettered(name: &str, n: usize, insts: &[(&str, usize)]) -> String {
    let mut t = format!("module={}\nstyle=empty\n", name);
    for c in LETTERS.chars().take(n) {
        t.push_str(&format!("decl=net 0 {}\n", c));
    }
    let mut k = 0;
    for i in insts {
        for c in LETTERS.chars().skip(k).take(i.1) {
            t.push_str(&format!("inst=0 {} {}\n", c, i.0));
        }
        k += i.1;
    }
    t
}

/// top has 53 nets, 18 instances of 53 nets, one of `n`: 1,007 + n paths of at most 3 bytes.
fn short(n: usize) -> String {
    format!(
        "{}{}{}",
        lettered("top", 53, &[("m", 18), ("n", 1)]),
        lettered("m", 53, &[]),
        lettered("n", n, &[])
    )
}

fn paths(all: &mut Vec<Case>) {
    let job = |text: &str, n: usize| Sheet::new(text).mods(&short(n)).bytes();
    put(all, "1,024 paths", job(&domain("."), 17), 0, 0);
    put(all, "1,025 paths", job(&domain("."), 18), 13, 0);
    // A path is listed once, however often it is reached.
    put(all, "1,024 paths reached twice", job(&domain(". . a"), 17), 0, 0);
    let kept = format!("{}set_retention R -elements s\n", domain("."));
    put(all, "1,025 paths but for retained ones", job(&kept, 18), 0, 0);
    // Two domains: each has its own limit. 53 + 8 * 53 + 36 is 513.
    let half = format!(
        "{}{}{}",
        lettered("top", 53, &[("m", 8), ("n", 1)]),
        lettered("m", 53, &[]),
        lettered("n", 36, &[])
    );
    let two = format!("{}{}", domain("."), domain(".").replace(" P ", " Q "));
    put(all, "513 paths of each of two domains", Sheet::new(&two).mods(&half).bytes(), 0, 0);
}

/// A module with 128 nets: the first `first` bytes long, the others `rest` bytes.
fn long(name: &str, first: usize, rest: usize, insts: &str) -> String {
    let mut t = format!("module={}\nstyle=empty\n", name);
    for i in 0..128 {
        let len = if i == 0 { first } else { rest };
        t.push_str(&format!("decl=data 0 {:x<1$}\n", format!("n{}_", i), len));
    }
    t.push_str(insts);
    t
}

fn path_bytes(all: &mut Vec<Case>) {
    // top: 128 names of 64 bytes; a, b, c: 128 paths of 1 + 1 + 62 bytes: 4 * 8,192 bytes.
    let job = |first: usize| {
        let top = long("top", 64, 64, "inst=0 a m\ninst=0 b m\ninst=0 c n\n");
        let mods = format!("{}{}{}", top, long("m", 62, 62, ""), long("n", first, 62, ""));
        Sheet::new(&domain(".")).mods(&mods).bytes()
    };
    // The glue holds each path three times, so 32,768 bytes of paths cannot fit in 65,536.
    put(all, "32,768 bytes of paths (glue over 65,536)", job(62), 14, 0);
    put(all, "32,769 bytes of paths", job(63), 13, 0);
    // Each domain has its own sum: three of 16,384 bytes are within the limit.
    let mods = format!("{}{}", long("top", 64, 64, "inst=0 a m\n"), long("m", 62, 62, ""));
    let three: String =
        ["P", "Q", "R"].iter().map(|d| domain(".").replace(" P ", &format!(" {} ", d))).collect();
    put(
        all,
        "16,384 bytes of paths of each of three domains (glue over 65,536)",
        Sheet::new(&three).mods(&mods).bytes(),
        14,
        0,
    );
}

/// t: instances a to d of m with 64 outputs, e of one output; all connected by star.
fn outputs() -> String {
    let mut t = "module=t\nstyle=empty\n".to_string();
    for i in ["a m", "b m", "c m", "d m", "e n"].iter() {
        t.push_str(&format!("inst=0 {}\nconn=star\n", i));
    }
    t.push_str("module=m\nstyle=ansi\nport=out p0\n");
    for i in 1..64 {
        t.push_str(&format!("port=none p{}\n", i));
    }
    t.push_str("module=n\nstyle=ansi\nport=out q\n");
    t
}

fn isolated(all: &mut Vec<Case>) {
    let job = |text: &str| Sheet::new(text).top("t").mods(&outputs()).bytes();
    let strategy = |els: &str| {
        format!(
            "create_power_domain P\nset_isolation {{}} -domain P -isolation_signal w -elements {{{}}}\n",
            els
        )
    };
    put(all, "256 isolated ports", job(&strategy("a b c d")), 0, 0);
    put(all, "257 isolated ports", job(&strategy("a b c d e")), 13, 0);
    put(all, "257 isolated ports by a port", job(&strategy("a b c d e/q")), 13, 0);
    // A port that is kept already counts no more; one that is not there neither.
    put(all, "256 isolated ports named twice", job(&strategy("a b c d a/p0 b d/p63")), 0, 0);
    put(all, "256 isolated ports and lost instances", job(&strategy("a b c d f/q f g/h/p0")), 0, 0);
    let more = |els: &str| {
        format!("{}set_isolation {{}} -domain P -isolation_signal w -elements {{{}}}\n", strategy("a b"), els)
    };
    put(all, "256 isolated ports by two strategies", job(&more("c b d")), 0, 0);
    put(all, "257 isolated ports by two strategies", job(&more("c b d e")), 13, 0);
    let by_domain =
        "create_power_domain P -elements {a b c d @}\nset_isolation {} -domain P -isolation_signal w\n";
    put(all, "256 isolated ports of a domain's elements", job(&by_domain.replace("@", "")), 0, 0);
    put(all, "257 isolated ports of a domain's elements", job(&by_domain.replace("@", "e")), 13, 0);
    let unplain = outputs().replace("inst=0 e n\nconn=star", "inst=0 e n\nconn=named q -");
    let text = strategy("a b c d e");
    put(
        all,
        "256 isolated ports and one without a plain net",
        Sheet::new(&text).top("t").mods(&unplain).bytes(),
        0,
        0,
    );
}

fn all_warnings(all: &mut Vec<Case>) {
    // Four domains of 64 elements that are not there: 256 warnings of generation.
    let four: String =
        (0..4).map(|i| domain(&" w".repeat(64)).replace(" P ", &format!(" P{} ", i))).collect();
    let fifth = domain("w").replace(" P ", " Q ");
    let read = "bogus\n".repeat(256);
    let job = |text: String| Sheet::new(&text).bytes();
    put(all, "512 warnings", job(format!("{}{}", four, read)), 0, 0);
    put(all, "513 warnings", job(format!("{}{}{}", four, fifth, read)), 13, 0);
    put(all, "512 warnings, one less read", job(format!("{}{}{}", four, fifth, "bogus\n".repeat(255))), 0, 0);
    // Switches: 8 switches, each 32 states with a wrong input and an unknown port: 512 warnings.
    let switch = |n: usize| format!("create_power_switch S{}\n", " -on_state {a b c}".repeat(n));
    put(all, "512 warnings of switches", job(switch(32).repeat(8)), 0, 0);
    put(all, "514 warnings of switches", job(format!("{}{}", switch(32).repeat(8), switch(1))), 13, 0);
    // Isolations without a signal: one warning each.
    let isos = |n: usize| format!("{}{}", switch(32).repeat(7), "set_isolation I\n".repeat(n));
    put(all, "480 warnings of switches and isolations", job(isos(32)), 0, 0);
    put(
        all,
        "513 warnings of switches, isolations and reading",
        job(format!("{}{}", isos(32), "bogus\n".repeat(33))),
        13,
        0,
    );
    put(
        all,
        "512 warnings of switches, isolations and reading",
        job(format!("{}{}", isos(32), "bogus\n".repeat(32))),
        0,
        0,
    );
}

/// 14 where a text does not fit, after all other checks.
fn texts(all: &mut Vec<Case>) {
    // The log has 7 bytes more for each puts: 2 * (32,000 + 7) + n + 7 is 65,536 for n 1,515.
    let q = format!("puts {{{}}}", "x".repeat(32_000));
    let log = |n: usize| {
        let p = format!("load_upf q\nload_upf q\nputs {}\n", "y".repeat(n));
        Sheet::new(&p).file("q", &q).bytes()
    };
    put(all, "log of 65,536 bytes", log(1_515), 0, 0);
    put(all, "log of 65,537 bytes", log(1_516), 14, 0);
    // The report: the scope's line has 34 bytes, a shifter's 32 with its LF and without its name:
    // 34 + 2 * (32 + 32,000) + 32 + n is 65,536 for n 1,406.
    let q = format!("set_level_shifter {{{}}}", "x".repeat(32_000));
    let report = |n: usize| {
        let p = format!("load_upf q\nload_upf q\nset_level_shifter {}\n", "y".repeat(n));
        Sheet::new(&p).file("q", &q).bytes()
    };
    put(all, "report of 65,536 bytes", report(1_406), 0, 0);
    put(all, "report of 65,537 bytes", report(1_407), 14, 0);
    // The glue has the ground's name once; all else of it is GLUE_REST bytes.
    let glue = |n: usize| {
        let p = format!(
            "create_power_domain P\nset_domain_supply_net P -primary_power_net a -primary_ground_net {}\n",
            "g".repeat(n)
        );
        Sheet::new(&p).bytes()
    };
    put(all, "glue of 65,536 bytes", glue(65_536 - GLUE_REST), 0, 0);
    put(all, "glue of 65,537 bytes", glue(65_537 - GLUE_REST), 14, 0);
    // 13 is asked before 14.
    let both = format!("load_upf q\nload_upf q\nload_upf q\n{}", domain("."));
    let q = format!("puts {{{}}}", "x".repeat(30_000));
    put(all, "log and walk too large", Sheet::new(&both).file("q", &q).mods(&walked(63, 63)).bytes(), 13, 0);
    put(all, "log too large and scope lost", Sheet::new(&both).file("q", &q).over("nope").bytes(), 12, 0);
}

/// Bytes of the glue of a lone domain `P` with power `a`, without its ground's name: the heading
/// 68, the wire 35, the block 363.
const GLUE_REST: usize = 466;

/// Two ways round a loop: 2 to the 32nd modules. The Rust does not come back.
fn runaway(all: &mut Vec<Case>) {
    let mods = "module=top\nstyle=empty\ninst=0 a top\ninst=0 b top\n";
    put(all, "runaway walk", Sheet::new(&domain(".")).mods(mods).bytes(), 13, 0);
    put(all, "runaway type search", Sheet::new("set_design_top none").mods(mods).bytes(), 13, 0);
    let kept = format!("{}set_retention R -elements {{a b}}\n", domain("."));
    put(all, "loop of two ways, both retained", Sheet::new(&kept).mods(mods).bytes(), 0, 0);
    let one = "module=top\nstyle=empty\ndecl=net 0 w\ninst=0 a top\n";
    put(all, "loop of one way", Sheet::new(&domain(".")).mods(one).bytes(), 0, 0);
    put(
        all,
        "type search round a loop of one way",
        Sheet::new("set_design_top none").mods(one).bytes(),
        11,
        0,
    );
}
