//! Limits, each met and passed by one, and how they are counted.

use super::{domain, job, worked, Test, WORKED};

pub fn all(t: &mut Test) {
    lines(t);
    commands(t);
    substitution(t);
    scopes(t);
    lists(t);
    records(t);
    loads(t);
    search(t);
    walk(t);
    listed(t);
    isolation(t);
    warnings(t);
}

/// `line` for each number, `{}` replaced by it.
fn repeat(count: usize, line: &str) -> String {
    (0..count).map(|n| line.replace("{}", &n.to_string())).collect()
}

fn lines(t: &mut Test) {
    let files = |n: usize| {
        let paths: Vec<String> = (0..n).map(|n| format!("f{n}")).collect();
        let files: Vec<_> = paths.iter().map(|p| (p.as_str(), "")).collect();
        job("", &files, WORKED)
    };
    t.answer("32 files", &files(32), (0, 0));
    t.answer("33 files", &files(33), (5, 4 + 64));
    let modules = |m: String| job("", &[("p", "")], &format!("module=top\nstyle=ansi\n{m}"));
    t.answer("128 modules", &modules(repeat(127, "module=m{}\nstyle=empty\n")), (0, 0));
    t.answer("129 modules", &modules(repeat(128, "module=m{}\nstyle=empty\n")), (5, 8 + 254));
    t.answer("64 ports", &modules(repeat(64, "port=out p{}\n")), (0, 0));
    t.answer("65 ports", &modules(repeat(65, "port=out p{}\n")), (5, 72));
    t.answer("128 declarations", &modules(repeat(128, "decl=net 0 d{}\n")), (0, 0));
    t.answer("129 declarations", &modules(repeat(129, "decl=net 0 d{}\n")), (5, 136));
    t.answer("64 instances", &modules(repeat(64, "inst=0 i{} x\n")), (0, 0));
    t.answer("65 instances", &modules(repeat(65, "inst=0 i{} x\n")), (5, 72));
    let conns = |n| modules("inst=0 i x\n".to_string() + &repeat(n, "conn=pos n{}\n"));
    t.answer("64 connections", &conns(64), (0, 0));
    t.answer("65 connections", &conns(65), (5, 73));
    let same = modules(repeat(64, "inst=0 i{} x\n") + "inst=0 i0 x\n");
    t.answer("limit before newness", &same, (5, 72));
    let bad = modules(repeat(64, "inst=0 i{} x\n") + "inst=0 9 x\n");
    t.answer("form before limit", &bad, (4, 72));
}

fn commands(t: &mut Test) {
    t.answer("1,024 commands", &worked(&repeat(1_024, "query_x\n")), (0, 0));
    t.answer("1,025 commands", &worked(&repeat(1_025, "query_x\n")), (10, 1_025));
    let words = |n: usize| worked(&format!("query_x{}", " a".repeat(n - 1)));
    t.answer("128 words", &words(128), (0, 0));
    t.answer("129 words", &words(129), (10, 1));
    t.answer("64 sets", &worked(&repeat(64, "set a b\n")), (0, 0));
    t.answer("65 sets", &worked(&repeat(65, "set a b\n")), (10, 65));
    t.answer("a set of nothing counts nothing", &worked(&repeat(80, "set a\n")), (0, 0));
    t.answer("a set of the empty name counts", &worked(&repeat(65, "set {} x\n")), (10, 65));
    t.answer("256 warnings", &worked(&repeat(256, "foo\n")), (0, 0));
    t.answer("257 warnings", &worked(&repeat(257, "foo\n")), (10, 257));
}

fn substitution(t: &mut Test) {
    let puts = |word: String| worked(&format!("puts {word}"));
    t.answer("a `$` that stays, 16,384 bytes", &puts(format!("${}", "-".repeat(16_383))), (0, 0));
    t.answer("16,385 bytes", &puts(format!("${}", "-".repeat(16_384))), (10, 1));
    t.answer("quoted, 16,384 bytes", &puts(format!("\"\\{}\"", "-".repeat(16_384))), (0, 0));
    t.answer("quoted, 16,385 bytes", &puts(format!("\"{}\"", "-".repeat(16_385))), (10, 1));
    t.answer("plain words count nothing", &puts("-".repeat(30_000)), (0, 0));
    t.answer("braced words count nothing", &puts(format!("{{${}}}", "-".repeat(30_000))), (0, 0));
    let twice = format!("puts \"{0}\"\nputs \"{0}\"\nputs \"\"\nputs \"a\"", "-".repeat(8_192));
    t.answer("all words together", &worked(&twice), (10, 4));
    let value = format!("set V {}\nload_upf q", "v".repeat(600));
    let late = format!("load_upf nofile\nputs {}", "$V".repeat(40));
    let run = job("", &[("p", &value), ("q", &late)], WORKED);
    t.answer("counted when carried out", &run, (9, 3));
    let early = format!("puts {}\nload_upf nofile", "$V".repeat(40));
    let run = job("", &[("p", &value), ("q", &early)], WORKED);
    t.answer("counted before the next command", &run, (10, 3));
    let list = format!("create_power_domain A -elements {{\"{}\"}}", "a".repeat(20_000));
    t.answer("entries of lists count nothing", &worked(&list), (0, 0));
}

fn scopes(t: &mut Test) {
    let scope = |n: usize| worked(&format!("set_scope {}", "s".repeat(n)));
    t.answer("a scope of 512", &scope(512), (0, 0));
    t.answer("a scope of 513", &scope(513), (10, 1));
    let long = format!("set_scope {}\n", "s".repeat(512));
    let stay = |n: usize| {
        let upf = long.clone() + &repeat(n, "load_upf q -scope .\n");
        job("", &[("p", &upf), ("q", "")], WORKED)
    };
    t.answer("8,192 bytes, staying counted", &stay(15), (0, 0));
    t.answer("past 8,192 bytes", &stay(16), (10, 17));
    let plain = long.clone() + &repeat(40, "load_upf q\n");
    t.answer("a load without a scope", &job("", &[("p", &plain), ("q", "")], WORKED), (0, 0));
    let roots = repeat(16, &long.replace("set_scope ", "set_scope /")) + &repeat(9, "set_scope .\n");
    t.answer("the root counts nothing", &worked(&roots), (0, 0));
    t.answer("one byte past", &worked(&(roots + "set_scope a")), (10, 26));
    let before = long + "load_upf nofile -scope s";
    t.answer("limit before the path", &worked(&before), (10, 2));
}

fn lists(t: &mut Test) {
    let value = |n: usize| format!("{{{}}}", repeat(n, "a "));
    let one = |n: usize| worked(&format!("create_power_domain A -elements {}", value(n)));
    t.answer("64 entries", &one(64), (0, 0));
    t.answer("65 entries", &one(65), (10, 1));
    let all = repeat(16, &format!("create_pst A -supplies {}\n", value(64)));
    t.answer("1,024 entries", &worked(&all), (0, 0));
    t.answer("1,025 entries", &worked(&(all.clone() + "create_pst A -supplies a")), (10, 17));
    t.answer("an empty value counts nothing", &worked(&(all + "create_pst A -supplies {}")), (0, 0));
    for read in [
        "set_isolation I -elements L -no_isolation",
        "set_isolation I -elements L -update",
        "add_pst_state s -pst unknown -state L",
        "create_power_switch S -off_state L -off_state a",
        "create_power_switch S -on_state L",
        "create_power_switch S -input_supply_port L",
        "create_power_switch S -output_supply_port L",
        "create_power_switch S -control_port L",
        "add_port_state P -state L",
        "connect_supply_net N -ports L",
        "set_retention R -elements L",
        "create_pst P -supplies L",
    ] {
        let run = |n| worked(&read.replace(" L", &format!(" {}", value(n))));
        t.answer(&format!("64: {read}"), &run(64), (0, 0));
        t.answer(&format!("65: {read}"), &run(65), (10, 1));
    }
    for unread in [
        "create_power_domain A -elements L -elements a",
        "create_supply_net A -elements L",
        "set_level_shifter A -domain L",
    ] {
        let run = worked(&unread.replace(" L", &format!(" {}", value(65))));
        t.answer(&format!("not read: {unread}"), &run, (0, 0));
    }
}

fn records(t: &mut Test) {
    for line in [
        "create_power_domain A\n",
        "create_supply_net N{}\n",
        "create_supply_port N\n",
        "create_power_switch S\n",
        "set_isolation I\n",
        "set_retention R\n",
        "set_level_shifter L\n",
        "add_port_state P\n",
        "create_pst T\n",
    ] {
        t.answer(&format!("32: {line}"), &worked(&repeat(32, line)), (0, 0));
        t.answer(&format!("33: {line}"), &worked(&repeat(33, line)), (10, 33));
    }
    t.answer("a known net", &worked(&repeat(40, "create_supply_net N\n")), (0, 0));
    let states = "create_pst T\n".to_string() + &repeat(200, "add_pst_state s{} -pst T\n");
    t.answer("states of a table", &worked(&states), (0, 0));
    let update = repeat(32, "set_isolation I{}\n") + "set_isolation I5 -update\n";
    t.answer("an update is no record", &worked(&update), (0, 0));
    t.answer("an update of none is one", &worked(&(update + "set_isolation X -update")), (10, 34));
}

fn loads(t: &mut Test) {
    let files = [("p", "load_upf q"), ("q", "load_upf nofile")];
    t.answer("a load has its number first", &job("", &files, WORKED), (9, 2));
    let files = [("d/p", "puts a\nload_upf q"), ("d/q", "load_upf e/r"), ("d/e/r", "puts b")];
    t.answer("joined to the directory", &job("", &files, WORKED), (0, 0));
    for path in ["./q", "../d/q", "/d/q", "d/q", "q/", "{}", "/q"] {
        let load = format!("load_upf {path}");
        let run = job("", &[("d/p", &load), ("d/q", "")], WORKED);
        t.answer(&format!("as text: {path}"), &run, (9, 1));
    }
    let deep = "load_upf p.upf\n";
    t.answer("depth before path", &worked(&("load_upf p.upf\n".repeat(2))), (8, 17));
    let first = deep.to_string() + "load_upf nofile";
    t.answer("depth at the first", &worked(&first), (8, 17));
}

/// Type search: 63 modules of 65 calls each, and the first call: 4,096.
fn search(t: &mut Test) {
    let wide = |more: &str| {
        let top = format!("module=top\nstyle=empty\n{}{more}", repeat(63, "inst=0 i{} m\n"));
        let m = format!("module=m\nstyle=empty\n{}", repeat(64, "inst=1 i{} leaf\n"));
        let leaf = "module=leaf\nstyle=empty\ninst=0 x unlisted\n";
        top + &m + leaf
    };
    let find = |target: &str, over: &str, modules: &str| {
        job(over, &[("p", &format!("set_design_top {target}"))], modules)
    };
    t.answer("4,096 calls", &find("none", "", &wide("")), (11, 0));
    t.answer("4,097 calls", &find("none", "", &wide("inst=0 z leaf\n")), (13, 0));
    t.answer("found behind 4,096 calls", &find("other", "", &wide("inst=0 z other\n")), (12, 0));
    t.answer("found early", &find("leaf", "", &wide("inst=0 z leaf\n")), (0, 0));
    t.answer("not with an override", &find("none", "top", &wide("inst=0 z leaf\n")), (0, 0));
    t.answer("not for the top itself", &find("top", "", &wide("inst=0 z leaf\n")), (0, 0));
    let chain = chain();
    t.answer("33 instances down", &find("m33", "", &chain), (0, 0));
    t.answer("34 instances down", &find("m34", "", &chain), (11, 0));
    let loops = "module=top\nstyle=empty\ninst=0 a top\ninst=0 b top\n";
    t.answer("past depth 32 counts too", &find("none", "", loops), (13, 0));
    let one = "module=top\nstyle=empty\ninst=0 a top\n";
    t.answer("a module within itself", &find("none", "", one), (11, 0));
}

/// `top` has `i` of m1, each `m<n>` has `i` of the next; each has a net.
fn chain() -> String {
    let m = repeat(40, "module=m{}\nstyle=empty\ndecl=net 0 w\ninst=0 i m{+}\n");
    let m: String = m.split("m{+}").enumerate().map(|(n, p)| format!("{p}m{}", n + 1)).collect();
    let m = m.strip_suffix("m41").expect("one too many").replacen("module=m0", "module=top", 1);
    m
}

fn walk(t: &mut Test) {
    let upf = domain("u");
    let run = |modules: &str| job("", &[("p", &upf)], modules);
    // Entered: u, 63 of m, each with 64 leaves: 1 + 63 * 65.
    let wide = |more: &str| {
        let top = "module=top\nstyle=empty\ninst=0 u a\n".to_string();
        let a = format!("module=a\nstyle=empty\n{}{more}", repeat(63, "inst=0 i{} m\n"));
        top + &a + "module=m\nstyle=empty\n" + &repeat(64, "inst=0 i{} leaf\n") + "module=leaf\nstyle=empty\n"
    };
    t.answer("4,096 modules entered", &run(&wide("")), (0, 0));
    t.answer("4,097 modules entered", &run(&wide("inst=0 z leaf\n")), (13, 0));
    t.answer("an array is not entered", &run(&wide("inst=1 z leaf\n")), (0, 0));
    let kept = domain("u") + "set_retention R -elements {u/z}\n";
    let kept = job("", &[("p", &kept)], &wide("inst=0 z leaf\n"));
    t.answer("none at a retained path", &kept, (0, 0));
    let unpowered = job("", &[("p", "create_power_domain PD -elements {u}")], &wide("inst=0 z leaf\n"));
    t.answer("no walk without both supplies", &unpowered, (0, 0));
}

fn listed(t: &mut Test) {
    let upf = domain("u");
    let run = |modules: &str| job("", &[("p", &upf)], modules);
    // 8 instances of 128 names.
    let paths = |more: &str| {
        let a = format!("module=a\nstyle=empty\n{more}{}", repeat(8, "inst=0 i{} m\n"));
        format!("module=top\nstyle=empty\ninst=0 u a\n{a}module=m\nstyle=empty\n")
            + &repeat(128, "decl=data 0 d{}\n")
    };
    t.ample("1,024 paths", &run(&paths("")), (0, 0));
    t.answer("1,025 paths", &run(&paths("decl=net 0 x\n")), (13, 0));
    // 8 instances of 63 names, each path with 64 bytes, and 8 paths of 64 above: 32,768.
    let bytes = |last: &str| {
        let named = |from: usize, to: usize, d: usize| -> String {
            (from..to).map(|n| format!("decl=net 0 {}{n}\n", "d".repeat(d))).collect()
        };
        let a = named(10, 17, 60) + &format!("decl=net 0 {last}\n") + &repeat(8, "inst=0 i{} m\n");
        let m = named(10, 73, 57);
        format!("module=top\nstyle=empty\ninst=0 u a\nmodule=a\nstyle=empty\n{a}module=m\nstyle=empty\n{m}")
    };
    t.ample("32,768 bytes of paths", &run(&bytes(&"e".repeat(62))), (0, 0));
    t.ample("32,769 bytes of paths", &run(&bytes(&"e".repeat(63))), (13, 0));
    let loops = "module=top\nstyle=empty\ninst=0 u u\nmodule=u\nstyle=empty\ndecl=net 0 w\ninst=0 u u\n";
    let count = "power domain PD: elements [u], power VDD, ground VSS, 33 corruptible signals";
    t.entry("depth 32 is the last", &run(loops), count);
    let long = domain(&format!("u{}", "/".repeat(30_000)));
    let bare =
        "module=top\nstyle=empty\ninst=0 u u\nmodule=u\nstyle=empty\ninst=0 v w\nmodule=w\nstyle=empty\n";
    t.answer("a long element", &job("", &[("p", &long)], bare), (0, 0));
}

fn isolation(t: &mut Test) {
    // Each element isolates 64 outputs.
    let modules = |more: &str| {
        let top = format!("module=top\nstyle=empty\n{}", repeat(5, "inst=0 u{} m\nconn=star\n"));
        top + "module=m\nstyle=ansi\n" + &repeat(64, "port=out p{}\n") + more
    };
    let iso = |elements: &str| {
        let upf = format!("create_power_domain PD -elements {{{elements}}}\n");
        upf + "set_isolation I -domain PD -isolation_signal s\n"
    };
    let run = |upf: &str| job("", &[("p", upf)], &modules(""));
    t.answer("256 isolated ports", &run(&iso("u0 u1 u2 u3")), (0, 0));
    t.answer(
        "260 isolated ports",
        &job("", &[("p", &iso("u0 u1 u2 u3"))], &modules("decl=out 0 x\n")),
        (13, 0),
    );
    let twice = iso("u0 u1 u2 u3") + "set_isolation J -domain PD -isolation_signal s\n";
    t.answer("a covered port is not counted again", &run(&twice), (0, 0));
    let first = iso("u0 u1")
        + "create_power_domain PE -elements {u2 u3}\nset_isolation J -domain PE -isolation_signal s\n";
    t.answer("256 of the job", &run(&first), (0, 0));
    let third = first.clone() + "set_isolation K -domain PD -isolation_signal s -elements {u4/x}\n";
    t.answer("257 of the job", &run(&third), (13, 0));
}

fn warnings(t: &mut Test) {
    // 256 warnings in reading; four domains of 64 unknown elements.
    let warned = |foo: usize, supplied: usize| {
        let elements = "x ".repeat(64);
        let domains = format!("create_power_domain P{{}} -elements {{{elements}}}\n");
        let supplies = "set_domain_supply_net P{} -primary_power_net a -primary_ground_net b\n";
        worked(&(repeat(foo, "foo\n") + &repeat(4, &domains) + &repeat(supplied, supplies)))
    };
    t.ample("512 warnings", &warned(256, 4), (0, 0));
    let more = warned(256, 4);
    let more = String::from_utf8_lossy(&more).replacen(
        "create_power_domain",
        "set_isolation I;create_power_domain",
        1,
    );
    t.answer("513 warnings", &worked(body(&more)), (13, 0));
    t.answer("320 warnings", &warned(256, 1), (0, 0));
}

/// The body of a one-file job that has been changed.
fn body(job: &str) -> &str {
    let after = job.split_once("bytes=").unwrap().1.split_once('\n').unwrap().1;
    after.split_once("\nmodule=top").unwrap().0
}
