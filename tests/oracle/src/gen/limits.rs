//! Boundary jobs for reading: commands, words, substitution, scopes, lists, records, loads.
//!
//! Places are command numbers from 1, counted as the commands are carried out.

use super::bounds::{put, Sheet};
use super::Case;

/// The limits of reading.
pub fn cases(all: &mut Vec<Case>) {
    commands(all);
    words(all);
    substitution(all);
    substitution_through(all);
    sets(all);
    one_scope(all);
    all_scopes(all);
    list_entries(all);
    where_lists_are_read(all);
    all_lists(all);
    records(all);
    no_records(all);
    warnings(all);
    loads(all);
    order_of_checks(all);
    missing_files(all);
}

fn one(all: &mut Vec<Case>, name: &str, text: &str, number: u32, place: u32) {
    put(all, name, Sheet::new(text).bytes(), number, place);
}

/// Words `w`, `n` of them, each behind a space.
fn tail(n: usize) -> String {
    " w".repeat(n)
}

fn commands(all: &mut Vec<Case>) {
    one(all, "1,024 commands", &"query_x\n".repeat(1024), 0, 0);
    one(all, "1,025 commands", &"query_x\n".repeat(1025), 10, 1025);
    one(all, "1,024 commands parted by semicolons", &"query_x;".repeat(1024), 0, 0);
    // 24 loads of a file with 41 commands, each with the load itself 42: 1,008; then 16 or 17.
    let p = |n: usize| format!("{}{}", "load_upf q\n".repeat(24), "query_x\n".repeat(n));
    let q = "query_x\n".repeat(41);
    put(all, "1,024 commands through loads", Sheet::new(&p(16)).file("q", &q).bytes(), 0, 0);
    put(all, "1,025 commands through loads", Sheet::new(&p(17)).file("q", &q).bytes(), 10, 1025);
    // The 1,025th stands in a loaded file: 1,023 commands, the load, its first command.
    let p = format!("{}load_upf q\n", "query_x\n".repeat(1023));
    put(all, "1,025th command in a loaded file", Sheet::new(&p).file("q", "query_x").bytes(), 10, 1025);
    put(all, "1,024th command loads an empty file", Sheet::new(&p).file("q", "# c").bytes(), 0, 0);
}

fn words(all: &mut Vec<Case>) {
    one(all, "128 words", &format!("query_x{}\n", tail(127)), 0, 0);
    one(all, "129 words", &format!("query_x{}\n", tail(128)), 10, 1);
    one(all, "129 words in the second command", &format!("puts a\nquery_x{}\n", tail(128)), 10, 2);
    one(all, "129 words of a set", &format!("set{}\n", tail(128)), 10, 1);
    one(all, "128 words, empty ones", &format!("puts{}\n", " {}".repeat(127)), 0, 0);
    one(all, "129 words, empty ones", &format!("puts{}\n", " {}".repeat(128)), 10, 1);
}

fn substitution(all: &mut Vec<Case>) {
    let q = |n: usize| format!("query_x \"{}\"\n", "x".repeat(n));
    one(all, "16,384 quoted bytes", &q(16_384), 0, 0);
    one(all, "16,385 quoted bytes", &q(16_385), 10, 1);
    // A dropped backslash is no result byte.
    let b = |n: usize| format!("query_x \"{}\"\n", "\\x".repeat(n));
    one(all, "16,384 bytes behind backslashes", &b(16_384), 0, 0);
    one(all, "16,385 bytes behind backslashes", &b(16_385), 10, 1);
    // A dollar that stays: the word counts with all its bytes.
    let d = |n: usize| format!("query_x ${}\n", "-".repeat(n - 1));
    one(all, "16,384 plain bytes with a dollar", &d(16_384), 0, 0);
    one(all, "16,385 plain bytes with a dollar", &d(16_385), 10, 1);
    let two = |n: usize| format!("{}query_x {}$\n", q(16_000), "y".repeat(n - 1));
    one(all, "16,384 bytes in two commands", &two(384), 0, 0);
    one(all, "16,385 bytes in two commands", &two(385), 10, 2);
    // The command's name counts as well when it is quoted: 7 bytes.
    let name = |n: usize| format!("\"query_x\" \"{}\"\n", "x".repeat(n));
    one(all, "16,384 bytes with a quoted name", &name(16_377), 0, 0);
    one(all, "16,385 bytes with a quoted name", &name(16_378), 10, 1);
    one(all, "20,000 braced bytes", &format!("query_x {{{}}}\n", "$N ".repeat(6_666)), 0, 0);
    one(all, "20,000 plain bytes", &format!("query_x {}\n", "x".repeat(20_000)), 0, 0);
    one(all, "20,000 bracketed bytes", &format!("query_x [{}]\n", "$".repeat(20_000)), 0, 0);
    one(
        all,
        "20,000 quoted bytes in a list",
        &format!("create_pst x -supplies {{\"{}\"}}\n", "x".repeat(20_000)),
        0,
        0,
    );
}

/// Bytes that come out of variables count; a repeated load counts again.
fn substitution_through(all: &mut Vec<Case>) {
    let p = format!("set A {{{}}}\nload_upf q\n", "v".repeat(1024));
    let q = |more: &str| format!("query_x {}{}\n", "$A".repeat(16), more);
    put(all, "16,384 bytes out of a variable", Sheet::new(&p).file("q", &q("")).bytes(), 0, 0);
    // set 1, load 2, query 3.
    put(all, "16,385 bytes out of a variable", Sheet::new(&p).file("q", &q("-")).bytes(), 10, 3);
    let p = |n: usize| "load_upf q\n".repeat(n);
    let q = format!("query_x \"{}\"\n", "x".repeat(4_096));
    put(all, "16,384 bytes by four loads", Sheet::new(&p(4)).file("q", &q).bytes(), 0, 0);
    // Each load is two commands: the fifth load is 9, its command 10.
    put(all, "20,480 bytes by five loads", Sheet::new(&p(5)).file("q", &q).bytes(), 10, 10);
    // Counted when carried out: the load before it answers first.
    let late = format!("load_upf none\nquery_x \"{}\"\n", "x".repeat(16_385));
    one(all, "16,385 bytes behind a missing load", &late, 9, 1);
}

fn sets(all: &mut Vec<Case>) {
    one(all, "64 sets", &"set a b\n".repeat(64), 0, 0);
    one(all, "65 sets", &"set a b\n".repeat(65), 10, 65);
    one(
        all,
        "64 sets and 100 that set nothing",
        &format!("{}{}", "set a b\n".repeat(64), "set a\n".repeat(100)),
        0,
        0,
    );
    one(all, "65 sets of the empty name", &"set {} b\n".repeat(65), 10, 65);
    one(all, "64 sets of three words", &"set a b c\n".repeat(64), 0, 0);
    // An option takes its value away: nothing is set.
    one(all, "65 sets with an option", &"set a -b c\n".repeat(65), 0, 0);
}

fn one_scope(all: &mut Vec<Case>) {
    let s = |n: usize| format!("set_scope {}\n", "s".repeat(n));
    one(all, "scope of 512 bytes", &s(512), 0, 0);
    one(all, "scope of 513 bytes", &s(513), 10, 1);
    let two = |n: usize| format!("{}{}", s(255), s(n));
    one(all, "scope of 512 bytes in two steps", &two(256), 0, 0);
    one(all, "scope of 513 bytes in two steps", &two(257), 10, 2);
    let abs = |n: usize| format!("{}set_scope /{}\n", s(300), "s".repeat(n));
    one(all, "scope of 512 bytes from the root", &abs(512), 0, 0);
    one(all, "scope of 513 bytes from the root", &abs(513), 10, 2);
    let load = |n: usize| format!("load_upf q -scope {}\n", "s".repeat(n));
    put(all, "load scope of 512 bytes", Sheet::new(&load(512)).file("q", "").bytes(), 0, 0);
    put(all, "load scope of 513 bytes", Sheet::new(&load(513)).file("q", "").bytes(), 10, 1);
    let under = |n: usize| format!("{}load_upf q -scope {}\n", s(256), "s".repeat(n));
    put(all, "load scope of 512 bytes below another", Sheet::new(&under(255)).file("q", "").bytes(), 0, 0);
    put(all, "load scope of 513 bytes below another", Sheet::new(&under(256)).file("q", "").bytes(), 10, 2);
}

fn all_scopes(all: &mut Vec<Case>) {
    let full = format!("set_scope /{}\n", "s".repeat(512));
    let with = |n: usize, more: &str| format!("{}{}", full.repeat(n), more);
    one(all, "8,192 bytes of scopes", &with(16, ""), 0, 0);
    one(all, "8,192 bytes of scopes and the root", &with(16, "set_scope .\nset_scope\nset_scope /\n"), 0, 0);
    one(all, "8,193 bytes of scopes", &with(16, "set_scope /s\n"), 10, 17);
    // Up from one part is the root: nothing more.
    one(all, "8,192 bytes of scopes and up", &with(16, "set_scope ..\n"), 0, 0);
    let load = |sheet: &str| Sheet::new(sheet).file("q", "").bytes();
    // A load that stays counts the scope where it stays: 15 times 512, then 512 for each.
    put(all, "8,192 bytes of scopes by a load that stays", load(&with(15, "load_upf q -scope .\n")), 0, 0);
    put(
        all,
        "8,193 bytes of scopes by a load that stays",
        load(&with(15, "load_upf q -scope .\nset_scope /s")),
        10,
        17,
    );
    put(all, "8,192 bytes of scopes and a load without one", load(&with(16, "load_upf q\n")), 0, 0);
    let up = format!("set_scope /a/{}\nset_scope ..\n", "s".repeat(510));
    // 15 times 512, then 511 and 1 are 8,192.
    let exact = with(15, &up.replace("ss\n", "s\n"));
    one(all, "8,192 bytes of scopes with a step up", &exact, 0, 0);
    one(all, "8,193 bytes of scopes with a step up", &with(15, &up), 10, 17);
}

fn list_entries(all: &mut Vec<Case>) {
    let d = |n: usize| format!("create_power_domain P -elements {{{}}}\n", tail(n));
    one(all, "list of 64 entries", &d(64), 0, 0);
    one(all, "list of 65 entries", &d(65), 10, 1);
    let lines = |n: usize| format!("create_pst P -supplies {{{}}}\n", "a;\n".repeat(n));
    one(all, "list of 64 entries on lines", &lines(64), 0, 0);
    one(all, "list of 65 entries on lines", &lines(65), 10, 1);
    let quoted = |n: usize| format!("create_pst P -supplies \"{}\"\n", tail(n));
    one(all, "quoted list of 64 entries", &quoted(64), 0, 0);
    one(all, "quoted list of 65 entries", &quoted(65), 10, 1);
    let nested = format!("create_pst P -supplies {{{{{}}}}}\n", tail(65));
    one(all, "list of one entry of 65 words", &nested, 0, 0);
}

/// Every option that is read as a list, also where the result is not used.
fn where_lists_are_read(all: &mut Vec<Case>) {
    let commands = [
        "connect_supply_net N -ports @",
        "create_power_switch S -input_supply_port @",
        "create_power_switch S -output_supply_port @",
        "create_power_switch S -control_port @",
        "create_power_switch S -on_state @",
        "create_power_switch S -off_state @",
        "set_isolation I -elements @",
        "set_isolation I -elements @ -no_isolation",
        "set_isolation I -elements @ -update",
        "set_retention R -elements @",
        "add_port_state P -state @",
        "create_pst T -supplies @",
        "add_pst_state s -pst none -state @",
    ];
    for c in commands.iter() {
        for n in [64, 65].iter() {
            let text = c.replace("@", &format!("{{{}}}", tail(*n)));
            let (number, place) = if *n == 64 { (0, 0) } else { (10, 1) };
            one(all, &format!("{} entries: {}", n, c), &text, number, place);
        }
    }
    let long = format!("{{{}}}", tail(65));
    let unread = [
        "create_power_domain P -elements @ -elements w",
        "create_power_domain P -ports @",
        "set_level_shifter L -elements @",
        "set_domain_supply_net P -primary_power_net @",
        "add_port_state P @",
        "set_retention_control R -elements @",
        "create_supply_set S -elements @",
    ];
    for c in unread.iter() {
        one(all, &format!("65 entries unread: {}", c), &c.replace("@", &long), 0, 0);
    }
    // Each state is read, also one that a later one replaces among the options.
    one(all, "65 entries in a replaced state", &format!("add_port_state P -state {} -state w", long), 10, 1);
}

fn all_lists(all: &mut Vec<Case>) {
    let d = format!("create_power_domain P -elements {{{}}}\n", tail(64));
    one(all, "1,024 entries of lists", &d.repeat(16), 0, 0);
    one(all, "1,025 entries of lists", &format!("{}create_pst T -supplies w\n", d.repeat(16)), 10, 17);
    one(
        all,
        "1,024 entries of lists and empty ones",
        &format!("{}create_pst T -supplies {{}}\n", d.repeat(16)),
        0,
        0,
    );
    let s = format!("create_power_switch S{}", format!(" -on_state {{{}}}", tail(64)).repeat(16));
    one(all, "1,024 entries of one switch", &s, 0, 0);
    one(all, "1,025 entries of one switch", &format!("{} -off_state w", s), 10, 1);
    // Known nets, unknown tables: the values count all the same.
    let a = format!("add_pst_state s -state {{{}}}\n", tail(64));
    one(all, "1,024 entries for an unknown table", &a.repeat(16), 0, 0);
    one(
        all,
        "1,025 entries for an unknown table",
        &format!("{}add_pst_state s -state w\n", a.repeat(16)),
        10,
        17,
    );
}

fn records(all: &mut Vec<Case>) {
    let kinds = [
        ("domains", "create_power_domain @"),
        ("created nets", "create_supply_net @"),
        ("supply ports", "create_supply_port @"),
        ("switches", "create_power_switch @"),
        ("isolations", "set_isolation @"),
        ("retentions", "set_retention @"),
        ("shifters", "set_level_shifter @"),
        ("port states", "add_port_state @"),
        ("tables", "create_pst @"),
    ];
    for k in kinds.iter() {
        let text = |n: usize| -> String {
            (0..n).map(|i| format!("{}\n", k.1.replace("@", &format!("x{}", i)))).collect()
        };
        one(all, &format!("32 {}", k.0), &text(32), 0, 0);
        one(all, &format!("33 {}", k.0), &text(33), 10, 33);
        if k.0 != "created nets" {
            let same = format!("{}\n", k.1.replace("@", "x")).repeat(33);
            one(all, &format!("33 {} of one name", k.0), &same, 10, 33);
        }
    }
}

/// Commands that enter no new record.
fn no_records(all: &mut Vec<Case>) {
    let full = |line: &str| -> String { (0..32).map(|i| format!("{} x{}\n", line, i)).collect() };
    let nets = |more: &str| format!("{}{}", full("create_supply_net"), more);
    one(all, "32 created nets and known ones", &nets(&"create_supply_net x5\n".repeat(9)), 0, 0);
    one(all, "32 created nets and one by a port", &nets("create_supply_port y\n"), 0, 0);
    let isos = |more: &str| format!("{}{}", full("set_isolation"), more);
    one(all, "32 isolations and updates", &isos(&"set_isolation x3 -update\n".repeat(9)), 0, 0);
    one(all, "32 isolations and an update of none", &isos("set_isolation y -update\n"), 10, 33);
    one(all, "32 isolations and -no_isolation", &isos("set_isolation y -no_isolation\n"), 0, 0);
    let states = "add_pst_state s -pst x -state a\n".repeat(100);
    one(all, "100 states of one table", &format!("create_pst x\n{}", states), 0, 0);
}

fn warnings(all: &mut Vec<Case>) {
    let sorts = [
        "bogus",
        "upf_version 2.0",
        "set_domain_supply_net none",
        "set_isolation x -no_isolation",
        "set_isolation_control none",
        "add_pst_state none",
    ];
    for s in sorts.iter() {
        let text = |n: usize| format!("{}\n", s).repeat(n);
        one(all, &format!("256 warnings: {}", s), &text(256), 0, 0);
        one(all, &format!("257 warnings: {}", s), &text(257), 10, 257);
    }
    one(all, "256 warnings and a query", &format!("{}query_x\n", "bogus\n".repeat(256)), 0, 0);
}

fn chain(n: usize) -> Sheet {
    let first = Sheet::new("load_upf f1\n");
    (1..n + 1).fold(first, |s, i| {
        let text = if i < n { format!("load_upf f{}\n", i + 1) } else { String::new() };
        s.file(&format!("f{}", i), &text)
    })
}

fn loads(all: &mut Vec<Case>) {
    put(all, "16 nested loads", chain(16).bytes(), 0, 0);
    put(all, "17 nested loads", chain(17).bytes(), 8, 17);
    one(all, "a file that loads itself", "load_upf p\n", 8, 17);
    // Each depth has a command before its load: the 17th load is command 34.
    one(all, "a file that loads itself late", "query_x\nload_upf p\n", 8, 34);
    put(
        all,
        "two files that load each other",
        Sheet::new("load_upf q\n").file("q", "load_upf p\n").bytes(),
        8,
        17,
    );
    put(
        all,
        "a missing file in a loaded file",
        Sheet::new("load_upf q\n").file("q", "load_upf none\n").bytes(),
        9,
        2,
    );
    one(all, "a missing file", "puts a\nload_upf none\n", 9, 2);
    one(all, "a load without a name", "load_upf\n", 9, 1);
    let dir = |name: &str| {
        let mut s = Sheet::new("").file("d/q", &format!("load_upf {}\n", name)).file("d/e", "");
        s.files[0].1 = b"load_upf d/q\n".to_vec();
        s.bytes()
    };
    put(all, "a load in the loader's directory", dir("e"), 0, 0);
    put(all, "a load by a full path", dir("d/e"), 9, 2);
    put(all, "a load by a path up", dir("../d/e"), 9, 2);
    put(all, "a load by a dotted path", dir("./e"), 9, 2);
    put(all, "a load by an absolute path", dir("/d/e"), 9, 2);
    put(all, "a load by a doubled slash", dir("/e"), 9, 2);
}

/// 10 before 8, 8 before 9.
fn order_of_checks(all: &mut Vec<Case>) {
    let deep = |last: &str| {
        let mut s = chain(16);
        s.files[16].1 = last.as_bytes().to_vec();
        s.bytes()
    };
    put(all, "17th nested load of a missing file", deep("load_upf none\n"), 8, 17);
    put(all, "17th nested load with 129 words", deep(&format!("load_upf none{}\n", tail(127))), 10, 17);
    let scope = deep(&format!("load_upf none -scope {}\n", "s".repeat(513)));
    put(all, "17th nested load with a scope of 513", scope, 10, 17);
}

/// 10 before 9, and the first command at fault before all others.
fn missing_files(all: &mut Vec<Case>) {
    let scope = "s".repeat(513);
    let idle = |n: usize| "query_x\n".repeat(n);
    one(all, "missing file with 129 words", &format!("load_upf none{}\n", tail(127)), 10, 1);
    one(all, "missing file with a scope of 513", &format!("load_upf none -scope {}\n", scope), 10, 1);
    one(all, "129 words before a missing file", &format!("query_x{}\nload_upf none\n", tail(128)), 10, 1);
    one(all, "missing file before 129 words", &format!("load_upf none\nquery_x{}\n", tail(128)), 9, 1);
    one(all, "missing file as command 1,025", &format!("{}load_upf none\n", idle(1024)), 10, 1025);
    one(all, "missing file as command 1,024", &format!("{}load_upf none\n", idle(1023)), 9, 1024);
    one(all, "missing file before a missing type", "set_design_top none\nload_upf none\n", 9, 2);
    let lost = Sheet::new("load_upf none\n").over("nope").bytes();
    put(all, "missing file before a missing scope", lost, 9, 1);
}
