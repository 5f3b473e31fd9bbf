//! What the reference decides and a port slips on easily.

use super::{domain, job, strings, worked, Test, DEEP, SUPPLIES, WORKED};

pub fn all(t: &mut Test) {
    words(t);
    tops_and_overrides(t);
    supplies(t);
    scopes(t);
    arguments(t);
    switches(t);
    walks(t);
    losable(t);
    isolation_targets(t);
    isolation_order(t);
    isolation_nets(t);
    clamps(t);
    the_rest(t);
}

fn words(t: &mut Test) {
    let w = [("W", "v")];
    t.words("a quoted `\\$`", r#""\$W""#, &w, &[&["v"]]);
    t.words("a plain `\\$`", r"\$W", &w, &[&[r"\v"]]);
    t.words("names", "$W-${W}x${W-$X-${}-${X}-$", &w, &[&["v-vxv-$X-${}-${X}-$"]]);
    t.words("a brace that is not the name's", "$W} ${W}}", &w, &[&["v}", "v}"]]);
    t.words("a comment goes on", "# c \\\nputs a\nputs b", &[], &[&["puts", "b"]]);
    t.words("joined lines", "a\\\nb\\\r\nc\\\rd", &[], &[&["a", "b", "c\\", "d"]]);
    t.words("`;` ends a command", "a;b;;c d;#x;y\ne", &[], &[&["a"], &["b"], &["c", "d"], &["e"]]);
    t.words("nested braces", "{a {b} c} {}{", &[], &[&["a {b} c", "", ""]]);
    t.words("brackets keep theirs", "[a [b] $W]x [", &w, &[&["[a [b] $W]", "x", "["]]);
    t.words("quotes", "\"a\\\\b\\\"c\"d \"e\\", &[], &[&["a\\b\"c", "d", "e\\"]]);
    t.words("braces within a word", "a{b c}", &[], &[&["a{b", "c}"]]);
    t.words("white space", "a\x0bb\x0cc\td\re\x1cf", &[], &[&["a", "b", "c", "d", "e\x1cf"]]);
    t.words("an empty word is a word", "{}", &[], &[&[""]]);
    t.words("LF in braces", "{a\nb;c}", &[], &[&["a\nb;c"]]);
    let list = upf_rs::upf::list_of("# u1\n s;{t v} $x");
    t.same("a list has comments and commands", list, strings(&["s", "t v", "$x"]));
}

fn tops_and_overrides(t: &mut Test) {
    t.answer("set_design_top without a word", &worked("set_design_top"), (11, 0));
    let over = |over: &str, modules: &str| job(over, &[("p", "set_design_top")], modules);
    let root = "scope /top (top), 0 supply nets: \n";
    t.report("override of a slash", &over("/", WORKED), root);
    t.report("override of the top", &over("top", WORKED), root);
    let twice = WORKED.replace("u1", "top");
    let scope = "scope /top/top (core), 0 supply nets: \n";
    t.report("override top.top", &over("top.top", &twice), scope);
    t.report("override /top/top", &over("//top//top.", &twice), scope);
    t.answer("an override that leads nowhere", &over("u2", WORKED), (12, 0));
    let core = "scope /top/u1 (core), 0 supply nets: \n";
    t.report("found by type", &worked("set_design_top core\nset_design_top no"), core);
    let nested = [("p", "load_upf q -scope x\nset_scope x\nset_design_top no"), ("q", "set_design_top no")];
    t.report("not under a scope", &job("", &nested, WORKED), root);
    let within = [("p", "load_upf q"), ("q", "set_design_top core")];
    t.report("out of a loaded file", &job("", &within, WORKED), core);
}

fn supplies(t: &mut Test) {
    let base = "create_power_domain PD -elements {u1}\n";
    let empty = base.to_string() + "set_domain_supply_net PD -primary_power_net {} -primary_ground_net VSS";
    let entry = "power domain PD: elements [u1], power , ground VSS, 2 corruptible signals";
    t.entry("an empty supply", &worked(&empty), entry);
    let erased = domain("u1") + "set_domain_supply_net PD -primary_power_net VDD";
    t.entry("ground erased", &worked(&erased), "power domain PD: no primary supplies (always on)");
    let two = base.to_string() + &domain("u1");
    let all = "scope /top (top), 2 supply nets: VDD, VSS
power domain PD: elements [u1], power VDD, ground VSS, 2 corruptible signals
power domain PD: no primary supplies (always on)
";
    t.report("two domains of one name", &worked(&two), all);
    let names = worked("create_supply_net a-b\ncreate_supply_net a_b\ncreate_supply_net a/b");
    t.glue("three nets of one name", &names, "  logic upf__a_b = 1'b0;\n", 3);
    let ports =
        "create_supply_port P\ncreate_supply_net N\nconnect_supply_net N -ports {P}\ncreate_supply_port Q";
    t.report("connected ports", &worked(ports), "scope /top (top), 2 supply nets: N, Q\n");
}

fn scopes(t: &mut Test) {
    let net = |upf: &str| job("", &[("p", upf), ("q", "create_supply_net N")], WORKED);
    for (load, want) in [
        ("load_upf q -scope /", "k/N"),
        ("load_upf q -scope .", "k/N"),
        ("load_upf q", "k/N"),
        ("load_upf q -scope {}", "k//N"),
        ("load_upf q -scope ..", "k/../N"),
        ("load_upf q -scope /a/b", "a/b/N"),
        ("load_upf q -scope a", "k/a/N"),
        ("load_upf -scope q", "refused"),
    ] {
        let run = net(&format!("set_scope k\n{load}\ncreate_supply_net M"));
        match want {
            "refused" => t.answer(load, &run, (9, 2)),
            _ => t.report(load, &run, &format!("scope /top (top), 2 supply nets: {want}, k/M\n")),
        }
    }
    for (moves, want) in [
        ("set_scope a\nset_scope b", "a/b/N"),
        ("set_scope a/b\nset_scope ..", "a/N"),
        ("set_scope a\nset_scope ..", "N"),
        ("set_scope a\nset_scope .", "N"),
        ("set_scope a\nset_scope", "N"),
        ("set_scope a\nset_scope /", "N"),
        ("set_scope a\nset_scope /b", "b/N"),
    ] {
        let run = worked(&format!("{moves}\ncreate_supply_net N"));
        t.report(moves, &run, &format!("scope /top (top), 1 supply nets: {want}\n"));
    }
}

fn arguments(t: &mut Test) {
    let flag = worked("create_power_domain -elements {-u1 s} x");
    t.record("a braced option word", &flag, "domain \"\" power - ground - scope \"\" elements");
    let words = strings(&["-elements", "-u1 s", "x", "-", "-1", "-k", "1", "-k", "2", "-"]);
    let a = upf_rs::upf::arguments_of(&words);
    t.same("flags", a.flags, strings(&["elements"]));
    t.same("the last one wins", a.options, vec![("k".into(), "2".into()), ("u1 s".into(), "x".into())]);
    t.same("positional", a.positional, strings(&["-", "-1", "-"]));
    let comment = worked("create_power_domain PD -elements {# u1\n s}");
    t.record("a list joins again", &comment, "domain \"PD\" power - ground - scope \"\" elements \"s\"");
    t.report("query_", &worked("query_anything\nquery_"), "scope /top (top), 0 supply nets: \n");
    t.entry("unknown", &worked("query"), "warning: unsupported UPF command 'query' ignored");
    t.entry("passed", &worked("upf_version 2"), "warning: 'upf_version' parsed but not simulated");
    let files =
        [("p", "set W a\nputs $W\nload_upf q\nputs $W"), ("q", "set W b\nputs $W\nputs\nputs x -o y z")];
    let a = crate::check::expect(&job("", &files, WORKED), &crate::check::STANDARD);
    let log = "[UPF] $W\n[UPF] a\n[UPF] \n[UPF] z\n[UPF] $W\n";
    t.same("log", String::from_utf8_lossy(&a.texts[3]).into_owned(), log.into());
}

fn switches(t: &mut Test) {
    let rescan = worked("create_power_switch -on_state -off_state x");
    t.record("a raw word like an option", &rescan, "switch_on \"\" \"-off_state\" \"\" \"\"");
    let mixed = worked("create_power_switch S -on_state {a in c} -off_state {b d} -on_state {e in f}");
    t.record("each -on_state", &mixed, "switch_on \"S\" \"e\" \"in\" \"f\"");
    let control = "create_power_switch S -control_port {a x} -control_port {c s/y z} \
        -input_supply_port {in A} -output_supply_port {out B}";
    let line = "power switch S: A -> B controlled by c=s/y";
    t.entry("the last -control_port", &worked(control), line);
    let state = worked(&(control.to_string() + " -on_state {x {} c && d}"));
    t.glue("the third entry", &state, "  assign upf__B = ((s.y)) ? upf__A", 1);
    let warned = "warning: power switch 'S': on_state uses input port '' (expected 'in')";
    t.entry("another input port", &state, warned);
    let whole = worked(&(control.to_string() + " -on_state {x in {c && !d || 1 && 1a}}"));
    t.entry("unknown control", &whole, "warning: power switch state uses unknown control port '1a'");
    t.glue("expression", &whole, "  assign upf__B = ((s.y && !1'bx || 1 && 1'bx)) ?", 1);
    t.glue("no on state", &worked(control), "  assign upf__B = (1'b0) ? upf__A", 1);
}

fn walks(t: &mut Test) {
    let deep = |elements: &str, more: &str| job("", &[("p", &(domain(elements) + more))], DEEP);
    t.paths("an array is not entered", &deep("s", ""), &["s.m", "s.u1.q"]);
    t.paths("an array as an element", &deep("b s/a", ""), &["b.q", "s.a.q"]);
    t.paths("an empty part", &deep("s//u1", ""), &["s..u1.q"]);
    t.paths("a last empty part", &deep("s/", ""), &["s..m", "s..u1.q"]);
    let iso = "set_isolation I -domain PD -isolation_signal e\n";
    t.glue("no isolation target", &deep("s//u1 s/", iso), "Isolation enabled", 0);
    t.glue("an isolation target", &deep("s/u1", iso), "Isolation enabled", 1);
    let kept = "set_retention R -elements {s/u1}\n";
    t.paths("a retained entry is compared as text", &deep("s//u1", kept), &["s..u1.q"]);
    t.paths("elements in order, each path once", &deep("s/u1 s . s", ""), &["s.u1.q", "s.m"]);
    let all = "set_retention R -elements {.}\n";
    t.paths("the empty entry at the top", &deep(".", all), &[]);
    let files = [("p", &(domain(".") + all)[..])];
    t.paths("and under a scope", &job("s", &files, DEEP), &["s.m", "s.u1.q"]);
    t.paths("an element under a scope", &job("s", &[("p", &domain("u1"))], DEEP), &["s.u1.q"]);
    let lost = "warning: power domain 'PD': element 'x/y' not found";
    t.entry("an unknown element", &deep("x/y", ""), lost);
}

fn losable(t: &mut Test) {
    let of = |lines: &str| {
        let modules = format!("module=top\nstyle=empty\ninst=0 u m\nmodule=m\n{lines}");
        job("", &[("p", &domain("u"))], &modules)
    };
    let both = of("style=ansi\nport=out q\ndecl=in 0 q\ndecl=net 0 q\n");
    t.paths("also a non-output port", &both, &[]);
    let last = of("style=ansi\nport=none a\nport=out b\nport=none c\nport=ref d\nport=none e\n");
    t.paths("none takes the last direction", &last, &["u.b", "u.c"]);
    let header = of(
        "style=nonansi\nport=none a\nport=none b\nport=none c\ndecl=in 0 b\ndecl=out 0 c\ndecl=data 0 a\n",
    );
    t.paths("header names are neither", &header, &["u.c", "u.a"]);
    let dims = ["net 1 a", "data 1 b", "odd 0 c", "out 1 d", "inout 0 e", "net 0 f"];
    let dims = of(&dims.iter().fold("style=empty\n".to_string(), |all, d| all + "decl=" + d + "\n"));
    t.paths("dimensions and kinds", &dims, &["u.d", "u.f"]);
    let order = of("style=ansi\nport=out z\ndecl=net 0 a\ndecl=out 0 y\ndecl=data 0 z\n");
    t.paths("outputs first", &order, &["u.z", "u.y", "u.a"]);
}

/// One isolation of the deep design.
fn iso(options: &str) -> Vec<u8> {
    let upf = domain("s") + "set_isolation I -domain PD -isolation_signal e " + options;
    job("", &[("p", &upf)], DEEP)
}

fn isolation_targets(t: &mut Test) {
    t.glue("outputs of the elements", &iso(""), "      force m = '0;\n", 1);
    t.glue("neither a port nor of the domain", &iso("-elements {s/u1/zz}"), "      force s.zz = '0;\n", 1);
    t.glue("a whole element", &iso("-elements {s}"), "      force m = '0;\n", 1);
    t.glue("applies_to with elements", &iso("-elements {s/m} -applies_to inputs"), "force m = '0;", 1);
    let applies = "warning: isolation strategy 'I': -applies_to inputs not simulated (outputs only)";
    t.entry("applies_to without elements", &iso("-applies_to inputs"), applies);
    t.glue("applies_to both", &iso("-applies_to both"), "force m = '0;", 1);
    let port =
        "module=top\nstyle=empty\ninst=0 s m\nconn=star\nmodule=m\nstyle=ansi\nport=out q\ndecl=in 0 q\n";
    let upf = domain("s") + "set_isolation I -domain PD -isolation_signal e";
    let run = job("", &[("p", &upf)], port);
    t.glue("never losable, but isolated", &run, "force q = '0;", 1);
    t.paths("and not listed", &run, &[]);
    for (domain, times) in [("", 1), ("{}", 1), ("PD", 0)] {
        let upf =
            format!("create_power_domain {domain} -elements {{s}}\nset_isolation I -isolation_signal e");
        let run = job("", &[("p", &upf)], DEEP);
        t.glue("an isolation without a domain", &run, "force m = '0;", times);
    }
}

fn isolation_order(t: &mut Test) {
    let deep = |upf: String| job("", &[("p", &upf)], DEEP);
    let two = domain("s")
        + "set_isolation A -domain PD -isolation_signal e\n"
        + "set_isolation B -domain PD -isolation_signal f -elements {s/m} -clamp_value 1\n";
    t.glue("elements go first", &deep(two.clone()), "force m = '1;", 1);
    t.glue("and keep the port", &deep(two.clone()), "force m = '0;", 0);
    let updated = two + "set_isolation A -update -elements {s/m}\n";
    t.glue("after an update", &deep(updated), "force m = '0;", 1);
    let shared = domain("s")
        + "create_power_domain PE -elements {b}\n"
        + "set_domain_supply_net PE -primary_power_net VDD -primary_ground_net VSS\n"
        + "set_isolation I -domain PD -isolation_signal e\nset_isolation I -domain PE\n";
    t.glue("a name in two domains", &deep(shared), "      if (e !== 1'b1) $display", 2);
}

fn isolation_nets(t: &mut Test) {
    let of = |conns: &str, ports: &str| {
        let modules = format!("module=top\nstyle=empty\ninst=0 s m\n{conns}module=m\nstyle=ansi\n{ports}");
        let upf = domain("s s") + &"set_isolation I -domain PD -isolation_signal e\n".repeat(2);
        job("", &[("p", &upf)], &modules)
    };
    let lost = "warning: isolation strategy 'I': port 's/q' actual is not a plain net; not simulated\n";
    let count = |job: &[u8]| super::printed(job).matches(lost).count();
    // Two elements, two strategies, two header names.
    t.same("warnings repeat", count(&of("conn=named q -\n", "port=out q\nport=out q\n")), 8);
    t.same("an open port", count(&of("", "port=out q\n")), 4);
    let none = of("conn=named q -\nconn=named q w\nconn=star\n", "port=out q\n");
    t.same("the first named one decides", count(&none), 4);
    t.glue("named", &of("conn=named q w\n", "port=out q\n"), "force w = '0;", 1);
    t.glue("implicit", &of("conn=implicit q\n", "port=out q\n"), "force q = '0;", 1);
    t.glue("star", &of("conn=star\n", "port=out q\n"), "force q = '0;", 1);
    let pos = of("conn=named a x\nconn=pos y\n", "port=in a\nport=out q\n");
    t.glue("pos counts all before it", &pos, "force y = '0;", 1);
    let pos = of("conn=pos y\nconn=star\n", "port=in a\nport=out q\n");
    t.glue("pos of another port", &pos, "force q = '0;", 1);
}

fn clamps(t: &mut Test) {
    let latch = "warning: isolation strategy 'I': clamp value 'latch' not simulated";
    t.entry("lower case in the warning", &iso("-clamp_value LATCH"), latch);
    let line = "isolation I on PD: clamp Z control e sense LoW";
    let run = iso("-clamp_value Z -isolation_sense LoW");
    t.entry("as written in the report", &run, line);
    t.glue("clamp z", &run, "force m = 'z;", 1);
    t.glue("sense low", &run, "    if (e === 1'b0) begin\n", 1);
    let other = iso("-isolation_sense lower");
    t.glue("any other sense is high", &other, "    if (e === 1'b1) begin\n", 1);
    let domain = "set_isolation I -isolation_signal e -domain no";
    t.entry("an unknown domain", &worked(domain), "warning: isolation strategy 'I': unknown domain 'no'");
    let signal = "warning: isolation strategy 'I' has no -isolation_signal; not simulated";
    t.entry("no signal", &worked("set_isolation I"), signal);
    let update = "set_isolation I\nset_isolation_control I -isolation_signal e\nset_isolation_control J";
    let unknown = "warning: set_isolation_control: unknown isolation strategy 'J'";
    t.entry("an unknown strategy", &worked(update), unknown);
    let ignored = "warning: set_isolation I: -no_isolation, ignored";
    t.entry("-no_isolation", &worked("set_isolation I -no_isolation"), ignored);
}

fn the_rest(t: &mut Test) {
    let upf = domain("u1")
        + "set_level_shifter L -domain PD\ncreate_pst T -supplies {VDD VSS}\n"
        + "add_pst_state on -pst T -state {1 0}\nadd_pst_state off -pst T\nadd_pst_state x -pst U\n"
        + "create_power_switch S\nset_isolation I -domain PD -isolation_signal e\n"
        + "set_retention R -domain PD -elements {u1/w x}\nset_domain_supply_net PX\n";
    let want = "scope /top (top), 2 supply nets: VDD, VSS
power switch S:  ->  controlled by 
isolation I on PD: clamp 0 control e sense high
power domain PD: elements [u1], power VDD, ground VSS, 2 corruptible signals, retention exempt: u1.w,x
level shifter L on PD: transparent
PST T over [VDD, VSS]: on={1 0} off={}
warning: add_pst_state: unknown PST 'U'
warning: set_domain_supply_net: unknown power domain 'PX'
warning: isolation strategy 'I': port 'u1/q' actual is not a plain net; not simulated
";
    t.report("order of the report", &worked(&upf), want);
    let braced = worked(&("create_power_domain {P\nD}\n".to_string() + SUPPLIES));
    let lines = "power domain P\nD: no primary supplies (always on)\n";
    t.same("an entry of several lines", super::printed(&braced).contains(lines), true);
    let state = worked("add_port_state P -state -state -state {a 1 2}");
    t.record("-state takes the next raw word", &state, "port_state \"P\" \"-state\" \"\" \"a\" \"1\"");
}
