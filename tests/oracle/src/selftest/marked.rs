//! 'Marked runs' and 'Traps in this text' of document 01.

use super::{domain, job, strings, worked, Test, DEEP, SUPPLIES, WORKED};

pub fn all(t: &mut Test) {
    starred(t);
    words_and_arguments(t);
    unstarred(t);
    traps(t);
}

fn starred(t: &mut Test) {
    let text = "create_power_domain PD -elements {u1}\n".to_string() + SUPPLIES;
    t.same("the example has 154 bytes", text.len(), 154);
    let run = worked(&text);
    let lines = "scope /top (top), 2 supply nets: VDD, VSS
power domain PD: elements [u1], power VDD, ground VSS, 2 corruptible signals
";
    t.report("worked example", &run, lines);
    t.paths("worked example's paths", &run, &["u1.q", "u1.w"]);
    let retained = worked(&(text.clone() + "set_retention R -elements {u1}\n"));
    let entry = "power domain PD: elements [u1], power VDD, ground VSS, 0 corruptible signals";
    t.entry("u1 retained", &retained, entry);
    t.paths("u1 retained, paths", &retained, &[]);
    t.report("empty file", &worked(""), "scope /top (top), 0 supply nets: \n");
}

fn words_and_arguments(t: &mut Test) {
    t.words("braced, then a word", "{a}b", &[], &[&["a", "b"]]);
    t.words("unclosed brace", "{a", &[], &[&["a"]]);
    t.words("`$` alone", "$", &[("", "x")], &[&["$"]]);
    t.words("`#` behind a word", "a # b", &[], &[&["a", "#", "b"]]);
    let a = upf_rs::upf::arguments_of(&strings(&["x", "-5", "-k", "-6"]));
    t.same("positional", a.positional, strings(&["x", "-5"]));
    t.same("option", a.options, vec![("k".into(), "-6".into())]);
    t.same("flags", a.flags, Vec::new());
    let switch = worked("create_power_switch S -off_state -on_state");
    t.record("-on_state is a value", &switch, "switch_off \"S\" \"-on_state\" \"\"");
    let alone = "scope /top (top), 0 supply nets: \npower switch S:  ->  controlled by \n";
    t.report("no on state", &switch, alone);
    let scope = worked("create_power_domain -include_scope PD");
    let record = "domain \"\" power - ground - scope \"\" elements";
    t.record("-include_scope PD", &scope, record);
}

/// Files `f0` to `f<last>`, each but the last loading the next.
fn nested(last: usize) -> Vec<u8> {
    let text = |n: usize| match n == last {
        true => String::new(),
        false => format!("load_upf f{}", n + 1),
    };
    let files: Vec<_> = (0..=last).map(|n| (format!("f{n}"), text(n))).collect();
    let files: Vec<_> = files.iter().map(|f| (f.0.as_str(), f.1.as_str())).collect();
    job("", &files, WORKED)
}

fn unstarred(t: &mut Test) {
    t.answer("16 nested loads", &nested(16), (0, 0));
    t.answer("17 nested loads", &nested(17), (8, 17));
    t.answer("a file loading itself", &worked("load_upf p.upf"), (8, 17));
    let ghost = "module=top\nstyle=empty\ninst=0 g ghost\n";
    let upf = [("p", "set_design_top ghost")];
    t.answer("listed type, unlisted module", &job("", &upf, ghost), (12, 0));
    let upf = [("p", "set_design_top other")];
    t.answer("unlisted type", &job("", &upf, ghost), (11, 0));
}

fn traps(t: &mut Test) {
    let deep = |upf: String| job("", &[("p", &upf)], DEEP);
    let below = "set_retention R -elements {s}\n";
    t.paths("below a retained instance", &deep(domain("s") + below), &[]);
    t.paths("an element below a retained one", &deep(domain("s/u1") + below), &["s.u1.q"]);
    let inner = "set_retention R -elements {s/u1}\n";
    t.paths("only the retained branch ends", &deep(domain("s") + inner), &["s.m"]);
    let dims = "module=top\nstyle=empty\ninst=0 u1 core\nmodule=core\nstyle=nonansi
port=none q\ndecl=out 1 q\ndecl=net 1 w\n";
    t.paths("a port's dimensions", &job("", &[("p", &domain("u1"))], dims), &["u1.q"]);
    let files = [
        ("p", "set N u1\nload_upf q\n"),
        ("q", "create_power_domain PD -elements {$N}\ncreate_power_domain PE -elements $N"),
    ];
    let run = job("", &files, WORKED);
    let braced = "domain \"PD\" power - ground - scope \"\" elements \"$N\"";
    t.record("no substitution in braces", &run, braced);
    let plain = "domain \"PE\" power - ground - scope \"\" elements \"u1\"";
    t.record("substitution outside", &run, plain);
    let top = "module=top\nstyle=ansi\nport=out q\n";
    let upf = domain(".") + "set_isolation I -domain PD -isolation_signal iso\n";
    let run = job("", &[("p", &upf)], top);
    t.paths("the empty element is walked", &run, &["q"]);
    t.glue("the empty element has no isolation target", &run, "Isolation enabled", 0);
}

/// The jobs of 'Marked runs' and of the traps, with number and place, to be replayed.
pub fn cases() -> Vec<(Vec<u8>, u32, u32)> {
    let deep = |upf: String| job("", &[("p", &upf)], DEEP);
    let text = "create_power_domain PD -elements {u1}\n".to_string() + SUPPLIES;
    let ghost = "module=top\nstyle=empty\ninst=0 g ghost\n";
    let dims = "module=top\nstyle=empty\ninst=0 u1 core\nmodule=core\nstyle=nonansi
port=none q\ndecl=out 1 q\ndecl=net 1 w\n";
    let files = [
        ("p", "set N u1\nload_upf q\n"),
        ("q", "create_power_domain PD -elements {$N}\ncreate_power_domain PE -elements $N"),
    ];
    let open = "module=top\nstyle=ansi\nport=out q\n";
    let upf = domain(".") + "set_isolation I -domain PD -isolation_signal iso\n";
    let below = "set_retention R -elements {s}\n";
    vec![
        (worked(&text), 0, 0),
        (worked(&(text.clone() + "set_retention R -elements {u1}\n")), 0, 0),
        (worked(""), 0, 0),
        (worked("create_power_switch S -off_state -on_state"), 0, 0),
        (worked("create_power_domain -include_scope PD"), 0, 0),
        (nested(16), 0, 0),
        (nested(17), 8, 17),
        (worked("load_upf p.upf"), 8, 17),
        (job("", &[("p", "set_design_top ghost")], ghost), 12, 0),
        (job("", &[("p", "set_design_top other")], ghost), 11, 0),
        (deep(domain("s") + below), 0, 0),
        (deep(domain("s/u1") + below), 0, 0),
        (deep(domain("s") + "set_retention R -elements {s/u1}\n"), 0, 0),
        (job("", &[("p", &domain("u1"))], dims), 0, 0),
        (job("", &files, WORKED), 0, 0),
        (job("", &[("p", &upf)], open), 0, 0),
    ]
}
