//! UPF commands over the names of a design, with their options in odd orders.

use super::design::Design;
use super::words::{braced_ok, finish, gap, in_braces, plain_ok, quoted, write_word};
use super::Rng;

/// What has been written so far, so that later commands name it.
pub struct Ctx<'a> {
    pub design: &'a Design,
    pub paths: Vec<(String, String)>,
    pub scope: String,
    pub domains: Vec<String>,
    pub nets: Vec<String>,
    pub isos: Vec<(String, String)>,
    pub psts: Vec<String>,
    pub elements: Vec<String>,
    pub vars: Vec<(String, Vec<u8>)>,
    pub known: Vec<(String, Vec<u8>)>,
    pub made: [usize; 10],
    pub retentions: usize,
    pub tops: Vec<String>,
}

/// A positional word, a flag, or an option with its value.
#[derive(Clone)]
struct Part {
    words: Vec<Vec<u8>>,
    flag: bool,
}

/// Commands that are read and not simulated.
const IDLE: &[&str] = &[
    "create_supply_set",
    "associate_supply_set",
    "add_power_state",
    "set_port_attributes",
    "set_design_attributes",
    "upf_version",
    "create_logic_net",
    "create_logic_port",
    "connect_logic_net",
    "set_partial_on_translation",
    "set_simstate_behavior",
];

const STRANGE: &[&str] = &[
    "query_power_domain",
    "query_",
    "query_x",
    "query",
    "create_foo",
    "Set",
    "",
    "[exec x]",
    "set_isolation_x",
    "quer_y",
    "set ",
    "# x",
    "-elements",
    "find_objects",
    "bind_checker",
];

const ODD_NAMES: &[&str] = &[
    "", "a b", "x\"y", "a\\b", "$N", "${N}", "l\nf", "D-1", "a/b", "a_b", "a.b", "-5", ".", "{x}", "p;q",
    "\t", "[0]", "it's", "%d", "\\", "a\x1cb", "\x00", "\x7f", "c\rd",
];

fn pos(word: &str) -> Part {
    Part { words: vec![word.as_bytes().to_vec()], flag: false }
}

fn flag(name: &str) -> Part {
    Part { words: vec![format!("-{}", name).into_bytes()], flag: true }
}

fn opt(name: &str, value: &[u8]) -> Part {
    Part { words: vec![format!("-{}", name).into_bytes(), value.to_vec()], flag: false }
}

/// The next command's words, its effect noted in `c`.
pub fn command(r: &mut Rng, c: &mut Ctx) -> Vec<Vec<u8>> {
    let (name, parts) = match r.below(86) {
        0..=8 => create_power_domain(r, c),
        9..=17 => set_domain_supply_net(r, c),
        18..=23 => create_supply_net(r, c),
        24..=27 => create_supply_port(r, c),
        28..=31 => connect_supply_net(r, c),
        32..=37 => create_power_switch(r, c),
        38..=47 => set_isolation(r, c),
        48..=53 => set_isolation_control(r, c),
        54..=58 => set_retention(r, c),
        59..=60 => retention_control(r, c),
        61..=63 => set_level_shifter(r, c),
        64..=66 => add_port_state(r, c),
        67..=69 => create_pst(r, c),
        70..=72 => add_pst_state(r, c),
        73..=75 => idle(r, c),
        76..=77 => set(r, c),
        78..=79 => puts(r, c),
        80 => set_design_top(r, c),
        81..=83 => set_scope(r, c),
        _ => strange(r, c),
    };
    let mut words = vec![name.as_bytes().to_vec()];
    words.extend(arrange(r, parts));
    words
}

/// A command that sets a variable.
pub fn variable(r: &mut Rng, c: &mut Ctx) -> Vec<Vec<u8>> {
    let (name, parts) = set(r, c);
    let mut words = vec![name.into_bytes()];
    words.extend(parts.into_iter().flat_map(|p| p.words));
    words
}

/// The words of the parts, mostly in a random order, sometimes with a doubled or strange option.
fn arrange(r: &mut Rng, mut parts: Vec<Part>) -> Vec<Vec<u8>> {
    if r.chance(1, 14) && !parts.is_empty() {
        let again = r.pick(&parts).clone();
        parts.push(again);
    }
    if r.chance(1, 2) {
        r.shuffle(&mut parts);
    }
    if r.chance(6, 7) {
        parts.sort_by_key(|p| p.flag);
    }
    if r.chance(1, 25) {
        let odd = odd_part(r);
        let at = r.below(parts.len() + 1);
        parts.insert(at, odd);
    }
    if r.chance(1, 40) && !parts.is_empty() {
        let at = r.below(parts.len());
        let last = parts[at].words.len() - 1;
        parts[at].words[last] = r.pick(&["-x", "-u1 s", "-", "-5", "--", "-elements"]).as_bytes().to_vec();
    }
    parts.into_iter().flat_map(|p| p.words).collect()
}

fn odd_part(r: &mut Rng) -> Part {
    match r.below(6) {
        0 => pos("-"),
        1 => pos("-5"),
        2 => flag("verbose"),
        3 => opt("k", b"-6"),
        4 => opt("elements", b"nope"),
        _ => opt("location", b"self"),
    }
}

/// A name: mostly one of `from`, else a fresh plain one, sometimes an odd one.
fn name(r: &mut Rng, from: &[String], fresh: &str) -> String {
    match r.below(16) {
        0 => r.pick(ODD_NAMES).to_string(),
        1..=2 => format!("{}{}", fresh, r.below(6)),
        _ if from.is_empty() => format!("{}{}", fresh, r.below(6)),
        _ => r.pick(from).clone(),
    }
}

/// A new name, seldom odd or taken already.
fn new_name(r: &mut Rng, from: &[String], fresh: &str) -> String {
    match r.below(20) {
        0 | 1 => r.pick(ODD_NAMES).to_string(),
        2 if !from.is_empty() => r.pick(from).clone(),
        _ => format!("{}{}", fresh, from.len()),
    }
}

/// A path as the present scope must name it.
fn relative(c: &Ctx, path: &str) -> String {
    if c.scope.is_empty() {
        return path.to_string();
    }
    if path == c.scope {
        return ".".to_string();
    }
    let head = format!("{}/", c.scope);
    if path.starts_with(&head) {
        return path[head.len()..].to_string();
    }
    path.to_string()
}

/// A real instance path, one below the present scope if there is one.
fn instance(r: &mut Rng, c: &Ctx) -> Option<(String, String)> {
    let head = if c.scope.is_empty() { String::new() } else { format!("{}/", c.scope) };
    let ghosts = r.chance(1, 12);
    let under: Vec<&(String, String)> = c
        .paths
        .iter()
        .filter(|p| p.0.starts_with(&head) && (ghosts || c.design.find(&p.1).is_some()))
        .collect();
    if !under.is_empty() && r.chance(19, 20) {
        return Some((*r.pick(&under)).clone());
    }
    if c.paths.is_empty() {
        return None;
    }
    Some(r.pick(&c.paths).clone())
}

/// An element: mostly a real instance, else one of the odd spellings.
fn element(r: &mut Rng, c: &Ctx) -> String {
    let real = match instance(r, c) {
        Some(p) => relative(c, &p.0),
        None => ".".to_string(),
    };
    match r.below(40) {
        0 | 1 => ".".to_string(),
        2 => String::new(),
        3 => real.replace("/", "//"),
        4 => format!("{}/", real),
        5 => format!("/{}", real),
        6 => "nope".to_string(),
        7 => format!("{}/nope", real),
        8 => r.pick(ODD_NAMES).to_string(),
        _ => real,
    }
}

/// An element for isolation: an instance, or an instance and a port.
fn target(r: &mut Rng, c: &Ctx) -> String {
    let near: Vec<&String> = c.elements.iter().filter(|e| !e.is_empty()).collect();
    let (path, of) = match instance(r, c) {
        Some(p) => p,
        None => return element(r, c),
    };
    let path = if !near.is_empty() && r.chance(1, 4) { (*r.pick(&near)).clone() } else { path };
    let here = relative(c, &path);
    let outs = match c.design.find(&of) {
        Some(m) => m.outputs(),
        None => vec![],
    };
    match r.below(12) {
        0 => element(r, c),
        1 => format!("{}/clk", here),
        2 => format!("{}/nope", here),
        3..=6 if !outs.is_empty() => format!("{}/{}", here, r.pick(&outs)),
        _ => here,
    }
}

/// A value that is read as a list of these entries.
fn list(r: &mut Rng, entries: &[String]) -> Vec<u8> {
    let mut out = Vec::new();
    if r.chance(1, 40) {
        out.extend_from_slice(b"# u1\n");
    }
    for (i, e) in entries.iter().enumerate() {
        if i > 0 {
            let odd: &[&str] = &["\n", " ; ", "  ", "\t", ";", "\r\n"];
            let part = if r.chance(1, 8) { *r.pick(odd) } else { " " };
            out.extend_from_slice(part.as_bytes());
        }
        if r.chance(1, 8) && braced_ok(e.as_bytes()) {
            out.extend(in_braces(e.as_bytes()));
        } else {
            out.extend(write_word(r, e.as_bytes(), i == 0));
        }
    }
    if r.chance(1, 60) {
        out.extend_from_slice(r.pick(&[" {", " \"a", " [", "}", " $N", "\\"]).as_bytes());
    }
    out
}

fn many(r: &mut Rng, c: &Ctx, make: fn(&mut Rng, &Ctx) -> String) -> Vec<String> {
    let most = if r.chance(1, 30) { 12 } else { 3 };
    let least = if r.chance(1, 20) { 0 } else { 1 };
    let n = r.range(least, most);
    (0..n).map(|_| make(r, c)).collect()
}

fn scoped(c: &Ctx, n: &str) -> String {
    if n == "." {
        return c.scope.clone();
    }
    if c.scope.is_empty() {
        n.to_string()
    } else {
        format!("{}/{}", c.scope, n)
    }
}

/// Is there room for one more record of this kind? Beyond it a harmless command is written.
fn room(c: &mut Ctx, kind: usize) -> bool {
    c.made[kind] += 1;
    c.made[kind] <= 30
}

type Made = (String, Vec<Part>);

fn create_power_domain(r: &mut Rng, c: &mut Ctx) -> Made {
    if !room(c, 0) {
        return set_domain_supply_net(r, c);
    }
    let n = new_name(r, &c.domains, "PD");
    let els = many(r, c, element);
    for e in &els {
        let full = scoped(c, e);
        c.elements.push(full);
    }
    let mut parts = vec![pos(&n)];
    if r.chance(12, 13) {
        let v = list(r, &els);
        parts.push(opt("elements", &v));
    }
    if r.chance(1, 6) {
        parts.push(flag("include_scope"));
    }
    c.domains.push(n);
    ("create_power_domain".to_string(), parts)
}

fn set_domain_supply_net(r: &mut Rng, c: &mut Ctx) -> Made {
    let mut parts = vec![pos(&name(r, &c.domains, "PD"))];
    if r.chance(14, 15) {
        let n = name(r, &c.nets, "VDD");
        parts.push(opt("primary_power_net", n.as_bytes()));
    }
    if r.chance(14, 15) {
        let n = name(r, &c.nets, "VSS");
        parts.push(opt("primary_ground_net", n.as_bytes()));
    }
    ("set_domain_supply_net".to_string(), parts)
}

fn create_supply_net(r: &mut Rng, c: &mut Ctx) -> Made {
    let fresh = *r.pick(&["VDD", "VSS", "V_SW"]);
    let known = c.nets.clone();
    let n = if room(c, 1) { new_name(r, &known, fresh) } else { "VDD".to_string() };
    let mut parts = vec![pos(&n)];
    if r.chance(1, 5) {
        parts.push(opt("domain", b"PD0"));
    }
    if r.chance(1, 8) {
        parts.push(flag("reuse"));
    }
    c.nets.push(n);
    ("create_supply_net".to_string(), parts)
}

fn create_supply_port(r: &mut Rng, c: &mut Ctx) -> Made {
    if !room(c, 2) {
        return connect_supply_net(r, c);
    }
    let mut parts = vec![pos(&name(r, &c.nets, "port"))];
    if r.chance(1, 2) {
        parts.push(opt("direction", r.pick(&["in", "out", "inout", "x"]).as_bytes()));
    }
    ("create_supply_port".to_string(), parts)
}

fn connect_supply_net(r: &mut Rng, c: &mut Ctx) -> Made {
    let n = name(r, &c.nets, "VDD");
    let ports: Vec<String> = (0..r.range(1, 3)).map(|_| name(r, &c.nets, "port")).collect();
    let v = list(r, &ports);
    ("connect_supply_net".to_string(), vec![pos(&n), opt("ports", &v)])
}

fn create_power_switch(r: &mut Rng, c: &mut Ctx) -> Made {
    if !room(c, 3) {
        return puts(r, c);
    }
    let n = new_name(r, &c.domains, "SW");
    let mut parts = vec![pos(&n)];
    let input = if r.chance(1, 20) { "vin2" } else { "vin" };
    let a = vec![input.to_string(), name(r, &c.nets, "VDD")];
    let b = vec!["vout".to_string(), name(r, &c.nets, "V_SW")];
    for (k, l) in [("input_supply_port", a), ("output_supply_port", b)].iter() {
        let keep = if r.chance(1, 25) { 1 } else { 2 };
        let v = list(r, &l[..keep]);
        parts.push(opt(k, &v));
    }
    for _ in 0..*r.pick(&[0, 1, 1, 1, 2]) {
        let v = controls(r);
        parts.push(opt("control_port", &v));
    }
    for _ in 0..*r.pick(&[0, 1, 1, 1, 2, 3]) {
        let v = on_state(r);
        parts.push(opt("on_state", &v));
    }
    for _ in 0..*r.pick(&[0, 0, 1, 2]) {
        parts.push(opt("off_state", r.pick(&["off !c1", "{o f} {!c1 & c2}", "-on_state", ""]).as_bytes()));
    }
    if r.chance(1, 2) {
        parts.push(opt("domain", name(r, &c.domains, "PD").as_bytes()));
    }
    ("create_power_switch".to_string(), parts)
}

fn controls(r: &mut Rng) -> Vec<u8> {
    let pool = ["c1 en", "c1 s/en c2 w", "c1", "c1 en c2", "c1 a c1 b", "{} en", "c1 {}", "c-1 x c1 y c2 z"];
    r.pick(&pool).as_bytes().to_vec()
}

fn on_state(r: &mut Rng) -> Vec<u8> {
    let input = *r.pick(&["vin", "vin", "vin", "vin", "vin2", "{}", "{a b}"]);
    let pool = [
        "c1",
        "!c1",
        "{c1 && !c2}",
        "{c1 | 1}",
        "{c1&c2}",
        "0",
        "{}",
        "\"c1 == 1'b1\"",
        "nope",
        "{!(c1) || _x9}",
        "c1 && c2",
        "{12ab}",
        "{c-1 }",
    ];
    let mut out = format!("on {} {}", input, r.pick(&pool));
    if r.chance(1, 20) {
        out.truncate(r.below(4));
    }
    out.into_bytes()
}

fn set_isolation(r: &mut Rng, c: &mut Ctx) -> Made {
    let used: Vec<String> = c.isos.iter().map(|i| i.0.clone()).collect();
    let update = !used.is_empty() && (!room(c, 4) || r.chance(1, 5));
    let n = if update { r.pick(&used).clone() } else { new_name(r, &used, "iso") };
    let dom = name(r, &c.domains, "PD");
    let mut parts = vec![pos(&n)];
    if r.chance(if update { 2 } else { 14 }, 15) {
        parts.push(opt("domain", dom.as_bytes()));
    }
    if r.chance(1, 2) {
        let els = many(r, c, target);
        let v = list(r, &els);
        parts.push(opt("elements", &v));
    }
    isolation_options(r, &mut parts);
    if update {
        parts.push(flag("update"));
    } else if r.chance(1, 20) {
        parts.push(flag(*r.pick(&["no_isolation", "update"])));
    }
    c.isos.push((n, dom));
    ("set_isolation".to_string(), parts)
}

fn isolation_options(r: &mut Rng, parts: &mut Vec<Part>) {
    let clamps = ["0", "1", "z", "Z", "0", "1", "0", "1", "latch", "LATCH", "", "x"];
    let senses = ["low", "LOW", "high", "Low", "x", ""];
    if r.chance(1, 3) {
        parts.push(opt(
            "applies_to",
            r.pick(&["outputs", "both", "inputs", "", "outputs", "both"]).as_bytes(),
        ));
    }
    if r.chance(2, 3) {
        parts.push(opt("clamp_value", r.pick(&clamps).as_bytes()));
    }
    if r.chance(9, 10) {
        parts.push(opt("isolation_signal", signal(r).as_bytes()));
    }
    if r.chance(1, 3) {
        parts.push(opt("isolation_sense", r.pick(&senses).as_bytes()));
    }
    if r.chance(1, 6) {
        parts.push(opt("isolation_power_net", b"VDD0"));
    }
    if r.chance(1, 6) {
        parts.push(opt("isolation_ground_net", b"VSS"));
    }
}

fn signal(r: &mut Rng) -> &'static str {
    *r.pick(&["iso_en", "iso_en", "ctl/en", "w", "n_iso", "s/w", "", ".", "a b", "x\"", "u1//q"])
}

fn set_isolation_control(r: &mut Rng, c: &mut Ctx) -> Made {
    let used: Vec<String> = c.isos.iter().map(|i| i.0.clone()).collect();
    let n = name(r, &used, "iso");
    let mut parts = vec![pos(&n)];
    if r.chance(1, 2) {
        let dom = match c.isos.iter().find(|i| i.0 == n) {
            Some(i) if r.chance(4, 5) => i.1.clone(),
            _ => name(r, &c.domains, "PD"),
        };
        parts.push(opt("domain", dom.as_bytes()));
    }
    if r.chance(9, 10) {
        parts.push(opt("isolation_signal", signal(r).as_bytes()));
    }
    if r.chance(2, 3) {
        parts.push(opt("isolation_sense", r.pick(&["low", "high", "LOW", "HIGH"]).as_bytes()));
    }
    ("set_isolation_control".to_string(), parts)
}

fn set_retention(r: &mut Rng, c: &mut Ctx) -> Made {
    if !room(c, 5) || c.made[5] > c.retentions {
        return retention_control(r, c);
    }
    let els = many(r, c, element);
    let v = list(r, &els);
    let mut parts = vec![pos(&format!("ret{}", r.below(9)))];
    if r.chance(9, 10) {
        parts.push(opt("domain", name(r, &c.domains, "PD").as_bytes()));
    }
    if r.chance(9, 10) {
        parts.push(opt("elements", &v));
    }
    ("set_retention".to_string(), parts)
}

fn retention_control(r: &mut Rng, c: &mut Ctx) -> Made {
    let d = name(r, &c.domains, "PD");
    let parts = vec![pos("ret0"), opt("domain", d.as_bytes()), opt("save_signal", b"save high")];
    ("set_retention_control".to_string(), parts)
}

fn set_level_shifter(r: &mut Rng, c: &mut Ctx) -> Made {
    if !room(c, 6) {
        return puts(r, c);
    }
    let mut parts = vec![pos(&new_name(r, &c.psts, "ls"))];
    if r.chance(5, 6) {
        parts.push(opt("domain", name(r, &c.domains, "PD").as_bytes()));
    }
    if r.chance(1, 3) {
        parts.push(opt("applies_to", b"outputs"));
    }
    ("set_level_shifter".to_string(), parts)
}

fn add_port_state(r: &mut Rng, c: &mut Ctx) -> Made {
    if !room(c, 7) {
        return puts(r, c);
    }
    let mut parts = vec![pos(&name(r, &c.nets, "port"))];
    for _ in 0..r.below(4) {
        let v = *r.pick(&["ON 1.0", "OFF off", "{a b} 0.9", "", "X", "-state"]);
        parts.push(opt("state", v.as_bytes()));
    }
    ("add_port_state".to_string(), parts)
}

fn create_pst(r: &mut Rng, c: &mut Ctx) -> Made {
    if !room(c, 8) {
        return add_pst_state(r, c);
    }
    let n = new_name(r, &c.psts, "pst");
    let sup: Vec<String> = (0..r.below(4)).map(|_| name(r, &c.nets, "VDD")).collect();
    let v = list(r, &sup);
    c.psts.push(n.clone());
    ("create_pst".to_string(), vec![pos(&n), opt("supplies", &v)])
}

fn add_pst_state(r: &mut Rng, c: &mut Ctx) -> Made {
    let states: Vec<String> =
        (0..r.below(4)).map(|_| r.pick(&["ON", "OFF", "*", "a b", ""]).to_string()).collect();
    let v = list(r, &states);
    let mut parts = vec![pos(*r.pick(&["on", "off", "s1", "", "s t"]))];
    if r.chance(14, 15) {
        parts.push(opt("pst", name(r, &c.psts, "pst").as_bytes()));
    }
    if r.chance(9, 10) {
        parts.push(opt("state", &v));
    }
    ("add_pst_state".to_string(), parts)
}

fn idle(r: &mut Rng, c: &mut Ctx) -> Made {
    let parts = vec![pos(&name(r, &c.domains, "SS")), opt("function", b"power VDD"), flag("update")];
    (r.pick(IDLE).to_string(), parts)
}

fn set(r: &mut Rng, c: &mut Ctx) -> Made {
    if !room(c, 9) {
        return puts(r, c);
    }
    let n = r.pick(&["N", "E", "D", "V", "_a1", "M", "x y", "", "5"]).to_string();
    let v: Vec<u8> = match r.below(8) {
        0 => r.pick(ODD_NAMES).as_bytes().to_vec(),
        1 => name(r, &c.nets, "VDD").into_bytes(),
        2 | 3 => name(r, &c.domains, "PD").into_bytes(),
        4 => signal(r).as_bytes().to_vec(),
        _ => {
            let els = many(r, c, element);
            list(r, &els)
        }
    };
    let value = Part { words: vec![v.clone()], flag: false };
    let mut parts = vec![pos(&n)];
    if r.chance(15, 16) {
        parts.push(value);
        c.vars.retain(|p| p.0 != n);
        c.vars.push((n, v));
    }
    ("set".to_string(), parts)
}

fn puts(r: &mut Rng, c: &mut Ctx) -> Made {
    let mut parts = Vec::new();
    for _ in 0..*r.pick(&[0, 1, 1, 1, 2]) {
        parts.push(pos(&name(r, &c.domains, "hello ")));
    }
    if r.chance(1, 6) {
        parts.insert(0, flag("nonewline"));
    }
    ("puts".to_string(), parts)
}

fn set_design_top(r: &mut Rng, c: &mut Ctx) -> Made {
    let parts =
        if c.tops.is_empty() || r.chance(1, 60) { vec![] } else { vec![pos(&r.pick(&c.tops).clone())] };
    ("set_design_top".to_string(), parts)
}

fn set_scope(r: &mut Rng, c: &mut Ctx) -> Made {
    // A scope that leads nowhere, or deep, is left again.
    let lost = !c.scope.is_empty() && !c.paths.iter().any(|p| p.0.starts_with(&c.scope));
    let word = match if lost { r.below(7) } else { r.below(10) } {
        0..=2 => ".".to_string(),
        3 => String::new(),
        4 | 5 => "..".to_string(),
        6 => "/".to_string(),
        7 => match instance(r, c) {
            Some(p) => format!("/{}", p.0),
            None => "/x".to_string(),
        },
        _ => match instance(r, c) {
            Some(p) => relative(c, &p.0),
            None => "k".to_string(),
        },
    };
    c.scope = moved(&c.scope, &word);
    let parts = if word.is_empty() && r.chance(1, 2) { vec![] } else { vec![pos(&word)] };
    ("set_scope".to_string(), parts)
}

/// The scope after `set_scope word`.
fn moved(scope: &str, word: &str) -> String {
    if word == "." || word.is_empty() {
        return String::new();
    }
    if word == ".." {
        return match scope.rfind('/') {
            Some(i) => scope[..i].to_string(),
            None => String::new(),
        };
    }
    if let Some(rest) = word.strip_prefix('/') {
        return rest.to_string();
    }
    if scope.is_empty() {
        word.to_string()
    } else {
        format!("{}/{}", scope, word)
    }
}

/// A scope word for `load_upf -scope` and the scope it gives.
pub fn load_scope(r: &mut Rng, c: &Ctx) -> (String, String) {
    let word = match (r.below(8), instance(r, c)) {
        (0, _) => ".".to_string(),
        (1, _) => "/".to_string(),
        (2, _) => r.pick(&["", "..", "k", "/x"]).to_string(),
        (3, Some(p)) => format!("/{}", p.0),
        (_, Some(p)) => relative(c, &p.0),
        _ => ".".to_string(),
    };
    let after = if word == "." || word == "/" {
        c.scope.clone()
    } else if let Some(rest) = word.strip_prefix('/') {
        rest.to_string()
    } else {
        scoped(c, &word)
    };
    (word, after)
}

fn strange(r: &mut Rng, c: &mut Ctx) -> Made {
    let parts = vec![pos(&name(r, &c.domains, "x")), opt("y", b"z")];
    (r.pick(STRANGE).to_string(), parts)
}

/// The text of a command: gaps, ends, quoting, and variables known in this file.
pub fn write(r: &mut Rng, c: &Ctx, words: &[Vec<u8>]) -> Vec<u8> {
    let mut out = Vec::new();
    if r.chance(1, 12) {
        out.extend_from_slice(r.pick(&["# note {\n", "  # a \"b ; c\n", "#\n", "\n", "#[x\n"]).as_bytes());
    }
    for (i, w) in words.iter().enumerate() {
        if i > 0 {
            out.extend(gap(r));
        }
        match by_variable(r, c, w) {
            Some(t) => out.extend(t),
            None => out.extend(write_word(r, w, i == 0)),
        }
    }
    if r.chance(1, 80) {
        out.extend_from_slice(r.pick(&[" # late", " \\", " ${N", " $", " $$"]).as_bytes());
    }
    out.extend(finish(r));
    out
}

/// The word through a variable known in this file, if one has its value.
fn by_variable(r: &mut Rng, c: &Ctx, word: &[u8]) -> Option<Vec<u8>> {
    let fit: Vec<&(String, Vec<u8>)> = c
        .known
        .iter()
        .filter(|v| !v.0.is_empty() && v.0 != "x y" && !v.1.is_empty() && word.starts_with(&v.1))
        .collect();
    if fit.is_empty() || r.chance(1, 4) {
        return None;
    }
    let (n, v) = (*r.pick(&fit)).clone();
    let rest = &word[v.len()..];
    if rest.is_empty() {
        let form = *r.pick(&["$@", "${@}", "\"$@\"", "\"\\$@\"", "${@"]);
        return Some(form.replace("@", &n).into_bytes());
    }
    if !plain_ok(rest, false) {
        return None;
    }
    let mut t = format!("${{{}}}", n).into_bytes();
    t.extend_from_slice(rest);
    if r.chance(1, 3) {
        let mut q = quoted(r, rest);
        q.splice(1..1, format!("${{{}}}", n).into_bytes());
        return Some(q);
    }
    Some(t)
}

/// A command that uses a variable's value where a list or a name is due.
pub fn with_variable(r: &mut Rng, c: &Ctx) -> Option<Vec<u8>> {
    if c.known.is_empty() {
        return None;
    }
    let n = r.pick(&c.known).0.clone();
    let form = if r.chance(1, 2) { format!("${}", n) } else { format!("${{{}}}", n) };
    let text = match r.below(5) {
        0 if r.chance(1, 4) => format!("set_retention r -domain PD0 -elements {}\n", form),
        0 => format!("create_power_domain PD0 -elements {}\n", form),
        1 => format!("puts \"value {} end\"\n", form),
        2 => format!("create_supply_net {}_n\n", form),
        3 => format!("set_domain_supply_net {} -primary_power_net VDD -primary_ground_net VSS\n", form),
        _ => format!("set_isolation i -elements {} -domain PD0 -isolation_signal w\n", form),
    };
    Some(text.into_bytes())
}
