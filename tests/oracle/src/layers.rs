//! The layers one by one, in a form with one item a line: fields parted by a
//! space, every byte string in quotes with `\n \r \t \" \\ \xHH`.

use upf_rs::records::{Isolation, Records, Switch, Table};
use upf_rs::upf;

type Vars = [(String, String)];

/// A byte string in quotes.
pub fn quote(text: &str) -> String {
    let mut out = String::from("\"");
    for b in text.bytes() {
        match b {
            b'\n' => out.push_str("\\n"),
            b'\r' => out.push_str("\\r"),
            b'\t' => out.push_str("\\t"),
            b'"' | b'\\' => out.extend(['\\', b as char]),
            32..=126 => out.push(b as char),
            _ => out.push_str(&format!("\\x{b:02x}")),
        }
    }
    out + "\""
}

fn quotes(all: &[String]) -> String {
    all.iter().map(|w| format!(" {}", quote(w))).collect()
}

fn maybe(value: &Option<String>) -> String {
    value.as_deref().map_or("-".into(), quote)
}

/// `N WORD`: each word with the number of its command, from 1.
pub fn words(text: &str, vars: &Vars) -> Vec<String> {
    let commands = upf::words_of(text, vars);
    let mut out = Vec::new();
    for (n, words) in commands.iter().enumerate() {
        out.extend(words.iter().map(|w| format!("{} {}", n + 1, quote(w))));
    }
    out
}

/// `WORD` for each entry.
pub fn list(value: &str) -> Vec<String> {
    upf::list_of(value).iter().map(|w| quote(w)).collect()
}

/// `positional WORD`, `option NAME VALUE` (sorted by name), `flag NAME`.
pub fn args(words: &[String]) -> Vec<String> {
    let a = upf::arguments_of(words);
    let positional = a.positional.iter().map(|w| format!("positional {}", quote(w)));
    let options = a.options.iter().map(|o| format!("option {} {}", quote(&o.0), quote(&o.1)));
    let flags = a.flags.iter().map(|w| format!("flag {}", quote(w)));
    positional.chain(options).chain(flags).collect()
}

/// The arguments of each command of a text, behind the command's number.
pub fn args_of_text(text: &str) -> Vec<String> {
    let mut out = Vec::new();
    for (n, words) in upf::words_of(text, &[]).iter().enumerate() {
        out.push(format!("{} command {}", n + 1, quote(&words[0])));
        out.extend(args(&words[1..]).iter().map(|a| format!("{} {a}", n + 1)));
    }
    out
}

pub fn subst(word: &str, vars: &Vars) -> Vec<String> {
    vec![quote(&upf::substituted(word, vars))]
}

/// A switch expression's text, then its warnings.
pub fn expression(text: &str, controls: &Vars) -> Vec<String> {
    let (out, warnings) = upf::expression(text, controls);
    let warnings = warnings.iter().map(|w| format!("warning {}", quote(w)));
    std::iter::once(quote(&out)).chain(warnings).collect()
}

/// All fields of all records; `-` is an option that was not given.
pub fn records(r: &Records) -> Vec<String> {
    let mut out = vec![format!("design_top {}", maybe(&r.design_top)), format!("scope {}", quote(&r.scope))];
    for d in &r.domains {
        let supplies = format!("power {} ground {}", maybe(&d.power), maybe(&d.ground));
        let at = format!("scope {}", quote(&d.scope));
        let all = quotes(&d.elements);
        out.push(format!("domain {} {supplies} {at} elements{all}", quote(&d.name)));
    }
    out.extend(r.nets.iter().map(|n| format!("net {}", quote(n))));
    out.extend(r.ports.iter().map(|p| format!("port {} {}", quote(&p.0), quote(&p.1))));
    let connections = r.connections.iter();
    out.extend(connections.map(|(p, n)| format!("connection {} {}", quote(p), quote(n))));
    r.switches.iter().for_each(|s| switch(s, &mut out));
    out.extend(r.isolations.iter().map(isolation));
    for t in &r.retentions {
        let all = quotes(&t.elements);
        out.push(format!("retention {} domain {} elements{all}", quote(&t.name), quote(&t.domain)));
    }
    out.extend(r.shifters.iter().map(|s| format!("shifter {} {}", quote(&s.0), quote(&s.1))));
    for (port, states) in &r.port_states {
        let pairs = states.iter().map(|s| format!(" {} {}", quote(&s.0), quote(&s.1)));
        out.push(format!("port_state {}{}", quote(port), pairs.collect::<String>()));
    }
    r.tables.iter().for_each(|t| table(t, &mut out));
    out.extend(r.warnings.iter().map(|w| format!("warning {}", quote(w))));
    out
}

fn switch(s: &Switch, out: &mut Vec<String>) {
    let name = quote(&s.name);
    let pair = |p: &(String, String)| format!("{} {}", quote(&p.0), quote(&p.1));
    let ends = format!("input {} output {}", pair(&s.input), pair(&s.output));
    out.push(format!("switch {name} domain {} {ends}", maybe(&s.domain)));
    out.extend(s.controls.iter().map(|c| format!("switch_control {name} {}", pair(c))));
    for (state, port, expression) in &s.on_states {
        let rest = quotes(&[state.clone(), port.clone(), expression.clone()]);
        out.push(format!("switch_on {name}{rest}"));
    }
    out.extend(s.off_states.iter().map(|o| format!("switch_off {name} {}", pair(o))));
}

fn isolation(s: &Isolation) -> String {
    let fields = [
        ("domain", quote(&s.domain)),
        ("applies_to", maybe(&s.applies_to)),
        ("clamp", quote(&s.clamp)),
        ("signal", maybe(&s.signal)),
        ("sense", quote(&s.sense)),
        ("power", maybe(&s.power)),
        ("ground", maybe(&s.ground)),
    ];
    let fields: String = fields.iter().map(|f| format!(" {} {}", f.0, f.1)).collect();
    format!("isolation {}{fields} elements{}", quote(&s.name), quotes(&s.elements))
}

fn table(t: &Table, out: &mut Vec<String>) {
    let name = quote(&t.name);
    out.push(format!("table {name} supplies{}", quotes(&t.supplies)));
    for (state, values) in &t.states {
        out.push(format!("table_state {name} {}{}", quote(state), quotes(values)));
    }
}

/// `domain NAME COUNT` (or `-` where it is not walked), then `path PATH`.
pub fn paths(listed: &[upf::Listed]) -> Vec<String> {
    let mut out = Vec::new();
    for (name, paths) in listed {
        let count = paths.as_ref().map_or("-".into(), |p| p.len().to_string());
        out.push(format!("domain {} {count}", quote(name)));
        let paths = paths.iter().flatten();
        out.extend(paths.map(|p| format!("path {}", quote(p))));
    }
    out
}
