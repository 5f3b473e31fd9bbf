//! What the jobs reach: commands, options, warnings, report lines and refusals.

use std::collections::HashMap;

/// The thirty commands, each with the options and flags it looks at.
const KNOWN: &[(&str, &[&str])] = &[
    ("set", &[]),
    ("puts", &[]),
    ("load_upf", &["scope"]),
    ("set_design_top", &[]),
    ("set_scope", &[]),
    ("create_power_domain", &["elements", "include_scope"]),
    ("create_supply_net", &[]),
    ("create_supply_port", &["direction"]),
    ("connect_supply_net", &["ports"]),
    ("set_domain_supply_net", &["primary_power_net", "primary_ground_net"]),
    ("create_supply_set", &[]),
    ("associate_supply_set", &[]),
    ("add_power_state", &[]),
    ("set_port_attributes", &[]),
    ("set_design_attributes", &[]),
    ("upf_version", &[]),
    ("create_logic_net", &[]),
    ("create_logic_port", &[]),
    ("connect_logic_net", &[]),
    ("set_partial_on_translation", &[]),
    ("set_simstate_behavior", &[]),
    (
        "create_power_switch",
        &["input_supply_port", "output_supply_port", "control_port", "on_state", "off_state", "domain"],
    ),
    (
        "set_isolation",
        &[
            "domain",
            "elements",
            "applies_to",
            "clamp_value",
            "isolation_signal",
            "isolation_sense",
            "isolation_power_net",
            "isolation_ground_net",
            "no_isolation",
            "update",
        ],
    ),
    ("set_isolation_control", &["domain", "isolation_signal", "isolation_sense"]),
    ("set_retention", &["domain", "elements"]),
    ("set_retention_control", &[]),
    ("set_level_shifter", &["domain"]),
    ("add_port_state", &["state"]),
    ("create_pst", &["supplies"]),
    ("add_pst_state", &["pst", "state"]),
];

/// Report lines, each by pieces that stand in it in this order; the first of a line decides.
const LINES: &[(&str, &[&str])] = &[
    ("warning: supplies for an unknown domain", &["warning: set_domain_supply_net: unknown power domain '"]),
    ("warning: read and not simulated", &["warning: '", "' parsed but not simulated"]),
    ("warning: -no_isolation", &["warning: set_isolation ", ": -no_isolation, ignored"]),
    (
        "warning: control of an unknown strategy",
        &["warning: set_isolation_control: unknown isolation strategy '"],
    ),
    ("warning: state of an unknown table", &["warning: add_pst_state: unknown PST '"]),
    ("warning: unsupported command", &["warning: unsupported UPF command '"]),
    (
        "warning: switch with another input port",
        &["warning: power switch '", "': on_state uses input port '"],
    ),
    ("warning: switch with an unknown control", &["warning: power switch state uses unknown control port '"]),
    ("warning: strategy without a signal", &["warning: isolation strategy '", "has no -isolation_signal"]),
    ("warning: clamp value", &["warning: isolation strategy '", ": clamp value '", "' not simulated"]),
    ("warning: strategy of an unknown domain", &["warning: isolation strategy '", ": unknown domain '"]),
    (
        "warning: applies_to",
        &["warning: isolation strategy '", ": -applies_to ", " not simulated (outputs only)"],
    ),
    ("warning: no plain net", &["warning: isolation strategy '", "' actual is not a plain net"]),
    ("warning: element not found", &["warning: power domain '", "': element '", "' not found"]),
    ("scope", &["scope /", " (", " supply nets: "]),
    ("power switch", &["power switch ", ": ", " -> ", " controlled by "]),
    ("isolation", &["isolation ", ": clamp ", " control ", " sense "]),
    ("domain without supplies", &["power domain ", ": no primary supplies (always on)"]),
    ("domain, nothing lost", &["power domain ", ", 0 corruptible signals"]),
    ("domain, something lost", &["power domain ", " corruptible signals"]),
    ("level shifter", &["level shifter ", ": transparent"]),
    ("table", &["PST ", " over ["]),
];

/// Other things worth a count, found by looking at the job or its texts.
const OTHERS: &[&str] = &[
    "scope below the top",
    "retention exempt",
    "log not empty",
    "log of many lines",
    "override",
    "more than one file",
    "nested load",
    "substitution",
    "query_ command",
    "unknown command",
    "array instance",
    "style ansi",
    "style nonansi",
    "style empty",
    "conn star",
    "conn implicit",
    "conn named",
    "conn pos",
    "conn to -",
    "kind odd",
    "kind ref",
    "direction none",
    "direction ref",
    "200 commands",
    "30 KB",
];

/// Counts over accepted jobs and over all jobs.
#[derive(Clone)]
pub struct Coverage {
    jobs: [usize; 2],
    counts: HashMap<String, [usize; 2]>,
}

impl Coverage {
    pub fn new() -> Coverage {
        Coverage { jobs: [0, 0], counts: HashMap::new() }
    }

    /// Notes a job with its answer and texts.
    pub fn see(&mut self, job: &[u8], accepted: bool, number: u32, report: &str, log: &str) {
        self.jobs[1] += 1;
        if accepted {
            self.jobs[0] += 1;
        }
        self.add(&format!("answer {}", number), accepted, 1);
        let mut run = Run {
            files: HashMap::new(),
            vars: HashMap::new(),
            seen: Vec::new(),
            left: 1024,
            deepest: 0,
            substituted: false,
        };
        let (start, lines) = split_job(job, &mut run.files);
        run.file(&start, 0);
        for words in &run.seen {
            self.command(words, accepted);
        }
        for line in report.lines() {
            if let Some(k) = LINES.iter().find(|k| stands(line, k.1)) {
                self.add(k.0, accepted, 1);
            }
        }
        self.others(&run, &lines, accepted, report, log);
        if job.len() > 30_000 {
            self.add("30 KB", accepted, 1);
        }
    }

    /// How many rows have a job, and how many an accepted one.
    pub fn reached(&self) -> usize {
        self.counts.values().map(|c| (c[0] > 0) as usize + (c[1] > 0) as usize).sum()
    }

    fn add(&mut self, key: &str, accepted: bool, n: usize) {
        let c = self.counts.entry(key.to_string()).or_insert([0, 0]);
        c[1] += n;
        if accepted {
            c[0] += n;
        }
    }

    /// One command carried out: its name, and each known option as option, as flag.
    fn command(&mut self, words: &[Vec<u8>], accepted: bool) {
        let name = String::from_utf8_lossy(&words[0]).to_string();
        let known = match KNOWN.iter().find(|k| k.0 == name) {
            Some(k) => k,
            None => {
                let key = if name.starts_with("query_") { "query_ command" } else { "unknown command" };
                return self.add(key, accepted, 1);
            }
        };
        self.add(known.0, accepted, 1);
        for (i, w) in words.iter().enumerate().skip(1) {
            for o in known.1.iter() {
                if w[..] == format!("-{}", o).into_bytes()[..] {
                    let valued = i + 1 < words.len() && !option_word(&words[i + 1]);
                    let way = if valued { "with a word" } else { "as a flag" };
                    self.add(&format!("{} -{} {}", name, o, way), accepted, 1);
                }
            }
        }
    }

    fn others(&mut self, run: &Run, lines: &[String], ok: bool, report: &str, log: &str) {
        let top =
            lines.iter().find(|l| l.starts_with("top=")).map(|l| l[4..].to_string()).unwrap_or_default();
        let deep = format!("scope /{}/", top);
        let has = |start: &str| lines.iter().any(|l| l.starts_with(start));
        let rows = [
            ("scope below the top", report.starts_with(&deep)),
            ("retention exempt", report.contains(", retention exempt: ")),
            ("log not empty", !log.is_empty()),
            ("log of many lines", log.lines().count() > 3),
            ("override", lines.iter().any(|l| l.starts_with("override=") && l.len() > 9)),
            ("more than one file", run.files.len() > 1),
            ("nested load", run.deepest > 1),
            ("substitution", run.substituted),
            ("array instance", has("inst=1 ")),
            ("style ansi", has("style=ansi")),
            ("style nonansi", has("style=nonansi")),
            ("style empty", has("style=empty")),
            ("conn star", has("conn=star")),
            ("conn implicit", has("conn=implicit ")),
            ("conn named", has("conn=named ")),
            ("conn pos", has("conn=pos ")),
            ("conn to -", lines.iter().any(|l| l.starts_with("conn=") && l.ends_with(" -"))),
            ("kind odd", has("decl=odd ")),
            ("kind ref", has("decl=ref ")),
            ("direction none", has("port=none ")),
            ("direction ref", has("port=ref ")),
            ("200 commands", run.seen.len() >= 200),
        ];
        for row in rows.iter() {
            if row.1 {
                self.add(row.0, ok, 1);
            }
        }
    }

    /// Prints a row for each thing that can be reached; rows never reached are marked.
    pub fn print(&self) {
        println!("jobs: {} accepted of {}", self.jobs[0], self.jobs[1]);
        println!("{:>9} {:>9}", "accepted", "all");
        let mut blind = 0;
        for k in KNOWN.iter() {
            blind += self.row(k.0, true);
            for o in k.1.iter() {
                blind += self.row(&format!("{} -{} with a word", k.0, o), true);
                blind += self.row(&format!("{} -{} as a flag", k.0, o), true);
            }
        }
        for l in LINES.iter() {
            blind += self.row(l.0, true);
        }
        for o in OTHERS.iter() {
            blind += self.row(o, true);
        }
        for n in 0..15 {
            blind += self.row(&format!("answer {}", n), n == 0);
        }
        println!("rows without a job: {}", blind);
    }

    /// One row; 1 if it was never reached. Refusals have no accepted jobs.
    fn row(&self, key: &str, in_accepted: bool) -> usize {
        let c = match self.counts.get(key) {
            Some(c) => *c,
            None => [0, 0],
        };
        let missed = if in_accepted { c[0] == 0 } else { c[1] == 0 };
        let mark = if missed { "  <-- 0" } else { "" };
        println!("{:>9} {:>9}  {}{}", c[0], c[1], key, mark);
        missed as usize
    }
}

/// Do the pieces stand in the line in this order, the first at its beginning?
fn stands(line: &str, pieces: &[&str]) -> bool {
    if !line.starts_with(pieces[0]) {
        return false;
    }
    let mut rest = line;
    for p in pieces {
        match rest.find(p) {
            Some(i) => rest = &rest[i + p.len()..],
            None => return false,
        }
    }
    true
}

fn option_word(w: &[u8]) -> bool {
    w.len() > 1 && w[0] == b'-' && !w[1].is_ascii_digit()
}

/// The job's lines without bodies, its start path, and its files into `files`.
fn split_job(job: &[u8], files: &mut HashMap<String, Vec<u8>>) -> (String, Vec<String>) {
    let mut lines: Vec<String> = Vec::new();
    let mut start = String::new();
    let mut rest = job;
    while !rest.is_empty() {
        let end = rest.iter().position(|&b| b == b'\n').unwrap_or(rest.len());
        let line = String::from_utf8_lossy(&rest[..end]).to_string();
        rest = &rest[(end + 1).min(rest.len())..];
        if let Some(path) = line.strip_prefix("start=") {
            start = path.to_string();
        }
        if line.starts_with("bytes=") && lines.last().map(|l| l.starts_with("file=")) == Some(true) {
            let n = line[6..].parse().unwrap_or(0).min(rest.len());
            let path = lines[lines.len() - 1][5..].to_string();
            files.insert(path, rest[..n].to_vec());
            rest = &rest[(n + 1).min(rest.len())..];
        }
        lines.push(line);
    }
    (start, lines)
}

/// Carries out loads and sets, so that commands are counted as they happen.
struct Run {
    files: HashMap<String, Vec<u8>>,
    vars: HashMap<Vec<u8>, Vec<u8>>,
    seen: Vec<Vec<Vec<u8>>>,
    left: usize,
    deepest: usize,
    substituted: bool,
}

impl Run {
    fn file(&mut self, path: &str, depth: usize) {
        self.deepest = self.deepest.max(depth);
        let text = match self.files.get(path) {
            Some(t) => t.clone(),
            None => return,
        };
        for words in self.commands(&text) {
            if self.left == 0 {
                return;
            }
            self.left -= 1;
            let free = positional(&words[1..]);
            if words[0] == b"set" && free.len() >= 2 {
                self.vars.insert(free[0].clone(), free[1].clone());
            }
            let load = words[0] == b"load_upf";
            self.seen.push(words);
            if load && depth < 16 {
                let name = free.first().map(|w| String::from_utf8_lossy(w).to_string()).unwrap_or_default();
                let full = match path.rfind('/') {
                    Some(i) => format!("{}/{}", &path[..i], name),
                    None => name,
                };
                self.file(&full, depth + 1);
            }
        }
    }

    /// The commands of a text, its words substituted with the variables known now.
    fn commands(&mut self, text: &[u8]) -> Vec<Vec<Vec<u8>>> {
        let t = joined(text);
        let mut out: Vec<Vec<Vec<u8>>> = vec![vec![]];
        let mut i = 0;
        while i < t.len() {
            let b = t[i];
            let empty = out[out.len() - 1].is_empty();
            if b == b'\n' || b == b';' {
                out.push(vec![]);
                i += 1;
            } else if white(b) {
                i += 1;
            } else if b == b'#' && empty {
                i += t[i..].iter().take_while(|&&c| c != b'\n').count();
            } else {
                let (word, after) = self.word(&t, i);
                let last = out.len() - 1;
                out[last].push(word);
                i = after;
            }
        }
        out.retain(|c| !c.is_empty());
        out
    }

    fn word(&mut self, t: &[u8], i: usize) -> (Vec<u8>, usize) {
        match t[i] {
            b'{' => {
                let end = closing(t, i, b'{', b'}');
                (t[i + 1..end].to_vec(), end + 1)
            }
            b'[' => {
                let end = closing(t, i, b'[', b']');
                (t[i..(end + 1).min(t.len())].to_vec(), end + 1)
            }
            b'"' => {
                let (w, after) = unquoted(t, i + 1);
                (self.substitute(&w), after)
            }
            _ => {
                let n = t[i..].iter().take_while(|&&c| !white(c) && c != b';').count();
                (self.substitute(&t[i..i + n]), i + n)
            }
        }
    }

    fn substitute(&mut self, w: &[u8]) -> Vec<u8> {
        let mut out = Vec::new();
        let mut i = 0;
        while i < w.len() {
            if w[i] != b'$' {
                out.push(w[i]);
                i += 1;
                continue;
            }
            let open = (w.get(i + 1) == Some(&b'{')) as usize;
            let from = i + 1 + open;
            let n = w[from..].iter().take_while(|&&c| c.is_ascii_alphanumeric() || c == b'_').count();
            let shut = (open == 1 && w.get(from + n) == Some(&b'}')) as usize;
            let after = from + n + shut;
            match self.vars.get(&w[from..from + n]) {
                Some(v) if n > 0 => {
                    out.extend_from_slice(v);
                    self.substituted = true;
                }
                _ => out.extend_from_slice(&w[i..after]),
            }
            i = after;
        }
        out
    }
}

/// The words that are neither options nor their values nor flags.
fn positional(words: &[Vec<u8>]) -> Vec<Vec<u8>> {
    let mut out = Vec::new();
    let mut i = 0;
    while i < words.len() {
        if !option_word(&words[i]) {
            out.push(words[i].clone());
        } else if i + 1 < words.len() && !option_word(&words[i + 1]) {
            i += 1;
        }
        i += 1;
    }
    out
}

/// Where the bracket opened at `i` closes, or the end.
fn closing(t: &[u8], i: usize, open: u8, close: u8) -> usize {
    let mut depth = 0;
    for (j, &b) in t.iter().enumerate().skip(i) {
        if b == open {
            depth += 1;
        }
        if b == close {
            depth -= 1;
            if depth == 0 {
                return j;
            }
        }
    }
    t.len()
}

/// The quoted word whose inside begins at `i`, and the place behind it.
fn unquoted(t: &[u8], mut i: usize) -> (Vec<u8>, usize) {
    let mut w = Vec::new();
    while i < t.len() && t[i] != b'"' {
        if t[i] == b'\\' && i + 1 < t.len() {
            i += 1;
        }
        w.push(t[i]);
        i += 1;
    }
    (w, i + 1)
}

/// The text with backslash line ends as spaces.
fn joined(t: &[u8]) -> Vec<u8> {
    let mut out = Vec::new();
    let mut i = 0;
    while i < t.len() {
        let n = if t[i..].starts_with(b"\\\r\n") {
            3
        } else if t[i..].starts_with(b"\\\n") {
            2
        } else {
            0
        };
        out.push(if n > 0 { b' ' } else { t[i] });
        i += n.max(1);
    }
    out
}

fn white(b: u8) -> bool {
    (9..=13).contains(&b) || b == 32
}
