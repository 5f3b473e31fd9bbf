//! Check 6 of document 01: reading command by command, with its limits
//! counted, and the records that the commands enter.

use upf_rs::records::{Domain, Isolation, Records, Retention, Switch, Table};

use crate::job::{Fault, Job};
use crate::tcl::{args, list, split, Args, Vars, Word};

const COMMANDS: u32 = 1_024;
const WORDS: usize = 128;
const SUBSTITUTED: usize = 16_384;
const SETS: usize = 64;
const SCOPE: usize = 512;
const SCOPES: usize = 8_192;
const ENTRIES: usize = 64;
const ALL_ENTRIES: usize = 1_024;
const RECORDS: usize = 32;
const WARNINGS: usize = 256;
const DEPTH: usize = 16;

/// Commands that are taken and only warned about.
const PASSED: [&str; 11] = [
    "create_supply_set",
    "associate_supply_set",
    "add_power_state",
    "set_port_attributes",
    "set_design_attributes",
    "upf_version",
    "create_logic_net",
    "create_logic_port",
    "connect_logic_net",
    "set_partial_on_translation",
    "set_simstate_behavior",
];

#[derive(Default)]
pub struct Reading {
    pub records: Records,
    pub log: String,
    vars: Vars,
    commands: u32,
    substituted: usize,
    sets: usize,
    scopes: usize,
    entries: usize,
}

/// What stops a command: a reading limit (10) or a `load_upf` (8, 9, deeper).
enum Stop {
    Limit,
    Refused(Fault),
}

type Step<T> = Result<T, Stop>;

fn within(holds: bool) -> Step<()> {
    match holds {
        true => Ok(()),
        false => Err(Stop::Limit),
    }
}

/// A file that is being read.
struct Source<'a> {
    job: &'a Job,
    directory: &'a str,
    depth: usize,
}

/// Reads the job's start file. The reading is handed back also where it stops.
pub fn read(job: &Job) -> (Reading, Result<(), Fault>) {
    let mut r = Reading::default();
    let result = r.file(job, &job.start, 0);
    (r, result)
}

impl Reading {
    /// The file at `path`, which is listed.
    fn file(&mut self, job: &Job, path: &str, depth: usize) -> Result<(), Fault> {
        let (path, text) = job.files.iter().find(|f| f.0 == path).expect("listed");
        let source = Source { job, directory: path.rsplit_once('/').map_or("", |p| p.0), depth };
        // Words are replaced by what is known when the file is opened.
        let vars = self.vars.clone();
        for command in split(text) {
            self.commands += 1;
            let number = self.commands;
            match self.command(&source, &command, &vars) {
                Ok(()) => {}
                Err(Stop::Limit) => return Err((10, number)),
                Err(Stop::Refused((refusal, 0))) => return Err((refusal, number)),
                Err(Stop::Refused(fault)) => return Err(fault),
            }
        }
        Ok(())
    }

    fn command(&mut self, source: &Source, command: &[Word], vars: &Vars) -> Step<()> {
        within(self.commands <= COMMANDS && command.len() <= WORDS)?;
        let mut words = Vec::new();
        for w in command {
            let left = SUBSTITUTED - self.substituted;
            let result = w.result(vars, left).ok_or(Stop::Limit)?;
            if w.counted() {
                self.substituted += result.len();
            }
            words.push(result);
        }
        let a = args(&words[1..]);
        let name = a.first();
        match words[0].as_str() {
            "load_upf" => self.load(source, &name, &a),
            "create_power_switch" => self.switch(name, &words, &a),
            "add_port_state" => self.port_state(name, &words),
            "set_isolation" => self.isolation(name, &a),
            "set_isolation_control" => self.isolation_control(name, &a),
            other => self.plain(other, name, &a),
        }
    }

    /// The commands that need no more than their arguments.
    fn plain(&mut self, command: &str, name: String, a: &Args) -> Step<()> {
        match command {
            "set" => self.set(a),
            "puts" => self.puts(a),
            "set_design_top" => self.design_top(name),
            "set_scope" => self.set_scope(&name),
            "create_power_domain" => self.domain(name, a),
            "create_supply_net" => self.net(&name),
            "create_supply_port" => self.port(&name, a),
            "connect_supply_net" => self.connect(&name, a),
            "set_domain_supply_net" => self.supplies(name, a),
            "set_retention" => self.retention(name, a),
            "set_retention_control" => Ok(()),
            "set_level_shifter" => self.shifter(name, a),
            "create_pst" => self.table(name, a),
            "add_pst_state" => self.table_state(name, a),
            c if PASSED.contains(&c) => self.warn(format!("'{c}' parsed but not simulated")),
            c if c.starts_with("query_") => Ok(()),
            c => self.warn(format!("unsupported UPF command '{c}' ignored")),
        }
    }

    fn warn(&mut self, warning: String) -> Step<()> {
        within(self.records.warnings.len() < WARNINGS)?;
        self.records.warnings.push(warning);
        Ok(())
    }

    /// A value read as a list; an option that is not there has no entries.
    fn list(&mut self, value: Option<&String>) -> Step<Vec<String>> {
        let Some(value) = value else {
            return Ok(Vec::new());
        };
        let all = list(value);
        self.entries += all.len();
        within(all.len() <= ENTRIES && self.entries <= ALL_ENTRIES)?;
        Ok(all)
    }

    fn scoped(&self, word: &str) -> String {
        let scope = &self.records.scope;
        match (word, scope.as_str()) {
            (".", _) => scope.clone(),
            (_, "") => word.into(),
            _ => format!("{scope}/{word}"),
        }
    }

    fn scoped_list(&mut self, value: Option<&String>) -> Step<Vec<String>> {
        let all = self.list(value)?;
        Ok(all.iter().map(|e| self.scoped(e)).collect())
    }

    fn new_scope(&mut self, scope: String) -> Step<()> {
        self.scopes += scope.len();
        within(scope.len() <= SCOPE && self.scopes <= SCOPES)?;
        self.records.scope = scope;
        Ok(())
    }

    fn load(&mut self, source: &Source, name: &str, a: &Args) -> Step<()> {
        let (scope, top) = (self.records.scope.clone(), self.records.design_top.clone());
        if let Some(to) = a.options.get("scope") {
            let to = match to.strip_prefix('/') {
                _ if to == "." || to == "/" => scope.clone(),
                Some(rest) => rest.into(),
                None => self.scoped(to),
            };
            self.new_scope(to)?;
        }
        if source.depth + 1 > DEPTH {
            return Err(Stop::Refused((8, 0)));
        }
        let path = match source.directory {
            "" => name.into(),
            directory => format!("{directory}/{name}"),
        };
        if source.job.files.iter().all(|f| f.0 != path) {
            return Err(Stop::Refused((9, 0)));
        }
        self.file(source.job, &path, source.depth + 1).map_err(Stop::Refused)?;
        self.records.scope = scope;
        if top.is_some() {
            self.records.design_top = top;
        }
        Ok(())
    }

    fn set(&mut self, a: &Args) -> Step<()> {
        if let [name, value, ..] = &a.positional[..] {
            self.sets += 1;
            within(self.sets <= SETS)?;
            self.vars.insert(name.clone(), value.clone());
        }
        Ok(())
    }

    fn puts(&mut self, a: &Args) -> Step<()> {
        let word = a.positional.last().map_or("", |w| w);
        self.log.push_str(&format!("[UPF] {word}\n"));
        Ok(())
    }

    fn design_top(&mut self, name: String) -> Step<()> {
        let r = &mut self.records;
        if r.scope.is_empty() && r.design_top.is_none() {
            r.design_top = Some(name);
        }
        Ok(())
    }

    fn set_scope(&mut self, name: &str) -> Step<()> {
        let to = match name {
            "" | "." => String::new(),
            ".." => {
                let up = self.records.scope.rsplit_once('/');
                up.map_or("", |p| p.0).to_string()
            }
            _ => match name.strip_prefix('/') {
                Some(rest) => rest.into(),
                None => self.scoped(name),
            },
        };
        self.new_scope(to)
    }

    fn domain(&mut self, name: String, a: &Args) -> Step<()> {
        let mut elements = self.scoped_list(a.options.get("elements"))?;
        let scope = self.records.scope.clone();
        if a.has("include_scope") {
            elements.push(scope.clone());
        }
        within(self.records.domains.len() < RECORDS)?;
        self.records.domains.push(Domain { name, elements, power: None, ground: None, scope });
        Ok(())
    }

    fn net(&mut self, name: &str) -> Step<()> {
        let net = self.scoped(name);
        if !self.records.nets.contains(&net) {
            within(self.records.nets.len() < RECORDS)?;
            self.records.nets.push(net);
        }
        Ok(())
    }

    fn port(&mut self, name: &str, a: &Args) -> Step<()> {
        let direction = a.options.get("direction").map_or("in", |d| d);
        within(self.records.ports.len() < RECORDS)?;
        let port = self.scoped(name);
        self.records.ports.push((port, direction.into()));
        Ok(())
    }

    fn connect(&mut self, name: &str, a: &Args) -> Step<()> {
        let net = self.scoped(name);
        for port in self.scoped_list(a.options.get("ports"))? {
            self.records.connections.insert(port, net.clone());
        }
        Ok(())
    }

    fn supplies(&mut self, name: String, a: &Args) -> Step<()> {
        let power = a.options.get("primary_power_net").map(|n| self.scoped(n));
        let ground = a.options.get("primary_ground_net").map(|n| self.scoped(n));
        match self.records.domains.iter_mut().find(|d| d.name == name) {
            Some(d) => (d.power, d.ground) = (power, ground),
            None => return self.warn(format!("set_domain_supply_net: unknown power domain '{name}'")),
        }
        Ok(())
    }

    fn switch(&mut self, name: String, words: &[String], a: &Args) -> Step<()> {
        let mut ends = Vec::new();
        for end in ["input_supply_port", "output_supply_port"] {
            let l = self.list(a.options.get(end))?;
            let net = l.get(1).map_or(String::new(), |n| self.scoped(n));
            ends.push((part(&l, 0), net));
        }
        let controls = self.list(a.options.get("control_port"))?;
        let (mut on_states, mut off_states) = (Vec::new(), Vec::new());
        for (word, value) in raw_values(words, &["-on_state", "-off_state"]) {
            let l = self.list(Some(value))?;
            match word {
                "-on_state" => on_states.push((part(&l, 0), part(&l, 1), part(&l, 2))),
                _ => off_states.push((part(&l, 0), part(&l, 1))),
            }
        }
        within(self.records.switches.len() < RECORDS)?;
        self.records.switches.push(Switch {
            name,
            domain: a.options.get("domain").cloned(),
            input: ends[0].clone(),
            output: ends[1].clone(),
            controls: controls.chunks_exact(2).map(|p| (p[0].clone(), p[1].clone())).collect(),
            on_states,
            off_states,
        });
        Ok(())
    }

    /// The first strategy of this name, in this domain where one is given.
    fn strategy(&mut self, name: &str, domain: &str) -> Option<&mut Isolation> {
        let all = &mut self.records.isolations;
        all.iter_mut().find(|s| s.name == name && (domain.is_empty() || s.domain == domain))
    }

    fn isolation(&mut self, name: String, a: &Args) -> Step<()> {
        let option = |k: &str| a.options.get(k).cloned();
        let domain = option("domain").unwrap_or_default();
        let elements = self.scoped_list(a.options.get("elements"))?;
        if a.has("no_isolation") {
            return self.warn(format!("set_isolation {name}: -no_isolation, ignored"));
        }
        if a.has("update") {
            if let Some(s) = self.strategy(&name, &domain) {
                update(s, elements, &option);
                return Ok(());
            }
        }
        within(self.records.isolations.len() < RECORDS)?;
        self.records.isolations.push(Isolation {
            name,
            domain,
            applies_to: option("applies_to"),
            elements,
            clamp: option("clamp_value").unwrap_or_else(|| "0".into()),
            signal: option("isolation_signal"),
            sense: option("isolation_sense").unwrap_or_else(|| "high".into()),
            power: option("isolation_power_net"),
            ground: option("isolation_ground_net"),
        });
        Ok(())
    }

    fn isolation_control(&mut self, name: String, a: &Args) -> Step<()> {
        let domain = a.options.get("domain").cloned().unwrap_or_default();
        let Some(s) = self.strategy(&name, &domain) else {
            return self.warn(format!("set_isolation_control: unknown isolation strategy '{name}'"));
        };
        if let Some(signal) = a.options.get("isolation_signal") {
            s.signal = Some(signal.clone());
        }
        if let Some(sense) = a.options.get("isolation_sense") {
            s.sense = sense.clone();
        }
        Ok(())
    }

    fn retention(&mut self, name: String, a: &Args) -> Step<()> {
        let elements = self.scoped_list(a.options.get("elements"))?;
        within(self.records.retentions.len() < RECORDS)?;
        self.records.retentions.push(Retention {
            name,
            domain: a.options.get("domain").cloned().unwrap_or_default(),
            elements,
        });
        Ok(())
    }

    fn shifter(&mut self, name: String, a: &Args) -> Step<()> {
        within(self.records.shifters.len() < RECORDS)?;
        let domain = a.options.get("domain").cloned().unwrap_or_default();
        self.records.shifters.push((name, domain));
        Ok(())
    }

    fn port_state(&mut self, name: String, words: &[String]) -> Step<()> {
        let mut states: Vec<(String, String)> = Vec::new();
        for (_, value) in raw_values(words, &["-state"]) {
            let l = self.list(Some(value))?;
            states.push((part(&l, 0), part(&l, 1)));
        }
        within(self.records.port_states.len() < RECORDS)?;
        let port = self.scoped(&name);
        self.records.port_states.push((port, states));
        Ok(())
    }

    fn table(&mut self, name: String, a: &Args) -> Step<()> {
        let supplies = self.scoped_list(a.options.get("supplies"))?;
        within(self.records.tables.len() < RECORDS)?;
        self.records.tables.push(Table { name, supplies, states: Vec::new() });
        Ok(())
    }

    fn table_state(&mut self, name: String, a: &Args) -> Step<()> {
        let table = a.options.get("pst").cloned().unwrap_or_default();
        let state = self.list(a.options.get("state"))?;
        match self.records.tables.iter_mut().find(|t| t.name == table) {
            Some(t) => t.states.push((name, state)),
            None => return self.warn(format!("add_pst_state: unknown PST '{table}'")),
        }
        Ok(())
    }
}

/// The entry of this number, or nothing.
fn part(list: &[String], n: usize) -> String {
    list.get(n).cloned().unwrap_or_default()
}

/// Each of these option words with the raw word behind it, which is passed over.
fn raw_values<'a>(words: &'a [String], options: &[&str]) -> Vec<(&'a str, &'a String)> {
    let mut all = Vec::new();
    let mut words = words.iter();
    while let Some(w) = words.next() {
        if options.contains(&w.as_str()) {
            all.extend(words.next().map(|v| (w.as_str(), v)));
        }
    }
    all
}

/// `-update`: what is given replaces what stood there.
fn update(s: &mut Isolation, elements: Vec<String>, option: &dyn Fn(&str) -> Option<String>) {
    if !elements.is_empty() {
        s.elements = elements;
    }
    let given = |key: &str, old: &mut Option<String>| {
        if let Some(v) = option(key) {
            *old = Some(v);
        }
    };
    given("applies_to", &mut s.applies_to);
    given("isolation_signal", &mut s.signal);
    given("isolation_power_net", &mut s.power);
    given("isolation_ground_net", &mut s.ground);
    s.clamp = option("clamp_value").unwrap_or(s.clamp.clone());
    s.sense = option("isolation_sense").unwrap_or(s.sense.clone());
}
