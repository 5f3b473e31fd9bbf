// ---- Behind the reference: its private functions, over plain values. ----

use records;
use shim;
use shim as std;

pub type Pairs = Vec<(String, String)>;

fn variables(vars: &[(String, String)]) -> HashMap<String, String> {
    vars.iter().cloned().collect()
}

/// The commands of a text, each a list of words.
pub fn words_of(text: &str, vars: &[(String, String)]) -> Vec<Vec<String>> {
    read_commands(text, &variables(vars))
}

/// A word with its variables replaced.
pub fn substituted(word: &str, vars: &[(String, String)]) -> String {
    substitute_vars(word, &variables(vars))
}

/// A value read as a list.
pub fn list_of(value: &str) -> Vec<String> {
    list(value)
}

/// Options are sorted by name.
#[derive(Clone, Debug, PartialEq)]
pub struct Arguments {
    pub positional: Vec<String>,
    pub options: Pairs,
    pub flags: Vec<String>,
}

/// The arguments in a word list (the command's name left out).
pub fn arguments_of(words: &[String]) -> Arguments {
    let a = parse_args(words);
    let mut options: Pairs = a.opts.into_iter().collect();
    options.sort();
    Arguments { positional: a.positional, options: options, flags: a.flags }
}

pub fn mangled(name: &str) -> String {
    mangle(name)
}

pub fn escaped(text: &str) -> String {
    sv_str(text)
}

/// A switch expression in SystemVerilog, and its warnings.
pub fn expression(text: &str, controls: &[(String, String)]) -> (String, Vec<String>) {
    let mut warnings = Vec::new();
    let out = bool_expr(text, &variables(controls), &mut warnings);
    (out, warnings)
}

/// One job for the reference; no override is `None`.
pub struct Task<'a> {
    pub top: &'a str,
    pub over: Option<&'a str>,
    pub start: &'a str,
    pub files: &'a [(String, String)],
    pub modules: &'a [ModuleDeclaration],
}

pub struct Texts {
    pub glue: String,
    pub package: String,
    /// The entries of the report, without LF.
    pub report: Vec<String>,
    pub log: String,
}

/// The records as they stand when reading ends or stops, the log so far, and
/// how reading ended.
pub struct Reading {
    pub records: records::Records,
    pub log: String,
    pub error: Option<String>,
}

fn read_model(task: &Task) -> (Model, Option<String>) {
    shim::set_files(task.files);
    let mut model: Model = Default::default();
    let result = parse_upf_file(task.start, &mut model, &mut HashMap::new(), 0);
    (model, result.err())
}

pub fn reading_of(task: &Task) -> Reading {
    let (model, error) = read_model(task);
    Reading { records: records_of(model), log: shim::log(), error: error }
}

fn design_of<'a>(task: &Task<'a>) -> Design<'a> {
    Design { modules: task.modules.iter().map(|m| (m.name.name.clone(), m)).collect() }
}

/// The reference's four texts, or its error.
pub fn texts_of(task: &Task) -> Result<Texts, String> {
    let (model, error) = read_model(task);
    if let Some(e) = error {
        return Err(e);
    }
    let design = design_of(task);
    let top = *design.modules.get(task.top).ok_or("top not listed")?;
    let made = generate(&model, &design, task.top, top, task.over)?;
    Ok(Texts { glue: made.items, package: made.package, report: made.report, log: shim::log() })
}

/// A domain's name, and its listed paths where it has both supplies.
pub type Listed = (String, Option<Vec<String>>);

/// The paths that the reference's own walk lists, domain by domain. The job
/// must be one that `texts_of` takes.
pub fn paths_of(task: &Task) -> Result<Vec<Listed>, String> {
    texts_of(task)?;
    let (model, _) = read_model(task);
    let design = design_of(task);
    let top = *design.modules.get(task.top).ok_or("top not listed")?;
    let below = scope_instances(task, &model, &design, top);
    let scope = design.module_at(top, &below).ok_or("no scope")?;
    let dotted = |rel: &str| {
        let mut parts = below.clone();
        parts.push(rel.replace('/', "."));
        parts.join(".")
    };
    let mut retained: Vec<String> = Vec::new();
    for r in &model.retentions {
        retained.extend(r.elements.iter().map(|e| dotted(e)));
    }
    let mut all = Vec::new();
    for d in &model.domains {
        if d.power.is_none() || d.ground.is_none() {
            all.push((d.name.clone(), None));
            continue;
        }
        let mut paths = Vec::new();
        for e in &d.elements {
            let prefix = if e.is_empty() { below.join(".") } else { dotted(e) };
            let parts = nonempty(e, &['/']);
            if let Some(m) = design.module_at(scope, &parts) {
                design.corruptible(m, &prefix, &retained, &mut paths, 0);
            }
        }
        all.push((d.name.clone(), Some(paths)));
    }
    Ok(all)
}

fn nonempty(text: &str, at: &[char]) -> Vec<String> {
    let parts = text.split(|c: char| at.contains(&c));
    parts.filter(|p| *p != "").map(String::from).collect()
}

/// The instances from the top down to the scope.
fn scope_instances<'a>(
    task: &Task,
    model: &Model,
    design: &Design<'a>,
    top: &'a ModuleDeclaration,
) -> Vec<String> {
    if let Some(over) = task.over {
        let parts = nonempty(over, &['/', '.']);
        let skip = (parts.first().map(|p| p == task.top) == Some(true)) as usize;
        return parts[skip..].to_vec();
    }
    match model.design_top {
        Some(ref t) if t != task.top => design.find_by_type(top, t, 0).unwrap_or_default(),
        _ => Vec::new(),
    }
}

fn records_of(m: Model) -> records::Records {
    records::Records {
        design_top: m.design_top,
        scope: m.scope,
        domains: m.domains.into_iter().map(domain_of).collect(),
        nets: m.nets,
        ports: m.ports,
        connections: m.net_of_port.into_iter().collect(),
        switches: m.switches.into_iter().map(switch_of).collect(),
        isolations: m.isolations.into_iter().map(isolation_of).collect(),
        retentions: m.retentions.into_iter().map(retention_of).collect(),
        shifters: m.level_shifters,
        port_states: m.port_states,
        tables: m.psts.into_iter().map(table_of).collect(),
        warnings: m.warnings,
    }
}

fn domain_of(d: Domain) -> records::Domain {
    records::Domain { name: d.name, elements: d.elements, power: d.power, ground: d.ground, scope: d.scope }
}

fn switch_of(s: Switch) -> records::Switch {
    records::Switch {
        name: s.name,
        domain: s.domain,
        input: s.input,
        output: s.output,
        controls: s.controls,
        on_states: s.on_states,
        off_states: s.off_states,
    }
}

fn isolation_of(s: Isolation) -> records::Isolation {
    records::Isolation {
        name: s.name,
        domain: s.domain,
        applies_to: s.applies_to,
        elements: s.elements,
        clamp: s.clamp,
        signal: s.signal,
        sense: s.sense,
        power: s.power,
        ground: s.ground,
    }
}

fn retention_of(r: Retention) -> records::Retention {
    records::Retention { name: r.name, domain: r.domain, elements: r.elements }
}

fn table_of(p: Pst) -> records::Table {
    records::Table { name: p.name, supplies: p.supplies, states: p.states }
}

/// The reference's questions about the modules of a design, one by one.
pub struct Asked<'a> {
    design: Design<'a>,
    modules: &'a [ModuleDeclaration],
}

impl<'a> Asked<'a> {
    pub fn new(modules: &'a [ModuleDeclaration]) -> Asked<'a> {
        let design = Design { modules: modules.iter().map(|m| (m.name.name.clone(), m)).collect() };
        Asked { design: design, modules: modules }
    }

    /// The number of a module from 1, 0 for none.
    fn number(&self, m: Option<&'a ModuleDeclaration>) -> usize {
        m.map_or(0, |m| 1 + self.modules.iter().position(|x| x.name.name == m.name.name).unwrap())
    }

    pub fn at(&self, from: usize, path: &[String]) -> usize {
        self.number(self.design.module_at(&self.modules[from], path))
    }

    pub fn typed(&self, from: usize, target: &str) -> Option<Vec<String>> {
        self.design.find_by_type(&self.modules[from], target, 0)
    }

    pub fn outputs(&self, m: usize) -> Vec<String> {
        Design::output_ports(&self.modules[m])
    }

    pub fn inputs(&self, m: usize) -> Vec<String> {
        Design::input_ports(&self.modules[m])
    }

    /// The names that the module itself loses.
    pub fn losable(&self, m: usize) -> Vec<String> {
        let mut out = Vec::new();
        self.design.corruptible(&self.modules[m], "", &[], &mut out, 32);
        out
    }

    /// The net at the port of an instance.
    pub fn actual(&self, m: usize, inst: usize, sub: usize, port: &str) -> Option<String> {
        let all = Design::instances(&self.modules[m]);
        Design::output_actual(&self.modules[m], all[inst].2, &self.modules[sub], port)
    }

    /// The paths that elements lose from a module at the instances of a scope, as `generate` asks for them.
    pub fn walk(&self, base: usize, scope: &[String], elements: &[String], retained: &[String]) -> Vec<String> {
        let dotted = |rel: &str| {
            let mut parts = scope.to_vec();
            parts.push(rel.replace('/', "."));
            parts.join(".")
        };
        let skip: Vec<String> = retained.iter().map(|e| dotted(e)).collect();
        let mut paths = Vec::new();
        for e in elements {
            let prefix = if e.is_empty() { scope.join(".") } else { dotted(e) };
            if let Some(m) = self.design.module_at(&self.modules[base], &nonempty(e, &['/'])) {
                self.design.corruptible(m, &prefix, &skip, &mut paths, 0);
            }
        }
        paths
    }

    pub fn scope_parts(&self, over: &str, top: &str) -> Vec<String> {
        let parts = nonempty(over, &['/', '.']);
        let skip = (parts.first().map(|p| p == top) == Some(true)) as usize;
        parts[skip..].to_vec()
    }
}
