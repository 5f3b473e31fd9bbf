//! Checks 7 to 9 of document 01: the scope path, and the generation limits.

use std::collections::{HashMap, HashSet};

use upf_rs::records::{Isolation, Records, Switch};

use crate::design::{instance, net_at, outputs, Design, Walk};
use crate::job::{Job, Module};

const ISOLATED: usize = 256;
const WARNINGS: usize = 512;

/// What the generation of an accepted job counts.
#[derive(Default, Debug)]
pub struct Counts {
    /// The domain's name, its listed paths where it is walked.
    pub listed: Vec<(String, Option<Vec<String>>)>,
    /// Modules entered, for each walked domain.
    pub entered: Vec<usize>,
    pub isolated: usize,
    pub warnings: usize,
    /// A lower bound of the glue's length.
    pub glue_at_least: usize,
}

/// Check 7: the instances down to the scope, or 13 or 11.
pub fn scope_path(job: &Job, records: &Records) -> Result<Vec<String>, u32> {
    if !job.over.is_empty() {
        let mut path: Vec<String> =
            job.over.split(['/', '.']).filter(|p| !p.is_empty()).map(String::from).collect();
        if path.first() == Some(&job.top) {
            path.remove(0);
        }
        return Ok(path);
    }
    let design = Design::new(job);
    let top = design.module(&job.top).expect("listed");
    match &records.design_top {
        Some(target) if *target != job.top => match design.find_by_type(top, target) {
            Err(()) => Err(13),
            Ok(found) => found.ok_or(11),
        },
        _ => Ok(Vec::new()),
    }
}

/// Checks 8 and 9: 12 or 13.
pub fn counts(job: &Job, records: &Records, path: &[String]) -> Result<Counts, u32> {
    let design = Design::new(job);
    let top = design.module(&job.top).expect("listed");
    let parts: Vec<&str> = path.iter().map(|p| p.as_str()).collect();
    let scope = design.module_at(top, &parts).ok_or(12u32)?;
    let mut g = Generation {
        records,
        design: &design,
        scope,
        dotted: path.join("."),
        covered: HashSet::new(),
        counts: Counts { warnings: records.warnings.len(), ..Counts::default() },
    };
    g.all().map_err(|Limit| 13u32)?;
    Ok(g.counts)
}

struct Limit;

type Within = Result<(), Limit>;

struct Generation<'a> {
    records: &'a Records,
    design: &'a Design<'a>,
    scope: &'a Module,
    /// The scope's instances, parted by dots.
    dotted: String,
    covered: HashSet<(String, String)>,
    counts: Counts,
}

impl<'a> Generation<'a> {
    fn all(&mut self) -> Within {
        self.warn(0)?;
        let records = self.records;
        for s in &records.switches {
            self.switch(s)?;
        }
        let (first, then): (Vec<_>, Vec<_>) = records.isolations.iter().partition(|s| !s.elements.is_empty());
        for s in first.into_iter().chain(then) {
            self.isolation(s)?;
        }
        self.domains()
    }

    fn warn(&mut self, more: usize) -> Within {
        self.counts.warnings += more;
        match self.counts.warnings <= WARNINGS {
            true => Ok(()),
            false => Err(Limit),
        }
    }

    /// Scope and a scope-relative name with `/` as `.`.
    fn hierarchical(&self, name: &str) -> String {
        match self.dotted.as_str() {
            "" => name.replace('/', "."),
            scope => format!("{scope}.{}", name.replace('/', ".")),
        }
    }

    fn switch(&mut self, s: &Switch) -> Within {
        let mut controls: HashMap<&str, usize> = HashMap::new();
        for (port, signal) in &s.controls {
            let length = match signal.as_str() {
                "" => self.dotted.len(),
                _ => self.hierarchical(signal).len(),
            };
            controls.insert(port, length);
        }
        let mut condition = 0;
        for (_, port, expression) in &s.on_states {
            self.warn((*port != s.input.0) as usize)?;
            let (unknown, length) = expression_counts(expression, &controls);
            self.warn(unknown)?;
            condition += length;
        }
        self.counts.glue_at_least += condition * (3 + 2 * s.controls.len());
        Ok(())
    }

    fn isolation(&mut self, s: &Isolation) -> Within {
        let clamp = s.clamp.to_ascii_lowercase();
        let domain = self.records.domains.iter().find(|d| d.name == s.domain);
        let applies = s.applies_to.as_deref().unwrap_or("outputs");
        let elsewhere = s.elements.is_empty() && applies != "outputs" && applies != "both";
        let simulated = s.signal.is_some() && matches!(clamp.as_str(), "0" | "1" | "z");
        let Some(domain) = domain.filter(|_| simulated && !elsewhere) else {
            return self.warn(1);
        };
        if s.elements.is_empty() {
            for e in &domain.elements {
                self.isolate_element(e)?;
            }
        }
        for e in &s.elements {
            match e.rsplit_once('/') {
                Some((inst, port)) => self.isolate(inst, port)?,
                None => self.isolate_element(e)?,
            }
        }
        Ok(())
    }

    /// All outputs of an element; an empty part leads nowhere.
    fn isolate_element(&mut self, element: &str) -> Within {
        let parts: Vec<&str> = element.split('/').collect();
        let Some(m) = self.design.module_at(self.scope, &parts) else {
            return Ok(());
        };
        for port in outputs(m) {
            self.isolate(element, port)?;
        }
        Ok(())
    }

    /// One port of an instance; the first strategy to cover it keeps it.
    fn isolate(&mut self, inst: &str, port: &str) -> Within {
        let key = (inst.to_string(), port.to_string());
        if self.covered.contains(&key) {
            return Ok(());
        }
        let parts: Vec<&str> = inst.split('/').collect();
        let (leaf, parents) = parts.split_last().expect("one part at least");
        let above = self.design.module_at(self.scope, parents);
        let Some(i) = above.and_then(|m| instance(m, leaf)) else {
            return Ok(());
        };
        let Some(sub) = self.design.module(&i.module) else {
            return Ok(());
        };
        if net_at(i, sub, port).is_none() {
            return self.warn(1);
        }
        self.covered.insert(key);
        self.counts.isolated += 1;
        match self.counts.isolated <= ISOLATED {
            true => Ok(()),
            false => Err(Limit),
        }
    }

    /// Entries of all retentions; the empty one is no path below a scope
    /// other than the top.
    fn retained(&self) -> HashSet<String> {
        let all = self.records.retentions.iter().flat_map(|r| &r.elements);
        all.filter(|e| !e.is_empty() || self.dotted.is_empty()).map(|e| self.hierarchical(e)).collect()
    }

    fn domains(&mut self) -> Within {
        let retained = self.retained();
        for d in &self.records.domains {
            if d.power.is_none() || d.ground.is_none() {
                self.counts.listed.push((d.name.clone(), None));
                continue;
            }
            let mut walk = Walk::new(self.design, &retained);
            for e in &d.elements {
                let parts: Vec<&str> = e.split('/').filter(|p| !p.is_empty()).collect();
                let path = match e.as_str() {
                    "" => self.dotted.clone(),
                    _ => self.hierarchical(e),
                };
                match self.design.module_at(self.scope, &parts) {
                    Some(m) => walk.enter(m, &path, 0).map_err(|_| Limit)?,
                    None => self.warn(1)?,
                }
            }
            self.counts.entered.push(walk.entered);
            self.counts.listed.push((d.name.clone(), Some(walk.paths)));
        }
        Ok(())
    }
}

/// Unknown control names in a switch expression, and the length of its text.
fn expression_counts(expression: &str, controls: &HashMap<&str, usize>) -> (usize, usize) {
    let part = |c: char| c.is_ascii_alphanumeric() || c == '_';
    let (mut unknown, mut length) = (0, expression.chars().filter(|c| !part(*c)).count());
    for word in expression.split(|c| !part(c)).filter(|w| !w.is_empty()) {
        if let Some(signal) = controls.get(word) {
            length += signal;
        } else if word.bytes().all(|b| b.is_ascii_digit()) {
            length += word.len();
        } else {
            unknown += 1;
            length += "1'bx".len();
        }
    }
    (unknown, length)
}
