//! Checks with their expectations written by hand from document 01.

mod form;
mod limits;
pub mod marked;
mod points;

use crate::check::{expect, rust_paths, rust_reading, Answer, Lent, AMPLE, STANDARD};
use crate::{job, layers};

/// Counts what holds, and prints what does not.
#[derive(Default)]
pub struct Test {
    passed: usize,
    failed: usize,
}

impl Test {
    fn same<T: PartialEq + std::fmt::Debug>(&mut self, name: &str, got: T, want: T) {
        if got == want {
            self.passed += 1;
        } else {
            self.failed += 1;
            println!("FAILED {name}\n  got  {got:?}\n  want {want:?}");
        }
    }

    /// Number and place of a job's answer; also no finding.
    fn answer(&mut self, name: &str, job: &[u8], want: (u32, u32)) {
        let a = clean(job, &STANDARD);
        self.same(name, (a.number, a.place), want);
    }

    /// The same with room for any text.
    fn ample(&mut self, name: &str, job: &[u8], want: (u32, u32)) {
        let a = clean(job, &AMPLE);
        self.same(name, (a.number, a.place), want);
    }

    /// What the program `report` prints.
    fn report(&mut self, name: &str, job: &[u8], want: &str) {
        let got = printed(job);
        self.same(name, got.as_str(), want);
    }

    /// A line that the report has.
    fn entry(&mut self, name: &str, job: &[u8], want: &str) {
        let got = printed(job);
        let found = got.lines().find(|l| *l == want).unwrap_or(&got);
        self.same(name, found, want);
    }

    /// How often a text stands in the glue.
    fn glue(&mut self, name: &str, job: &[u8], part: &str, times: usize) {
        let a = clean(job, &STANDARD);
        let glue = String::from_utf8_lossy(&a.texts[0]).into_owned();
        self.same(&format!("{name}: {part}"), glue.matches(part).count(), times);
    }

    /// The listed paths of the first domain, which are also ours.
    fn paths(&mut self, name: &str, job: &[u8], want: &[&str]) {
        self.answer(name, job, (0, 0));
        let job = job::parse(job).expect("a well formed job");
        let listed = rust_paths(&job).and_then(|p| p.ok()).unwrap_or_default();
        let got = listed.into_iter().next().and_then(|d| d.1);
        let want = want.iter().map(|p| p.to_string()).collect();
        self.same(name, got, Some(want));
    }

    /// A line of the records, which are also ours.
    fn record(&mut self, name: &str, job: &[u8], want: &str) {
        self.answer(name, job, (0, 0));
        let job = job::parse(job).expect("a well formed job");
        let all = rust_reading(&job).map(|r| layers::records(&r.records));
        let all = all.unwrap_or_default();
        let found = all.iter().find(|l| *l == want).cloned();
        self.same(name, found.unwrap_or(all.join("\n")), want.into());
    }

    /// The words of a text, command after command.
    fn words(&mut self, name: &str, text: &str, vars: &[(&str, &str)], want: &[&[&str]]) {
        let owned: Vec<_> = vars.iter().map(|v| (v.0.to_string(), v.1.to_string())).collect();
        let got = upf_rs::upf::words_of(text, &owned);
        let want: Vec<Vec<String>> = want.iter().map(|c| strings(c)).collect();
        self.same(name, got, want.clone());
        let vars = owned.into_iter().collect();
        let ours = crate::tcl::split(text).into_iter();
        let ours = ours.map(|c| c.iter().map(|w| w.result(&vars, usize::MAX).unwrap()).collect());
        self.same(name, ours.collect(), want);
    }
}

fn strings(all: &[&str]) -> Vec<String> {
    all.iter().map(|w| w.to_string()).collect()
}

/// The answer to a job; a finding is shown as number 99.
fn clean(job: &[u8], lent: &Lent) -> Answer {
    let mut a = expect(job, lent);
    for f in &a.findings {
        println!("finding: {f}");
        a.number = 99;
    }
    a
}

fn printed(job: &[u8]) -> String {
    let a = clean(job, &STANDARD);
    match a.number {
        0 => String::from_utf8_lossy(&a.texts[2]).into_owned(),
        n => format!("refused {n} {}\n", a.place),
    }
}

/// A job with top `top`, the first file as its start, and these module lines.
pub fn job(over: &str, files: &[(&str, &str)], modules: &str) -> Vec<u8> {
    let mut out = format!("top=top\noverride={over}\nstart={}\n", files[0].0);
    for (path, text) in files {
        out.push_str(&format!("file={path}\nbytes={}\n{text}\n", text.len()));
    }
    (out + modules + "end=\n").into_bytes()
}

/// A job with the worked example's design and one file.
pub fn worked(upf: &str) -> Vec<u8> {
    job("", &[("p.upf", upf)], WORKED)
}

/// The design of the worked example.
pub const WORKED: &str = "module=top
style=empty
inst=0 u1 core
module=core
style=ansi
port=in clk
port=out q
decl=net 0 w
decl=odd 0 r
";

/// Three levels: `s` with output `m`, and below it `u1` and the array `a`.
pub const DEEP: &str = "module=top
style=empty
inst=0 s mid
conn=star
inst=1 b leaf
module=mid
style=ansi
port=out m
inst=0 u1 leaf
conn=star
inst=1 a leaf
conn=star
module=leaf
style=ansi
port=out q
";

/// Both supplies for the domain `PD`.
pub const SUPPLIES: &str = "create_supply_net VDD
create_supply_net VSS
set_domain_supply_net PD -primary_power_net VDD -primary_ground_net VSS
";

/// The domain `PD` with these elements and both supplies.
pub fn domain(elements: &str) -> String {
    format!("create_power_domain PD -elements {{{elements}}}\n{SUPPLIES}")
}

pub fn all() -> bool {
    let mut total = Test::default();
    let parts: [(&str, fn(&mut Test)); 4] = [
        ("marked runs and traps", marked::all),
        ("form of a job", form::all),
        ("limits", limits::all),
        ("points that slip", points::all),
    ];
    for (name, part) in parts {
        let mut t = Test::default();
        part(&mut t);
        println!("{name}: {} passed, {} failed", t.passed, t.failed);
        total.passed += t.passed;
        total.failed += t.failed;
    }
    println!("selftest: {} passed, {} failed", total.passed, total.failed);
    total.failed == 0
}
