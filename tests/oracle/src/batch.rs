//! Many generated jobs: writing them out, what they reach, and the checks
//! against the reference. Job `k` of seed `s` is made with the seed `s + k`.

use std::collections::{BTreeMap, BTreeSet};
use std::io::Write;
use std::path::Path;
use std::process::{Command, Stdio};

use upf_rs::upf;

use crate::check::{expect, Answer, Lent, STANDARD};
use crate::gen::{self, Rng};
use crate::layers::quote;
use crate::tcl;

fn made(seed: u64, k: u64) -> (Rng, Vec<u8>) {
    let mut r = Rng::new(seed.wrapping_add(k));
    let job = gen::job(&mut r);
    (r, job)
}

/// Writes the jobs into a directory, with `answers`: name, number, place.
pub fn write(seed: u64, count: u64, dir: &str) -> std::io::Result<()> {
    let dir = Path::new(dir);
    std::fs::create_dir_all(dir)?;
    let mut answers = String::new();
    for k in 0..count {
        let (_, job) = made(seed, k);
        let a = expect(&job, &STANDARD);
        let name = format!("{:06}.job", seed.wrapping_add(k));
        answers.push_str(&format!("{name} {} {}\n", a.number, a.place));
        std::fs::write(dir.join(name), job)?;
    }
    std::fs::write(dir.join("answers"), answers)
}

/// Writes the boundary jobs into a directory, with `answers`.
pub fn write_bounds(dir: &str) -> std::io::Result<()> {
    let dir = Path::new(dir);
    std::fs::create_dir_all(dir)?;
    let mut answers = String::new();
    for (k, (name, job, number, place)) in gen::boundary_jobs().into_iter().enumerate() {
        let file = format!("b{k:04}.job");
        answers.push_str(&format!("{file} {number} {place} {}\n", quote(&name)));
        std::fs::write(dir.join(file), job)?;
    }
    std::fs::write(dir.join("answers"), answers)
}

/// Prints what the jobs reach, with a damaged copy of each and the boundary
/// jobs; every hundredth job is also answered with a work area one too short.
pub fn coverage(seed: u64, count: u64) {
    let mut seen = gen::Coverage::new();
    let mut see = |job: &[u8], lent: &Lent| {
        let a = expect(job, lent);
        let [_, _, report, log] = a.texts.each_ref().map(|t| String::from_utf8_lossy(t));
        seen.see(job, a.number == 0, a.number, &report, &log);
    };
    for k in 0..count {
        let (mut r, job) = made(seed, k);
        see(&job, &STANDARD);
        see(&gen::damage(&mut r, &job), &STANDARD);
        if k % 100 == 0 {
            let mut short = STANDARD;
            short.areas[(k / 100 % 3) as usize] -= 1;
            see(&job, &short);
        }
    }
    for (_, job, _, _) in gen::boundary_jobs() {
        see(&job, &STANDARD);
    }
    seen.print();
}

/// What a crossing has counted.
#[derive(Default)]
struct Cross {
    answers: BTreeMap<u32, u64>,
    jobs: u64,
    layers: u64,
    cut_off: u64,
    findings: u64,
}

impl Cross {
    fn finding(&mut self, what: &str, why: &str) {
        self.findings += 1;
        println!("finding: {what}: {why}");
    }

    fn answer(&mut self, what: &str, a: &Answer) {
        self.jobs += 1;
        self.cut_off += a.cut_off as u64;
        *self.answers.entry(a.number).or_default() += 1;
        for f in &a.findings {
            self.finding(what, f);
        }
    }

    /// Our words of a text, and the text as a list, against the reference's.
    fn words(&mut self, text: &str, vars: &[(String, String)]) {
        self.layers += 1;
        let known = vars.iter().cloned().collect();
        let ours = tcl::split(text).into_iter();
        let ours = ours.map(|c| c.iter().map(|w| w.result(&known, usize::MAX).unwrap()).collect());
        if ours.collect::<Vec<Vec<String>>>() != upf::words_of(text, vars) {
            self.finding(&quote(text), "the words differ");
        }
        if tcl::list(text) != upf::list_of(text) {
            self.finding(&quote(text), "the list differs");
        }
    }

    /// Our words, lists and arguments against the reference's.
    fn layers(&mut self, r: &mut Rng, what: &str) {
        let text = ascii(gen::text(r));
        let vars = gen::vars(r).into_iter();
        let vars: Option<Vec<_>> = vars.map(|(n, v)| Some((ascii(n)?, ascii(v)?))).collect();
        if let Some(text) = text {
            self.words(&text, &vars.unwrap_or_default());
        }
        let words: Option<Vec<String>> = gen::word_list(r).into_iter().map(ascii).collect();
        let words = words.unwrap_or_default();
        let (ours, theirs) = (tcl::args(&words), upf::arguments_of(&words));
        let options: BTreeSet<_> = ours.options.into_iter().collect();
        let same = ours.positional == theirs.positional && ours.flags == theirs.flags;
        if !same || options != theirs.options.into_iter().collect() {
            self.finding(what, "the arguments of a word list differ");
        }
    }

    /// Prints the counts; true when nothing was found.
    fn end(&self, name: &str) -> bool {
        for (number, times) in &self.answers {
            println!("answer {number}: {times}");
        }
        let (jobs, texts, cut_off) = (self.jobs, self.layers, self.cut_off);
        let findings = self.findings;
        println!("{name}: {jobs} jobs, {texts} texts, {cut_off} cut off, {findings} findings");
        findings == 0
    }

    fn bounds(&mut self) {
        for (name, job, number, place) in gen::boundary_jobs() {
            let a = expect(&job, &STANDARD);
            self.answer(&name, &a);
            if (a.number, a.place) != (number, place) {
                let why = format!("{} {} here, {number} {place} there", a.number, a.place);
                self.finding(&name, &why);
            }
        }
    }
}

fn ascii(bytes: Vec<u8>) -> Option<String> {
    String::from_utf8(bytes).ok().filter(|s| s.is_ascii())
}

/// Runs the checks and the reference over generated jobs, a damaged copy of
/// each, texts, and the boundary jobs. True when nothing is found.
pub fn cross(seed: u64, count: u64) -> bool {
    let mut c = Cross::default();
    c.bounds();
    for k in 0..count {
        let (mut r, job) = made(seed, k);
        let what = format!("job {}", seed.wrapping_add(k));
        c.answer(&what, &expect(&job, &STANDARD));
        let damaged = gen::damage(&mut r, &job);
        c.answer(&format!("{what}, damaged"), &expect(&damaged, &STANDARD));
        c.layers(&mut r, &what);
    }
    c.end("cross")
}

/// All texts of at most `length` of these bytes, as words and as a list.
pub fn texts(length: usize) -> bool {
    let mut c = Cross::default();
    let vars = [("a".to_string(), "$v".to_string())];
    gen::all_texts(b"a{}\"[]\\;#$ \n\r", length, &mut |text| {
        c.words(std::str::from_utf8(text).expect("ASCII"), &vars)
    });
    c.end("texts")
}

/// Every copy of a job with one byte changed, left out or doubled.
pub fn changes(job: &[u8]) -> bool {
    let mut c = Cross::default();
    gen::one_byte_changes(job, &mut |copy| {
        let what = quote(&String::from_utf8_lossy(copy));
        c.answer(&what, &expect(copy, &STANDARD));
    });
    c.end("changes")
}

/// Runs a program with each job on standard input; it must print the text of
/// this name, or `refused N P`.
pub fn compare(text: &str, program: &str, seed: u64, count: u64) -> bool {
    let names = ["glue", "package", "report", "log"];
    let Some(which) = names.iter().position(|n| *n == text) else {
        println!("no text has the name {text}");
        return false;
    };
    let mut c = Cross::default();
    let bounds = gen::boundary_jobs().into_iter().map(|b| (b.0, b.1));
    let jobs = (0..count).flat_map(|k| {
        let (mut r, job) = made(seed, k);
        let damaged = gen::damage(&mut r, &job);
        let what = format!("job {}", seed.wrapping_add(k));
        [(what.clone() + ", damaged", damaged), (what, job)]
    });
    for (what, job) in bounds.chain(jobs) {
        let a = expect(&job, &STANDARD);
        c.answer(&what, &a);
        let want = match a.number {
            _ if a.cut_off => continue,
            0 => a.texts[which].clone(),
            n => format!("refused {n} {}\n", a.place).into_bytes(),
        };
        match output(program, job) {
            Ok(got) if got == want => {}
            Ok(_) => c.finding(&what, "another output"),
            Err(e) => c.finding(&what, &e.to_string()),
        }
    }
    c.end("compare")
}

fn output(program: &str, job: Vec<u8>) -> std::io::Result<Vec<u8>> {
    let mut child = Command::new(program).stdin(Stdio::piped()).stdout(Stdio::piped()).spawn()?;
    let mut stdin = child.stdin.take().expect("piped");
    let feed = std::thread::spawn(move || stdin.write_all(&job));
    let out = child.wait_with_output()?;
    let _ = feed.join();
    Ok(out.stdout)
}
