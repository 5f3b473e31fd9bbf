//! The answer to a job by document 01's ten checks in their order. The texts
//! of an accepted job are the reference's own; where the two part, it is a
//! finding.

use std::sync::mpsc;
use std::thread;
use std::time::Duration;

use upf_rs::records::Records;
use upf_rs::upf::{self, Task};

use crate::convert;
use crate::generation::{self, Counts};
use crate::job::{self, Fault, Job};
use crate::reading::{self, Reading};

/// The lengths of what is lent: work areas for joined files, for all else and
/// for numbers; buffers for glue, package, report and log.
#[derive(Clone, Copy, Debug)]
pub struct Lent {
    pub areas: [usize; 3],
    pub buffers: [usize; 4],
}

pub const AREAS: [usize; 3] = [65_536, 65_536, 16_384];

/// What the program `report` lends.
pub const STANDARD: Lent = Lent { areas: AREAS, buffers: [65_536; 4] };

/// Room for any text.
pub const AMPLE: Lent = Lent { areas: AREAS, buffers: [usize::MAX; 4] };

/// Glue, package, report, log.
pub type Texts = [Vec<u8>; 4];

#[derive(Default)]
pub struct Answer {
    pub number: u32,
    pub place: u32,
    pub texts: Texts,
    /// Where the checks and the reference part.
    pub findings: Vec<String>,
    /// The reference did not end in time.
    pub cut_off: bool,
}

impl Answer {
    pub fn refused(fault: Fault) -> Answer {
        Answer { number: fault.0, place: fault.1, ..Answer::default() }
    }
}

/// What the reference says of a job.
pub enum Outcome {
    Texts(upf::Texts),
    Error(String),
    CutOff,
}

/// Does `work` on a thread of its own; `None` when it does not end in time.
pub fn in_time<T: Send + 'static>(limit: Duration, work: impl FnOnce() -> T + Send + 'static) -> Option<T> {
    let (send, receive) = mpsc::channel();
    let builder = thread::Builder::new().stack_size(64 << 20);
    let thread = builder.spawn(move || send.send(work())).expect("a thread");
    let answer = receive.recv_timeout(limit).ok()?;
    // joined and not let go: the C library reads what a thread that was let go may have given back when it ended
    let _ = thread.join();
    Some(answer)
}

pub const TIME_LIMIT: Duration = Duration::from_secs(10);

/// A glue longer than this is not built (a switch's condition can be long).
const MOST_GLUE: usize = 64 << 20;

fn with_task<T>(job: &Job, work: impl Fn(&Task) -> T) -> T {
    work(&Task {
        top: &job.top,
        over: Some(job.over.as_str()).filter(|o| !o.is_empty()),
        start: &job.start,
        files: &job.files,
        modules: &convert::tree(job),
    })
}

fn timed<T: Send + 'static>(job: &Job, work: fn(&Task) -> T) -> Option<T> {
    let job = job.clone();
    in_time(TIME_LIMIT, move || with_task(&job, work))
}

/// The reference's texts, or its error.
pub fn run(job: &Job) -> Outcome {
    match timed(job, |t| upf::texts_of(t)) {
        None => Outcome::CutOff,
        Some(Ok(texts)) => Outcome::Texts(texts),
        Some(Err(e)) => Outcome::Error(e),
    }
}

/// The reference's records when reading ends or stops.
pub fn rust_reading(job: &Job) -> Option<upf::Reading> {
    timed(job, |t| upf::reading_of(t))
}

/// The paths that the reference lists for each domain.
pub fn rust_paths(job: &Job) -> Option<Result<Vec<upf::Listed>, String>> {
    timed(job, |t| upf::paths_of(t))
}

/// The refusal that an error of the reference stands for.
pub fn number_of_error(error: &str) -> u32 {
    let known = [
        ("UPF: load_upf nesting too deep", 8),
        ("UPF: cannot read", 9),
        ("UPF: no instance of design top", 11),
        ("UPF: scope path", 12),
    ];
    known.iter().find(|k| error.starts_with(k.0)).map_or(0, |k| k.1)
}

pub fn report_text(entries: &[String]) -> String {
    entries.iter().map(|e| format!("{e}\n")).collect()
}

/// The one allowed answer to a job.
pub fn expect(bytes: &[u8], lent: &Lent) -> Answer {
    if lent.areas.iter().zip(AREAS).any(|(have, need)| *have < need) {
        return Answer::refused((1, 0));
    }
    match job::parse(bytes) {
        Ok(job) => after_parse(&job, lent),
        Err(fault) => Answer::refused(fault),
    }
}

fn after_parse(job: &Job, lent: &Lent) -> Answer {
    let (reading, result) = reading::read(job);
    let mut answer = match result {
        Ok(()) => after_reading(job, &reading, lent),
        Err(fault) => Answer::refused(fault),
    };
    if matches!(answer.number, 8 | 9 | 11 | 12) {
        confirm_refusal(job, &reading, &mut answer);
    }
    answer
}

fn after_reading(job: &Job, reading: &Reading, lent: &Lent) -> Answer {
    let path = match generation::scope_path(job, &reading.records) {
        Ok(path) => path,
        Err(number) => return Answer::refused((number, 0)),
    };
    match generation::counts(job, &reading.records, &path) {
        Ok(counts) => with_texts(job, reading, &counts, lent),
        Err(number) => Answer::refused((number, 0)),
    }
}

/// Check 10, over the reference's texts.
fn with_texts(job: &Job, reading: &Reading, counts: &Counts, lent: &Lent) -> Answer {
    if counts.glue_at_least > lent.buffers[0] {
        return Answer::refused((14, 0));
    }
    if counts.glue_at_least > MOST_GLUE {
        return Answer { cut_off: true, ..Answer::default() };
    }
    let texts = match run(job) {
        Outcome::Texts(texts) => texts,
        Outcome::Error(e) => {
            let mut answer = Answer::default();
            answer.findings.push(format!("accepted here, the reference says: {e}"));
            return answer;
        }
        Outcome::CutOff => return Answer { cut_off: true, ..Answer::default() },
    };
    let findings = differences(job, reading, counts, &texts);
    let all: Texts = [
        texts.glue.into_bytes(),
        texts.package.into_bytes(),
        report_text(&texts.report).into_bytes(),
        texts.log.into_bytes(),
    ];
    let fits = all.iter().zip(lent.buffers).all(|(t, b)| t.len() <= b);
    Answer {
        number: if fits { 0 } else { 14 },
        texts: if fits { all } else { Texts::default() },
        findings,
        ..Answer::default()
    }
}

/// Where our records and counts are not those of the reference.
fn differences(job: &Job, reading: &Reading, counts: &Counts, texts: &upf::Texts) -> Vec<String> {
    let mut all = Vec::new();
    let mut same = |what: &str, holds: bool| {
        if !holds {
            all.push(format!("{what} differs from the reference's"));
        }
    };
    let theirs = rust_reading(job);
    same("a record", theirs.is_some_and(|r| r.records == reading.records));
    same("the log", texts.log == reading.log);
    let warnings = texts.report.iter().filter(|e| e.starts_with("warning: "));
    same("the number of warnings", warnings.count() == counts.warnings);
    let mark = "$display(\"[UPF] Time: %0t, Isolation enabled (strategy ";
    same("the number of isolated ports", texts.glue.matches(mark).count() == counts.isolated);
    let paths = rust_paths(job);
    same("a list of paths", paths.is_some_and(|p| p.as_ref() == Ok(&counts.listed)));
    for (name, paths) in &counts.listed {
        let Some(paths) = paths else { continue };
        let lines: String = paths.iter().map(|p| format!("      force {p} = 'x;\n")).collect();
        let blocks = texts.glue.matches(&lines).count();
        same(&format!("a block of domain {name}"), lines.is_empty() || blocks >= 2);
    }
    all
}

/// 8, 9, 11 and 12 are decided by the reference too; for 8 and 9 the records
/// at that moment show that the same command is at fault.
fn confirm_refusal(job: &Job, reading: &Reading, answer: &mut Answer) {
    let error = match run(job) {
        Outcome::CutOff => {
            answer.cut_off = true;
            return;
        }
        Outcome::Texts(_) => "nothing".into(),
        Outcome::Error(e) => e,
    };
    if number_of_error(&error) != answer.number {
        let finding = format!("{} here, the reference says: {error}", answer.number);
        answer.findings.push(finding);
    }
    let Some(theirs) = rust_reading(job) else {
        return;
    };
    let scopeless = |r: &Records| Records { scope: String::new(), ..r.clone() };
    if scopeless(&theirs.records) != scopeless(&reading.records) || theirs.log != reading.log {
        answer.findings.push("the records at the refusal differ".into());
    }
}
