//! The speed of the library beside the reference's: both in one process, the same jobs, both release builds. Usage: bench [ROUNDS].
//!
//! One time of ours is a whole call: the job read, the texts written, and all that was lent cleared. One time of the reference is its reading and generation alone; the syntax
//! tree that it works on is made beforehand. Rounds of the two alternate; printed are medians. Before a job is timed the four texts are compared.

mod jobs;
#[allow(dead_code, unused_imports)]
#[path = "../tests/oracle/src"]
mod oracle {
    pub mod convert;
    pub mod gen;
    pub mod job;
}
#[allow(dead_code)]
#[path = "../include/upf.rs"]
mod upf;

use std::hint::black_box;
use std::time::Instant;

use oracle::{convert, gen, job};
use upf_rs::upf as reference;

/// About how long one round of one side takes, in seconds.
const ROUND: f64 = 0.004;

struct Memory {
    files: Vec<u8>,
    area: Vec<u8>,
    nums: Vec<u32>,
    texts: [Vec<u8>; 4],
}

impl Memory {
    fn new() -> Memory {
        Memory {
            files: vec![0; upf::FILES],
            area: vec![0; upf::AREA],
            nums: vec![0; upf::NUMS],
            texts: std::array::from_fn(|_| vec![0; 65_536]),
        }
    }

    fn call(&mut self, job: &[u8]) -> upf::Answer {
        let [glue, package, report, log] = &mut self.texts;
        let Memory { files, area, nums, .. } = self;
        upf::run(job, upf::Lent { files, area, nums, glue, package, report, log })
    }
}

/// Sorted times of the rounds, in microseconds a call.
struct Times(Vec<f64>);

impl Times {
    fn at(&self, part: f64) -> f64 {
        self.0[((self.0.len() - 1) as f64 * part) as usize]
    }

    fn median(&self) -> f64 {
        self.at(0.5)
    }

    /// From the tenth to the ninetieth of a hundred rounds, as a part of the median.
    fn spread(&self) -> f64 {
        (self.at(0.9) - self.at(0.1)) / self.median()
    }
}

fn once(times: usize, work: &mut dyn FnMut()) -> f64 {
    let from = Instant::now();
    for _ in 0..times {
        work();
    }
    from.elapsed().as_secs_f64() * 1e6 / times as f64
}

/// Both sides in turn.
fn both(rounds: usize, ours: &mut dyn FnMut(), theirs: &mut dyn FnMut()) -> (Times, Times) {
    let often = |t: f64| ((ROUND * 1e6 / t) as usize).clamp(1, 10_000);
    let n = (often(once(3, ours)), often(once(3, theirs)));
    let mut all = (Vec::new(), Vec::new());
    for _ in 0..rounds {
        all.0.push(once(n.0, ours));
        all.1.push(once(n.1, theirs));
    }
    all.0.sort_by(f64::total_cmp);
    all.1.sort_by(f64::total_cmp);
    (Times(all.0), Times(all.1))
}

struct Result {
    bytes: usize,
    ours: Times,
    clear: Times,
    lines: Times,
    theirs: Times,
}

/// The same job with a top that is not listed: all of its lines are read, and then it is refused by 7.
fn unlisted(bytes: &[u8]) -> Vec<u8> {
    let rest = bytes.iter().position(|b| *b == b'\n').expect("a line");
    [b"top=unlisted__top", &bytes[rest..]].concat()
}

/// Compares the texts of a job, then times both; none where the job is refused.
fn time(m: &mut Memory, name: &str, bytes: &[u8], rounds: usize) -> Option<Result> {
    let parsed = job::parse(bytes).ok()?;
    let tree = convert::tree(&parsed);
    let over = Some(parsed.over.as_str()).filter(|o| !o.is_empty());
    let task = reference::Task {
        top: &parsed.top,
        over,
        start: &parsed.start,
        files: &parsed.files,
        modules: &tree,
    };
    m.texts.iter_mut().for_each(|t| t.resize(65_536, 0));
    let mut a = m.call(bytes);
    while a.number == 14 && m.texts[0].len() < 1 << 22 {
        let room = 2 * m.texts[0].len();
        m.texts.iter_mut().for_each(|t| t.resize(room, 0));
        a = m.call(bytes);
    }
    if a.number != 0 {
        return None;
    }
    let due = reference::texts_of(&task).expect("texts");
    let report: String = due.report.iter().map(|e| format!("{e}\n")).collect();
    let texts = [due.glue.as_bytes(), due.package.as_bytes(), report.as_bytes(), due.log.as_bytes()];
    let lens = [a.glue, a.package, a.report, a.log];
    for k in 0..4 {
        assert!(m.texts[k][..lens[k]] == *texts[k], "{name}: another text");
        let room = lens[k].max(65_536).next_power_of_two();
        m.texts[k].truncate(room);
    }
    let (ours, theirs) = both(
        rounds,
        &mut || {
            black_box(m.call(black_box(bytes)));
        },
        &mut || {
            let _ = black_box(reference::texts_of(black_box(&task)));
        },
    );
    // an empty job is refused at once, and all that is lent is cleared
    let read = unlisted(bytes);
    assert!(m.call(&read).number == 7, "{name}: the lines are not read");
    let mut other = Memory::new();
    for k in 0..4 {
        other.texts[k].resize(m.texts[k].len(), 0);
    }
    let (clear, lines) = both(
        rounds,
        &mut || {
            black_box(m.call(black_box(b"")));
        },
        &mut || {
            black_box(other.call(black_box(&read)));
        },
    );
    Some(Result { bytes: bytes.len(), ours, clear, lines, theirs })
}

fn family(m: &mut Memory, f: jobs::Family, rounds: usize) {
    println!("\n### {}\n", f.title);
    println!("| {} | job bytes | ours µs | of it clearing | of it the job's lines | the Rust µs | ratio | ratio without these two | ours for one of the {} more, µs | spread ours, the Rust |", f.grows, f.grows);
    println!("|---|---|---|---|---|---|---|---|---|---|");
    let mut last: Option<(usize, f64)> = None;
    for (n, (name, bytes)) in f.jobs {
        let Some(r) = time(m, &name, &bytes, rounds) else {
            println!("| {n} | refused |");
            continue;
        };
        let (ours, theirs, clear) = (r.ours.median(), r.theirs.median(), r.clear.median());
        let net = ours - clear;
        let lines = r.lines.median() - clear;
        let more = match last {
            Some((k, before)) => format!("{:.2}", (net - before) / (n - k) as f64),
            None => "".into(),
        };
        last = Some((n, net));
        println!(
            "| {n} | {} | {ours:.1} | {clear:.1} | {lines:.1} | {theirs:.1} | {:.2} | {:.2} | {more} | {:.0} %, {:.0} % |",
            r.bytes,
            ours / theirs,
            (net - lines) / theirs,
            100.0 * r.ours.spread(),
            100.0 * r.theirs.spread()
        );
    }
}

/// Generated jobs, small and large.
fn generated(m: &mut Memory, count: u64) {
    let classes = [(0, 1024), (1024, 4096), (4096, 16_384), (16_384, 65_537)];
    println!("\n### generated jobs\n");
    println!("| job bytes | jobs | ours µs, all | the Rust µs, all | ratio | without clearing and lines | largest ratio of one | above 0.5 | above 1 |");
    println!("|---|---|---|---|---|---|---|---|---|");
    let mut rows = classes.map(|_| (0usize, 0.0, 0.0, 0.0, 0.0f64, 0usize, 0usize));
    for k in 0..count {
        let bytes = gen::job(&mut gen::Rng::new(7_000_000 + k));
        let Some(r) = time(m, &format!("job {}", 7_000_000 + k), &bytes, 3) else { continue };
        let c = classes.iter().position(|c| c.0 <= bytes.len() && bytes.len() < c.1).expect("a class");
        let (ours, theirs) = (r.ours.median(), r.theirs.median());
        let row = &mut rows[c];
        row.0 += 1;
        row.1 += ours;
        row.2 += theirs;
        row.3 += r.lines.median();
        row.4 = row.4.max(ours / theirs);
        row.5 += (ours / theirs > 0.5) as usize;
        row.6 += (ours / theirs > 1.0) as usize;
    }
    for (c, r) in classes.iter().zip(rows) {
        println!(
            "| {} to {} | {} | {:.0} | {:.0} | {:.2} | {:.2} | {:.2} | {} | {} |",
            c.0,
            c.1 - 1,
            r.0,
            r.1,
            r.2,
            r.1 / r.2,
            (r.1 - r.3) / r.2,
            r.4,
            r.5,
            r.6
        );
    }
}

/// The same work on both sides: what the machine adds.
fn noise(m: &mut Memory, rounds: usize) {
    let all = jobs::families();
    let (_, (_, bytes)) = &all[0].jobs[3];
    let mut other = Memory::new();
    other.texts.iter_mut().for_each(|t| t.resize(1 << 18, 0));
    m.texts.iter_mut().for_each(|t| t.resize(1 << 18, 0));
    let (a, b) = both(
        rounds,
        &mut || {
            black_box(m.call(black_box(bytes)));
        },
        &mut || {
            black_box(other.call(black_box(bytes)));
        },
    );
    println!(
        "noise: the same job on both sides {:.1} and {:.1} µs, ratio {:.3}; spread {:.0} % and {:.0} %",
        a.median(),
        b.median(),
        a.median() / b.median(),
        100.0 * a.spread(),
        100.0 * b.spread()
    );
}

fn run(rounds: usize) {
    let mut m = Memory::new();
    noise(&mut m, rounds);
    for f in jobs::families() {
        family(&mut m, f, rounds);
    }
    generated(&mut m, 400);
    println!();
    noise(&mut m, rounds);
}

fn main() {
    let rounds = std::env::args().nth(1).map_or(21, |a| a.parse().expect("a number of rounds"));
    let work = std::thread::Builder::new().stack_size(64 << 20).spawn(move || run(rounds)).expect("a thread");
    work.join().expect("an end");
}
