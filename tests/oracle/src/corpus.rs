//! The stored corpus: jobs with the answer due. Of generated jobs the four texts are the reference's own; of boundary and malformed
//! jobs number and place are those written by hand in `gen`, and the texts of an accepted one the reference's.
//!
//! A case is a line of seven numbers of six digits, parted by one space (number, place, lengths of the job, glue, package, report and log), then
//! the job and the four texts, nothing between them.

use std::io::Write;

use crate::check::{expect, in_time, Answer, Lent, AREAS, STANDARD, TIME_LIMIT};
use crate::gen::{self, Rng};
use crate::selftest;

/// Jobs longer than this are stored only where they reach something new.
const SMALL: usize = 1000;
const SMALL_TEXTS: usize = 2500;
/// Boundary jobs that are longer than this with their texts are stored only where their number is new.
const LARGE: usize = 5000;

fn put(out: &mut Vec<u8>, job: &[u8], number: u32, place: u32, a: &Answer) {
    let lengths = a.texts.each_ref().map(|t| t.len());
    let [g, p, r, l] = lengths;
    let head = format!("{number:06} {place:06} {:06} {g:06} {p:06} {r:06} {l:06}\n", job.len());
    out.extend_from_slice(head.as_bytes());
    out.extend_from_slice(job);
    for t in &a.texts {
        out.extend_from_slice(t);
    }
}

/// Writes `count` generated jobs from the seed on, and the boundary jobs, to standard output; counts to standard error.
pub fn write(seed: u64, count: u64) -> std::io::Result<()> {
    let mut out = Vec::new();
    let mut seen = gen::Coverage::new();
    let (mut kept, mut k) = (0, 0);
    while kept < count {
        let mut r = Rng::new(seed.wrapping_add(k));
        let job = gen::job(&mut r);
        k += 1;
        let a = expect(&job, &STANDARD);
        if !matches!(a.number, 0 | 8 | 9 | 11 | 12) || !a.findings.is_empty() || a.cut_off {
            continue;
        }
        let before = seen.reached();
        let [_, _, report, log] = a.texts.each_ref().map(|t| String::from_utf8_lossy(t));
        let small = job.len() <= SMALL && a.texts.iter().map(|t| t.len()).sum::<usize>() <= SMALL_TEXTS;
        let mut with = seen.clone();
        with.see(&job, a.number == 0, a.number, &report, &log);
        if small || with.reached() > before {
            seen = with;
            put(&mut out, &job, a.number, a.place, &a);
            kept += 1;
        }
    }
    let mut bounds = 0;
    let mut numbers = [false; 15];
    for large in [false, true] {
        for (_, job, number, place) in gen::boundary_jobs() {
            let a = expect(&job, &STANDARD);
            let size = job.len() + a.texts.iter().map(|t| t.len()).sum::<usize>();
            if (size > LARGE) != large || large && numbers[number as usize] {
                continue;
            }
            put(&mut out, &job, number, place, &a);
            numbers[number as usize] = true;
            bounds += 1;
        }
    }
    eprintln!("{kept} generated jobs of {k}, {bounds} boundary and malformed jobs, {} bytes", out.len());
    std::io::stdout().write_all(&out)
}

/// Writes the jobs of 'Marked runs' and of the traps to standard output.
pub fn marked() -> std::io::Result<()> {
    let mut out = Vec::new();
    for (job, number, place) in selftest::marked::cases() {
        put(&mut out, &job, number, place, &expect(&job, &STANDARD));
    }
    std::io::stdout().write_all(&out)
}

/// Stands for the number of an answer that is not known.
const UNKNOWN: u32 = 999_999;

/// Writes one case with its name behind the numbers; the texts are those of buffers of 999,999 bytes.
fn named(name: &str, job: &[u8], out: &mut impl Write) -> std::io::Result<()> {
    let bytes = job.to_vec();
    let lent = Lent { areas: AREAS, buffers: [999_999; 4] };
    let a = in_time(3 * TIME_LIMIT, move || expect(&bytes, &lent)).filter(|a| !a.cut_off);
    let a = a.unwrap_or_else(|| Answer::refused((UNKNOWN, 0)));
    let mut case = Vec::new();
    put(&mut case, job, a.number, a.place, &a);
    let line = case.iter().position(|&b| b == b'\n').expect("a line");
    case.splice(line..line, format!(" {name}").into_bytes());
    out.write_all(&case)
}

/// Generated jobs and a damaged copy of each, as named cases, to standard output.
pub fn stream(seed: u64, count: u64) -> std::io::Result<()> {
    let mut out = std::io::BufWriter::new(std::io::stdout());
    for k in 0..count {
        let mut r = Rng::new(seed.wrapping_add(k));
        let job = gen::job(&mut r);
        let name = format!("job {}", seed.wrapping_add(k));
        named(&name, &job, &mut out)?;
        named(&(name + ", damaged"), &gen::damage(&mut r, &job), &mut out)?;
    }
    out.flush()
}

/// The jobs that are meant to take long, as named cases, to standard output.
pub fn worst() -> std::io::Result<()> {
    let mut out = std::io::stdout();
    for (name, job) in gen::worst_jobs() {
        named(&name, &job, &mut out)?;
    }
    Ok(())
}
