//! The oracle: the reference's answers to a job, and document 01's.

mod batch;
mod check;
mod convert;
mod corpus;
mod design;
mod gen;
mod generation;
mod job;
mod layers;
mod reading;
mod selftest;
mod tcl;

use std::io::{Read, Write};
use std::process::exit;

use check::{Outcome, STANDARD};

const USAGE: &str = "usage: oracle COMMAND
  run JOB            the reference's four texts, or its error
  expect JOB         number, place and the four texts by document 01
  report JOB         what the program `report` prints
  records JOB        the records, all fields
  paths JOB          the paths listed for each domain
  words FILE [N=V..] the words of a text, with variables
  list FILE          the text as a list value
  args FILE          the arguments of each command of a text
  args -- WORD..     the arguments in a word list
  subst WORD [N=V..] a word with its variables replaced
  mangle WORD, sv_str WORD, expression WORD [N=V..]
                     names, quoted text and switch expressions of the glue
  selftest           the checks written by hand
  gen SEED COUNT DIR generated jobs into a directory, with their answers
  bounds DIR         the boundary jobs, likewise
  corpus SEED COUNT  the stored corpus, to standard output
  marked             the jobs of 'Marked runs' and of the traps, likewise
  stream SEED COUNT  generated and damaged jobs with their answers, for tests/hard
  worst              jobs that are meant to take long, likewise
  coverage SEED COUNT  what the generated jobs reach
  cross SEED COUNT   checks and reference over generated jobs and texts
  texts LENGTH       words and lists of all short texts
  changes JOB        every copy of a job with one byte changed
  compare TEXT PROGRAM SEED COUNT
                     a program's output against glue, package, report or log
JOB and FILE may be - for standard input.";

fn main() {
    let all: Vec<String> = std::env::args().skip(1).collect();
    let all: Vec<&str> = all.iter().map(|a| a.as_str()).collect();
    match all[..] {
        ["run", path] => run(path),
        ["expect", path] => expect(path),
        ["report", path] => report(path),
        ["records", path] => records(path),
        ["paths", path] => paths(path),
        ["words", path, ref vars @ ..] => print(&layers::words(&text(path), &variables(vars))),
        ["list", path] => print(&layers::list(&text(path))),
        ["args", "--", ref words @ ..] => print(&layers::args(&owned(words))),
        ["args", path] => print(&layers::args_of_text(&text(path))),
        ["subst", word, ref vars @ ..] => print(&layers::subst(word, &variables(vars))),
        ["mangle", word] => print(&[layers::quote(&upf_rs::upf::mangled(word))]),
        ["sv_str", word] => print(&[layers::quote(&upf_rs::upf::escaped(word))]),
        ["expression", word, ref vars @ ..] => print(&layers::expression(word, &variables(vars))),
        ["selftest"] => exit(!selftest::all() as i32),
        ["gen", seed, count, dir] => done(batch::write(number(seed), number(count), dir)),
        ["bounds", dir] => done(batch::write_bounds(dir)),
        ["corpus", seed, count] => done(corpus::write(number(seed), number(count))),
        ["marked"] => done(corpus::marked()),
        ["stream", seed, count] => done(corpus::stream(number(seed), number(count))),
        ["worst"] => done(corpus::worst()),
        ["coverage", seed, count] => batch::coverage(number(seed), number(count)),
        ["cross", seed, count] => exit(!batch::cross(number(seed), number(count)) as i32),
        ["texts", length] => exit(!batch::texts(number(length) as usize) as i32),
        ["changes", path] => exit(!batch::changes(&bytes(path)) as i32),
        ["compare", text, program, seed, count] => {
            exit(!batch::compare(text, program, number(seed), number(count)) as i32)
        }
        _ => fail(USAGE),
    }
}

fn number(text: &str) -> u64 {
    text.parse().unwrap_or_else(|_| fail(USAGE))
}

fn done(result: std::io::Result<()>) {
    if let Err(e) = result {
        fail(&e.to_string());
    }
}

fn fail(why: &str) -> ! {
    eprintln!("{why}");
    exit(2)
}

/// Standard output may be a pipe that is closed early.
fn put(bytes: &[u8]) {
    let _ = std::io::stdout().write_all(bytes);
}

fn print(lines: &[String]) {
    put(check::report_text(lines).as_bytes());
}

fn owned(words: &[&str]) -> Vec<String> {
    words.iter().map(|w| w.to_string()).collect()
}

fn variables(vars: &[&str]) -> Vec<(String, String)> {
    let pair = |v: &&str| v.split_once('=').map(|(n, v)| (n.into(), v.into()));
    match vars.iter().map(pair).collect() {
        Some(all) => all,
        None => fail(USAGE),
    }
}

fn bytes(path: &str) -> Vec<u8> {
    let mut all = Vec::new();
    let result = match path {
        "-" => std::io::stdin().read_to_end(&mut all).map(|_| ()),
        _ => std::fs::read(path).map(|b| all = b),
    };
    match result {
        Ok(()) => all,
        Err(e) => fail(&format!("{path}: {e}")),
    }
}

fn text(path: &str) -> String {
    match String::from_utf8(bytes(path)) {
        Ok(text) if text.is_ascii() => text,
        _ => fail(&format!("{path}: a byte of 128 or more")),
    }
}

fn parsed(path: &str) -> job::Job {
    match job::parse(&bytes(path)) {
        Ok(job) => job,
        Err((number, place)) => {
            put(format!("refused {number} {place}\n").as_bytes());
            exit(1)
        }
    }
}

fn time_limit() -> ! {
    put(b"time limit\n");
    exit(4)
}

fn headed(texts: [&[u8]; 4]) {
    for (name, text) in ["glue", "package", "report", "log"].iter().zip(texts) {
        put(format!("==== {name}, {} bytes\n", text.len()).as_bytes());
        put(text);
    }
}

fn run(path: &str) {
    match check::run(&parsed(path)) {
        Outcome::Texts(t) => headed([
            t.glue.as_bytes(),
            t.package.as_bytes(),
            check::report_text(&t.report).as_bytes(),
            t.log.as_bytes(),
        ]),
        Outcome::Error(e) => put(format!("error {}\n", layers::quote(&e)).as_bytes()),
        Outcome::CutOff => time_limit(),
    }
}

/// The answer; findings go to standard error.
fn answer(path: &str) -> check::Answer {
    let answer = check::expect(&bytes(path), &STANDARD);
    for f in &answer.findings {
        eprintln!("finding: {f}");
    }
    if answer.cut_off {
        time_limit();
    }
    answer
}

fn expect(path: &str) {
    let a = answer(path);
    put(format!("{} {}\n", a.number, a.place).as_bytes());
    headed([&a.texts[0], &a.texts[1], &a.texts[2], &a.texts[3]]);
}

fn report(path: &str) {
    let a = answer(path);
    match a.number {
        0 => put(&a.texts[2]),
        n => put(format!("refused {n} {}\n", a.place).as_bytes()),
    }
}

fn records(path: &str) {
    match check::rust_reading(&parsed(path)) {
        None => time_limit(),
        Some(r) => match r.error {
            Some(e) => put(format!("error {}\n", layers::quote(&e)).as_bytes()),
            None => print(&layers::records(&r.records)),
        },
    }
}

fn paths(path: &str) {
    match check::rust_paths(&parsed(path)) {
        None => time_limit(),
        Some(Err(e)) => put(format!("error {}\n", layers::quote(&e)).as_bytes()),
        Some(Ok(listed)) => print(&layers::paths(&listed)),
    }
}
