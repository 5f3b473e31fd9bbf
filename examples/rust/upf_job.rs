//! upf_job JOB [DIR]: reads the job file and writes glue.txt, package.txt, report.txt and log.txt into DIR (the current folder where none is given);
//! or says the refusal in words and writes nothing. upf_job --refusals: the rows of docs/REFUSALS.md.
//! Status: 0 the texts are written, 1 the job is refused, 2 a file cannot be read or written.

#[allow(dead_code)]
#[path = "../../include/upf.rs"]
mod upf;

use std::path::Path;
use std::process::exit;

fn refusals() {
    for (n, w) in upf::WORDS.iter().enumerate() {
        let space = if w.cause.is_empty() { "" } else { " " };
        println!("| {n} | {} | {} |{space}{} | {} |", w.place, w.says, w.cause, w.todo);
    }
}

/// Ends the program where a file cannot be read or written.
fn must<T>(path: &Path, result: std::io::Result<T>) -> T {
    result.unwrap_or_else(|e| {
        eprintln!("upf_job: {}: {e}", path.display());
        exit(2)
    })
}

fn main() {
    let args: Vec<String> = std::env::args().skip(1).collect();
    let (path, dir) = match &args[..] {
        [flag] if flag == "--refusals" => return refusals(),
        [path] => (Path::new(path), Path::new(".")),
        [path, dir] => (Path::new(path), Path::new(dir)),
        _ => {
            eprintln!("usage: upf_job JOB [DIR]");
            exit(2)
        }
    };
    let job = must(path, std::fs::read(path));
    let mut reader = upf::Reader::new(64 << 20);
    match reader.read(&job) {
        Ok(t) => {
            let texts = [("glue", t.glue), ("package", t.package), ("report", t.report), ("log", t.log)];
            for (name, text) in texts {
                let to = dir.join(format!("{name}.txt"));
                must(&to, std::fs::write(&to, text));
            }
        }
        Err(refusal) => {
            eprintln!("{}: {refusal}", path.display());
            exit(1)
        }
    }
}
