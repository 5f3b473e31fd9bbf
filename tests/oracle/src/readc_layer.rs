//! The reader against the Rust: records, log, refusals 8 to 10 with their commands.
//! Usage: readc SEED COUNT. Generated jobs, a damaged copy of each, and the boundary jobs. Prints the number of comparisons and of differences;
//! status 1 where there is one.

#[allow(dead_code, unused_imports)]
mod gen;
#[allow(dead_code)]
mod job;
#[allow(dead_code)]
mod reading;
#[allow(dead_code)]
mod tcl;

use std::collections::BTreeMap;
use std::str::SplitAsciiWhitespace;

use gen::Rng;
use upf_rs::records::{Domain, Isolation, Records, Retention, Switch, Table};
use upf_rs::upf;

#[link(name = "readc", kind = "static")]
extern "C" {
    fn readc_index(
        job: *const u8,
        job_len: usize,
        nums: *mut u32,
        nums_len: usize,
        first: *mut usize,
    ) -> usize;
    fn readc_read(
        job: *const u8,
        job_len: usize,
        files: *mut u8,
        files_len: usize,
        area: *mut u8,
        area_len: usize,
        nums: *mut u32,
        nums_len: usize,
        log: *mut u8,
        log_len: usize,
        dump: *mut u8,
        dump_len: usize,
        count: usize,
        first: usize,
        command: *mut usize,
        logged: *mut usize,
        dumped: *mut usize,
    ) -> usize;
}

struct Lent {
    files: Vec<u8>,
    area: Vec<u8>,
    nums: Vec<u32>,
    log: Vec<u8>,
    dump: Vec<u8>,
}

/// The refusal and its command, the places in the log and in the dump.
struct Answer {
    tag: usize,
    command: usize,
    logged: usize,
    dumped: usize,
}

impl Lent {
    fn new() -> Lent {
        Lent {
            files: vec![0; 65_536],
            area: vec![0; 65_536],
            nums: vec![0; 16_384],
            log: vec![0; 1 << 20],
            dump: vec![0; 1 << 20],
        }
    }

    fn fill(&mut self, byte: u8) {
        self.files.fill(byte);
        self.area.fill(byte);
        self.nums.fill(0x0101_0101 * byte as u32);
    }

    /// The number of files and the row of the start file.
    fn index(&mut self, job: &[u8]) -> (usize, usize) {
        let mut first = 0;
        let n = unsafe {
            readc_index(job.as_ptr(), job.len(), self.nums.as_mut_ptr(), self.nums.len(), &mut first)
        };
        (n, first)
    }

    fn read(&mut self, job: &[u8], n: usize, first: usize) -> Answer {
        let (mut command, mut logged, mut dumped) = (0, 0, 0);
        let tag = unsafe {
            readc_read(
                job.as_ptr(),
                job.len(),
                self.files.as_mut_ptr(),
                self.files.len(),
                self.area.as_mut_ptr(),
                self.area.len(),
                self.nums.as_mut_ptr(),
                self.nums.len(),
                self.log.as_mut_ptr(),
                self.log.len(),
                self.dump.as_mut_ptr(),
                self.dump.len(),
                n,
                first,
                &mut command,
                &mut logged,
                &mut dumped,
            )
        };
        Answer { tag, command, logged, dumped }
    }

    /// What a stored string stands for: a part of the files followed by the area.
    fn string(&self, at: usize, len: usize) -> String {
        let n = self.files.len();
        let bytes = if at < n { &self.files[at..at + len] } else { &self.area[at - n..at - n + len] };
        String::from_utf8(bytes.to_vec()).expect("ASCII")
    }
}

fn below(scope: &str, word: &str) -> String {
    match (word, scope) {
        (".", _) => scope.into(),
        (_, "") => word.into(),
        _ => format!("{scope}/{word}"),
    }
}

fn nth(list: &[String], n: usize) -> String {
    list.get(n).cloned().unwrap_or_default()
}

fn pair(value: &str) -> (String, String) {
    let l = upf::list_of(value);
    (nth(&l, 0), nth(&l, 1))
}

/// A list whose entries are below a scope.
fn entries(scope: &str, value: &str) -> Vec<String> {
    upf::list_of(value).iter().map(|e| below(scope, e)).collect()
}

/// The numbers of the dump, read from the front.
struct Dump<'a> {
    lent: &'a Lent,
    rest: SplitAsciiWhitespace<'a>,
}

impl Dump<'_> {
    fn number(&mut self) -> usize {
        self.rest.next().expect("a number").parse().expect("a number")
    }

    fn string(&mut self) -> String {
        let (at, len) = (self.number(), self.number());
        self.lent.string(at, len)
    }

    fn below(&mut self) -> String {
        let (scope, word) = (self.string(), self.string());
        below(&scope, &word)
    }

    /// Whether a value follows; the `-` of one that was not given is passed.
    fn given(&mut self) -> bool {
        let mut ahead = self.rest.clone();
        if ahead.next() == Some("-") {
            self.rest = ahead;
            return false;
        }
        true
    }

    fn maybe(&mut self) -> Option<String> {
        self.given().then(|| self.string())
    }

    fn maybe_below(&mut self) -> Option<String> {
        self.given().then(|| self.below())
    }

    /// Some words of the store.
    fn words(&self, first: usize, count: usize) -> Vec<String> {
        let word = |k: usize| {
            self.lent.string(self.lent.nums[6592 + 2 * k] as usize, self.lent.nums[6593 + 2 * k] as usize)
        };
        (first..first + count).map(word).collect()
    }

    fn domain(&mut self) -> Domain {
        let (name, value, whole) = (self.string(), self.string(), self.number());
        let (power, ground, scope) = (self.maybe_below(), self.maybe_below(), self.string());
        let mut elements = entries(&scope, &value);
        if whole == 1 {
            elements.push(scope.clone());
        }
        Domain { name, elements, power, ground, scope }
    }

    fn switch(&mut self) -> Switch {
        let (name, domain, scope) = (self.string(), self.maybe(), self.string());
        let end = |value: String| {
            let l = upf::list_of(&value);
            (nth(&l, 0), l.get(1).map(|n| below(&scope, n)).unwrap_or_default())
        };
        let (input, output) = (end(self.string()), end(self.string()));
        let controls =
            upf::list_of(&self.string()).chunks_exact(2).map(|p| (p[0].clone(), p[1].clone())).collect();
        let (first, ons, offs) = (self.number(), self.number(), self.number());
        let on = |value: &String| {
            let l = upf::list_of(value);
            (nth(&l, 0), nth(&l, 1), nth(&l, 2))
        };
        let on_states = self.words(first, ons).iter().map(on).collect();
        let off_states = self.words(first + ons, offs).iter().map(|v| pair(v)).collect();
        Switch { name, domain, input, output, controls, on_states, off_states }
    }

    fn isolation(&mut self) -> Isolation {
        let (name, domain, applies_to) = (self.string(), self.string(), self.maybe());
        let (scope, value) = (self.string(), self.string());
        let (clamp, signal) = (self.maybe().unwrap_or("0".into()), self.maybe());
        let sense = self.maybe().unwrap_or("high".into());
        let (power, ground) = (self.maybe(), self.maybe());
        Isolation {
            name,
            domain,
            applies_to,
            elements: entries(&scope, &value),
            clamp,
            signal,
            sense,
            power,
            ground,
        }
    }

    fn retention(&mut self) -> Retention {
        let (name, domain, scope, value) = (self.string(), self.string(), self.string(), self.string());
        Retention { name, domain, elements: entries(&scope, &value) }
    }

    fn port_state(&mut self) -> (String, Vec<(String, String)>) {
        let (name, first, count) = (self.below(), self.number(), self.number());
        (name, self.words(first, count).iter().map(|v| pair(v)).collect())
    }

    fn table(&mut self) -> Table {
        let (name, scope, value) = (self.string(), self.string(), self.string());
        Table { name, supplies: entries(&scope, &value), states: Vec::new() }
    }

    /// Row k of the store: a connection, a state of a table, or a warning.
    fn row(&self, k: usize, r: &mut Records) {
        let n: Vec<usize> = self.lent.nums[1472 + 5 * k..1477 + 5 * k].iter().map(|&x| x as usize).collect();
        let (kind, at, len) = (n[0] % 16, n[0] / 16 / 1024, n[0] / 16 % 1024);
        let name = self.lent.string(n[1], n[2]);
        match kind {
            1 => {
                let (scope, value) = (self.lent.string(at, len), self.lent.string(n[3], n[4]));
                for p in entries(&scope, &value) {
                    r.connections.insert(p, below(&scope, &name));
                }
            }
            2 => r.tables[at].states.push((name, upf::list_of(&self.lent.string(n[3], n[4])))),
            k => {
                let (front, back) = WARNINGS[k - 3];
                r.warnings.push(format!("{front}{name}{back}"));
            }
        }
    }
}

const WARNINGS: [(&str, &str); 6] = [
    ("set_domain_supply_net: unknown power domain '", "'"),
    ("set_isolation ", ": -no_isolation, ignored"),
    ("set_isolation_control: unknown isolation strategy '", "'"),
    ("add_pst_state: unknown PST '", "'"),
    ("'", "' parsed but not simulated"),
    ("unsupported UPF command '", "' ignored"),
];

/// All records: those of the dump, then the rows of the store.
fn records(lent: &Lent, dumped: usize) -> Records {
    let text = std::str::from_utf8(&lent.dump[..dumped]).expect("ASCII");
    let mut d = Dump { lent, rest: text.split_ascii_whitespace() };
    let mut r = Records { design_top: d.maybe(), scope: d.string(), ..Records::default() };
    let rows = d.number();
    r.domains = (0..d.number()).map(|_| d.domain()).collect();
    r.nets = (0..d.number()).map(|_| d.below()).collect();
    r.ports = (0..d.number()).map(|_| (d.below(), d.maybe().unwrap_or("in".into()))).collect();
    r.switches = (0..d.number()).map(|_| d.switch()).collect();
    r.isolations = (0..d.number()).map(|_| d.isolation()).collect();
    r.retentions = (0..d.number()).map(|_| d.retention()).collect();
    r.shifters = (0..d.number()).map(|_| (d.string(), d.string())).collect();
    r.port_states = (0..d.number()).map(|_| d.port_state()).collect();
    r.tables = (0..d.number()).map(|_| d.table()).collect();
    assert!(d.rest.next().is_none(), "no more numbers");
    for k in 0..rows {
        d.row(k, &mut r);
    }
    r
}

#[derive(Default)]
struct Tally {
    done: u64,
    wrong: u64,
    answers: BTreeMap<u32, u64>,
}

impl Tally {
    fn wrong(&mut self, what: &str, why: &str) {
        self.wrong += 1;
        println!("{what}: {why}");
    }

    /// A job by its text; `what` names it.
    fn see(&mut self, lent: &mut Lent, what: &str, text: &[u8]) {
        let Ok(job) = job::parse(text) else {
            return;
        };
        lent.fill((self.done % 251) as u8);
        let (n, first) = lent.index(text);
        self.done += 1;
        if n != job.files.len() || job.files[first].0 != job.start {
            return self.wrong(what, "another start file");
        }
        let (files, area, nums) = (lent.files.clone(), lent.area.clone(), lent.nums.clone());
        let a = lent.read(text, n, first);
        let (due, result) = reading::read(&job);
        let fault = result.err().unwrap_or((0, 0));
        *self.answers.entry(fault.0).or_default() += 1;
        if a.tag != fault.0 as usize || fault.0 != 0 && a.command != fault.1 as usize {
            return self
                .wrong(what, &format!("answers {} {}, due is {} {}", a.tag, a.command, fault.0, fault.1));
        }
        let total: usize = job.files.iter().map(|f| f.1.len()).sum();
        if lent.files[total..] != files[total..] || lent.area[24_576..] != area[24_576..] {
            return self.wrong(what, "writes where it must not");
        }
        if lent.nums[..1152] != nums[..1152]
            || lent.nums[1216..1472] != nums[1216..1472]
            || lent.nums[14_656..] != nums[14_656..]
        {
            return self.wrong(what, "writes numbers where it must not");
        }
        if fault.0 != 0 && fault.0 != 9 {
            return;
        }
        let task =
            upf::Task { top: &job.top, over: None, start: &job.start, files: &job.files, modules: &[] };
        let rust = upf::reading_of(&task);
        if rust.error.is_some() != (fault.0 == 9) {
            return self.wrong(what, "the Rust has an error, or none");
        }
        if fault.0 == 9 {
            return;
        }
        let ours = records(lent, a.dumped);
        let log = &lent.log[..a.logged];
        if ours != rust.records || ours != due.records {
            println!("ours: {ours:?}\nrust: {:?}", rust.records);
            return self.wrong(what, "the records differ");
        }
        if log != rust.log.as_bytes() || log != due.log.as_bytes() {
            self.wrong(what, "the log differs");
        }
    }
}

fn run(seed: u64, count: u64) -> bool {
    let mut lent = Lent::new();
    let mut t = Tally::default();
    for (name, job, _, _) in gen::boundary_jobs() {
        t.see(&mut lent, &format!("boundary job {name}"), &job);
    }
    for k in 0..count {
        let mut r = Rng::new(seed.wrapping_add(k));
        let job = gen::job(&mut r);
        t.see(&mut lent, &format!("job {}", seed.wrapping_add(k)), &job);
        let damaged = gen::damage(&mut r, &job);
        t.see(&mut lent, &format!("damaged job {}", seed.wrapping_add(k)), &damaged);
    }
    println!("readc: {} comparisons, {} differences, by answer {:?}", t.done, t.wrong, t.answers);
    t.wrong > 0
}

fn main() {
    let args: Vec<u64> = std::env::args().skip(1).map(|a| a.parse().expect("a number")).collect();
    let work = std::thread::Builder::new()
        .stack_size(64 << 20)
        .spawn(move || run(args[0], args[1]))
        .expect("a thread");
    std::process::exit(work.join().expect("an answer") as i32);
}
