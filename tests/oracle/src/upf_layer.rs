//! The exported function against the Rust and the separate checks: number, place, the four texts, and every lent byte.
//! Usage: upf SEED COUNT. Boundary jobs, generated jobs and damaged copies, each with several sizes of what is lent; everything that is lent is full of 0xFF
//! before the call. Prints the numbers of jobs, calls and differences; status 1 where there is one. The first jobs that differ are kept below target/oracle.

#[allow(dead_code)]
mod check;
#[allow(dead_code)]
mod convert;
#[allow(dead_code)]
mod design;
#[allow(dead_code, unused_imports)]
mod gen;
#[allow(dead_code)]
mod generation;
#[allow(dead_code)]
mod job;
#[allow(dead_code)]
mod reading;
#[allow(dead_code)]
mod tcl;
#[allow(dead_code)]
#[path = "../../../include/upf.rs"]
mod upf;

use std::collections::BTreeMap;

use check::{AREAS, STANDARD};
use gen::Rng;

/// Longer texts are not asked for: with shorter buffers the answer is 14, and so it is here.
const MOST: usize = 1 << 20;

/// What is lent, as long as it may be; a call gets the fronts.
struct Memory {
    areas: [Vec<u8>; 2],
    nums: Vec<u32>,
    texts: [Vec<u8>; 4],
}

/// The lengths of one call: two byte areas, the number area, four buffers.
type Sizes = ([usize; 3], [usize; 4]);

impl Memory {
    fn new() -> Memory {
        let bytes = |n| vec![0; n];
        Memory {
            areas: [bytes(70_000), bytes(70_000)],
            nums: vec![0; 20_000],
            texts: [bytes(MOST), bytes(MOST), bytes(MOST), bytes(MOST)],
        }
    }

    /// Calls with the fronts of these sizes, full of 0xFF.
    fn call(&mut self, job: &[u8], sizes: &Sizes) -> upf::Answer {
        let (areas, texts) = sizes;
        let [files, area] = &mut self.areas;
        let [glue, package, report, log] = &mut self.texts;
        let mut lent = upf::Lent {
            files: &mut files[..areas[0]],
            area: &mut area[..areas[1]],
            nums: &mut self.nums[..areas[2]],
            glue: &mut glue[..texts[0]],
            package: &mut package[..texts[1]],
            report: &mut report[..texts[2]],
            log: &mut log[..texts[3]],
        };
        let l = &mut lent;
        for s in [&mut *l.files, l.area, l.glue, l.package, l.report, l.log] {
            s.fill(0xFF);
        }
        l.nums.fill(u32::MAX);
        upf::run(job, lent)
    }

    /// Whether the areas are zero, and each buffer has its text and zeros behind it.
    fn left(&self, sizes: &Sizes, texts: &[&[u8]; 4]) -> Result<(), String> {
        let (areas, buffers) = sizes;
        let zero = |s: &[u8]| s.iter().all(|&b| b == 0);
        if !zero(&self.areas[0][..areas[0]]) || !zero(&self.areas[1][..areas[1]]) {
            return Err("a byte area is not zero".into());
        }
        if self.nums[..areas[2]].iter().any(|&n| n != 0) {
            return Err("the number area is not zero".into());
        }
        for (k, name) in ["glue", "package", "report", "log"].iter().enumerate() {
            let (text, rest) = self.texts[k][..buffers[k]].split_at(texts[k].len());
            if text != texts[k] {
                return Err(format!("another {name}: {:?}", String::from_utf8_lossy(text)));
            }
            if !zero(rest) {
                return Err(format!("behind the {name} it is not zero"));
            }
        }
        Ok(())
    }
}

#[derive(Default)]
struct Tally {
    jobs: u64,
    calls: u64,
    cut_off: u64,
    wrong: u64,
    answers: BTreeMap<u32, u64>,
}

impl Tally {
    fn wrong(&mut self, what: &str, why: &str, job: &[u8]) {
        self.wrong += 1;
        if self.wrong <= 10 {
            let dir = std::env::var("ORACLE_DIR").unwrap_or("target/oracle".into());
            let file = format!("{dir}/differs{}.job", self.wrong);
            let _ = std::fs::write(&file, job);
            println!("{what}: {} ({} bytes, {file})", why.chars().take(600).collect::<String>(), job.len());
        }
    }

    /// One call, against the answer to the job with buffers of `MOST`.
    fn call(&mut self, m: &mut Memory, what: &str, job: &[u8], want: &check::Answer, sizes: &Sizes) {
        let short = sizes.0.iter().zip(AREAS).any(|(have, need)| *have < need);
        let fits = want.texts.iter().zip(sizes.1).all(|(t, n)| t.len() <= n);
        let (number, place) = match (short, want.number, fits) {
            (true, _, _) => (1, 0),
            (_, 0, false) => (14, 0),
            _ => (want.number, want.place),
        };
        let texts: [&[u8]; 4] = match number {
            0 => want.texts.each_ref().map(|t| &t[..]),
            _ => [b""; 4],
        };
        let a = m.call(job, sizes);
        self.calls += 1;
        *self.answers.entry(number).or_default() += 1;
        let due = upf::Answer {
            number: number as usize,
            place: place as usize,
            glue: texts[0].len(),
            package: texts[1].len(),
            report: texts[2].len(),
            log: texts[3].len(),
        };
        if a != due {
            return self.wrong(what, &format!("{a:?} and not {due:?} for {sizes:?}"), job);
        }
        if let Err(why) = m.left(sizes, &texts) {
            self.wrong(what, &format!("{why}; for {sizes:?}"), job);
        }
    }

    fn see(&mut self, m: &mut Memory, r: &mut Rng, what: &str, job: &[u8]) {
        let lent = check::Lent { areas: AREAS, buffers: [MOST; 4] };
        let want = check::expect(job, &lent);
        self.jobs += 1;
        for f in &want.findings {
            self.wrong(what, f, job);
        }
        if want.cut_off {
            self.cut_off += 1;
            return;
        }
        let exact = want.texts.each_ref().map(|t| t.len());
        self.call(m, what, job, &want, &(AREAS, exact));
        self.call(m, what, job, &want, &(AREAS, STANDARD.buffers));
        let some: Vec<usize> = (0..4).filter(|k| exact[*k] > 0).collect();
        if !some.is_empty() {
            let mut one_short = exact;
            one_short[*r.pick(&some)] -= 1;
            self.call(m, what, job, &want, &(AREAS, one_short));
        }
        let odd = odd_sizes(r, exact);
        self.call(m, what, job, &want, &odd);
    }

    /// A boundary job's answer as it is written by hand, with buffers of 65,536 bytes.
    fn by_hand(&mut self, m: &mut Memory, what: &str, job: &[u8], due: (u32, u32)) {
        let a = m.call(job, &(AREAS, STANDARD.buffers));
        self.calls += 1;
        if (a.number as u32, a.place as u32) != due {
            self.wrong(what, &format!("{a:?} and not {due:?}"), job);
        }
    }
}

/// Sizes around those that just fit.
fn odd_sizes(r: &mut Rng, exact: [usize; 4]) -> Sizes {
    let mut areas = AREAS;
    match r.below(8) {
        0 => areas[r.below(3)] -= 1,
        1 => areas[r.below(3)] = r.below(2),
        2 => areas = [0; 3],
        _ => areas.iter_mut().for_each(|n| *n += r.below(3) * r.below(1000)),
    }
    let buffers = exact.map(|n| match r.below(12) {
        0 => 0,
        1 => 1,
        2 => n.saturating_sub(1),
        3 => n / 2,
        4..=7 => n,
        8 => (n + 1).min(MOST),
        _ => (n + r.below(5000)).min(MOST),
    });
    (areas, buffers)
}

fn run(seed: u64, count: u64) -> bool {
    let mut m = Memory::new();
    let mut t = Tally::default();
    let mut sizes = Rng::new(seed ^ 0x5eed);
    for (name, job, number, place) in gen::boundary_jobs() {
        let what = format!("boundary job {name}");
        t.by_hand(&mut m, &what, &job, (number, place));
        t.see(&mut m, &mut sizes, &what, &job);
    }
    for k in 0..count {
        let mut r = Rng::new(seed.wrapping_add(k));
        let job = gen::job(&mut r);
        let what = format!("job {}", seed.wrapping_add(k));
        t.see(&mut m, &mut sizes, &what, &job);
        let damaged = gen::damage(&mut r, &job);
        t.see(&mut m, &mut sizes, &format!("{what}, damaged"), &damaged);
    }
    let Tally { jobs, calls, cut_off, wrong, answers } = t;
    println!(
        "upf: {jobs} jobs, {calls} calls, {cut_off} cut off, {wrong} differences, by answer {answers:?}"
    );
    wrong > 0
}

fn main() {
    let args: Vec<u64> = std::env::args().skip(1).map(|a| a.parse().expect("a number")).collect();
    let work = std::thread::Builder::new()
        .stack_size(64 << 20)
        .spawn(move || run(args[0], args[1]))
        .expect("a thread");
    std::process::exit(work.join().expect("an answer") as i32);
}
