//! The job reader against the separate parser of this folder: number and line of generated, boundary and damaged jobs, and of every one-byte change of two
//! small jobs. Usage: jobc SEED COUNT. Prints the numbers of comparisons and of differences; status 1 where there is one.

#[allow(dead_code, unused_imports)]
mod gen;
#[allow(dead_code)]
mod job;

use gen::Rng;

#[link(name = "jobc", kind = "static")]
extern "C" {
    fn upf_job_check(job: *const u8, n: usize, index: *mut u32, m: usize) -> u64;
}

/// Number and line, 0 0 for an accepted job; and whether the numbers behind the index are as they were.
fn ours(bytes: &[u8]) -> ((u64, u64), bool) {
    let mut index = vec![0xAAAA_AAAA; 1400];
    let told = unsafe { upf_job_check(bytes.as_ptr(), bytes.len(), index.as_mut_ptr(), index.len()) };
    ((told >> 32, told & 0xFFFF_FFFF), index[1280..].iter().all(|&n| n == 0xAAAA_AAAA))
}

fn due(bytes: &[u8]) -> (u64, u64) {
    match job::parse(bytes) {
        Ok(_) => (0, 0),
        Err((number, line)) => (number as u64, line as u64),
    }
}

struct Tally {
    done: u64,
    refused: u64,
    wrong: u64,
}

impl Tally {
    fn see(&mut self, bytes: &[u8]) {
        let (answer, kept) = ours(bytes);
        let want = due(bytes);
        self.done += 1;
        self.refused += (want.0 != 0) as u64;
        if answer != want || !kept {
            self.wrong += 1;
            if self.wrong <= 10 {
                println!("{answer:?} and not {want:?} at {:?}", String::from_utf8_lossy(bytes));
            }
        }
    }
}

const SMALL: [&[u8]; 2] = [
    b"top=t\noverride=\nstart=p\nfile=p\nbytes=1\n#\nmodule=t\nstyle=empty\ninst=1 u c\nconn=pos -\nend=\n",
    b"top=a\noverride=a.u\nstart=d/p\nfile=q\nbytes=0\n\nfile=d/p\nbytes=3\na\nb\nmodule=a\nstyle=ansi\nport=in x\nport=none y\ndecl=out 1 z\ninst=0 u b\nconn=star\nconn=named p -\nmodule=b\nstyle=nonansi\nport=none p\nend=\n",
];

fn main() {
    let args: Vec<u64> = std::env::args().skip(1).map(|a| a.parse().expect("a number")).collect();
    let mut t = Tally { done: 0, refused: 0, wrong: 0 };
    for (_, bytes, number, place) in gen::boundary_jobs() {
        t.see(&bytes);
        if (2..=7).contains(&number) {
            t.wrong += (ours(&bytes).0 != (number as u64, place as u64)) as u64;
        }
    }
    for small in SMALL {
        gen::one_byte_changes(small, &mut |bytes| t.see(bytes));
    }
    for k in 0..args[1] {
        let mut r = Rng::new(args[0] + k);
        let bytes = gen::job(&mut r);
        t.see(&bytes);
        t.see(&gen::damage(&mut r, &bytes));
        let twice = gen::damage(&mut r, &bytes);
        t.see(&gen::damage(&mut r, &twice));
    }
    for extra in [b"".to_vec(), vec![b'x'; 65537], vec![b'\n'; 65536], [SMALL[0], b"x"].concat()] {
        t.see(&extra);
    }
    println!("jobc: {} jobs, {} of them refused, {} differences", t.done, t.refused, t.wrong);
    std::process::exit((t.wrong > 0) as i32);
}
