//! The power reader for a program in Rust. Take this file as a module and link `target/staticlib/libupf.a` (`tools/build upf`).
//! `include/upf.h` has the numbers, the limits and the rules; what C must take care of, the borrows here see to.

use std::fmt;

/// Number and place of the answer (0 and 0: accepted), and the lengths of the four texts.
#[derive(Clone, Copy, Debug, Default, PartialEq, Eq)]
pub struct Answer {
    pub number: usize,
    pub place: usize,
    pub glue: usize,
    pub package: usize,
    pub report: usize,
    pub log: usize,
}

#[link(name = "upf", kind = "static")]
extern "C" {
    fn upf_run(
        job: *const u8,
        job_len: usize,
        files: *mut u8,
        files_len: usize,
        area: *mut u8,
        area_len: usize,
        nums: *mut u32,
        nums_len: usize,
        glue: *mut u8,
        glue_len: usize,
        package: *mut u8,
        package_len: usize,
        report: *mut u8,
        report_len: usize,
        log: *mut u8,
        log_len: usize,
        place: *mut usize,
        glue_used: *mut usize,
        package_used: *mut usize,
        report_used: *mut usize,
        log_used: *mut usize,
    ) -> usize;
}

/// The least sizes of the work areas: bytes, bytes, numbers.
pub const FILES: usize = 65_536;
pub const AREA: usize = 65_536;
pub const NUMS: usize = 16_384;

/// The stack that a call may take. A main thread has 8 MB; the 2 MB that a thread of `std` has by default are not enough: see `std::thread::Builder::stack_size`.
pub const STACK: usize = 4 << 20;

/// What one call lends: three work areas, and the buffers for the four texts. Any sizes are allowed, and any content.
pub struct Lent<'a> {
    pub files: &'a mut [u8],
    pub area: &'a mut [u8],
    pub nums: &'a mut [u32],
    pub glue: &'a mut [u8],
    pub package: &'a mut [u8],
    pub report: &'a mut [u8],
    pub log: &'a mut [u8],
}

/// Answers a job. Afterwards the work areas are zero, and each buffer has its text and zeros behind it.
pub fn run(job: &[u8], lent: Lent) -> Answer {
    let mut answer = Answer::default();
    // SAFETY: eight slices that are alive during the call; those that are written are borrowed for this call alone.
    answer.number = unsafe {
        upf_run(
            job.as_ptr(),
            job.len(),
            lent.files.as_mut_ptr(),
            lent.files.len(),
            lent.area.as_mut_ptr(),
            lent.area.len(),
            lent.nums.as_mut_ptr(),
            lent.nums.len(),
            lent.glue.as_mut_ptr(),
            lent.glue.len(),
            lent.package.as_mut_ptr(),
            lent.package.len(),
            lent.report.as_mut_ptr(),
            lent.report.len(),
            lent.log.as_mut_ptr(),
            lent.log.len(),
            &mut answer.place,
            &mut answer.glue,
            &mut answer.package,
            &mut answer.report,
            &mut answer.log,
        )
    };
    answer
}

/// Why a job has no texts: the number, and the place (a job line for 4 to 6, a command for 8 to 10, else 0).
#[derive(Clone, Copy, Debug, PartialEq, Eq)]
pub struct Refusal {
    pub number: usize,
    pub place: usize,
}

/// The four texts of an accepted job. All are ASCII.
#[derive(Clone, Copy, Debug, PartialEq, Eq)]
pub struct Texts<'a> {
    pub glue: &'a [u8],
    pub package: &'a [u8],
    pub report: &'a [u8],
    pub log: &'a [u8],
}

/// Memory for any number of jobs, one after the other. The buffers grow where a text asks for it, up to `most` bytes each.
pub struct Reader {
    files: Vec<u8>,
    area: Vec<u8>,
    nums: Vec<u32>,
    texts: [Vec<u8>; 4],
    most: usize,
}

impl Reader {
    /// Buffers of 65,536 bytes, and of `most` where that is not enough.
    pub fn new(most: usize) -> Reader {
        let room = most.min(65_536);
        Reader {
            files: vec![0; FILES],
            area: vec![0; AREA],
            nums: vec![0; NUMS],
            texts: std::array::from_fn(|_| vec![0; room]),
            most,
        }
    }

    fn call(&mut self, job: &[u8]) -> Answer {
        let [glue, package, report, log] = &mut self.texts;
        let Reader { files, area, nums, .. } = self;
        run(job, Lent { files, area, nums, glue, package, report, log })
    }

    /// The texts of a job, or its refusal.
    pub fn read(&mut self, job: &[u8]) -> Result<Texts<'_>, Refusal> {
        let mut a = self.call(job);
        while a.number == 14 && self.texts[0].len() < self.most {
            let room = self.most.min(4 * self.texts[0].len().max(1));
            self.texts.iter_mut().for_each(|t| t.resize(room, 0));
            a = self.call(job);
        }
        if a.number != 0 {
            return Err(Refusal { number: a.number, place: a.place });
        }
        let [glue, package, report, log] = &self.texts;
        Ok(Texts {
            glue: &glue[..a.glue],
            package: &package[..a.package],
            report: &report[..a.report],
            log: &log[..a.log],
        })
    }
}

/// An answer in words, a row of docs/REFUSALS.md: what its place is (`line`, `command`, or `0` for none), what it says, a typical cause, what to do.
pub struct Words {
    pub place: &'static str,
    pub says: &'static str,
    pub cause: &'static str,
    pub todo: &'static str,
}

const fn row(place: &'static str, says: &'static str, cause: &'static str, todo: &'static str) -> Words {
    Words { place, says, cause, todo }
}

/// The answers in words, by number.
#[rustfmt::skip]
pub const WORDS: [Words; 15] = [
    row(
        "0",
        "the job is accepted",
        "",
        "read the texts",
    ),
    row(
        "0",
        "a work area is too short",
        "the caller lent less than 65,536 bytes twice and 16,384 numbers",
        "lend the sizes of `include/upf.h`",
    ),
    row(
        "0",
        "the job is longer than 65,536 bytes",
        "too many modules in one job",
        "leave out modules that no domain reaches, shorten bodies",
    ),
    row(
        "0",
        "a byte of 128 or more",
        "a comment with an accent, a UTF-8 byte order mark",
        "save the files as ASCII",
    ),
    row(
        "line",
        "the line is not well formed, or not due here",
        "a missing LF behind a body, `bytes=` that does not fit, a NAME with other bytes or more than 64, a line out of order",
        "build the job with `tools/makejob`, look at the line",
    ),
    row(
        "line",
        "the line is one past a limit",
        "the 33rd file, the 129th module, the 65th port, instance or connection, the 129th declaration",
        "split the module, or leave out lines that carry no signal of a domain",
    ),
    row(
        "line",
        "a path, a module, or an instance of this module is named a second time",
        "a file listed twice; two modules of one name",
        "drop or rename one of the two",
    ),
    row(
        "0",
        "`start` or `top` is not listed",
        "a path written in two ways",
        "name the file as its `file=` line does",
    ),
    row(
        "command",
        "`load_upf` would go deeper than 16 files",
        "a file that loads itself",
        "break the ring",
    ),
    row(
        "command",
        "`load_upf` names a file that the job does not list",
        "a path that is meant below another directory; `a/../b` is not resolved",
        "list the file under the path that results",
    ),
    row(
        "command",
        "the command is past a reading limit",
        "the 1,025th command, a list of 65 entries, the 33rd domain",
        "split the intent",
    ),
    row(
        "0",
        "no instance of the design top's type is found",
        "`set_design_top` names another module",
        "give an override, or mend the name",
    ),
    row(
        "0",
        "the scope path does not exist",
        "an override with a wrong instance name; a module that is not listed",
        "list the module, mend the path",
    ),
    row(
        "0",
        "past a generation limit",
        "a domain of more than 1,024 signals or 32,768 bytes of paths, 4,096 modules entered, 256 isolated ports, 512 warnings; a type search of more than 4,096 calls",
        "split the domain, name the scope by an override",
    ),
    row(
        "0",
        "a text does not fit its buffer",
        "buffers that are too short",
        "lend longer buffers",
    ),
];

impl fmt::Display for Refusal {
    fn fmt(&self, f: &mut fmt::Formatter) -> fmt::Result {
        write!(f, "refused {}", self.number)?;
        let Some(w) = WORDS.get(self.number) else {
            return Ok(());
        };
        match w.place {
            "line" => write!(f, ", line {}", self.place)?,
            "command" => {
                write!(f, ", command {} (counted through all files as they are carried out)", self.place)?
            }
            _ => {}
        }
        write!(f, ": {}\n  typical cause: {}\n  what to do: {}", w.says, w.cause, w.todo)
    }
}

impl std::error::Error for Refusal {}
