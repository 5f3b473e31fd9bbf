//! The Tcl-subset reader against the Rust: the words of texts with variables, values read as lists, arguments of word lists.
//! Usage: tclc SEED COUNT LENGTH: COUNT generated texts and word lists, then all texts of at most LENGTH bytes over the bytes that matter.
//! Prints the numbers of comparisons and of differences; status 1 where there is one.

#[allow(dead_code, unused_imports)]
mod gen;

use gen::Rng;
use upf_rs::upf;

#[link(name = "tclc", kind = "static")]
extern "C" {
    fn tclc_join(body: *const u8, n: usize, area: *mut u8, m: usize) -> usize;
    fn tclc_next(
        files: *const u8, fn_: usize, base: usize, len: usize, at: usize, vars: *const u32, vn: usize, nv: usize, area: *mut u8, an: usize, o: usize,
        limit: usize, words: *mut u32, wn: usize, count: *mut usize, next: *mut usize, end: *mut usize,
    ) -> u32;
    fn tclc_entry(v: *const u8, n: usize, at: usize, first: bool, from: *mut usize, size: *mut usize, next: *mut usize) -> u32;
    fn tclc_byte(raw: *const u8, n: usize, i: usize, quoted: bool, byte: *mut u8, next: *mut usize) -> u32;
    fn tclc_count(v: *const u8, n: usize) -> usize;
    fn tclc_positional(
        files: *const u8, fn_: usize, area: *const u8, an: usize, words: *const u32, wn: usize, n: usize, k: usize, at: *mut usize, len: *mut usize,
    ) -> u32;
    fn tclc_option(
        files: *const u8, fn_: usize, area: *const u8, an: usize, words: *const u32, wn: usize, n: usize, key: *const u8, kn: usize, at: *mut usize,
        len: *mut usize,
    ) -> u32;
    fn tclc_flag(files: *const u8, fn_: usize, area: *const u8, an: usize, words: *const u32, wn: usize, n: usize, key: *const u8, kn: usize) -> bool;
}

type Bytes = Vec<u8>;

/// What is lent: the files, the area with its end, the words.
struct Memory {
    files: Bytes,
    area: Bytes,
    end: usize,
    words: Vec<u32>,
}

impl Memory {
    fn new(files: Bytes) -> Memory {
        Memory { files, area: vec![0; 65536], end: 0, words: vec![0; 256] }
    }

    /// A string stored at the area's end: its span.
    fn store(&mut self, s: &[u8]) -> [u32; 2] {
        let at = self.files.len() + self.end;
        self.area[self.end..self.end + s.len()].copy_from_slice(s);
        self.end += s.len();
        [at as u32, s.len() as u32]
    }

    fn bytes(&self, at: usize, len: usize) -> Bytes {
        let all = |i: usize| if i < self.files.len() { self.files[i] } else { self.area[i - self.files.len()] };
        (at..at + len).map(all).collect()
    }
}

fn joined(text: &[u8]) -> Bytes {
    let mut out = vec![0; text.len()];
    let n = unsafe { tclc_join(text.as_ptr(), text.len(), out.as_mut_ptr(), out.len()) };
    out.truncate(n);
    out
}

/// The commands of a text: its words, and whether it ended at a limit.
fn commands(text: &[u8], vars: &[(Bytes, Bytes)]) -> (Vec<Vec<Bytes>>, bool) {
    let mut m = Memory::new(joined(text));
    let mut spans: Vec<u32> = Vec::new();
    for (name, value) in vars {
        spans.extend(m.store(name));
        spans.extend(m.store(value));
    }
    let limit = m.end + 16384;
    let (mut at, mut all) = (0, Vec::new());
    loop {
        let (mut n, mut next, mut end) = (0, 0, 0);
        let told = unsafe {
            tclc_next(
                m.files.as_ptr(), m.files.len(), 0, m.files.len(), at, spans.as_ptr(), spans.len(), vars.len(), m.area.as_mut_ptr(), m.area.len(), m.end,
                limit, m.words.as_mut_ptr(), m.words.len(), &mut n, &mut next, &mut end,
            )
        };
        match told {
            0 => return (all, false),
            1 => return (all, true),
            _ => {}
        }
        m.end = end;
        at = next;
        all.push((0..n).map(|k| m.bytes(m.words[2 * k] as usize, m.words[2 * k + 1] as usize)).collect());
    }
}

/// The entries of a value, byte by byte.
fn entries(v: &[u8]) -> Vec<Bytes> {
    let (mut at, mut first, mut all) = (0, true, Vec::new());
    loop {
        let (mut from, mut size, mut next) = (0, 0, 0);
        let told = unsafe { tclc_entry(v.as_ptr(), v.len(), at, first, &mut from, &mut size, &mut next) };
        if told == 0 {
            return all;
        }
        all.push(stream(&v[from..from + size], told == 2));
        at = next;
        first = false;
    }
}

fn stream(raw: &[u8], quoted: bool) -> Bytes {
    let (mut i, mut out) = (0, Vec::new());
    loop {
        let (mut b, mut next) = (0, 0);
        if unsafe { tclc_byte(raw.as_ptr(), raw.len(), i, quoted, &mut b, &mut next) } == 0 {
            return out;
        }
        out.push(b);
        i = next;
    }
}

/// A stored word list behind a command's name, and questions to it.
struct Asked {
    m: Memory,
    n: usize,
}

impl Asked {
    fn new(words: &[Bytes]) -> Asked {
        let mut m = Memory::new(b"name".to_vec());
        let mut spans = vec![0, 4];
        for w in words {
            spans.extend(m.store(w));
        }
        m.words = spans;
        Asked { m, n: words.len() + 1 }
    }

    fn positional(&self, k: usize) -> Option<Bytes> {
        let (m, mut at, mut len) = (&self.m, 0, 0);
        let told = unsafe {
            tclc_positional(m.files.as_ptr(), m.files.len(), m.area.as_ptr(), m.area.len(), m.words.as_ptr(), m.words.len(), self.n, k, &mut at, &mut len)
        };
        (told != 0).then(|| m.bytes(at, len))
    }

    fn option(&self, key: &[u8]) -> Option<Bytes> {
        let (m, mut at, mut len) = (&self.m, 0, 0);
        let told = unsafe {
            tclc_option(
                m.files.as_ptr(), m.files.len(), m.area.as_ptr(), m.area.len(), m.words.as_ptr(), m.words.len(), self.n, key.as_ptr(), key.len(), &mut at,
                &mut len,
            )
        };
        (told != 0).then(|| m.bytes(at, len))
    }

    fn flag(&self, key: &[u8]) -> bool {
        let m = &self.m;
        unsafe { tclc_flag(m.files.as_ptr(), m.files.len(), m.area.as_ptr(), m.area.len(), m.words.as_ptr(), m.words.len(), self.n, key.as_ptr(), key.len()) }
    }
}

#[derive(Default)]
struct Tally {
    texts: u64,
    lists: u64,
    words: u64,
    limits: u64,
    wrong: u64,
}

impl Tally {
    fn wrong(&mut self, what: &str, input: String) {
        self.wrong += 1;
        if self.wrong <= 10 {
            println!("{what} differ at {input}");
        }
    }

    fn text(&mut self, text: &[u8], vars: &[(Bytes, Bytes)]) {
        self.texts += 1;
        let s = |b: &[u8]| String::from_utf8(b.to_vec()).unwrap();
        let named: Vec<(String, String)> = vars.iter().map(|v| (s(&v.0), s(&v.1))).collect();
        let due: Vec<Vec<Bytes>> = upf::words_of(&s(text), &named).into_iter().map(|c| c.into_iter().map(String::into_bytes).collect()).collect();
        let (ours, limit) = commands(text, vars);
        let same = if limit { ours.len() < due.len() && ours[..] == due[..ours.len()] && over(&due[..=ours.len()]) } else { ours == due };
        self.limits += limit as u64;
        if !same {
            self.wrong("words", format!("{:?} with {named:?}", s(text)));
        }
    }

    fn list(&mut self, v: &[u8]) {
        self.lists += 1;
        let text = String::from_utf8(v.to_vec()).unwrap();
        let due: Vec<Bytes> = upf::list_of(&text).into_iter().map(String::into_bytes).collect();
        if entries(v) != due || unsafe { tclc_count(v.as_ptr(), v.len()) } != due.len() {
            self.wrong("entries", format!("{text:?}"));
        }
    }

    fn arguments(&mut self, words: &[Bytes]) {
        self.words += 1;
        let s = |b: &[u8]| String::from_utf8(b.to_vec()).unwrap();
        let due = upf::arguments_of(&words.iter().map(|w| s(w)).collect::<Vec<_>>());
        let asked = Asked::new(words);
        let mut same = due.positional.iter().enumerate().all(|(k, w)| asked.positional(k).as_deref() == Some(w.as_bytes()));
        same &= asked.positional(due.positional.len()).is_none();
        for w in words {
            let key = s(w);
            let name = key.strip_prefix('-');
            let value = name.and_then(|n| due.options.iter().find(|o| o.0 == n)).map(|o| o.1.clone().into_bytes());
            same &= asked.option(w) == value;
            same &= asked.flag(w) == name.is_some_and(|n| due.flags.iter().any(|f| f == n));
        }
        if !same {
            self.wrong("arguments", format!("{words:?}"));
        }
    }
}

/// A limit may be passed: the last command has more than 128 words, or all words together more than 16,384 bytes.
fn over(commands: &[Vec<Bytes>]) -> bool {
    commands.last().is_some_and(|c| c.len() > 128) || commands.iter().flatten().map(Vec::len).sum::<usize>() > 16384
}

fn main() {
    let args: Vec<u64> = std::env::args().skip(1).map(|a| a.parse().expect("a number")).collect();
    let mut t = Tally::default();
    for k in 0..args[1] {
        let mut r = Rng::new(args[0] + k);
        let (text, vars, words) = (gen::text(&mut r), gen::vars(&mut r), gen::word_list(&mut r));
        t.text(&text, &vars);
        t.list(&text);
        t.arguments(&words[..words.len().min(127)]);
    }
    let wide = vec![b'x'; 200].iter().flat_map(|b| [*b, b' ']).collect::<Vec<u8>>();
    t.text(&wide, &[]);
    t.text(&[b"a $V\n".repeat(60)].concat(), &[(b"V".to_vec(), vec![b'v'; 300])]);
    let mut all = |s: &[u8]| {
        t.text(s, &[(b"a".to_vec(), b"\\".to_vec())]);
        t.list(s);
    };
    gen::all_texts(b" \n\r\\;#{}\"[]$-a0", args[2] as usize, &mut all);
    println!("tclc: {} texts, {} values, {} word lists, {} ended at a limit, {} differences", t.texts, t.lists, t.words, t.limits, t.wrong);
    std::process::exit((t.wrong > 0) as i32);
}
