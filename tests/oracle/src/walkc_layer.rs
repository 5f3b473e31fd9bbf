//! The walk against the Rust's `corruptible`: the paths that elements of generated module trees lose, with retained entries, at the top and below a scope, and where
//! a limit is passed; and how long both take. Usage: walkc SEED COUNT. Prints the numbers of comparisons and of differences; status 1 where there is one.

#[allow(dead_code)]
mod convert;
#[allow(dead_code)]
mod design;
#[allow(dead_code, unused_imports)]
mod gen;
#[allow(dead_code)]
mod job;

use gen::Rng;
use std::collections::HashSet;
use std::time::Instant;
use upf_rs::upf::Asked;

#[link(name = "walkc", kind = "static")]
extern "C" {
    fn walkc_index(job: *const u8, n: usize, index: *mut u32, m: usize) -> usize;
    fn walkc_table(
        job: *const u8,
        n: usize,
        index: *const u32,
        m: usize,
        count: usize,
        inputs: *mut u32,
        i: usize,
        table: *mut u32,
        t: usize,
    );
    fn walkc_put(
        table: *mut u32,
        n: usize,
        k: usize,
        sat: usize,
        slen: usize,
        sep: bool,
        wat: usize,
        wlen: usize,
        form: u8,
    );
    fn walkc_paths(
        job: *const u8,
        jn: usize,
        index: *const u32,
        im: usize,
        count: usize,
        k: usize,
        modules: *const u32,
        ml: usize,
        files: *const u8,
        fl: usize,
        area: *const u8,
        al: usize,
        retained: *const u32,
        rl: usize,
        n: usize,
        below: bool,
        elements: *const u32,
        el: usize,
        m: usize,
        prefix: usize,
        tail: *mut u8,
        tl: usize,
        text: *mut u8,
        xl: usize,
        ends: *mut u32,
        nl: usize,
        entered: *mut usize,
        paths: *mut usize,
        end: *mut usize,
        used: *mut usize,
    ) -> bool;
}

/// Strings stored in the files and the area, in every form that a name has.
struct Store {
    files: Vec<u8>,
    area: Vec<u8>,
}

impl Store {
    fn put(&mut self, r: &mut Rng, text: &[u8]) -> (usize, usize) {
        let at = match r.below(2) {
            0 if self.area.is_empty() => {
                self.files.extend_from_slice(text);
                self.files.len() - text.len()
            }
            _ => {
                self.area.extend_from_slice(text);
                self.files.len() + self.area.len() - text.len()
            }
        };
        (at, text.len())
    }

    /// The five numbers' contents: scope, slash, word, form.
    fn name(&mut self, r: &mut Rng, text: &str) -> ((usize, usize), bool, (usize, usize), u8) {
        let cut = match text.rfind('/') {
            Some(c) if r.chance(1, 3) => Some(c),
            _ => None,
        };
        let (scope, word) = match cut {
            Some(c) => (self.put(r, text[..c].as_bytes()), &text[c + 1..]),
            None => ((0, 0), text),
        };
        let form = r.below(3) as u8;
        let mut raw = Vec::new();
        for &b in word.as_bytes() {
            if form == 2 && r.chance(1, 4) {
                raw.push(b'\\');
            }
            raw.push(b);
        }
        (scope, cut.is_some(), self.put(r, &raw), form)
    }
}

/// What the walk came to: past a limit, or the modules entered and the paths.
#[derive(PartialEq, Debug)]
enum Came {
    Over,
    To(usize, Vec<String>),
}

struct Question<'a> {
    job: &'a [u8],
    index: &'a [u32],
    modules: &'a [u32],
    count: usize,
    base: usize,
    scope: &'a [String],
    elements: &'a [String],
    retained: &'a [String],
}

/// The table of a job's modules.
fn modules(bytes: &[u8], index: &[u32], count: usize) -> Vec<u32> {
    let mut t = vec![0xAAAA_AAAAu32; 73984];
    let mut inputs = [0xAAAA_AAAAu32; 384];
    unsafe {
        walkc_table(
            bytes.as_ptr(),
            bytes.len(),
            index.as_ptr(),
            index.len(),
            count,
            inputs.as_mut_ptr(),
            inputs.len(),
            t.as_mut_ptr(),
            t.len(),
        )
    };
    t
}

fn table(names: &[((usize, usize), bool, (usize, usize), u8)]) -> Vec<u32> {
    let mut t = vec![0; 5 * names.len()];
    let n = t.len();
    for (k, (s, sep, w, form)) in names.iter().enumerate() {
        unsafe { walkc_put(t.as_mut_ptr(), n, k, s.0, s.1, *sep, w.0, w.1, *form) };
    }
    t
}

impl Question<'_> {
    /// Ours, the paths with the scope in front; and the time taken.
    fn ours(&self, r: &mut Rng) -> (Came, u128) {
        let mut st = Store { files: Vec::new(), area: Vec::new() };
        let es: Vec<_> = self.elements.iter().map(|e| st.name(r, e)).collect();
        let rs: Vec<_> = self.retained.iter().map(|e| st.name(r, e)).collect();
        let (es, rs) = (table(&es), table(&rs));
        let front = self.scope.join(".");
        let prefix = if self.scope.is_empty() { 0 } else { front.len() + 1 };
        let mut tail = vec![0xAAu8; 2081];
        let mut text = vec![0xAAu8; 32768];
        let mut ends = vec![0xAAAA_AAAAu32; 1024 + 16384];
        let (mut entered, mut n, mut end, mut used) = (0, 0, 0, 0);
        let then = Instant::now();
        let over = unsafe {
            walkc_paths(
                self.job.as_ptr(),
                self.job.len(),
                self.index.as_ptr(),
                self.index.len(),
                self.count,
                self.base,
                self.modules.as_ptr(),
                self.modules.len(),
                st.files.as_ptr(),
                st.files.len(),
                st.area.as_ptr(),
                st.area.len(),
                rs.as_ptr(),
                rs.len(),
                self.retained.len(),
                !self.scope.is_empty(),
                es.as_ptr(),
                es.len(),
                self.elements.len(),
                prefix,
                tail.as_mut_ptr(),
                tail.len(),
                text.as_mut_ptr(),
                text.len(),
                ends.as_mut_ptr(),
                ends.len(),
                &mut entered,
                &mut n,
                &mut end,
                &mut used,
            )
        };
        let took = then.elapsed().as_nanos();
        if over {
            return (Came::Over, took);
        }
        let mut at = 0;
        let mut out = Vec::new();
        for k in 0..n {
            let p = String::from_utf8(text[at..ends[k] as usize].to_vec()).unwrap();
            out.push(if self.scope.is_empty() { p } else { format!("{front}.{p}") });
            at = ends[k] as usize;
        }
        assert!(
            at == end
                && used == end + n * prefix
                && text[at..].iter().all(|&b| b == 0xAA)
                && ends[n..1024].iter().all(|&e| e == 0xAAAA_AAAA)
        );
        (Came::To(entered, out), took)
    }

    /// By the separate walk for the limits and by the reference for the paths; and the time of the latter.
    fn due(&self, j: &job::Job, asked: &Asked) -> (Came, u128) {
        let d = design::Design::new(j);
        let dotted = |e: &String| {
            self.scope.iter().cloned().chain([e.replace('/', ".")]).collect::<Vec<_>>().join(".")
        };
        let skip: HashSet<String> = self.retained.iter().map(dotted).collect();
        let mut w = design::Walk::new(&d, &skip);
        for e in self.elements {
            let parts: Vec<&str> = e.split('/').filter(|p| !p.is_empty()).collect();
            let path = if e.is_empty() { self.scope.join(".") } else { dotted(e) };
            if let Some(m) = d.module_at(&j.modules[self.base], &parts) {
                if w.enter(m, &path, 0).is_err() {
                    return (Came::Over, 0);
                }
            }
        }
        let then = Instant::now();
        let paths = asked.walk(self.base, self.scope, self.elements, self.retained);
        let took = then.elapsed().as_nanos();
        (Came::To(w.entered, paths), took)
    }
}

/// The paths of instances below a module, as elements, breadth first.
fn ways(j: &job::Job, from: usize, most: usize) -> Vec<String> {
    let mut out = vec![(String::new(), from)];
    let mut k = 0;
    while k < out.len() && out.len() < most {
        let (p, m) = out[k].clone();
        for i in &j.modules[m].insts {
            if let Some(s) = j.modules.iter().position(|x| x.name == i.module) {
                out.push((if p.is_empty() { i.name.clone() } else { format!("{p}/{}", i.name) }, s));
            }
        }
        k += 1;
    }
    out.into_iter().map(|x| x.0).collect()
}

/// One of them, as it is or with something changed.
fn some(r: &mut Rng, ways: &[String]) -> String {
    let e = r.pick(ways).clone();
    match r.below(14) {
        0 => format!("{e}/"),
        1 => format!("/{e}"),
        2 => e.replacen('/', "//", 1),
        3 => format!("{e}/absent"),
        4 => e.replace('/', "."),
        5 => String::new(),
        6 => "/".into(),
        7 => format!("{e}x"),
        8 => e[..e.len() - e.len().min(1)].to_string(),
        _ => e,
    }
}

#[derive(Default)]
struct Tally {
    trees: u64,
    walks: u64,
    over: u64,
    paths: u64,
    wrong: u64,
}

fn see(t: &mut Tally, r: &mut Rng, bytes: &[u8], rounds: usize) {
    let Ok(j) = job::parse(bytes) else { return };
    let mut index = vec![0u32; 1280];
    let told = unsafe { walkc_index(bytes.as_ptr(), bytes.len(), index.as_mut_ptr(), index.len()) };
    t.trees += 1;
    let top = j.modules.iter().position(|m| m.name == j.top).unwrap();
    if told != j.modules.len() {
        t.wrong += 1;
        return;
    }
    let modules = modules(bytes, &index, j.modules.len());
    let tree = convert::tree(&j);
    let asked = Asked::new(&tree);
    for round in 0..rounds {
        let mut scope: Vec<String> = Vec::new();
        let mut base = top;
        while round > 0 && r.chance(1, 3) {
            let m = &j.modules[base];
            if m.insts.is_empty() {
                break;
            }
            let i = r.pick(&m.insts);
            let Some(s) = j.modules.iter().position(|x| x.name == i.module) else { break };
            scope.push(i.name.clone());
            base = s;
        }
        let ways = ways(&j, base, 40);
        // First the top alone with nothing retained: all of the tree.
        let (m, n) = if round == 0 { (0, 0) } else { (r.below(6), r.below(5)) };
        let mut elements: Vec<String> = (0..m).map(|_| some(r, &ways)).collect();
        let retained: Vec<String> = (0..n).map(|_| some(r, &ways)).collect();
        if round == 0 {
            elements.push(String::new());
        }
        let q = Question {
            job: bytes,
            index: &index,
            modules: &modules,
            count: j.modules.len(),
            base,
            scope: &scope,
            elements: &elements,
            retained: &retained,
        };
        let (ours, due) = (q.ours(r).0, q.due(&j, &asked).0);
        t.walks += 1;
        match &due {
            Came::Over => t.over += 1,
            Came::To(_, p) => t.paths += p.len() as u64,
        }
        if ours != due {
            t.wrong += 1;
            if t.wrong <= 5 {
                println!(
                    "{ours:?}\nand not\n{due:?}\nat {scope:?} {elements:?} but {retained:?} of\n{}",
                    String::from_utf8_lossy(bytes)
                );
            }
        }
    }
}

fn module(name: &str, decls: usize, insts: &[(String, String)]) -> String {
    let mut t = format!("module={name}\nstyle=empty\n");
    for k in 0..decls {
        t += &format!("decl=net 0 w{k}\n");
    }
    for (n, m) in insts {
        t += &format!("inst=0 {n} {m}\n");
    }
    t
}

fn job_of(mods: &str) -> Vec<u8> {
    format!("top=top\noverride=\nstart=p\nfile=p\nbytes=0\n\n{mods}end=\n").into_bytes()
}

/// Trees at the limits: 1,024 paths and one more, 4,096 modules and one more, 32,768 bytes and one more, chains of 31 to 34 instances.
fn limits() -> Vec<Vec<u8>> {
    let u = |n: usize, m: &str| (0..n).map(|k| (format!("u{k}"), m.to_string())).collect::<Vec<_>>();
    let mut out = Vec::new();
    for extra in 0..2 {
        out.push(job_of(&(module("top", extra, &u(8, "a")) + &module("a", 128, &[]))));

        let top = [u(63, "a"), vec![("v".into(), "b".into())]].concat();
        let below = module("a", 0, &u(63, "leaf")) + &module("b", 0, &u(62 + extra, "leaf"));
        out.push(job_of(&(module("top", 0, &top) + &below + &module("leaf", 0, &[]))));

        // 2 * 128 paths of 64 + 1 + 63 bytes
        let two: Vec<_> = (0..2).map(|k| (format!("{}{k}", "x".repeat(63)), "a".to_string())).collect();
        let names: String = (0..128).map(|k| format!("decl=net 0 {}{k:03}\n", "y".repeat(60))).collect();
        out.push(job_of(&(module("top", extra, &two) + &module("a", 0, &[]) + &names)));
    }
    for n in 31..35 {
        let mut t = module("top", 1, &[("u".into(), "c1".into())]);
        for k in 1..=n {
            t += &module(
                &format!("c{k}"),
                1,
                &if k < n { vec![("u".into(), format!("c{}", k + 1))] } else { vec![] },
            );
        }
        out.push(job_of(&t));
    }
    out
}

/// How long both take where 1,000 paths are listed: in a wide tree and in a deep one.
fn speed() {
    let u = |n: usize, m: &str| (0..n).map(|k| (format!("unit{k}"), m.to_string())).collect::<Vec<_>>();
    let wide = job_of(&(module("top", 0, &u(40, "a")) + &module("a", 25, &[])));
    let mut deep = module("top", 31, &[("u".into(), "c1".into())]);
    for k in 1..32 {
        deep += &module(
            &format!("c{k}"),
            if k < 31 { 31 } else { 8 },
            &if k < 31 { vec![("u".into(), format!("c{}", k + 1))] } else { vec![] },
        );
    }
    for (name, bytes) in [("wide", wide), ("deep", job_of(&deep))] {
        let j = job::parse(&bytes).unwrap();
        let mut index = vec![0u32; 1280];
        unsafe { walkc_index(bytes.as_ptr(), bytes.len(), index.as_mut_ptr(), index.len()) };
        let (mut made, mut modules) = (u128::MAX, Vec::new());
        for _ in 0..20 {
            let then = Instant::now();
            modules = self::modules(&bytes, &index, j.modules.len());
            made = made.min(then.elapsed().as_nanos());
        }
        let tree = convert::tree(&j);
        let asked = Asked::new(&tree);
        let q = Question {
            job: &bytes,
            index: &index,
            modules: &modules,
            count: j.modules.len(),
            base: 0,
            scope: &[],
            elements: &[String::new()],
            retained: &["u/x".into(), "unit1/y".into()],
        };
        let mut r = Rng::new(1);
        let (mut a, mut b, mut n) = (u128::MAX, u128::MAX, 0);
        for _ in 0..20 {
            let (came, x) = q.ours(&mut r);
            if let Came::To(_, p) = came {
                n = p.len();
            }
            a = a.min(x);
            b = b.min(q.due(&j, &asked).1);
        }
        println!(
            "walkc: {name}, {n} paths: {} us, the reference {} us, ratio {:.2}; the table of the job {} us",
            a / 1000,
            b / 1000,
            a as f64 / b as f64,
            made / 1000
        );
    }
}

fn main() {
    let args: Vec<u64> = std::env::args().skip(1).map(|a| a.parse().expect("a number")).collect();
    let mut t = Tally::default();
    let mut r = Rng::new(args[0]);
    for bytes in limits() {
        see(&mut t, &mut r, &bytes, 20);
    }
    for (_, bytes, _, _) in gen::boundary_jobs() {
        see(&mut t, &mut r, &bytes, 3);
    }
    for k in 0..args[1] {
        let mut r = Rng::new(args[0] + k);
        let bytes = gen::job(&mut r);
        see(&mut t, &mut r, &bytes, 3);
    }
    println!(
        "walkc: {} trees, {} walks, {} of them past a limit, {} paths, {} differences",
        t.trees, t.walks, t.over, t.paths, t.wrong
    );
    speed();
    std::process::exit((t.wrong > 0) as i32);
}
