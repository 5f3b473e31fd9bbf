//! The leaves for text against the Rust: comparing, decimal reading, `mangle`, `sv_str`, `/` as `.`, decimal writing, a template.
//! Usage: leaves SEED COUNT. Prints the number of comparisons and of differences; status 1 where there is one.

#[allow(dead_code, unused_imports)]
mod gen;

use gen::Rng;
use upf_rs::upf;

#[link(name = "leaves", kind = "static")]
extern "C" {
    fn leaves_same(a: *const u8, n: usize, b: *const u8, m: usize) -> bool;
    fn leaves_starts_with(s: *const u8, n: usize, p: *const u8, m: usize) -> bool;
    fn leaves_less(a: *const u8, n: usize, b: *const u8, m: usize) -> bool;
    fn leaves_number(s: *const u8, n: usize, most: u32) -> usize;
    fn leaves_mangle(out: *mut u8, n: usize, p: *const u8, m: usize) -> usize;
    fn leaves_dotted(out: *mut u8, n: usize, p: *const u8, m: usize) -> usize;
    fn leaves_sv_str(out: *mut u8, n: usize, p: *const u8, m: usize) -> usize;
    fn leaves_decimal(out: *mut u8, n: usize, x: u64) -> usize;
    fn leaves_fill(out: *mut u8, n: usize, x: *const u8, xn: usize, y: *const u8, yn: usize, z: *const u8, zn: usize) -> usize;
}

struct Tally {
    done: u64,
    wrong: u64,
}

impl Tally {
    fn see(&mut self, what: &str, same: bool, input: &[&[u8]]) {
        self.done += 1;
        if !same {
            self.wrong += 1;
            let shown: Vec<_> = input.iter().map(|s| String::from_utf8_lossy(s)).collect();
            println!("{what} differs at {shown:?}");
        }
    }
}

/// A writer called with a buffer of `room` bytes full of 0xAA: what it wrote, and whether everything behind is as it was.
fn written(room: usize, call: impl Fn(*mut u8, usize) -> usize, due: &[u8]) -> bool {
    let mut buf = vec![0xAA; room];
    let at = call(buf.as_mut_ptr(), room);
    if due.len() <= room {
        at == due.len() && buf[..at] == *due && buf[at..].iter().all(|&b| b == 0xAA)
    } else {
        at == room + 1 && buf[..] == due[..room]
    }
}

/// Bytes below 128, mostly those that matter.
fn piece(r: &mut Rng) -> Vec<u8> {
    let some = b"aZ09_$/\\\".-{} \n;#[]=0123456789";
    (0..r.below(24)).map(|_| if r.below(4) == 0 { r.below(128) as u8 } else { some[r.below(some.len())] }).collect()
}

/// The number of a decimal text without leading zeros, by the Rust's own reader.
fn number(s: &[u8], most: u32) -> usize {
    let text = std::str::from_utf8(s).unwrap();
    let plain = !s.is_empty() && s.iter().all(u8::is_ascii_digit) && (s.len() == 1 || s[0] != b'0');
    match text.parse::<u32>() {
        Ok(n) if plain && n <= most => n as usize,
        _ => 1 << 32,
    }
}

fn writers(t: &mut Tally, p: &[u8], room: usize) {
    let text = std::str::from_utf8(p).unwrap();
    let due = upf::mangled(text);
    t.see("mangle", written(room, |o, n| unsafe { leaves_mangle(o, n, p.as_ptr(), p.len()) }, due.as_bytes()), &[p]);
    let due = upf::escaped(text);
    t.see("sv_str", written(room, |o, n| unsafe { leaves_sv_str(o, n, p.as_ptr(), p.len()) }, due.as_bytes()), &[p]);
    let due = text.replace('/', ".");
    t.see("dotted", written(room, |o, n| unsafe { leaves_dotted(o, n, p.as_ptr(), p.len()) }, due.as_bytes()), &[p]);
}

fn template(t: &mut Tally, x: &[u8], y: &[u8], z: &[u8], room: usize) {
    let s = |b: &[u8]| String::from_utf8(b.to_vec()).unwrap();
    let due = format!("wire {} = {} & '{{{}}}' \"{}\" {};\n", upf::mangled(&s(x)), s(y), s(z), upf::escaped(&s(y)), s(z).replace('/', "."));
    let call = |o: *mut u8, n: usize| unsafe { leaves_fill(o, n, x.as_ptr(), x.len(), y.as_ptr(), y.len(), z.as_ptr(), z.len()) };
    t.see("fill", written(room, call, due.as_bytes()), &[x, y, z]);
}

fn comparing(t: &mut Tally, a: &[u8], b: &[u8]) {
    unsafe {
        t.see("same", leaves_same(a.as_ptr(), a.len(), b.as_ptr(), b.len()) == (a == b), &[a, b]);
        t.see("less", leaves_less(a.as_ptr(), a.len(), b.as_ptr(), b.len()) == (a < b), &[a, b]);
        t.see("starts_with", leaves_starts_with(a.as_ptr(), a.len(), b.as_ptr(), b.len()) == a.starts_with(b), &[a, b]);
    }
}

fn main() {
    let args: Vec<u64> = std::env::args().skip(1).map(|a| a.parse().expect("a number")).collect();
    let mut r = Rng::new(args[0]);
    let mut t = Tally { done: 0, wrong: 0 };
    for _ in 0..args[1] {
        let (a, b, c) = (piece(&mut r), piece(&mut r), piece(&mut r));
        let front = &a[..r.below(a.len() + 1)];
        comparing(&mut t, &a, &b);
        comparing(&mut t, &a, front);
        comparing(&mut t, front, &a);
        comparing(&mut t, &a, &a.clone());
        let room = r.below(40);
        writers(&mut t, &a, room);
        template(&mut t, &a, &b, &c, if r.below(2) == 0 { 200 } else { r.below(120) });
        let kinds = if r.below(4) == 0 { 11 } else { 10 };
        let digits: Vec<u8> = (0..r.below(12)).map(|_| b"0123456789x"[r.below(kinds)]).collect();
        let most = r.bits() as u32 >> r.below(32);
        t.see("number", unsafe { leaves_number(digits.as_ptr(), digits.len(), most) } == number(&digits, most), &[&digits]);
        let n = r.bits() >> r.below(64);
        t.see("decimal", written(room, |o, k| unsafe { leaves_decimal(o, k, n) }, n.to_string().as_bytes()), &[n.to_string().as_bytes()]);
    }
    println!("leaves: {} comparisons, {} differences", t.done, t.wrong);
    std::process::exit((t.wrong > 0) as i32);
}
