//! Damaged copies of a job or text.

use super::Rng;

/// A copy with one to four faults, in half of the cases inside one file's body with its length kept
/// right, so that the fault is met by the reader and not by the job's lines.
pub fn damage(r: &mut Rng, job: &[u8]) -> Vec<u8> {
    let found = bodies(job);
    if found.is_empty() || r.chance(1, 2) {
        return faults(r, job);
    }
    let (line, from, to) = *r.pick(&found);
    let body: Vec<u8> = faults(r, &job[from..to]).into_iter().map(|b| b & 127).collect();
    let mut out = job[..line].to_vec();
    out.extend_from_slice(format!("bytes={}\n", body.len()).as_bytes());
    out.extend(body);
    out.extend_from_slice(&job[to..]);
    out
}

/// Where each `bytes=` line begins, and where its body begins and ends.
fn bodies(job: &[u8]) -> Vec<(usize, usize, usize)> {
    let mut out = Vec::new();
    let mut at = 0;
    while at < job.len() {
        let len = job[at..].iter().position(|&b| b == b'\n').unwrap_or(job.len() - at);
        let line = String::from_utf8_lossy(&job[at..at + len]).to_string();
        let from = at + len + 1;
        let next = match (line.starts_with("bytes="), line.trim_start_matches("bytes=").parse::<usize>()) {
            (true, Ok(n)) if n < job.len() && from + n < job.len() => {
                out.push((at, from, from + n));
                from + n + 1
            }
            _ => from,
        };
        at = next;
    }
    out
}

fn faults(r: &mut Rng, job: &[u8]) -> Vec<u8> {
    let mut out = job.to_vec();
    let times = if r.chance(2, 3) { 1 } else { r.range(2, 4) };
    for _ in 0..times {
        if out.is_empty() {
            return out;
        }
        out = if r.chance(1, 2) { of_bytes(r, out) } else { of_lines(r, &out) };
    }
    out
}

fn of_bytes(r: &mut Rng, mut out: Vec<u8>) -> Vec<u8> {
    let at = r.below(out.len());
    match r.below(8) {
        0 => out[at] ^= 1 << r.below(8),
        1 => {
            out.remove(at);
        }
        2 => out.insert(at, out[at]),
        3 => out.truncate(at),
        4 => out[at] = r.range(128, 255) as u8,
        5 => out[at] = *r.pick(b"\n =/.{}\"\\;$#-0-\x00\r"),
        6 => out.insert(at, *r.pick(b"\n =/.{}\"\\;$#-0-\x00\r")),
        _ => {
            let to = (at + r.range(1, 20)).min(out.len());
            out.drain(at..to);
        }
    }
    out
}

fn of_lines(r: &mut Rng, job: &[u8]) -> Vec<u8> {
    let mut lines: Vec<Vec<u8>> = job.split(|&b| b == b'\n').map(|l| l.to_vec()).collect();
    let (i, j) = (r.below(lines.len()), r.below(lines.len()));
    match r.below(6) {
        0 => lines.swap(i, j),
        1 => {
            let again = lines[i].clone();
            lines.insert(j, again);
        }
        2 => {
            lines.remove(i);
        }
        3 => lines[i] = lines[j].clone(),
        4 => lines.insert(i, Vec::new()),
        _ => lines[i] = other_number(r, &lines[i]),
    }
    lines.join(&b'\n')
}

/// The line with its first run of digits changed; a line without digits gets one.
fn other_number(r: &mut Rng, line: &[u8]) -> Vec<u8> {
    let start = match line.iter().position(|b| b.is_ascii_digit()) {
        Some(i) => i,
        None => line.len(),
    };
    let end = start + line[start..].iter().take_while(|b| b.is_ascii_digit()).count();
    let old: u64 = line[start..end].iter().take(9).fold(0, |n, &b| n * 10 + (b - b'0') as u64);
    let new = match r.below(6) {
        0 => (old + 1).to_string(),
        1 => old.saturating_sub(1).to_string(),
        2 => format!("0{}", old),
        3 => "99999999999999999999".to_string(),
        4 => r.below(300).to_string(),
        _ => String::new(),
    };
    let mut out = line[..start].to_vec();
    out.extend_from_slice(new.as_bytes());
    out.extend_from_slice(&line[end..]);
    out
}

/// Calls `f` with every copy in which one byte is another (0 to 128 and 255), left out or doubled.
pub fn one_byte_changes(job: &[u8], f: &mut dyn FnMut(&[u8])) {
    let mut copy = job.to_vec();
    for i in 0..job.len() {
        for b in (0..129).chain(255..256) {
            if b as u8 != job[i] {
                copy[i] = b as u8;
                f(&copy);
            }
        }
        copy[i] = job[i];
    }
    for i in 0..job.len() {
        let b = copy.remove(i);
        f(&copy);
        copy.insert(i, b);
        copy.insert(i, b);
        f(&copy);
        copy.remove(i);
    }
}
