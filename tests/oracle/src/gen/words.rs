//! UPF texts, word lists and variables, and the ways to write one word.

use super::Rng;

/// Bytes that matter to the reader.
const BYTES: &[u8] = b"  \t\n\r\x0b\x0c\\;#{}\"[]$-ab5_/.Z\n {}\\";

/// Pieces that matter to the reader.
const PIECES: &[&str] = &[
    " ", " ", "\t", "\n", "\r", "\r\n", "\x0b", "\x0c", ";", "#", "{", "}", "{", "}", "\"", "\"", "[", "]",
    "\\", "\\\n", "\\\r\n", "\\\r", "\\\\\n", "\\\"", "\\{", "\\}", "\\$", "$", "$$", "$N", "${N}", "${N",
    "$N}", "${}", "${", "$_a1", "${_a1}x", "$-", "${N N}", "a", "u1", "-k", "-", "-5", "--", "x_y", "s/u1",
    "p.q", "{}", "\"\"", "[]", "{a}b", "set", "puts", "\x00", "\x7f",
];

/// Words for argument reading.
const ARGS: &[&str] = &[
    "",
    "-",
    "--",
    "-5",
    "-5x",
    "-k",
    "-k",
    "-6",
    "-elements",
    "-domain",
    "-on_state",
    "-off_state",
    "-state",
    "-include_scope",
    "-update",
    "-no_isolation",
    "x",
    "PD",
    "a b",
    "0",
    "-a b",
    "- a",
    "-_",
    "-$",
    "-\n",
    "{-u1 s}",
    "$",
    "-scope",
    ".",
    "/",
    "..",
];

/// A UPF text of one of many shapes.
pub fn text(r: &mut Rng) -> Vec<u8> {
    let out = match r.below(8) {
        0 => byte_soup(r),
        1 | 2 => piece_soup(r),
        3 => nest(r),
        4 => comments(r),
        5 => {
            let whole = formed(r);
            let at = r.below(whole.len() + 1);
            whole[..at].to_vec()
        }
        6 => {
            let whole = formed(r);
            super::damage(r, &whole)
        }
        _ => formed(r),
    };
    out.into_iter().map(|b| b & 127).collect()
}

fn length(r: &mut Rng) -> usize {
    match r.below(8) {
        0 => r.below(3),
        7 => r.below(200),
        _ => r.below(24),
    }
}

fn byte_soup(r: &mut Rng) -> Vec<u8> {
    let n = length(r);
    (0..n).map(|_| *r.pick(BYTES)).collect()
}

fn piece_soup(r: &mut Rng) -> Vec<u8> {
    let n = length(r);
    let mut out = Vec::new();
    for _ in 0..n {
        out.extend_from_slice(r.pick(PIECES).as_bytes());
    }
    out
}

/// Nested brackets of one sort, closed as often, less often or more often than opened.
fn nest(r: &mut Rng) -> Vec<u8> {
    let (open, close) = *r.pick(&[(b'{', b'}'), (b'[', b']'), (b'"', b'"')]);
    let deep = r.below(8);
    let shut = (deep + r.below(3)).saturating_sub(1);
    let mut out = formed(r);
    out.truncate(12);
    out.push(b' ');
    for _ in 0..deep {
        out.push(open);
        if r.chance(1, 3) {
            out.extend_from_slice(r.pick(PIECES).as_bytes());
        }
    }
    out.extend_from_slice(b"w $N");
    for _ in 0..shut {
        out.push(close);
        if r.chance(1, 3) {
            out.extend_from_slice(r.pick(PIECES).as_bytes());
        }
    }
    if r.chance(1, 2) {
        out.extend(formed(r));
    }
    out
}

fn comments(r: &mut Rng) -> Vec<u8> {
    let mut out = Vec::new();
    for _ in 0..r.range(1, 4) {
        if r.chance(1, 3) {
            out.extend(gap(r));
        }
        out.push(b'#');
        out.extend(piece_soup(r).into_iter().take(20));
        out.extend_from_slice(r.pick(&["\n", "\\\n", "\r\n", "\\\r\n", "", ";"]).as_bytes());
        out.extend(formed(r).into_iter().take(30));
    }
    out
}

/// Commands whose words are written in odd but complete ways.
fn formed(r: &mut Rng) -> Vec<u8> {
    let mut out = Vec::new();
    for _ in 0..r.range(1, 4) {
        let n = r.range(1, 6);
        let words: Vec<Vec<u8>> = (0..n).map(|_| value(r)).collect();
        out.extend(write_command(r, &words));
    }
    out
}

/// A value that a word may have.
fn value(r: &mut Rng) -> Vec<u8> {
    match r.below(6) {
        0 => piece_soup(r).into_iter().take(12).collect(),
        1 => b"$N/${M}$".to_vec(),
        2 => vars_word(r),
        _ => r.pick(PIECES).as_bytes().to_vec(),
    }
}

fn vars_word(r: &mut Rng) -> Vec<u8> {
    let mut out = Vec::new();
    for _ in 0..r.range(1, 5) {
        let piece = r.pick(&["$N", "${N}", "${N", "$", "$$", "$M", "${M}", "a", "/", "_", "${", "}"]);
        out.extend_from_slice(piece.as_bytes());
    }
    out
}

/// Words for argument reading: options, flags, values like options, empty ones.
pub fn word_list(r: &mut Rng) -> Vec<Vec<u8>> {
    let n = r.below(9);
    (0..n)
        .map(|_| match r.below(10) {
            0 => piece_soup(r).into_iter().take(6).collect(),
            1 => format!("-{}", r.below(100)).into_bytes(),
            _ => r.pick(ARGS).bytes().map(|b| b & 127).collect(),
        })
        .collect()
}

/// Names and values for substitution; a later pair of the same name replaces an earlier one.
pub fn vars(r: &mut Rng) -> Vec<(Vec<u8>, Vec<u8>)> {
    let names = ["N", "M", "a", "_a1", "u1", "", "5", "N N", "$", "a5", "Z", "{", "x_y"];
    let values =
        ["", "v", "$N", "${M}", "$", "a\\", "\\\n", "x\ny", "a b", "}", "{", "\"", "-k", "u1/s", ";#"];
    let n = r.below(7);
    (0..n)
        .map(|_| {
            let name = r.pick(&names).as_bytes().to_vec();
            let held = if r.chance(1, 5) {
                piece_soup(r).into_iter().take(8).collect()
            } else {
                r.pick(&values).as_bytes().to_vec()
            };
            (name, held)
        })
        .collect()
}

/// Calls `f` with every text over `alphabet` of at most `max_len` bytes, shortest first.
pub fn all_texts(alphabet: &[u8], max_len: usize, f: &mut dyn FnMut(&[u8])) {
    for len in 0..max_len + 1 {
        if alphabet.is_empty() && len > 0 {
            return;
        }
        let mut at = vec![0; len];
        let mut now: Vec<u8> = at.iter().map(|&i: &usize| alphabet[i]).collect();
        loop {
            f(&now);
            if !advance(alphabet, &mut at, &mut now) {
                break;
            }
        }
    }
}

/// The next text of the same length; false after the last.
fn advance(alphabet: &[u8], at: &mut [usize], now: &mut [u8]) -> bool {
    for i in (0..at.len()).rev() {
        at[i] += 1;
        if at[i] < alphabet.len() {
            now[i] = alphabet[at[i]];
            return true;
        }
        at[i] = 0;
        now[i] = alphabet[0];
    }
    false
}

/// A stretch of white space, never a command's end.
pub fn gap(r: &mut Rng) -> Vec<u8> {
    let odd = ["\t", "  ", " \\\n  ", " \\\r\n", "\x0b", "\x0c", " \r ", "\\\n"];
    if r.chance(6, 7) {
        return b" ".to_vec();
    }
    r.pick(&odd).as_bytes().to_vec()
}

/// The end of a command.
pub fn finish(r: &mut Rng) -> Vec<u8> {
    let odd = [";", " ; ", "\r\n", "\n\n", " \n", ";;\n", ";# c {\n", "\n# \"c\n", "\n  "];
    if r.chance(3, 4) {
        return b"\n".to_vec();
    }
    r.pick(&odd).as_bytes().to_vec()
}

/// A command of these words, each written so that it is read back where that is possible.
pub fn write_command(r: &mut Rng, words: &[Vec<u8>]) -> Vec<u8> {
    let mut out = Vec::new();
    for (i, w) in words.iter().enumerate() {
        let text = write_word(r, w, i == 0);
        if i > 0 && !joins(&out, r) {
            out.extend(gap(r));
        }
        out.extend(text);
    }
    out.extend(finish(r));
    out
}

/// May the next word follow without a gap, and should it?
fn joins(out: &[u8], r: &mut Rng) -> bool {
    let closed = match out.last() {
        Some(b) => *b == b'}' || *b == b'"',
        None => true,
    };
    closed && r.chance(1, 20)
}

/// One way to write a value as a word, chosen at random among those that are read back.
pub fn write_word(r: &mut Rng, value: &[u8], first: bool) -> Vec<u8> {
    let plain = plain_ok(value, first);
    let braced = braced_ok(value);
    if plain && r.chance(7, 10) {
        return value.to_vec();
    }
    if braced && r.chance(3, 4) {
        return in_braces(value);
    }
    if value.contains(&b'$') && braced {
        return in_braces(value);
    }
    quoted(r, value)
}

/// Is the value read back when written as it is?
pub fn plain_ok(value: &[u8], first: bool) -> bool {
    let head = match value.first() {
        Some(b) => *b,
        None => return false,
    };
    let opens = head == b'{' || head == b'"' || head == b'[' || (first && head == b'#');
    let parted = value.iter().any(|&b| white(b) || b == b';' || b == b'$');
    !opens && !parted && value.last() != Some(&b'\\')
}

/// Is the value read back when written in braces?
pub fn braced_ok(value: &[u8]) -> bool {
    let mut depth = 0i32;
    for &b in value {
        if b == b'{' {
            depth += 1;
        }
        if b == b'}' {
            depth -= 1;
        }
        if depth < 0 {
            return false;
        }
    }
    depth == 0
}

/// The value in braces.
pub fn in_braces(value: &[u8]) -> Vec<u8> {
    let mut out = vec![b'{'];
    out.extend_from_slice(value);
    out.push(b'}');
    out
}

/// The value in quotes, with the backslashes it needs and some that it does not need.
pub fn quoted(r: &mut Rng, value: &[u8]) -> Vec<u8> {
    let mut out = vec![b'"'];
    for &b in value {
        let must = b == b'"' || b == b'\\';
        let may = b != b'\n' && b != b'\r' && r.chance(1, 20);
        if must || may {
            out.push(b'\\');
        }
        out.push(b);
    }
    out.push(b'"');
    out
}

fn white(b: u8) -> bool {
    (9..=13).contains(&b) || b == 32
}
