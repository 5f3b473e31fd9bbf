//! Words, substitution, lists and arguments, written from document 01 alone.

use std::collections::HashMap;

#[derive(Clone, Copy, PartialEq, Eq, Debug)]
pub enum Kind {
    Braced,
    Quoted,
    Bracketed,
    Plain,
}

/// A word before substitution; a quoted one has dropped its backslashes.
#[derive(Clone, Debug)]
pub struct Word {
    pub kind: Kind,
    pub text: String,
}

pub type Vars = HashMap<String, String>;

impl Word {
    /// Do its result bytes count towards the substitution area?
    pub fn counted(&self) -> bool {
        match self.kind {
            Kind::Quoted => true,
            Kind::Plain => self.text.contains('$'),
            _ => false,
        }
    }

    /// The word as the command sees it; `None` when past `most` bytes and counted.
    pub fn result(&self, vars: &Vars, most: usize) -> Option<String> {
        match self.counted() {
            true => substitute(&self.text, vars, most),
            false => Some(self.text.clone()),
        }
    }
}

/// `\` LF and `\` CR LF become a space.
fn join_lines(text: &str) -> Vec<u8> {
    let bytes = text.as_bytes();
    let mut out = Vec::with_capacity(bytes.len());
    let mut i = 0;
    while i < bytes.len() {
        let skip = match &bytes[i..] {
            [b'\\', b'\n', ..] => 2,
            [b'\\', b'\r', b'\n', ..] => 3,
            _ => 1,
        };
        out.push(if skip == 1 { bytes[i] } else { b' ' });
        i += skip;
    }
    out
}

fn is_space(b: u8) -> bool {
    (9..=13).contains(&b) || b == b' '
}

fn text(bytes: &[u8]) -> String {
    String::from_utf8_lossy(bytes).into_owned()
}

/// The commands of a file, without their variables replaced.
pub fn split(file: &str) -> Vec<Vec<Word>> {
    let bytes = join_lines(file);
    let mut all = Vec::new();
    let mut command: Vec<Word> = Vec::new();
    let mut rest = &bytes[..];
    while let Some(&b) = rest.first() {
        if b == b'\n' || b == b';' {
            if !command.is_empty() {
                all.push(std::mem::take(&mut command));
            }
            rest = &rest[1..];
        } else if is_space(b) {
            rest = &rest[1..];
        } else if b == b'#' && command.is_empty() {
            let end = rest.iter().position(|&b| b == b'\n');
            rest = &rest[end.unwrap_or(rest.len())..];
        } else {
            let (word, length) = word(rest);
            command.push(word);
            rest = &rest[length.min(rest.len())..];
        }
    }
    if !command.is_empty() {
        all.push(command);
    }
    all
}

/// The first word of `rest`, and how far it goes (perhaps past the end).
fn word(rest: &[u8]) -> (Word, usize) {
    let (kind, text, length) = match rest[0] {
        b'{' => {
            let end = close(rest, b'{', b'}');
            (Kind::Braced, text(&rest[1..end]), end + 1)
        }
        b'[' => {
            let end = close(rest, b'[', b']');
            (Kind::Bracketed, text(&rest[..(end + 1).min(rest.len())]), end + 1)
        }
        b'"' => {
            let (word, end) = quoted(rest);
            (Kind::Quoted, word, end + 1)
        }
        _ => {
            let end = rest.iter().position(|&b| is_space(b) || b == b';');
            let end = end.unwrap_or(rest.len());
            (Kind::Plain, text(&rest[..end]), end)
        }
    };
    (Word { kind, text }, length)
}

/// Where the bracket that opens `rest` is closed, or the end.
fn close(rest: &[u8], open: u8, shut: u8) -> usize {
    let mut depth = 0usize;
    for (i, &b) in rest.iter().enumerate() {
        depth += (b == open) as usize;
        if b == shut {
            depth -= 1;
            if depth == 0 {
                return i;
            }
        }
    }
    rest.len()
}

fn quoted(rest: &[u8]) -> (String, usize) {
    let mut out = Vec::new();
    let mut i = 1;
    while i < rest.len() && rest[i] != b'"' {
        if rest[i] == b'\\' && i + 1 < rest.len() {
            i += 1;
        }
        out.push(rest[i]);
        i += 1;
    }
    (text(&out), i)
}

/// A word with its variables replaced; `None` when longer than `most`.
pub fn substitute(word: &str, vars: &Vars, most: usize) -> Option<String> {
    let mut out = String::new();
    let mut rest = word;
    while let Some(at) = rest.find('$') {
        out.push_str(&rest[..at]);
        rest = &rest[at..];
        let open = 1 + rest[1..].starts_with('{') as usize;
        let name_end = rest[open..]
            .find(|c: char| !(c.is_ascii_alphanumeric() || c == '_'))
            .map_or(rest.len(), |n| open + n);
        let name = &rest[open..name_end];
        let shut = open == 2 && rest[name_end..].starts_with('}');
        let end = name_end + shut as usize;
        match vars.get(name) {
            Some(value) if !name.is_empty() => out.push_str(value),
            _ => out.push_str(&rest[..end]),
        }
        if out.len() > most {
            return None;
        }
        rest = &rest[end..];
    }
    out.push_str(rest);
    (out.len() <= most).then_some(out)
}

/// A value read as a list: the words of all its commands, nothing replaced.
pub fn list(value: &str) -> Vec<String> {
    split(value).into_iter().flatten().map(|w| w.text).collect()
}

#[derive(Default, Debug)]
pub struct Args {
    pub positional: Vec<String>,
    pub options: HashMap<String, String>,
    pub flags: Vec<String>,
}

impl Args {
    /// The first positional word, or nothing.
    pub fn first(&self) -> String {
        self.positional.first().cloned().unwrap_or_default()
    }

    pub fn has(&self, flag: &str) -> bool {
        self.flags.iter().any(|f| f == flag)
    }
}

/// `-` followed by a byte that is no digit.
pub fn is_option(word: &str) -> bool {
    matches!(word.as_bytes(), [b'-', b, ..] if !b.is_ascii_digit())
}

/// The arguments in the words behind a command's name.
pub fn args(words: &[String]) -> Args {
    let mut a = Args::default();
    let mut words = words.iter().peekable();
    while let Some(w) = words.next() {
        if !is_option(w) {
            a.positional.push(w.to_string());
        } else if let Some(value) = words.next_if(|v| !is_option(v)) {
            a.options.insert(w[1..].into(), value.clone());
        } else {
            a.flags.push(w[1..].into());
        }
    }
    a
}
