//! The Rust source of the reference, compiled as it stands.
//!
//! `upf` is a copy of the source with `tail.rs` behind it; the build puts it
//! beside this file. Its files come from `shim`, its log goes there.
#![allow(unfulfilled_lint_expectations, dead_code)]

pub mod ast;
pub mod records;
pub mod shim;

/// The SystemVerilog parser is outside; only `inject` calls it, and we do not
/// call `inject`.
mod sv_parser {
    use ast::Description;

    pub struct Source {
        pub descriptions: Vec<Description>,
    }

    pub struct Fault {
        pub message: String,
    }

    pub struct Parsed {
        pub errors: Vec<Fault>,
        pub source: Source,
    }

    pub fn parse(_: &str) -> Parsed {
        Parsed { errors: Vec::new(), source: Source { descriptions: Vec::new() } }
    }
}

/// Stands before the prelude's macro of this name in `upf`.
macro_rules! eprintln {
    ($($piece:tt)*) => { ::shim::write_log(&format!($($piece)*)) };
}

pub mod upf;
