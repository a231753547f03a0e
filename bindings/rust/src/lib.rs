//! Checks, compiles, explains and lists, and runs modules in a host, by calls of the library libflowc. Every call may be made on any
//! thread. A source that is made to hurt takes up to 5 MiB of stack to check, and a thread of `std` has 2 MiB: sources of strangers are
//! for a thread with 8 MiB ([`std::thread::Builder::stack_size`]).
//!
//! ```
//! let source = b"input{Alice:} s; output{Alice:} a; output{} n;
//!     void main() throws (End{Alice:}) { send n, 1; int x = receive s; send a, x; }";
//! let module = flowc::compile(b"principal Alice, Bob;", source)?;
//! let mut host = flowc::Host::new()?;
//! let session = host.open(&module, b"s = 7")?;
//! host.turn(session, 1000)?;
//! let bob = flowc::principal(&module, "Bob")?.unwrap();
//! assert_eq!(host.view(session, bob)?, [flowc::Pair { channel: 2, number: 1 }]);
//! # Ok::<(), flowc::Error>(())
//! ```

use std::fmt;

mod hosts;
mod sys;

pub use hosts::{principal, Host, Pair, Run, Session, Turn};

/// Where what was given is wrong.
#[derive(Clone, Copy, Debug, PartialEq, Eq)]
pub enum Place {
    /// In the text of the hierarchy, from line 1 and column 1 on.
    Hierarchy { line: usize, column: usize },
    /// In the source, from line 1 and column 1 on.
    Source { line: usize, column: usize },
    /// At a byte of a module, from 0 on.
    Bytes { offset: usize },
    /// At a byte of the code of a procedure of a module, from 0 on.
    Code { procedure: u32, offset: usize },
    /// In the text of a world, from line 1 on.
    World { line: usize },
    /// In what a host was asked, which has no place.
    Event,
}

impl fmt::Display for Place {
    fn fmt(&self, f: &mut fmt::Formatter<'_>) -> fmt::Result {
        match self {
            Place::Hierarchy { line, column } | Place::Source { line, column } => write!(f, "{line}:{column}: "),
            Place::Bytes { offset } => write!(f, "{offset}: "),
            Place::Code { procedure, offset } => write!(f, "{procedure}:{offset}: "),
            Place::World { line } => write!(f, "{line}: "),
            Place::Event => Ok(()),
        }
    }
}

/// Why there is no result.
#[derive(Clone, Debug, PartialEq, Eq)]
pub enum Error {
    /// What was given is refused. `chain` is the way of a refused flow, where [`explain`] was asked, and else empty.
    Refused { number: u32, place: Place, words: String, chain: String },
    /// Memory ran out.
    NoMemory,
}

impl Error {
    /// The number of a refusal, as docs/ERRORS.md has it.
    pub fn number(&self) -> Option<u32> {
        match self {
            Error::Refused { number, .. } => Some(*number),
            Error::NoMemory => None,
        }
    }

    /// The place of a refusal.
    pub fn place(&self) -> Option<Place> {
        match self {
            Error::Refused { place, .. } => Some(*place),
            Error::NoMemory => None,
        }
    }
}

impl fmt::Display for Error {
    fn fmt(&self, f: &mut fmt::Formatter<'_>) -> fmt::Result {
        match self {
            Error::Refused { number, place, words, .. } => write!(f, "{place}{number} {words}"),
            Error::NoMemory => write!(f, "out of memory"),
        }
    }
}

impl std::error::Error for Error {}

// Calls with a place of a length that is guessed, and once more where that was too short.
fn asked<T: Clone + Default, O: sys::Said>(guess: usize, mut call: impl FnMut(*mut T, usize) -> O) -> (O, Vec<T>) {
    let mut size = guess;
    loop {
        let mut out = vec![T::default(); size];
        let outcome = call(out.as_mut_ptr(), size);
        let end = outcome.end();
        if end.status != sys::TOO_SHORT && end.length <= size {
            out.truncate(end.length);
            return (outcome, out);
        }
        size = end.length;
    }
}

// The result of a call, or why there is none.
fn answer(asked: (sys::Outcome, Vec<u8>)) -> Result<Vec<u8>, Error> {
    let (outcome, out) = asked;
    match outcome.status {
        sys::DONE => Ok(out),
        _ => Err(refusal(&outcome, text(out))),
    }
}

// Why a call that is not done has no result.
fn refusal(outcome: &sys::Outcome, words: String) -> Error {
    if outcome.status != sys::REFUSED {
        return Error::NoMemory;
    }
    let sys::Outcome { line, column, offset, procedure, .. } = *outcome;
    let place = match outcome.text {
        0 => Place::Hierarchy { line, column },
        1 => Place::Source { line, column },
        2 => Place::Bytes { offset },
        3 => Place::Code { procedure, offset },
        4 => Place::World { line },
        _ => Place::Event,
    };
    Error::Refused { number: outcome.number, place, words, chain: String::new() }
}

fn text(bytes: Vec<u8>) -> String {
    String::from_utf8_lossy(&bytes).into_owned()
}

/// The version of the library.
pub fn version() -> String {
    // Safe here and below: each pointer is one of a slice of the length beside it, and `out` is a new block.
    text(asked(16, |out, size| unsafe { sys::flowc_version(out, size) }).1)
}

/// Checks a source under a hierarchy.
pub fn check(h: &[u8], s: &[u8]) -> Result<(), Error> {
    answer(asked(64, |out, size| unsafe { sys::flowc_check(h.as_ptr(), h.len(), s.as_ptr(), s.len(), out, size) })).map(|_| ())
}

/// The bytes of the module of a source under a hierarchy.
pub fn compile(h: &[u8], s: &[u8]) -> Result<Vec<u8>, Error> {
    answer(asked(1024 + s.len(), |out, size| unsafe { sys::flowc_compile(h.as_ptr(), h.len(), s.as_ptr(), s.len(), out, size) }))
}

/// A line for each local that is written without a label, with its least label.
pub fn explain(h: &[u8], s: &[u8]) -> Result<String, Error> {
    match answer(asked(1024, |out, size| unsafe { sys::flowc_explain(h.as_ptr(), h.len(), s.as_ptr(), s.len(), out, size) })) {
        Ok(labels) => Ok(text(labels)),
        Err(Error::Refused { words: shown, .. }) => match check(h, s) {
            Err(Error::Refused { number, place, words, .. }) => Err(Error::Refused { number, place, words, chain: shown }),
            _ => Err(Error::NoMemory),
        },
        Err(fault) => Err(fault),
    }
}

/// The channels and the code of a module.
pub fn list(module: &[u8]) -> Result<String, Error> {
    answer(asked(4096, |out, size| unsafe { sys::flowc_list(module.as_ptr(), module.len(), out, size) })).map(text)
}

#[cfg(test)]
mod tests {
    use super::*;

    const HIERARCHY: &[u8] = b"principal Alice, Bob;\n";
    const WRONG: &[u8] = b"output{} a; input{Alice:} b; void main() throws (End{Alice:}) { int x = receive b; send a, x; }\n";

    #[test]
    fn has_the_version_of_the_crate() {
        assert_eq!(version(), "0.9.0");
    }

    #[test]
    fn says_the_first_fault() {
        let fault = compile(HIERARCHY, WRONG).unwrap_err();
        assert_eq!(fault.to_string(), "1:84: 601 flow not allowed");
        assert_eq!((fault.number(), fault.place()), (Some(601), Some(Place::Source { line: 1, column: 84 })));
    }

    #[test]
    fn shows_the_way_of_a_flow() {
        let Err(Error::Refused { chain, .. }) = explain(HIERARCHY, WRONG) else { panic!() };
        assert!(chain.starts_with("policy {Alice:}\n"));
    }

    #[test]
    fn says_where_bytes_are_no_module() {
        assert!(matches!(list(b"x"), Err(Error::Refused { place: Place::Bytes { .. }, .. })));
    }

    #[test]
    fn takes_empty_texts() {
        assert!(check(b"", b"").is_err());
    }
}
