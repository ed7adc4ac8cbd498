//! Why there is no answer.
use crate::lists::Arc;

/// The answers of `sgb.h` that are no bad expression: each with its number and its words.
pub const ANSWERS: [(u64, &str); 16] = [
    (1, "out of memory"),
    (10, "the head of the .gb file is wrong"),
    (11, "the end of the .gb file is wrong"),
    (20, "a record of the .gb file is wrong"),
    (30, "parameters that make no sense"),
    (40, "parameters that ask for too much"),
    (60, "a graph that the operation cannot take"),
    (100, "the expression is too large"),
    (101, "an array has another length than it must have"),
    (102, "there is no such field, or it holds no integers"),
    (103, "a uniform draw has a bound from 1 to 2^31"),
    (104, "a graph is open"),
    (105, "no graph is open"),
    (106, "there are not so many vertices"),
    (107, "a name or an id is no text"),
    (108, "more vertices or arcs than a graph may have"),
];

/// What a bad expression is answered with: this and the length of its longest prefix that begins one.
const BAD_EXPRESSION: u64 = 1000;
/// What a vertex that is not there is answered with.
const NO_VERTEX: u64 = 106;

/// Why there is no answer.
#[derive(Clone, Copy, Debug, PartialEq, Eq)]
#[non_exhaustive]
pub enum Error {
    /// The text is no expression; its longest prefix that begins one has this many bytes.
    Expression(u64),
    /// Another number of `sgb.h`: 1 for want of memory, a panic code of GraphBase where it is below 100.
    Code(u64),
    /// Arcs that were to be edges: none leads back from this one.
    Unpaired(Arc),
    /// An edge of those that were given, by its place among them from 0 on, has an end that is no vertex.
    NoEnd(usize, Arc),
}

impl Error {
    /// The number that the library answered with, if it was asked.
    pub fn code(&self) -> Option<u64> {
        match self {
            Error::Expression(byte) => Some(BAD_EXPRESSION + byte),
            Error::Code(code) => Some(*code),
            Error::Unpaired(_) => None,
            Error::NoEnd(..) => Some(NO_VERTEX),
        }
    }

    /// What it means.
    pub fn words(&self) -> &'static str {
        match self {
            Error::Expression(_) => "bad expression",
            Error::Unpaired(_) => "no arc leads back",
            Error::NoEnd(..) => Error::Code(NO_VERTEX).words(),
            Error::Code(code) => {
                ANSWERS.iter().find(|(number, _)| number == code).map_or("something went wrong", |(_, words)| words)
            }
        }
    }
}

impl std::fmt::Display for Error {
    fn fmt(&self, f: &mut std::fmt::Formatter<'_>) -> std::fmt::Result {
        match self {
            Error::Expression(byte) => write!(f, "bad expression at byte {byte}"),
            Error::Code(code) => write!(f, "{} (code {code})", self.words()),
            Error::NoEnd(place, Arc { v, tip, .. }) => {
                write!(f, "edge {place} of those given, from vertex {v} to vertex {tip}: {} (code {NO_VERTEX})", self.words())
            }
            Error::Unpaired(Arc { v, tip, length }) => {
                write!(f, "the arc from vertex {v} to vertex {tip}, length {length}, is no edge, since none leads back")
            }
        }
    }
}

impl std::error::Error for Error {}

/// What a number means that the library answers with.
pub(crate) fn answer(code: u64) -> Result<(), Error> {
    match code {
        0 => Ok(()),
        BAD_EXPRESSION.. => Err(Error::Expression(code - BAD_EXPRESSION)),
        _ => Err(Error::Code(code)),
    }
}
