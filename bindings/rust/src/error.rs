//! Why a call made nothing.
use crate::exports::Report;
use std::fmt;
use std::ops::Range;

/// All that is told of want of memory.
const NO_MEMORY: &str = "out of memory";

/// What kind of error a call met.
#[derive(Clone, Copy, Debug, PartialEq, Eq, Hash)]
#[non_exhaustive]
pub enum ErrorKind {
    /// A template can't be read.
    SyntaxError,
    /// Anything without a kind of its own: data that can't be read, a template that calls or includes what is not there.
    Message,
    /// A template fails while it is rendered.
    RenderingError,
    /// Templates extend one another in a circle.
    CircularExtend,
    /// Templates include one another in a circle.
    CircularInclude,
    /// A template extends one that is not there.
    MissingParent,
    /// No template has the name that the call was given.
    TemplateNotFound,
    /// No component has the name that the call was given.
    ComponentNotFound,
    /// A value does not fit.
    InvalidArgument,
    /// A value is missing.
    MissingArgument,
    /// Memory was refused.
    OutOfMemory,
}

impl ErrorKind {
    fn of_number(number: u32) -> ErrorKind {
        match number {
            1 => ErrorKind::SyntaxError,
            3 => ErrorKind::RenderingError,
            4 => ErrorKind::CircularExtend,
            5 => ErrorKind::CircularInclude,
            6 => ErrorKind::MissingParent,
            7 => ErrorKind::TemplateNotFound,
            8 => ErrorKind::ComponentNotFound,
            9 => ErrorKind::InvalidArgument,
            10 => ErrorKind::MissingArgument,
            11 => ErrorKind::OutOfMemory,
            _ => ErrorKind::Message,
        }
    }
}

/// Why a call made nothing. It displays all that is told: the place, the line with marks below it, and where it was called from.
#[derive(Clone, Debug, PartialEq, Eq)]
pub struct Error(Cause);

/// Want of memory takes no memory.
#[derive(Clone, Debug, PartialEq, Eq)]
enum Cause {
    NoMemory,
    Told(Box<Told>),
}

/// What the engine tells of an error.
#[derive(Clone, Debug, PartialEq, Eq)]
struct Told {
    kind: ErrorKind,
    file: Option<String>,
    span: Option<Range<usize>>,
    line: Option<usize>,
    column: Option<usize>,
    message: String,
    words: String,
}

impl Error {
    /// What kind of error it is.
    pub fn kind(&self) -> ErrorKind {
        self.told().map_or(ErrorKind::OutOfMemory, |told| told.kind)
    }

    /// The name of the template in which the error lies.
    pub fn file(&self) -> Option<&str> {
        self.told()?.file.as_deref()
    }

    /// The bytes of that template's text in which it lies.
    pub fn span(&self) -> Option<Range<usize>> {
        self.told()?.span.clone()
    }

    /// The line in which the span begins, from 1 on.
    pub fn line(&self) -> Option<usize> {
        self.told()?.line
    }

    /// The column in which the span begins, from 1 on, in characters.
    pub fn column(&self) -> Option<usize> {
        self.told()?.column
    }

    /// What is wrong. A syntax error and a rendering error are told in one sentence, without file and place.
    pub fn message(&self) -> &str {
        self.told().map_or(NO_MEMORY, |told| &told.message)
    }

    fn told(&self) -> Option<&Told> {
        match &self.0 {
            Cause::NoMemory => None,
            Cause::Told(told) => Some(told),
        }
    }

    pub(crate) fn new(report: &Report, file: Option<String>, message: String, words: String) -> Error {
        Error(Cause::Told(Box::new(Told {
            kind: ErrorKind::of_number(report.kind),
            file,
            span: (report.has_span != 0).then_some(report.start..report.end),
            line: (report.line != 0).then_some(report.line),
            column: (report.column != 0).then_some(report.column),
            message,
            words,
        })))
    }

    pub(crate) fn out_of_memory() -> Error {
        Error(Cause::NoMemory)
    }
}

impl fmt::Display for Error {
    fn fmt(&self, out: &mut fmt::Formatter<'_>) -> fmt::Result {
        out.write_str(self.told().map_or(NO_MEMORY, |told| &told.words))
    }
}

impl std::error::Error for Error {}
