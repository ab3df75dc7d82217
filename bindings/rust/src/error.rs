use crate::raw::{self, Answer};
use std::ffi::CStr;
use std::fmt;

impl Answer {
    /// The answer in words, by the library.
    pub fn text(self) -> &'static str {
        // SAFETY: the library's texts are ASCII, end with a zero, and are never freed.
        let text = unsafe { CStr::from_ptr(raw::strokes_answer_text(self)) };
        text.to_str().unwrap_or("")
    }
}

impl fmt::Debug for Answer {
    fn fmt(&self, out: &mut fmt::Formatter<'_>) -> fmt::Result {
        write!(out, "{} ({})", self.0, self.text())
    }
}

/// An answer of the library other than those that a call is for.
///
/// ```
/// # use strokes::{Answer, Canvas, Desk, Document};
/// # let mut desk = Desk::open(&Canvas { w: 9, h: 9, paper: 0 }, 1)?;
/// let error = desk.feed("layer 1 0").unwrap_err();
/// assert_eq!(error.answer(), Answer::FIELD_COUNT);
/// assert_eq!(error.to_string(), "wrong number of fields");
/// # Ok::<(), strokes::Error>(())
/// ```
#[derive(Clone, Copy, Debug, PartialEq, Eq)]
pub struct Error {
    answer: Answer,
    line: u32,
}

impl Error {
    pub(crate) fn at(answer: Answer, line: u32) -> Error {
        Error { answer, line }
    }

    /// The library's answer.
    pub fn answer(self) -> Answer {
        self.answer
    }

    /// The line of a script that is at fault, from 1, where it is a line's fault.
    pub fn line(self) -> Option<u32> {
        (self.line > 0).then_some(self.line)
    }

    /// Whether memory ended: the same call may be made again.
    pub fn is_no_memory(self) -> bool {
        self.answer == Answer::NO_MEMORY
    }
}

impl fmt::Display for Error {
    fn fmt(&self, out: &mut fmt::Formatter<'_>) -> fmt::Result {
        match self.line() {
            Some(line) => write!(out, "line {line}: {}", self.answer.text()),
            None => out.write_str(self.answer.text()),
        }
    }
}

impl std::error::Error for Error {}

/// An error of a call that takes a value, with the value: the call left it as it was.
///
/// `?` makes an [`Error`] of it, and drops the value.
#[derive(Debug)]
pub struct Returned<T> {
    /// What the call was passed.
    pub value: T,
    /// Why it wasn't taken.
    pub error: Error,
}

impl<T> From<Returned<T>> for Error {
    fn from(returned: Returned<T>) -> Error {
        returned.error
    }
}

impl<T> fmt::Display for Returned<T> {
    fn fmt(&self, out: &mut fmt::Formatter<'_>) -> fmt::Result {
        self.error.fmt(out)
    }
}

impl<T: fmt::Debug> std::error::Error for Returned<T> {}

/// Whether an answer is the one that a call is for.
pub(crate) fn ok(answer: Answer) -> Result<(), Error> {
    match answer {
        Answer::OK => Ok(()),
        other => Err(Error::at(other, 0)),
    }
}
