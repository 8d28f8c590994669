//! Why a command ends without success, with the exit status that tells it;
//! and what a command says.

use crate::text::plain;
use std::fmt;

pub enum Failure {
    /// Refused by the library, or a volume that is not consistent.
    Refused(String),
    /// A wrong command line, name, list or data file.
    Usage(String),
    /// An image that cannot be read or written, or is no volume of ours.
    Image(String),
    /// A file or the standard output that cannot be written.
    Output(String),
}

pub type Outcome<T> = Result<T, Failure>;

impl Failure {
    pub fn status(&self) -> u8 {
        match self {
            Failure::Refused(_) => 1,
            Failure::Usage(_) => 2,
            Failure::Image(_) | Failure::Output(_) => 3,
        }
    }
}

impl fmt::Display for Failure {
    fn fmt(&self, out: &mut fmt::Formatter) -> fmt::Result {
        let (Failure::Refused(words) | Failure::Usage(words) | Failure::Image(words) | Failure::Output(words)) = self;
        // One line, whatever a name or a path holds.
        out.write_str(&plain(words))
    }
}

pub fn usage<T>(words: impl Into<String>) -> Outcome<T> {
    Err(Failure::Usage(words.into()))
}

pub fn image<T>(words: impl Into<String>) -> Outcome<T> {
    Err(Failure::Image(words.into()))
}

pub fn refused<T>(words: impl Into<String>) -> Outcome<T> {
    Err(Failure::Refused(words.into()))
}

/// A line of a command's output, which is collected and shown at its end.
macro_rules! say {
    ($out:expr, $($text:tt)*) => {{
        $out.extend($crate::text::plain(&format!($($text)*)).bytes());
        $out.push(b'\n');
    }};
}
pub(crate) use say;
