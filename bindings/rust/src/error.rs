//! The errors of a text.
use std::fmt;

/// An error of a text: a message, the text that it is about, and where that begins.
///
/// It prints as `ERROR@9:10 "expected COLON, got )" )`: the bytes that it is about, the message, and their text; `EOF` for the end of the text.
#[derive(Clone, PartialEq, Eq, Hash)]
pub struct Error {
    message: String,
    about: About,
    index: usize,
}

#[derive(Clone, PartialEq, Eq, Hash)]
enum About {
    Text(String),
    End,
    Limit,
}

impl Error {
    /// An error about `data`, a part of a text that begins at the byte `index`.
    pub fn with_loc<S: Into<String>>(message: S, data: String, index: usize) -> Self {
        Error { message: message.into(), about: About::Text(data), index }
    }

    /// An error about a limit that was met at the byte `index`.
    pub fn limit<S: Into<String>>(message: S, index: usize) -> Self {
        Error { message: message.into(), about: About::Limit, index }
    }

    /// An error about the end of a text, which is at the byte `index`.
    pub fn eof<S: Into<String>>(message: S, index: usize) -> Self {
        Error { message: message.into(), about: About::End, index }
    }

    /// The text that it is about. There is none for a limit and for the end.
    pub fn data(&self) -> &str {
        match &self.about {
            About::Text(text) => text,
            About::End | About::Limit => "",
        }
    }

    /// Whether a limit was met.
    pub fn is_limit(&self) -> bool {
        self.about == About::Limit
    }

    /// Whether it is about the end of the text.
    pub fn is_eof(&self) -> bool {
        self.about == About::End
    }

    /// The byte offset of what it is about.
    pub fn index(&self) -> usize {
        self.index
    }

    /// What is wrong.
    pub fn message(&self) -> &str {
        &self.message
    }
}

impl std::error::Error for Error {}

impl fmt::Display for Error {
    fn fmt(&self, f: &mut fmt::Formatter<'_>) -> fmt::Result {
        let shown = if self.is_eof() { "EOF" } else { self.data() };
        write!(f, "ERROR@{}:{} {:?} {shown}", self.index, self.index + self.data().len(), self.message)
    }
}

impl fmt::Debug for Error {
    fn fmt(&self, f: &mut fmt::Formatter<'_>) -> fmt::Result {
        fmt::Display::fmt(self, f)
    }
}
