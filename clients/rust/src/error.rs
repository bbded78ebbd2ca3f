//! What a call may fail with.

use std::fmt;
use std::io;

use crate::frame::NoFrame;
use crate::id::NoId;
use crate::refusal::Refusal;

/// Why a call failed.
///
/// After [`Error::Io`], [`Error::Lost`], [`Error::Protocol`] and a [`Error::Timeout`] of a silent server the session can't be used
/// any more, since it isn't known which replies are still to come: each later call is [`Error::Lost`].
#[derive(Debug)]
#[non_exhaustive]
pub enum Error {
    /// The server refused a command. The session goes on.
    Refused(Refusal),
    /// The socket failed, or the system gave no random bytes for a new id.
    Io(io::Error),
    /// The server is gone or closed the session, or an earlier call lost it.
    Lost(&'static str),
    /// What came is no reply to the command.
    Protocol(String),
    /// The server didn't answer in time; or all sessions of a pool, or the session itself, were in use by others all the time.
    Timeout,
    /// An argument can't be meant so, or an object isn't what it should be. The session goes on.
    Invalid(String),
}

impl Error {
    /// The refusal, if it is one.
    pub fn refusal(&self) -> Option<Refusal> {
        match self {
            Error::Refused(refusal) => Some(*refusal),
            _ => None,
        }
    }
}

impl fmt::Display for Error {
    fn fmt(&self, f: &mut fmt::Formatter<'_>) -> fmt::Result {
        match self {
            Error::Refused(refusal) => refusal.fmt(f),
            Error::Io(error) => write!(f, "the connection failed: {error}"),
            Error::Lost(why) => write!(f, "the session is lost: {why}"),
            Error::Protocol(what) => write!(f, "what came is no reply: {what}"),
            Error::Timeout => f.write_str("there was no answer in time"),
            Error::Invalid(what) => f.write_str(what),
        }
    }
}

impl std::error::Error for Error {
    fn source(&self) -> Option<&(dyn std::error::Error + 'static)> {
        match self {
            Error::Io(error) => Some(error),
            _ => None,
        }
    }
}

impl From<Refusal> for Error {
    fn from(refusal: Refusal) -> Error {
        Error::Refused(refusal)
    }
}

impl From<io::Error> for Error {
    fn from(error: io::Error) -> Error {
        Error::Io(error)
    }
}

impl From<NoId> for Error {
    fn from(error: NoId) -> Error {
        Error::Invalid(error.to_string())
    }
}

impl From<NoFrame> for Error {
    fn from(error: NoFrame) -> Error {
        Error::Protocol(error.to_string())
    }
}
