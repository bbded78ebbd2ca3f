//! The blocking end of a session: bursts of commands over a Unix socket, within a deadline.

use std::io::{self, ErrorKind, IoSlice, IoSliceMut, Read, Write};
use std::net::Shutdown;
use std::os::unix::net::UnixStream;
use std::path::{Path, PathBuf};
use std::sync::mpsc;
use std::thread;
use std::time::Duration;

use crate::deadline::Deadline;
use crate::error::Error;
use crate::frame::{refusal, Command, Reply, BYTES, HEAD_BYTES, LONGEST_REPLY, REFUSED};
use crate::refusal::Refusal;

/// So many commands may be unanswered. The frames of so many Reads, and the replies to so many Writes, don't fill a socket: so a server
/// that can't write a reply never keeps the client from reading it.
const IN_FLIGHT: usize = 16;
/// How much is read before it is known what it is, in bytes.
const AHEAD: usize = 8192;
/// Up to which length, in bytes, a Write's bytes are copied beside its head and sent in one call.
const SMALL: usize = 4096;

const SERVER_GONE: Error = Error::Lost("the server is gone or closed the session, as it does at once beyond 1024 sessions of a node");

/// What was answered to a command.
pub(crate) type Answer = Result<Reply, Refusal>;

/// A command to be sent, and where the bytes of its reply go if that is the caller's own buffer.
pub(crate) struct Request<'a> {
    pub(crate) command: Command<'a>,
    pub(crate) into: Option<&'a mut [u8]>,
}

impl<'a> From<Command<'a>> for Request<'a> {
    fn from(command: Command<'a>) -> Request<'a> {
        Request { command, into: None }
    }
}

/// A connected socket, and what is known of the session at its other end.
pub(crate) struct Stream {
    socket: UnixStream,
    limits: Limits,
    unsent: Vec<u8>,
    ahead: Box<[u8]>,
    // what of it is read and not yet taken
    start: usize,
    end: usize,
    // how many holds the session has
    holds: u64,
}

/// The timeouts that the socket has now, for reading and for writing.
#[derive(Default)]
struct Limits {
    read: Option<Duration>,
    write: Option<Duration>,
}

impl Stream {
    pub(crate) fn connect(path: &Path, deadline: Deadline) -> Result<Stream, Error> {
        let socket = match deadline.left()? {
            None => connect_now(path)?,
            Some(left) => connect_within(path.to_owned(), left)?,
        };
        let ahead = vec![0; AHEAD].into_boxed_slice();
        Ok(Stream { socket, limits: Limits::default(), unsent: Vec::new(), ahead, start: 0, end: 0, holds: 0 })
    }

    /// Sends the requests, and adds each answer as it comes. So the answers are there up to a fault, too.
    pub(crate) fn exchange(&mut self, requests: &mut [Request<'_>], deadline: Deadline, answers: &mut Vec<Answer>) -> Result<(), Error> {
        let (mut sent, mut is_open) = (0, true);
        for answered in 0..requests.len() {
            if sent - answered <= IN_FLIGHT / 2 {
                while is_open && sent < requests.len() && sent - answered < IN_FLIGHT {
                    is_open = self.add(&requests[sent].command, deadline)?;
                    sent += 1;
                }
                is_open = is_open && self.send(&[], deadline)?;
            }
            let answer = self.receive(&mut requests[answered], deadline)?;
            self.count_holds(&requests[answered].command, &answer);
            answers.push(answer);
        }
        Ok(())
    }

    fn count_holds(&mut self, command: &Command<'_>, answer: &Answer) {
        match (command, answer) {
            (_, Ok(Reply::Got(_))) => self.holds += 1,
            (Command::Release(_), Ok(_)) => self.holds = self.holds.saturating_sub(1),
            (Command::Leave, Ok(_)) => self.holds = 0,
            _ => {}
        }
    }

    /// How many holds the session has.
    pub(crate) fn holds(&self) -> u64 {
        self.holds
    }

    // ---- sending

    /// Adds a command to what is to be sent. Whether the server still reads.
    fn add(&mut self, command: &Command<'_>, deadline: Deadline) -> Result<bool, Error> {
        command.encode_head(&mut self.unsent)?;
        let tail = command.tail();
        if tail.len() > SMALL {
            return self.send(tail, deadline);
        }
        self.unsent.extend_from_slice(tail);
        Ok(true)
    }

    /// Sends what is to be sent, and these bytes after it. Whether the server still reads: one that has closed may have said why.
    fn send(&mut self, tail: &[u8], deadline: Deadline) -> Result<bool, Error> {
        let head = std::mem::take(&mut self.unsent);
        let mut at = 0;
        while at < head.len() + tail.len() {
            let parts = match at.checked_sub(head.len()) {
                None => [IoSlice::new(&head[at..]), IoSlice::new(tail)],
                Some(after) => [IoSlice::new(&tail[after..]), IoSlice::new(&[])],
            };
            self.limit_writing(deadline)?;
            match self.socket.write_vectored(&parts) {
                Ok(0) => return Err(SERVER_GONE),
                Ok(count) => at += count,
                Err(error) if matches!(error.kind(), ErrorKind::BrokenPipe | ErrorKind::ConnectionReset) => return Ok(false),
                Err(error) => passed_over(error)?,
            }
        }
        self.unsent = head;
        self.unsent.clear();
        Ok(true)
    }

    fn limit_writing(&mut self, deadline: Deadline) -> Result<(), Error> {
        let left = deadline.left()?;
        if left != self.limits.write {
            self.socket.set_write_timeout(left)?;
            self.limits.write = left;
        }
        Ok(())
    }

    // ---- receiving

    /// The reply to a request. What wasn't asked for is refused by its length and kind, before it takes any memory.
    fn receive(&mut self, request: &mut Request<'_>, deadline: Deadline) -> Result<Answer, Error> {
        let mut head = [0; HEAD_BYTES];
        self.fill(&mut head, deadline)?;
        let [a, b, c, d, kind] = head;
        let told = u32::from_be_bytes([a, b, c, d]);
        let length = usize::try_from(told).ok().and_then(|length| length.checked_sub(1));
        let Some(length) = length.filter(|&length| length < LONGEST_REPLY) else {
            return Err(Error::Protocol(format!("a frame of {told} bytes")));
        };
        let (due, lengths) = request.command.due();
        if kind == REFUSED && length == 1 {
            let mut number = [0];
            self.fill(&mut number, deadline)?;
            return Ok(Err(refusal(number[0])?));
        }
        if kind != due || !lengths.contains(&length) {
            return Err(Error::Protocol(format!("{length} bytes of kind {kind:#04x} came, and {due:#04x} is due with {lengths:?}")));
        }
        match &mut request.into {
            Some(into) if kind == BYTES && into.len() == length => {
                self.fill(into, deadline)?;
                Ok(Ok(Reply::Bytes(Vec::new())))
            }
            _ => {
                let mut body = vec![0; length];
                self.fill(&mut body, deadline)?;
                Ok(Ok(Reply::of(kind, &body)?))
            }
        }
    }

    /// Fills the buffer, first from what was read ahead. What comes after it is read ahead in the same call.
    fn fill(&mut self, into: &mut [u8], deadline: Deadline) -> Result<(), Error> {
        let mut at = into.len().min(self.end - self.start);
        into[..at].copy_from_slice(&self.ahead[self.start..self.start + at]);
        self.start += at;
        while at < into.len() {
            self.limit_reading(deadline)?;
            let missing = into.len() - at;
            let parts = &mut [IoSliceMut::new(&mut into[at..]), IoSliceMut::new(&mut self.ahead)];
            match self.socket.read_vectored(parts) {
                Ok(0) => return Err(SERVER_GONE),
                Ok(count) => {
                    at += count.min(missing);
                    (self.start, self.end) = (0, count.saturating_sub(missing));
                }
                Err(error) if error.kind() == ErrorKind::ConnectionReset => return Err(SERVER_GONE),
                Err(error) => passed_over(error)?,
            }
        }
        Ok(())
    }

    fn limit_reading(&mut self, deadline: Deadline) -> Result<(), Error> {
        let left = deadline.left()?;
        if left != self.limits.read {
            self.socket.set_read_timeout(left)?;
            self.limits.read = left;
        }
        Ok(())
    }

    // ---- the end

    /// Whether the server hasn't closed the session, and hasn't sent what nobody asked for.
    pub(crate) fn is_quiet(&mut self) -> bool {
        if self.start != self.end || self.socket.set_nonblocking(true).is_err() {
            return false;
        }
        let came = self.socket.read(&mut [0]);
        let is_quiet = matches!(came, Err(error) if error.kind() == ErrorKind::WouldBlock);
        is_quiet && self.socket.set_nonblocking(false).is_ok()
    }

    /// Sends no more, and waits until the server has answered all that it was sent. Whether it has.
    pub(crate) fn finish(&mut self, deadline: Deadline) -> bool {
        if self.socket.shutdown(Shutdown::Write).is_err() {
            return false;
        }
        loop {
            if self.limit_reading(deadline).is_err() {
                return false;
            }
            match self.socket.read(&mut self.ahead) {
                Ok(0) => return true,
                Err(error) if error.kind() != ErrorKind::Interrupted => return false,
                _ => {}
            }
        }
    }
}

/// A call that was interrupted is made again; one whose time was over is a timeout.
fn passed_over(error: io::Error) -> Result<(), Error> {
    match error.kind() {
        ErrorKind::Interrupted => Ok(()),
        ErrorKind::WouldBlock | ErrorKind::TimedOut => Err(Error::Timeout),
        _ => Err(Error::Io(error)),
    }
}

fn connect_now(path: &Path) -> io::Result<UnixStream> {
    loop {
        match UnixStream::connect(path) {
            Err(error) if error.kind() == ErrorKind::Interrupted => {}
            Err(error) => return Err(io::Error::new(error.kind(), format!("{}: {error}", path.display()))),
            connected => return connected,
        }
    }
}

/// Connects in a thread of its own: the standard library can't bound how long a server with a full queue is waited for. The thread
/// ends once the server takes or refuses the connection.
fn connect_within(path: PathBuf, left: Duration) -> Result<UnixStream, Error> {
    let (sender, receiver) = mpsc::channel();
    let connecting = move || {
        // nobody listens any more if the time is over
        let _ = sender.send(connect_now(&path));
    };
    thread::Builder::new().name("store_client".to_owned()).spawn(connecting)?;
    match receiver.recv_timeout(left) {
        Ok(connected) => Ok(connected?),
        Err(mpsc::RecvTimeoutError::Timeout) => Err(Error::Timeout),
        Err(mpsc::RecvTimeoutError::Disconnected) => Err(Error::Lost("nothing came of the attempt to connect")),
    }
}
