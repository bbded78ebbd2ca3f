//! A session with a node: its commands.

use std::fmt;
use std::fs::File;
use std::io::Read;
use std::path::{Path, PathBuf};
use std::sync::{Condvar, Mutex, MutexGuard, PoisonError};
use std::time::Duration;

use crate::deadline::{Deadline, GRACE};
use crate::error::Error;
use crate::frame::{Command, CopyKind, Key, Listing, Placed, Reply, Usage, MOST_BYTES};
use crate::id::{ObjectId, Task};
use crate::refusal::Refusal;
use crate::stream::{Answer, Request, Stream};

/// So long the server has to do what it was sent before, and to delete what was left, once a put was cut off.
const LAST_RESPECTS: Duration = Duration::from_secs(1);

/// A session of a job with a node, over the node's Unix socket.
///
/// Threads may share it: their exchanges with the server take turns. It ends, and gives up its holds, when it is dropped. It is one
/// process's: after a fork the child opens its own.
pub struct Session {
    access: Access,
    turn: Mutex<Turn>,
    // that a stream was put back, or lost
    freed: Condvar,
    ids: Mutex<NewIds>,
}

/// What opens a session.
#[derive(Clone)]
pub(crate) struct Access {
    pub(crate) path: PathBuf,
    pub(crate) job: u32,
    pub(crate) key: Key,
    pub(crate) patience: Option<Duration>,
}

struct Turn {
    stream: Place,
    // holds that were dropped while the session was in use
    dropped: Vec<ObjectId>,
    // whether the server has done all that it was sent, once the session is lost
    is_settled: bool,
}

enum Place {
    Here(Stream),
    InUse,
    Lost(&'static str),
}

/// The stream, as long as an exchange has it.
struct Taken<'a> {
    session: &'a Session,
    stream: Option<Stream>,
    dropped: Vec<ObjectId>,
    is_settled: bool,
}

impl Drop for Taken<'_> {
    fn drop(&mut self) {
        let mut turn = self.session.turn();
        turn.is_settled = self.is_settled;
        turn.stream = match self.stream.take() {
            Some(stream) => Place::Here(stream),
            None => Place::Lost("an earlier call lost it"),
        };
        drop(turn);
        self.session.freed.notify_all();
    }
}

impl Session {
    /// A session of the job at the node whose socket this is; the operator gave the key.
    ///
    /// With a patience, the server has so long to answer, now and whenever a call sends something, but for calls that have a timeout of
    /// their own and for the waits: one that doesn't is [`Error::Timeout`], and the session is lost. Without one it may take any time.
    ///
    /// [`Refusal::NotAdmitted`]; [`Error::Io`] if nobody listens; [`Error::Lost`] if the server has no place for a session.
    pub fn connect(path: impl AsRef<Path>, job: u32, key: &Key, patience: Option<Duration>) -> Result<Session, Error> {
        Session::open(Access { path: path.as_ref().to_owned(), job, key: *key, patience })
    }

    pub(crate) fn open(access: Access) -> Result<Session, Error> {
        let deadline = Deadline::after(access.patience);
        let stream = Stream::connect(&access.path, deadline)?;
        let turn = Turn { stream: Place::Here(stream), dropped: Vec::new(), is_settled: false };
        let hello = Command::Hello { job: access.job, key: access.key };
        let session = Session { access, turn: Mutex::new(turn), freed: Condvar::new(), ids: Mutex::default() };
        session.ask_ok(hello)?;
        Ok(session)
    }

    /// The number of the job that speaks.
    pub fn job(&self) -> u32 {
        self.access.job
    }

    /// Whether the session isn't lost, as far as is known.
    pub fn is_usable(&self) -> bool {
        !matches!(self.turn().stream, Place::Lost(_))
    }

    /// The job's object of this index, from 1, in its task of this number. [`Error::Invalid`].
    pub fn object(&self, task: u64, index: u32) -> Result<ObjectId, Error> {
        Ok(Task::numbered(task).object(self.job(), index)?)
    }

    /// An id that nobody else makes: of a random task, with the next index. [`Error::Io`] if the system has no random bytes.
    pub fn new_id(&self) -> Result<ObjectId, Error> {
        self.ids.lock().unwrap_or_else(PoisonError::into_inner).next(self.job())
    }

    // ---- the commands

    /// A copy of zeros to be written, of this length in bytes, and where it lies. [`Refusal::Exists`], [`Refusal::Pending`],
    /// [`Refusal::Full`], [`Refusal::BadSize`] and others.
    pub fn create(&self, id: ObjectId, kind: CopyKind, length: u32) -> Result<Placed, Error> {
        placed(self.ask(Command::Create { id, kind, length }, Deadline::NEVER)?)
    }

    /// As [`Session::create`], but the server answers once it isn't pending any more. A job can wait for itself without end: with a
    /// timeout the session is lost once that is over, but not before a second, and what becomes of the copy isn't known then.
    pub fn create_wait(&self, id: ObjectId, kind: CopyKind, length: u32, timeout: Option<Duration>) -> Result<Placed, Error> {
        placed(self.ask(Command::CreateWait { id, kind, length }, Deadline::after(timeout))?)
    }

    /// Writes the bytes from the offset on, while the copy is being written. More than 65,536 go in pieces; a refusal is of the first
    /// piece that was refused. [`Refusal::AlreadySealed`], [`Refusal::OutOfBounds`]; [`Error::Invalid`] if no number tells an offset.
    pub fn write(&self, id: ObjectId, offset: u32, bytes: &[u8]) -> Result<(), Error> {
        self.ask_all(&mut writes(id, offset, bytes)?, Deadline::NEVER)
    }

    /// The copy is immutable from now on, and others see it. [`Refusal::Absent`], [`Refusal::AlreadySealed`].
    pub fn seal(&self, id: ObjectId) -> Result<(), Error> {
        self.ask_ok(Command::Seal(id))
    }

    /// One hold more of the session on the sealed copy, and its length in bytes; or what brings it here is [`Refusal::Pending`], and has
    /// to be asked again until it is another answer, since a fetch lies in the object's place until then.
    pub fn hold(&self, id: ObjectId) -> Result<u32, Error> {
        got(self.ask(Command::Get(id), Deadline::NEVER)?)
    }

    /// As [`Session::hold`], but the server answers once it isn't pending any more. With a timeout the session is lost once that is
    /// over, but not before a second.
    pub fn hold_wait(&self, id: ObjectId, timeout: Option<Duration>) -> Result<u32, Error> {
        got(self.ask(Command::GetWait(id), Deadline::after(timeout))?)
    }

    /// Fills the buffer with bytes from the offset on of an object that the session holds. More than 65,536 come in pieces, several of
    /// them on their way at once. What the buffer has after a refusal isn't said. [`Refusal::NotHeld`], [`Refusal::OutOfBounds`].
    pub fn read(&self, id: ObjectId, offset: u32, buffer: &mut [u8]) -> Result<(), Error> {
        let command = |offset, count| Command::Read { id, offset, count };
        self.ask_all(&mut pieces(offset, buffer, command)?, Deadline::NEVER)
    }

    /// One hold of the session less. [`Refusal::NotHeld`].
    pub fn release(&self, id: ObjectId) -> Result<(), Error> {
        self.ask_ok(Command::Release(id))
    }

    /// The owner task lets the object go: it is removed once no task borrows it. [`Refusal::NotOwner`], [`Refusal::NotHeld`].
    pub fn unpin(&self, id: ObjectId, task: Task) -> Result<(), Error> {
        self.ask_ok(Command::Unpin { id, task })
    }

    /// The task refers to the object, which stays until the task gives it up or ends. [`Refusal::Exists`], [`Refusal::NotOwner`].
    pub fn borrow(&self, id: ObjectId, task: Task) -> Result<(), Error> {
        self.ask_ok(Command::Borrow { id, task })
    }

    /// The task that borrowed the object refers to it no longer. [`Refusal::Absent`].
    pub fn give_up(&self, id: ObjectId, task: Task) -> Result<(), Error> {
        self.ask_ok(Command::GiveUp { id, task })
    }

    /// The copy is removed once nobody holds it. [`Refusal::Absent`], [`Refusal::Granted`].
    pub fn delete(&self, id: ObjectId) -> Result<(), Error> {
        self.ask_ok(Command::Delete(id))
    }

    /// Removes all objects of the task at this node once nobody holds them. None of them can be created or got here any more.
    /// [`Refusal::Gone`], [`Refusal::TooMany`].
    pub fn end_task(&self, task: Task) -> Result<(), Error> {
        self.ask_ok(Command::EndTask(task))
    }

    /// The job may get and peek at the object. [`Refusal::Exists`], [`Refusal::NotResident`], [`Refusal::TooMany`] and others.
    pub fn grant(&self, id: ObjectId, job: u32) -> Result<(), Error> {
        self.ask_ok(Command::Grant { id, job })
    }

    /// The job may do so no longer, nor those to which it handed the grant on. [`Refusal::NotGranted`].
    pub fn withdraw(&self, id: ObjectId, job: u32) -> Result<(), Error> {
        self.ask_ok(Command::Withdraw { id, job })
    }

    /// As [`Session::read`], of an object that another job granted; it isn't held for that. [`Refusal::NotGranted`],
    /// [`Refusal::OutOfBounds`].
    pub fn peek(&self, id: ObjectId, offset: u32, buffer: &mut [u8]) -> Result<(), Error> {
        let command = |offset, count| Command::Peek { id, offset, count };
        self.ask_all(&mut pieces(offset, buffer, command)?, Deadline::NEVER)
    }

    /// The job's copies at the node, and what others granted to it.
    pub fn list(&self) -> Result<Listing, Error> {
        self.listing(Deadline::NEVER)
    }

    /// The job's quotas at the node, and what is used of them.
    pub fn usage(&self) -> Result<Usage, Error> {
        match self.ask(Command::Usage, Deadline::NEVER)? {
            Reply::Usage(usage) => Ok(usage),
            _ => Err(unexpected()),
        }
    }

    /// All holds of the session are given up. The session goes on.
    pub fn leave(&self) -> Result<(), Error> {
        self.ask_ok(Command::Leave)
    }

    // ---- how

    pub(crate) fn ask_ok(&self, command: Command<'_>) -> Result<(), Error> {
        self.ask(command, Deadline::NEVER).map(|_| ())
    }

    pub(crate) fn ask(&self, command: Command<'_>, deadline: Deadline) -> Result<Reply, Error> {
        let answer = self.answers(&mut [command.into()], deadline)?.pop();
        Ok(answer.ok_or_else(unexpected)??)
    }

    /// All of them are answered; the first refusal is the error.
    pub(crate) fn ask_all(&self, requests: &mut [Request<'_>], deadline: Deadline) -> Result<(), Error> {
        first_refusal(&self.answers(requests, deadline)?)
    }

    pub(crate) fn answers(&self, requests: &mut [Request<'_>], deadline: Deadline) -> Result<Vec<Answer>, Error> {
        let mut answers = Vec::with_capacity(requests.len());
        self.exchange(requests, deadline, &mut answers)?;
        Ok(answers)
    }

    /// Sends the requests in one burst, and adds their answers, also those before a fault. After a fault of the stream it isn't known which
    /// replies are still to come, so no other call can follow.
    pub(crate) fn exchange(&self, requests: &mut [Request<'_>], deadline: Deadline, answers: &mut Vec<Answer>) -> Result<(), Error> {
        self.exchange_but(0, requests, deadline, answers)
    }

    /// The same, but if the session holds something, so many of the last requests aren't sent. They are Releases after their Gets: if
    /// such a Get is refused, its Release would give up another hold.
    pub(crate) fn exchange_but(
        &self,
        last: usize,
        requests: &mut [Request<'_>],
        deadline: Deadline,
        answers: &mut Vec<Answer>,
    ) -> Result<(), Error> {
        let waits = requests.iter().any(|request| request.command.waits());
        let deadline = deadline.of_answers(self.access.patience.filter(|_| !waits));
        let mut taken = self.take_turn(deadline)?;
        let done = taken.exchange(last, requests, deadline, answers);
        if done.is_err() {
            let makes = requests.iter().any(|request| request.command.makes());
            taken.give_up(makes);
        }
        done
    }

    fn take_turn(&self, deadline: Deadline) -> Result<Taken<'_>, Error> {
        let mut turn = self.turn();
        loop {
            match self.taken_of(&mut turn)? {
                Some(taken) => return Ok(taken),
                None => turn = self.await_turn(turn, deadline)?,
            }
        }
    }

    /// The stream, if nobody has it. What is taken is given back by its end, which locks the turn.
    fn taken_of(&self, turn: &mut Turn) -> Result<Option<Taken<'_>>, Error> {
        match std::mem::replace(&mut turn.stream, Place::InUse) {
            Place::Here(stream) => {
                let dropped = std::mem::take(&mut turn.dropped);
                Ok(Some(Taken { session: self, stream: Some(stream), dropped, is_settled: false }))
            }
            Place::Lost(why) => {
                turn.stream = Place::Lost(why);
                Err(Error::Lost(why))
            }
            Place::InUse => Ok(None),
        }
    }

    fn await_turn<'a>(&self, turn: MutexGuard<'a, Turn>, deadline: Deadline) -> Result<MutexGuard<'a, Turn>, Error> {
        match deadline.left()? {
            None => Ok(self.freed.wait(turn).unwrap_or_else(PoisonError::into_inner)),
            Some(left) => Ok(self.freed.wait_timeout(turn, left).unwrap_or_else(PoisonError::into_inner).0),
        }
    }

    // no panic comes while it is locked, and what it has is whole at any time
    fn turn(&self) -> MutexGuard<'_, Turn> {
        self.turn.lock().unwrap_or_else(PoisonError::into_inner)
    }

    /// One hold less: now, or with the next call if another thread is in one. It is what a dropped [`crate::Held`] does.
    pub(crate) fn release_later(&self, id: ObjectId) {
        let taken = {
            let mut turn = self.turn();
            turn.dropped.push(id);
            self.taken_of(&mut turn)
        };
        if let Ok(Some(mut taken)) = taken {
            // a fault is told to the next call
            if taken.exchange(0, &mut [], Deadline::after(Some(GRACE)), &mut Vec::new()).is_err() {
                taken.give_up(false);
            }
        }
    }

    /// Deletes objects of ours, by another session if this one was lost by what made them. Nothing is told of it.
    pub(crate) fn take_back(&self, ids: &[ObjectId], deadline: Deadline) {
        let is_settled = self.turn().is_settled;
        let mut deletes: Vec<Request<'_>> = ids.iter().map(|&id| Command::Delete(id).into()).collect();
        if self.is_usable() {
            let _ = self.answers(&mut deletes, deadline);
        } else if is_settled {
            let access = Access { patience: Some(LAST_RESPECTS), ..self.access.clone() };
            let _ = Session::open(access).and_then(|other| other.answers(&mut deletes, Deadline::NEVER));
        }
    }

    /// Whether another thread may have the session: the server hasn't closed it, and no hold of it is left.
    pub(crate) fn is_as_new(&self) -> bool {
        let holds = match &mut self.turn().stream {
            Place::Here(stream) => stream.is_quiet().then(|| stream.holds()),
            _ => None,
        };
        holds.is_some_and(|holds| holds == 0 || self.leave().is_ok())
    }
}

impl fmt::Debug for Session {
    fn fmt(&self, f: &mut fmt::Formatter<'_>) -> fmt::Result {
        // without the key
        f.debug_struct("Session").field("path", &self.access.path).field("job", &self.access.job).finish_non_exhaustive()
    }
}

impl Taken<'_> {
    fn exchange(&mut self, last: usize, requests: &mut [Request<'_>], deadline: Deadline, answers: &mut Vec<Answer>) -> Result<(), Error> {
        // a panic in the middle loses the session, since the stream isn't here then
        let Some(mut stream) = self.stream.take() else { return Err(Error::Lost("an earlier call lost it")) };
        let mut releases: Vec<Request<'_>> = self.dropped.drain(..).map(|id| Command::Release(id).into()).collect();
        let released = stream.exchange(&mut releases, deadline, &mut Vec::new());
        let count = requests.len() - if stream.holds() == 0 { 0 } else { last };
        let done = released.and_then(|()| stream.exchange(&mut requests[..count], deadline, answers));
        self.stream = Some(stream);
        done
    }

    fn give_up(&mut self, makes: bool) {
        if let Some(mut stream) = self.stream.take() {
            self.is_settled = makes && stream.finish(Deadline::after(Some(LAST_RESPECTS)));
        }
    }
}

/// Ids that no other process, thread or session makes.
#[derive(Default)]
struct NewIds {
    task: Option<Task>,
    last: u32,
}

impl NewIds {
    fn next(&mut self, job: u32) -> Result<ObjectId, Error> {
        let task = match self.task {
            Some(task) if self.last < u32::MAX => task,
            _ => {
                self.last = 0;
                *self.task.insert(Task::from_bytes(random_bytes()?))
            }
        };
        self.last += 1;
        Ok(task.object(job, self.last)?)
    }
}

pub(crate) fn random_bytes<const N: usize>() -> Result<[u8; N], Error> {
    let mut bytes = [0; N];
    File::open("/dev/urandom")?.read_exact(&mut bytes)?;
    Ok(bytes)
}

/// The Writes of these bytes.
pub(crate) fn writes(id: ObjectId, offset: u32, bytes: &[u8]) -> Result<Vec<Request<'_>>, Error> {
    // no bytes are one Write of none
    let first = bytes.chunks(MOST_BYTES).next().unwrap_or_default();
    let others = bytes.chunks(MOST_BYTES).skip(1);
    let pieces = std::iter::once(first).chain(others).enumerate();
    pieces.map(|(number, bytes)| Ok(Command::Write { id, offset: piece_offset(offset, number)?, bytes }.into())).collect()
}

/// The Reads or Peeks that fill the buffer.
pub(crate) fn pieces<'a>(offset: u32, buffer: &'a mut [u8], command: impl Fn(u32, u32) -> Command<'a>) -> Result<Vec<Request<'a>>, Error> {
    if buffer.is_empty() {
        return Ok(vec![command(offset, 0).into()]);
    }
    let pieces = buffer.chunks_mut(MOST_BYTES).enumerate();
    let request = |(number, into): (usize, &'a mut [u8])| {
        // a piece has at most 65,536 bytes
        let command = command(piece_offset(offset, number)?, into.len() as u32);
        Ok(Request { command, into: Some(into) })
    };
    pieces.map(request).collect()
}

fn piece_offset(offset: u32, number: usize) -> Result<u32, Error> {
    let piece = number.checked_mul(MOST_BYTES).and_then(|before| u32::try_from(before).ok());
    let start = piece.and_then(|before| offset.checked_add(before));
    start.ok_or_else(|| Error::Invalid("an offset of more than 4,294,967,295 bytes".to_owned()))
}

pub(crate) fn first_refusal(answers: &[Answer]) -> Result<(), Error> {
    answers.iter().find_map(|answer| answer.as_ref().err()).map_or(Ok(()), |&refusal| Err(Error::Refused(refusal)))
}

/// The kind of each reply was looked at when it came.
pub(crate) fn unexpected() -> Error {
    Error::Protocol("a reply of another kind".to_owned())
}

fn placed(reply: Reply) -> Result<Placed, Error> {
    match reply {
        Reply::Placed(placed) => Ok(placed),
        _ => Err(unexpected()),
    }
}

fn got(reply: Reply) -> Result<u32, Error> {
    match reply {
        Reply::Got(length) => Ok(length),
        _ => Err(unexpected()),
    }
}

/// Whether a refusal says that it may be another answer later on, without anybody's doing.
pub(crate) fn is_for_now(refusal: Refusal) -> bool {
    matches!(refusal, Refusal::Pending | Refusal::Busy)
}
