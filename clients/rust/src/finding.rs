//! How a get looks for what may not be there yet, and leaves nothing in a producer's way.
//!
//! A Get of an id that the node doesn't know enters a fetch, and answers Pending. The next Get is told what came of it: if no node has the
//! object sealed, Absent, and the fetch is removed. In between, a Create of the object is Exists. So a Get that is Pending is at once
//! followed by another, and from the second look on both are sent together. What is pending after two Gets is a transfer, or a restore
//! from the device: it goes on by itself, and is asked about by a Read of no bytes, which changes nothing, and by a Get now and then. A
//! fetch that finds no room is deleted by the look that found it.

use std::time::{Duration, Instant};

use crate::deadline::{Deadline, Pauses};
use crate::error::Error;
use crate::frame::{Command, Listing, Reply, State, MOST_BYTES};
use crate::held::Held;
use crate::id::ObjectId;
use crate::refusal::Refusal;
use crate::session::{first_refusal, pieces, unexpected, Session};
use crate::stream::{Answer, Request};

/// After how long a transfer is asked for again, at first and at most.
const FIRST_REMINDER: Duration = Duration::from_millis(100);
const LAST_REMINDER: Duration = Duration::from_secs(2);

impl Session {
    /// An object's bytes, held until they are dropped or released.
    ///
    /// Without a timeout, the object is got if it is sealed at this node or another one, and brought here if need be; otherwise it is
    /// [`Refusal::Absent`] or [`Refusal::NotSealed`]. With one it is also waited for until somebody has put it; once the time is over
    /// the last refusal is the error. A time of 0 looks once. A server that doesn't answer is [`Error::Timeout`], at the end of
    /// that time but not before a second.
    ///
    /// An object of another job is got if it is granted, and otherwise is [`Refusal::NotGranted`].
    pub fn get(&self, id: ObjectId, timeout: Option<Duration>) -> Result<Held<'_>, Error> {
        self.get_until(id, timeout.map(|time| Deadline::after(Some(time))))
    }

    pub(crate) fn get_until(&self, id: ObjectId, waited: Option<Deadline>) -> Result<Held<'_>, Error> {
        let deadline = waited.unwrap_or(Deadline::NEVER);
        if id.job() != self.job() {
            let length = self.granted_length(id, waited)?;
            let mut held = Held::new(None, id, length);
            self.ask_all(&mut peeks(id, held.buffer())?, deadline)?;
            return Ok(held);
        }
        let length = self.find(id, waited)?;
        // from here on a fault gives up the hold
        let mut held = Held::new(Some(self), id, length);
        self.ask_all(&mut reads(id, held.buffer())?, deadline)?;
        Ok(held)
    }

    /// Fills the buffer with the object's bytes, which are as many; no hold stays. Waits and is refused as [`Session::get`].
    /// [`Error::Invalid`] if the object has another length: the buffer is as it was then. Up to 65,536 bytes take one trip to the server,
    /// if the session holds nothing.
    pub fn get_into(&self, id: ObjectId, buffer: &mut [u8], timeout: Option<Duration>) -> Result<(), Error> {
        self.get_into_until(id, buffer, timeout.map(|time| Deadline::after(Some(time))))
    }

    pub(crate) fn get_into_until(&self, id: ObjectId, buffer: &mut [u8], waited: Option<Deadline>) -> Result<(), Error> {
        let deadline = waited.unwrap_or(Deadline::NEVER);
        if id.job() != self.job() {
            fits(self.granted_length(id, waited)?, buffer)?;
            return self.ask_all(&mut peeks(id, buffer)?, deadline);
        }
        let likely = if buffer.len() <= MOST_BYTES { buffer.len() } else { 0 };
        let mut search = Search::new(id, likely);
        let length = self.look_for(&mut search, waited)?;
        if let Some(answer) = search.bytes {
            self.release_all(id, search.holds, deadline)?;
            buffer.copy_from_slice(&answer?);
            return Ok(());
        }
        if let Err(error) = fits(length, buffer) {
            self.release_all(id, search.holds, deadline)?;
            return Err(error);
        }
        let mut requests = reads(id, buffer)?;
        requests.push(Command::Release(id).into());
        self.ask_all(&mut requests, deadline)
    }

    /// Whether the object lies sealed at this node, in memory or on the device, or is granted to the job. Nothing changes by it. A copy
    /// that is deleted and still held by a session counts.
    pub fn contains(&self, id: ObjectId) -> Result<bool, Error> {
        let is_own = id.job() == self.job();
        let (offset, count) = (0, 0);
        let question = if is_own { Command::Read { id, offset, count } } else { Command::Peek { id, offset, count } };
        match self.ask_ok(question) {
            Ok(()) | Err(Error::Refused(Refusal::NotHeld)) => Ok(true),
            Err(Error::Refused(Refusal::Absent | Refusal::NotSealed | Refusal::NotGranted)) => Ok(false),
            Err(error) => Err(error),
        }
    }

    /// The state of this job's copy at the node, if there is one.
    pub(crate) fn state_of(&self, id: ObjectId, deadline: Deadline) -> Result<Option<State>, Error> {
        let listing = self.listing(deadline)?;
        Ok(listing.own.iter().find(|item| item.id == id).map(|item| item.state))
    }

    pub(crate) fn listing(&self, deadline: Deadline) -> Result<Listing, Error> {
        match self.ask(Command::List, deadline)? {
            Reply::List(listing) => Ok(listing),
            _ => Err(unexpected()),
        }
    }

    /// The length of an object that another job granted. With a deadline the grant is waited for.
    fn granted_length(&self, id: ObjectId, waited: Option<Deadline>) -> Result<usize, Error> {
        let mut pauses = Pauses::new();
        loop {
            let listing = self.listing(waited.unwrap_or(Deadline::NEVER))?;
            if let Some(item) = listing.granted.iter().find(|item| item.id == id) {
                return Ok(item.length as usize);
            }
            match waited {
                Some(deadline) if !deadline.is_over() => pauses.pause(deadline),
                _ => return Err(Refusal::NotGranted.into()),
            }
        }
    }

    /// One hold of an object of this job, and its length. With a deadline it is waited for.
    pub(crate) fn find(&self, id: ObjectId, waited: Option<Deadline>) -> Result<usize, Error> {
        self.look_for(&mut Search::new(id, 0), waited)
    }

    /// The same, but there is no hold if the session had none and the bytes were asked for at once.
    fn look_for(&self, search: &mut Search, waited: Option<Deadline>) -> Result<usize, Error> {
        let deadline = waited.unwrap_or(Deadline::NEVER);
        let mut pauses = Pauses::new();
        loop {
            self.look(search, deadline)?;
            match (&search.phase, search.refusal) {
                (Phase::Found(length), _) => {
                    let length = *length as usize;
                    self.release_all(search.id, search.holds.saturating_sub(1), deadline)?;
                    search.holds = search.holds.min(1);
                    return Ok(length);
                }
                (Phase::Over, refusal) => return Err(refusal.unwrap_or(Refusal::Absent).into()),
                // without a deadline what is on its way is waited for, and nothing else
                (_, refusal) if waited.map_or(refusal != Some(Refusal::Pending), Deadline::is_over) => {
                    return Err(refusal.unwrap_or(Refusal::Absent).into());
                }
                _ => pauses.pause(deadline),
            }
        }
    }

    /// One look, asked to its end.
    fn look(&self, search: &mut Search, deadline: Deadline) -> Result<(), Error> {
        loop {
            if search.likely > 0 {
                self.look_and_read(search, deadline)?;
            } else {
                let is_read = search.asks_by_reading();
                let answers = self.answers(&mut search.questions(), deadline)?;
                search.hear(is_read, &answers);
            }
            if matches!(search.refusal, Some(Refusal::Full | Refusal::BadSize)) {
                self.drop_fetch(search.id, deadline)?;
            }
            if !matches!(search.phase, Phase::Entered) {
                return Ok(());
            }
        }
    }

    /// The first look at an object that is likely to have a length.
    fn look_and_read(&self, search: &mut Search, deadline: Deadline) -> Result<(), Error> {
        let (id, length) = (search.id, std::mem::take(&mut search.likely));
        let mut bytes = vec![0; length];
        let mut requests: Vec<Request<'_>> = vec![Command::Get(id).into()];
        requests.append(&mut reads(id, &mut bytes)?);
        requests.push(Command::Release(id).into());
        let mut answers = Vec::with_capacity(requests.len());
        self.exchange_but(1, &mut requests, deadline, &mut answers)?;
        let is_released = answers.len() == requests.len();
        search.hear(false, &answers[..1]);
        if let Phase::Found(found) = search.phase {
            search.holds -= usize::from(is_released);
            if found as usize == length {
                search.bytes = Some(first_refusal(&answers[1..]).map(|()| bytes));
            }
        }
        Ok(())
    }

    /// If the copy that found no room is a fetch, it is given up. A refusal of that means that somebody else was first.
    fn drop_fetch(&self, id: ObjectId, deadline: Deadline) -> Result<(), Error> {
        if self.state_of(id, deadline)? == Some(State::Fetching) {
            self.answers(&mut [Command::Delete(id).into()], deadline)?;
        }
        Ok(())
    }

    fn release_all(&self, id: ObjectId, holds: usize, deadline: Deadline) -> Result<(), Error> {
        let mut releases: Vec<Request<'_>> = (0..holds).map(|_| Command::Release(id).into()).collect();
        self.ask_all(&mut releases, deadline)
    }
}

/// What is asked next of an object.
enum Phase {
    /// One Get.
    Unknown,
    /// One Get, at once.
    Entered,
    /// A Read of no bytes, or a Get when it is time.
    UnderWay,
    /// Two Gets.
    Missing,
    /// Nothing: it is here, and has this length.
    Found(u32),
    /// Nothing: it is refused for a reason that doesn't pass.
    Over,
}

/// What is known of one object that is waited for.
struct Search {
    id: ObjectId,
    phase: Phase,
    refusal: Option<Refusal>,
    // the length that the object is likely to have, or 0: its bytes are asked for with the first Get, and the hold is given up in the same
    // trip, if the session has no other
    likely: usize,
    // what came of that, if the length was right
    bytes: Option<Result<Vec<u8>, Error>>,
    // how many holds the search has
    holds: usize,
    reminder: Duration,
    remind_at: Instant,
}

impl Search {
    fn new(id: ObjectId, likely: usize) -> Search {
        let (phase, reminder, remind_at) = (Phase::Unknown, FIRST_REMINDER, Instant::now());
        Search { id, phase, refusal: None, likely, bytes: None, holds: 0, reminder, remind_at }
    }

    fn asks_by_reading(&self) -> bool {
        matches!(self.phase, Phase::UnderWay) && Instant::now() < self.remind_at
    }

    fn questions(&self) -> Vec<Request<'static>> {
        let get = || Command::Get(self.id).into();
        match self.phase {
            Phase::Missing => vec![get(), get()],
            Phase::UnderWay if self.asks_by_reading() => vec![Command::Read { id: self.id, offset: 0, count: 0 }.into()],
            _ => vec![get()],
        }
    }

    fn hear(&mut self, is_read: bool, answers: &[Answer]) {
        if is_read {
            // a copy that is no longer being fetched is here, or being restored, or gone: a Get tells
            if !matches!(answers, [Err(Refusal::NotSealed)]) {
                self.phase = Phase::Entered;
            }
            return;
        }
        let lengths: Vec<u32> = answers.iter().filter_map(|answer| length_in(answer.as_ref().ok())).collect();
        if let Some(&length) = lengths.first() {
            (self.phase, self.refusal, self.holds) = (Phase::Found(length), None, lengths.len());
            return;
        }
        for &refusal in answers.iter().filter_map(|answer| answer.as_ref().err()) {
            self.phase = self.phase_after(refusal);
            self.refusal = Some(refusal);
        }
    }

    fn phase_after(&mut self, refusal: Refusal) -> Phase {
        if refusal == Refusal::Pending {
            // this Get may have entered the fetch
            if self.refusal != Some(Refusal::Pending) {
                return Phase::Entered;
            }
            self.remind_at = Instant::now() + self.reminder;
            self.reminder = (2 * self.reminder).min(LAST_REMINDER);
            return Phase::UnderWay;
        }
        self.reminder = FIRST_REMINDER;
        match refusal {
            Refusal::Absent | Refusal::NotSealed | Refusal::Busy => Phase::Missing,
            _ => Phase::Over,
        }
    }
}

fn length_in(reply: Option<&Reply>) -> Option<u32> {
    match reply {
        Some(Reply::Got(length)) => Some(*length),
        _ => None,
    }
}

fn fits(length: usize, buffer: &[u8]) -> Result<(), Error> {
    if length == buffer.len() {
        return Ok(());
    }
    Err(Error::Invalid(format!("the object has {length} bytes, and the buffer {}", buffer.len())))
}

fn reads(id: ObjectId, buffer: &mut [u8]) -> Result<Vec<Request<'_>>, Error> {
    pieces(0, buffer, |offset, count| Command::Read { id, offset, count })
}

fn peeks(id: ObjectId, buffer: &mut [u8]) -> Result<Vec<Request<'_>>, Error> {
    pieces(0, buffer, |offset, count| Command::Peek { id, offset, count })
}
