//! What a put of one whole object does.
//!
//! A put under a new id, which nobody else can know, is sent in one burst: Create, the Writes, Seal. Under an id that was given, others
//! may know the object: it is created first, since otherwise our Writes would go into a copy that another producer is writing; and it
//! is sealed once all Writes are answered, since nobody should see it half written.
//!
//! A Create that meets a fetch in the object's place takes the fetch away, by a Get and never by a Delete: a fetch that failed is removed
//! by that, and any other copy stays what it is.

use std::time::Duration;

use crate::deadline::{Deadline, Pauses};
use crate::error::Error;
use crate::frame::{Command, CopyKind, State};
use crate::id::ObjectId;
use crate::refusal::Refusal;
use crate::session::{first_refusal, is_for_now, writes, Session};
use crate::stream::{Answer, Request};

/// Up to which length, in bytes, the whole object is sent with its Create: what is longer would be sent in vain too often.
const BURST: usize = 1 << 20;

impl Session {
    /// A sealed object of these bytes, 1 to 16,777,216, under a new id ([`Session::new_id`]).
    ///
    /// Waits while room is to come ([`Refusal::Pending`], [`Refusal::Busy`]); with a timeout at most so long, and then the last refusal
    /// is the error. Other refusals are told at once: [`Refusal::BadSize`], [`Refusal::Full`], [`Refusal::TooMany`] and others.
    ///
    /// If the object can't be written whole it is deleted again, by another session if this one is lost by that. It stays unsealed if
    /// the server doesn't answer any more, or if the process ends; [`Session::list`] shows it as [`State::Created`].
    pub fn put(&self, bytes: &[u8], timeout: Option<Duration>) -> Result<ObjectId, Error> {
        let mut copy = NewCopy::new(self, self.new_id()?, true);
        copy.made(bytes, Deadline::after(timeout))?;
        Ok(copy.id)
    }

    /// The same under an id that was given: [`Refusal::Exists`] if it is there already. A fetch in its place, which a get has left there,
    /// is taken away.
    ///
    /// An object that can't be written whole stays unsealed, too, if the session is lost before it is known whose copy it is.
    pub fn put_as(&self, id: ObjectId, bytes: &[u8], timeout: Option<Duration>) -> Result<(), Error> {
        NewCopy::new(self, id, false).made(bytes, Deadline::after(timeout))
    }
}

/// A copy that is to be created. Whether there is one to be taken back is known at any time, also after a fault.
pub(crate) struct NewCopy<'a> {
    session: &'a Session,
    pub(crate) id: ObjectId,
    // that nobody else can know the id
    is_secret: bool,
    is_created: bool,
    // that a Create was sent and not answered
    is_open: bool,
}

impl<'a> NewCopy<'a> {
    /// `is_secret` says that nobody else can know the id.
    pub(crate) fn new(session: &'a Session, id: ObjectId, is_secret: bool) -> NewCopy<'a> {
        NewCopy { session, id, is_secret, is_created: false, is_open: false }
    }

    /// Whether a Create was answered with a copy; or may have been, if nobody else can know the id.
    pub(crate) fn is_ours(&self) -> bool {
        self.is_created || (self.is_secret && self.is_open)
    }

    /// Creates, writes and seals it, or takes it back.
    pub(crate) fn made(&mut self, bytes: &[u8], deadline: Deadline) -> Result<(), Error> {
        let done = if self.is_secret { self.fill_new(bytes, deadline) } else { self.fill_named(bytes, deadline) };
        if done.is_err() && self.is_ours() {
            self.session.take_back(&[self.id], deadline);
        }
        done
    }

    fn fill_new(&mut self, bytes: &[u8], deadline: Deadline) -> Result<(), Error> {
        let is_short = (1..=BURST).contains(&bytes.len());
        if is_short && self.fill_in_one_burst(bytes, deadline)? {
            return Ok(());
        }
        self.reserve(bytes.len(), deadline)?;
        let mut requests = writes(self.id, 0, bytes)?;
        requests.push(Command::Seal(self.id).into());
        self.session.ask_all(&mut requests, deadline)
    }

    /// Whether there was room at once; no, if the copy has to be waited for.
    fn fill_in_one_burst(&mut self, bytes: &[u8], deadline: Deadline) -> Result<bool, Error> {
        let mut requests = vec![self.create(bytes.len())?];
        requests.append(&mut writes(self.id, 0, bytes)?);
        requests.push(Command::Seal(self.id).into());
        let answers = self.exchange(&mut requests, 0, deadline)?;
        match answers.first() {
            Some(Err(refusal)) if is_for_now(*refusal) => Ok(false),
            _ => first_refusal(&answers).map(|()| true),
        }
    }

    fn fill_named(&mut self, bytes: &[u8], deadline: Deadline) -> Result<(), Error> {
        self.reserve(bytes.len(), deadline)?;
        self.write_and_seal(bytes, deadline)
    }

    /// Fills a copy that was created, and seals it once all of it is there.
    pub(crate) fn write_and_seal(&self, bytes: &[u8], deadline: Deadline) -> Result<(), Error> {
        self.session.ask_all(&mut writes(self.id, 0, bytes)?, deadline)?;
        self.session.ask(Command::Seal(self.id), deadline).map(|_| ())
    }

    /// Creates the copy, as soon as there is room and no fetch in its place.
    pub(crate) fn reserve(&mut self, length: usize, deadline: Deadline) -> Result<(), Error> {
        let mut pauses = Pauses::new();
        loop {
            let answers = self.exchange(&mut [self.create(length)?], 0, deadline)?;
            let refusal = match refusal_at(&answers, 0) {
                Some(Refusal::Exists) => self.take_fetch_away(length, deadline)?,
                refusal => refusal,
            };
            match refusal {
                None => return Ok(()),
                Some(refusal) if deadline.is_over() || !is_for_now(refusal) => return Err(refusal.into()),
                Some(_) => pauses.pause(deadline),
            }
        }
    }

    /// Creates the copy in the place of a fetch that has failed. It is Pending as long as the fetch hasn't, and Exists if another copy
    /// is there.
    fn take_fetch_away(&mut self, length: usize, deadline: Deadline) -> Result<Option<Refusal>, Error> {
        let state = self.session.state_of(self.id, deadline)?;
        if state.is_some_and(|state| state != State::Fetching) {
            return Ok(Some(Refusal::Exists));
        }
        let mut requests = [Command::Get(self.id).into(), self.create(length)?];
        let answers = self.exchange(&mut requests, 1, deadline)?;
        match (refusal_at(&answers, 0), refusal_at(&answers, 1)) {
            (_, None) => Ok(None),
            (None, Some(_)) => {
                self.session.ask(Command::Release(self.id), deadline)?;
                Ok(Some(Refusal::Exists))
            }
            (Some(_), Some(Refusal::Exists)) => Ok(Some(Refusal::Pending)),
            (Some(_), refusal) => Ok(refusal),
        }
    }

    fn create(&self, length: usize) -> Result<Request<'static>, Error> {
        // what no frame can say is no length of an object
        let length = u32::try_from(length).map_err(|_| Error::Refused(Refusal::BadSize))?;
        Ok(Command::Create { id: self.id, kind: CopyKind::Primary, length }.into())
    }

    /// The answers to a burst whose Create is at this place.
    fn exchange(&mut self, requests: &mut [Request<'_>], create: usize, deadline: Deadline) -> Result<Vec<Answer>, Error> {
        let mut answers = Vec::with_capacity(requests.len());
        let done = self.session.exchange(requests, deadline, &mut answers);
        self.is_open = answers.len() <= create;
        self.is_created = self.is_created || matches!(answers.get(create), Some(Ok(_)));
        done.map(|()| answers)
    }
}

fn refusal_at(answers: &[Answer], place: usize) -> Option<Refusal> {
    answers.get(place).and_then(|answer| answer.as_ref().err()).copied()
}
