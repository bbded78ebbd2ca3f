//! Sessions for the threads of a process.

use std::fmt;
use std::ops::Deref;
use std::path::Path;
use std::sync::{Arc, Condvar, Mutex, MutexGuard, PoisonError};
use std::time::Duration;

use crate::deadline::Deadline;
use crate::error::Error;
use crate::frame::Key;
use crate::session::{Access, Session};

/// Sessions of one job with one node, at most so many, which are lent to threads.
///
/// A session that comes back is lent again, unless it is lost: then it is closed, and another one is opened when it is needed. Holds that
/// were left in it are given up.
pub struct Pool {
    access: Access,
    most: usize,
    shelf: Mutex<Shelf>,
    // that a session came back, or that one may be opened
    freed: Condvar,
}

#[derive(Default)]
struct Shelf {
    idle: Vec<Arc<Session>>,
    // those that are lent, or being opened
    lent: usize,
}

impl Pool {
    /// As [`Session::connect`]; nothing is opened yet. [`Error::Invalid`] if the pool is to have no session at all.
    pub fn new(path: impl AsRef<Path>, job: u32, key: &Key, patience: Option<Duration>, most: usize) -> Result<Pool, Error> {
        if most == 0 {
            return Err(Error::Invalid("a pool has at least one session".to_owned()));
        }
        let access = Access { path: path.as_ref().to_owned(), job, key: *key, patience };
        Ok(Pool { access, most, shelf: Mutex::default(), freed: Condvar::new() })
    }

    /// A session for the caller alone, until the lease is dropped: one that came back, or a new one.
    ///
    /// If all are lent, one is waited for, with a timeout at most so long: then it is [`Error::Timeout`]. A thread that waits for a second
    /// session while it has one may wait for itself. Otherwise as [`Session::connect`].
    pub fn session(&self, timeout: Option<Duration>) -> Result<Lease<'_>, Error> {
        let deadline = Deadline::after(timeout);
        let place = self.place(deadline)?;
        // a server that was ended, and perhaps started again, has closed what came back before
        let idle = self.shelf().idle.pop();
        let session = match idle.filter(|session| session.is_as_new()) {
            Some(session) => session,
            None => Arc::new(Session::open(self.access.clone())?),
        };
        Ok(Lease { session, place })
    }

    /// How many sessions came back, and aren't lent.
    pub fn idle_sessions(&self) -> usize {
        self.shelf().idle.len()
    }

    fn place(&self, deadline: Deadline) -> Result<Placed<'_>, Error> {
        let mut shelf = self.shelf();
        while shelf.lent >= self.most {
            shelf = match deadline.left()? {
                None => self.freed.wait(shelf).unwrap_or_else(PoisonError::into_inner),
                Some(left) => self.freed.wait_timeout(shelf, left).unwrap_or_else(PoisonError::into_inner).0,
            };
        }
        shelf.lent += 1;
        Ok(Placed { pool: self })
    }

    // no panic comes while it is locked
    fn shelf(&self) -> MutexGuard<'_, Shelf> {
        self.shelf.lock().unwrap_or_else(PoisonError::into_inner)
    }
}

impl fmt::Debug for Pool {
    fn fmt(&self, f: &mut fmt::Formatter<'_>) -> fmt::Result {
        // without the key
        let mut shown = f.debug_struct("Pool");
        shown.field("path", &self.access.path).field("job", &self.access.job).field("most", &self.most).finish_non_exhaustive()
    }
}

/// The right to have one session more, which goes back in any case.
struct Placed<'a> {
    pool: &'a Pool,
}

impl Drop for Placed<'_> {
    fn drop(&mut self) {
        self.pool.shelf().lent -= 1;
        self.pool.freed.notify_one();
    }
}

/// A session of a pool's, until it is dropped.
pub struct Lease<'a> {
    session: Arc<Session>,
    // it is dropped after what is done below, so there are never too many
    place: Placed<'a>,
}

impl Drop for Lease<'_> {
    fn drop(&mut self) {
        if self.session.is_as_new() {
            self.place.pool.shelf().idle.push(Arc::clone(&self.session));
        }
    }
}

impl Deref for Lease<'_> {
    type Target = Session;

    fn deref(&self) -> &Session {
        &self.session
    }
}

impl fmt::Debug for Lease<'_> {
    fn fmt(&self, f: &mut fmt::Formatter<'_>) -> fmt::Result {
        write!(f, "Lease({:?})", self.session)
    }
}
