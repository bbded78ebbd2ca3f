//! The bytes of an object that was got.

use std::fmt;
use std::ops::Deref;

use crate::deadline::Deadline;
use crate::error::Error;
use crate::frame::Command;
use crate::id::ObjectId;
use crate::session::Session;

/// An object's bytes, read, and a hold of the session on the object until it is dropped or released.
///
/// As long as it is held, the object stays at the node though it is deleted. The bytes stay until the `Held` is dropped. An object that
/// another job granted is never held.
pub struct Held<'a> {
    holder: Option<&'a Session>,
    id: ObjectId,
    bytes: Vec<u8>,
}

impl<'a> Held<'a> {
    pub(crate) fn new(holder: Option<&'a Session>, id: ObjectId, length: usize) -> Held<'a> {
        Held { holder, id, bytes: vec![0; length] }
    }

    pub(crate) fn buffer(&mut self) -> &mut [u8] {
        &mut self.bytes
    }

    /// The object.
    pub fn id(&self) -> ObjectId {
        self.id
    }

    /// Gives the hold up, once, and says whether that went well. The bytes that were read stay.
    pub fn release(&mut self) -> Result<(), Error> {
        self.release_until(Deadline::NEVER)
    }

    pub(crate) fn release_until(&mut self, deadline: Deadline) -> Result<(), Error> {
        match self.holder.take() {
            Some(session) => session.ask(Command::Release(self.id), deadline).map(drop),
            None => Ok(()),
        }
    }

    /// The bytes alone; the hold is given up.
    pub fn into_bytes(mut self) -> Vec<u8> {
        std::mem::take(&mut self.bytes)
    }
}

impl Drop for Held<'_> {
    fn drop(&mut self) {
        if let Some(session) = self.holder.take() {
            session.release_later(self.id);
        }
    }
}

impl Deref for Held<'_> {
    type Target = [u8];

    fn deref(&self) -> &[u8] {
        &self.bytes
    }
}

impl AsRef<[u8]> for Held<'_> {
    fn as_ref(&self) -> &[u8] {
        &self.bytes
    }
}

impl fmt::Debug for Held<'_> {
    fn fmt(&self, f: &mut fmt::Formatter<'_>) -> fmt::Result {
        let held = if self.holder.is_some() { "held" } else { "not held" };
        write!(f, "Held({}, {} bytes, {held})", self.id, self.bytes.len())
    }
}
