//! What is longer than one object: put in parts with a manifest, as a whole or not at all.
//!
//! The manifest is created first, so it is known at once whether its id is free; then the parts are put, one after the other; then
//! the manifest is written and sealed. Who finds it sealed finds all parts. The parts' ids are of the manifest's task if its id was given,
//! so they end with it. The manifest's bytes are those of the client in Python.

use std::collections::{HashMap, HashSet};
use std::time::Duration;

use crate::deadline::Deadline;
use crate::error::Error;
use crate::frame::{State, LARGEST};
use crate::id::{ObjectId, ID_BYTES};
use crate::putting::NewCopy;
use crate::refusal::Refusal;
use crate::session::{random_bytes, Session};

const MANIFEST: &[u8; 8] = b"store\0m1";
/// What comes before the ids, in bytes: those, the length of the whole, the length of each part.
const HEAD_BYTES: usize = 20;
/// The manifest and its parts are copies of a job at a node, which has at most 1,024.
const MOST_PARTS: usize = 1023;
/// So many parts have room beside each other in the window.
const PARTS_OF_A_WINDOW: u64 = 16;
/// The parts of an object whose id was given have indexes from here on in its task, which hardly anybody gives.
const FIRST_INDEX: u32 = 1 << 31;

impl Session {
    /// Bytes of any length, under a new id. What is longer than an object, or than the window, is put in parts, which
    /// [`Session::get_whole`] puts together again: all of them, or none. There are at most 1,023 parts, each of at most a sixteenth of
    /// the window; what would need more is [`Refusal::BadSize`].
    /// Waits and is refused as [`Session::put`].
    pub fn put_whole(&self, bytes: &[u8], timeout: Option<Duration>) -> Result<ObjectId, Error> {
        let deadline = Deadline::after(timeout);
        let mut copy = NewCopy::new(self, self.new_id()?, true);
        self.fill_whole(&mut copy, bytes, deadline, |_| self.new_id())?;
        Ok(copy.id)
    }

    /// The same under an id that was given. Waits and is refused as [`Session::put_as`].
    pub fn put_whole_as(&self, id: ObjectId, bytes: &[u8], timeout: Option<Duration>) -> Result<(), Error> {
        let first = FIRST_INDEX + u32::from_be_bytes(random_bytes()?) % (FIRST_INDEX - MOST_PARTS as u32);
        // a number is below that of the most parts
        let part = |number: usize| Ok(id.task().object(id.job(), first + number as u32)?);
        self.fill_whole(&mut NewCopy::new(self, id, false), bytes, Deadline::after(timeout), part)
    }

    /// The bytes that [`Session::put_whole`] or another put has stored, without a hold. Waits and is refused as [`Session::get`].
    /// [`Error::Invalid`] if it is a manifest that can't be right, or a part has another length than it says.
    pub fn get_whole(&self, id: ObjectId, timeout: Option<Duration>) -> Result<Vec<u8>, Error> {
        let waited = timeout.map(|time| Deadline::after(Some(time)));
        let deadline = waited.unwrap_or(Deadline::NEVER);
        let mut held = self.get_until(id, waited)?;
        held.release_until(deadline)?;
        let Some(manifest) = Manifest::decode(&held, id)? else { return Ok(held.into_bytes()) };
        self.check_lengths(&manifest, id, deadline)?;
        let mut bytes = Vec::new();
        for (number, &part) in manifest.ids.iter().enumerate() {
            // not all lengths may be known yet: memory is taken part by part
            let start = bytes.len();
            bytes.resize(start + manifest.length_of(number), 0);
            self.get_into_until(part, &mut bytes[start..], waited)?;
        }
        Ok(bytes)
    }

    /// The ids of the parts, each of which is granted and withdrawn like any object; none if the object isn't in parts. Refused as
    /// [`Session::get`].
    pub fn parts(&self, id: ObjectId) -> Result<Vec<ObjectId>, Error> {
        if id.job() == self.job() && !self.begins_as_a_manifest(id)? {
            return Ok(Vec::new());
        }
        let mut held = self.get(id, None)?;
        held.release()?;
        Ok(Manifest::decode(&held, id)?.map_or_else(Vec::new, |manifest| manifest.ids))
    }

    /// The object is removed, and its parts. Refused as [`Session::get`] and [`Session::delete`]; parts that are refused stay.
    pub fn delete_whole(&self, id: ObjectId) -> Result<(), Error> {
        let parts = self.parts(id)?;
        self.delete(id)?;
        self.take_back(&parts, Deadline::NEVER);
        Ok(())
    }

    /// Refuses a manifest of which a part has another length than it says. Parts that aren't here, or aren't granted yet, have none.
    fn check_lengths(&self, manifest: &Manifest, id: ObjectId, deadline: Deadline) -> Result<(), Error> {
        let listing = self.listing(deadline)?;
        let own = listing.own.iter().filter(|item| item.state != State::Fetching).map(|item| (item.id, item.length));
        let known: HashMap<ObjectId, u32> = own.chain(listing.granted.iter().map(|item| (item.id, item.length))).collect();
        let mut lengths = manifest.ids.iter().map(|part| known.get(part)).enumerate();
        if lengths.all(|(number, known)| known.map_or(true, |&length| length as usize == manifest.length_of(number))) {
            return Ok(());
        }
        Err(Error::Invalid(format!("{id} is a manifest, and a part has another length than it says")))
    }

    fn begins_as_a_manifest(&self, id: ObjectId) -> Result<bool, Error> {
        let length = self.find(id, None)?;
        let mut beginning = [0; MANIFEST.len()];
        let shown = length.min(MANIFEST.len());
        let read = self.read(id, 0, &mut beginning[..shown]);
        self.release(id)?;
        read.map(|()| &beginning == MANIFEST)
    }

    fn fill_whole(
        &self,
        whole: &mut NewCopy<'_>,
        bytes: &[u8],
        deadline: Deadline,
        part: impl Fn(usize) -> Result<ObjectId, Error>,
    ) -> Result<(), Error> {
        if bytes.len() <= LARGEST {
            match whole.made(bytes, deadline) {
                // the window is smaller than that, or there are no bytes
                Err(Error::Refused(Refusal::BadSize)) => {}
                done => return done,
            }
        }
        let length = part_length(self.usage()?.window);
        let count = bytes.len().div_ceil(length);
        if count > MOST_PARTS {
            return Err(Refusal::BadSize.into());
        }
        let ids = (0..count).map(part).collect::<Result<Vec<ObjectId>, Error>>()?;
        let mut copies: Vec<NewCopy<'_>> = ids.iter().map(|&id| NewCopy::new(self, id, true)).collect();
        let manifest = Manifest { length: bytes.len(), part: length, ids }.encode();
        let done = fill_parts(whole, &mut copies, &manifest, bytes.chunks(length), deadline);
        if done.is_err() {
            let ours = std::iter::once(&*whole).chain(&copies).filter(|copy| copy.is_ours());
            self.take_back(&ours.map(|copy| copy.id).collect::<Vec<ObjectId>>(), deadline);
        }
        done
    }
}

fn fill_parts<'a>(
    whole: &mut NewCopy<'_>,
    copies: &mut [NewCopy<'_>],
    manifest: &[u8],
    pieces: impl Iterator<Item = &'a [u8]>,
    deadline: Deadline,
) -> Result<(), Error> {
    whole.reserve(manifest.len(), deadline)?;
    for (copy, piece) in copies.iter_mut().zip(pieces) {
        copy.reserve(piece.len(), deadline)?;
        copy.write_and_seal(piece, deadline)?;
    }
    whole.write_and_seal(manifest, deadline)
}

/// The length of a part in a window of so many bytes: a multiple of 16.
fn part_length(window: u64) -> usize {
    let share = usize::try_from(window / PARTS_OF_A_WINDOW / 16 * 16).unwrap_or(LARGEST);
    share.clamp(16, LARGEST)
}

/// Which parts make up what is longer than one object.
#[derive(Debug, PartialEq, Eq)]
struct Manifest {
    length: usize,
    // of each part, but for the last one, which has what is left
    part: usize,
    ids: Vec<ObjectId>,
}

impl Manifest {
    fn encode(&self) -> Vec<u8> {
        let mut bytes = MANIFEST.to_vec();
        bytes.extend_from_slice(&(self.length as u64).to_be_bytes());
        // a part is at most as long as an object
        bytes.extend_from_slice(&(self.part as u32).to_be_bytes());
        self.ids.iter().for_each(|id| bytes.extend_from_slice(&id.to_bytes()));
        bytes
    }

    /// The manifest that is the object of this id; none if the object is none.
    fn decode(bytes: &[u8], id: ObjectId) -> Result<Option<Manifest>, Error> {
        if !bytes.starts_with(MANIFEST) {
            return Ok(None);
        }
        if bytes.len() > HEAD_BYTES + MOST_PARTS * ID_BYTES {
            return Err(Error::Invalid(format!("{id} is a manifest of more than {MOST_PARTS} parts, and no job has so many copies")));
        }
        let manifest = Manifest::read(bytes).filter(|manifest| {
            let is_cut_so = (1..=LARGEST).contains(&manifest.part) && manifest.ids.len() == manifest.length.div_ceil(manifest.part);
            // who grants a manifest can't have others read what is their own
            is_cut_so && manifest.ids.iter().all(|part| part.job() == id.job())
        });
        let manifest = manifest.ok_or_else(|| Error::Invalid(format!("{id} is a manifest whose parts can't be right")))?;
        let mut seen = HashSet::from([id]);
        if !manifest.ids.iter().all(|&part| seen.insert(part)) {
            return Err(Error::Invalid(format!("{id} is a manifest that can't be right: a part stands in it twice, or it itself")));
        }
        Ok(Some(manifest))
    }

    fn read(bytes: &[u8]) -> Option<Manifest> {
        let length = u64::from_be_bytes(bytes.get(8..16)?.try_into().ok()?);
        let part = u32::from_be_bytes(bytes.get(16..HEAD_BYTES)?.try_into().ok()?);
        let pieces = bytes.get(HEAD_BYTES..)?.chunks(ID_BYTES);
        let ids = pieces.map(|piece| ObjectId::from_bytes(piece.try_into().ok()?).ok()).collect::<Option<Vec<ObjectId>>>()?;
        Some(Manifest { length: length.try_into().ok()?, part: part.try_into().ok()?, ids })
    }

    /// The length of the part of this number, which is one of them.
    fn length_of(&self, number: usize) -> usize {
        self.part.min(self.length - number * self.part)
    }
}

#[cfg(test)]
mod tests {
    use super::*;
    use crate::id::Task;

    fn id(job: u32, index: u32) -> ObjectId {
        Task::numbered(1).object(job, index).unwrap()
    }

    #[test]
    fn a_manifest_has_the_bytes_of_the_client_in_python() {
        let manifest = Manifest { length: 33, part: 32, ids: vec![id(1, 7), id(1, 8)] };
        let bytes = manifest.encode();
        let tail = [&id(1, 7).to_bytes()[..], &id(1, 8).to_bytes()].concat();
        assert_eq!(bytes, [&b"store\0m1\0\0\0\0\0\0\0\x21\0\0\0\x20"[..], &tail].concat());
        assert_eq!((manifest.length_of(0), manifest.length_of(1)), (32, 1));
        assert_eq!(Manifest::decode(&bytes, id(1, 1)).unwrap(), Some(manifest));
        assert_eq!(Manifest::decode(b"store\0v1", id(1, 1)).unwrap(), None);
    }

    #[test]
    fn a_manifest_that_cannot_be_right_is_told() {
        let good = Manifest { length: 33, part: 32, ids: vec![id(1, 7), id(1, 8)] };
        assert!(Manifest::decode(&good.encode(), id(2, 1)).is_err(), "another job's parts");
        assert!(Manifest::decode(&good.encode(), id(1, 8)).is_err(), "itself among its parts");
        let twice = Manifest { ids: vec![id(1, 7), id(1, 7)], ..good };
        assert!(Manifest::decode(&twice.encode(), id(1, 1)).is_err(), "a part twice");
        for length in (8..20 + 56).filter(|length| *length != 20 + 28) {
            assert!(Manifest::decode(&good.encode()[..length], id(1, 1)).is_err(), "cut to {length}");
        }
        for (length, part) in [(0, 32), (32, 32), (65, 32), (33, 0), (usize::MAX, 32), (2 * LARGEST, LARGEST + 1)] {
            let wrong = Manifest { length, part, ids: good.ids.clone() };
            assert!(Manifest::decode(&wrong.encode(), id(1, 1)).is_err(), "{length} in parts of {part}");
        }
    }

    #[test]
    fn a_manifest_has_at_most_1023_parts() {
        for (count, is_good) in [(MOST_PARTS, true), (MOST_PARTS + 1, false)] {
            let ids = (0..count).map(|number| id(1, 2 + number as u32)).collect();
            let manifest = Manifest { length: count, part: 1, ids };
            assert_eq!(Manifest::decode(&manifest.encode(), id(1, 1)).is_ok(), is_good, "{count} parts");
        }
    }

    #[test]
    fn a_part_is_a_sixteenth_of_the_window() {
        let lengths: Vec<usize> = [0, 64, 600, 1 << 26, 1 << 28, u64::MAX].map(part_length).to_vec();
        assert_eq!(lengths, [16, 16, 32, 1 << 22, LARGEST, LARGEST]);
    }
}
