//! Tasks and objects, their bytes and their texts.

use std::fmt;
use std::str::FromStr;

use crate::error::Error;
use crate::frame::Key;

/// The bytes of a task.
pub const TASK_BYTES: usize = 20;
/// The bytes of an object's id.
pub const ID_BYTES: usize = 28;

/// The first bytes of a task that has a number are zeros, so many.
const ZEROS: usize = TASK_BYTES - 8;

/// What is no id, and why.
#[derive(Clone, Copy, Debug, PartialEq, Eq)]
pub struct NoId(&'static str);

impl fmt::Display for NoId {
    fn fmt(&self, f: &mut fmt::Formatter<'_>) -> fmt::Result {
        f.write_str(self.0)
    }
}

impl std::error::Error for NoId {}

/// A task of a job: 20 bytes, of any values.
///
/// Its text is `tN` if its first 12 bytes are zero and the last 8 are the number N, and 40 lower-case hexadecimal digits otherwise.
#[derive(Clone, Copy, PartialEq, Eq, PartialOrd, Ord, Hash)]
pub struct Task([u8; TASK_BYTES]);

impl Task {
    /// The task of these bytes.
    pub const fn from_bytes(bytes: [u8; TASK_BYTES]) -> Task {
        Task(bytes)
    }

    /// The task of this number, whose text is `tN`.
    pub fn numbered(number: u64) -> Task {
        let mut bytes = [0; TASK_BYTES];
        bytes[ZEROS..].copy_from_slice(&number.to_be_bytes());
        Task(bytes)
    }

    /// Its 20 bytes.
    pub const fn to_bytes(self) -> [u8; TASK_BYTES] {
        self.0
    }

    /// The job's object of this index in the task. Both are at least 1; otherwise it is [`NoId`].
    pub fn object(self, job: u32, index: u32) -> Result<ObjectId, NoId> {
        ObjectId::new(self, job, index)
    }

    /// Its number, if it has one.
    fn number(&self) -> Option<u64> {
        let (zeros, last) = self.0.split_at(ZEROS);
        if zeros.iter().any(|&byte| byte != 0) {
            return None;
        }
        Some(last.iter().fold(0, |number, &byte| number << 8 | u64::from(byte)))
    }
}

impl fmt::Display for Task {
    fn fmt(&self, f: &mut fmt::Formatter<'_>) -> fmt::Result {
        match self.number() {
            Some(number) => write!(f, "t{number}"),
            None => write_digits(f, &self.0),
        }
    }
}

impl fmt::Debug for Task {
    fn fmt(&self, f: &mut fmt::Formatter<'_>) -> fmt::Result {
        write!(f, "Task({self})")
    }
}

impl FromStr for Task {
    type Err = NoId;

    /// The task of a text: `tN`, or 40 lower-case hexadecimal digits.
    fn from_str(text: &str) -> Result<Task, NoId> {
        let what = NoId("the text of a task is tN or 40 lower-case hexadecimal digits");
        match text.strip_prefix('t') {
            Some(number) => decimal(number).map(Task::numbered).ok_or(what),
            None => digits(text).map(Task).ok_or(what),
        }
    }
}

/// An object: its task, its job, and its index in the task. Ids are ordered as their 28 bytes.
///
/// `Display` gives the text that any job understands, `J/tN.I` or 56 lower-case hexadecimal digits, and `FromStr` reads it.
/// [`ObjectId::text`] and [`ObjectId::parse`] do so for one job that speaks, whose own objects are `tN.I`.
///
/// ```
/// use store_client::{ObjectId, Task};
///
/// let id = Task::numbered(20).object(4, 7)?;
/// assert_eq!(id.to_string(), "4/t20.7");
/// assert_eq!(id.text(4), "t20.7");
/// assert_eq!(ObjectId::parse("t20.7", 4)?, id);
/// # Ok::<(), store_client::NoId>(())
/// ```
#[derive(Clone, Copy, PartialEq, Eq, PartialOrd, Ord, Hash)]
pub struct ObjectId {
    // in this order, so that the order of ids is that of their bytes
    task: Task,
    job: u32,
    index: u32,
}

impl ObjectId {
    /// The object of a job, 1 to 4,294,967,295, and an index, from 1, in the task.
    pub fn new(task: Task, job: u32, index: u32) -> Result<ObjectId, NoId> {
        if job == 0 || index == 0 {
            return Err(NoId("the job and the index of an object are at least 1"));
        }
        Ok(ObjectId { task, job, index })
    }

    /// The object of 28 bytes.
    pub fn from_bytes(bytes: [u8; ID_BYTES]) -> Result<ObjectId, NoId> {
        let number_at = |at: usize| bytes[at..at + 4].iter().fold(0, |number, &byte| number << 8 | u32::from(byte));
        let mut task = [0; TASK_BYTES];
        task.copy_from_slice(&bytes[..TASK_BYTES]);
        ObjectId::new(Task(task), number_at(TASK_BYTES), number_at(TASK_BYTES + 4))
    }

    /// Its 28 bytes.
    pub fn to_bytes(self) -> [u8; ID_BYTES] {
        let mut bytes = [0; ID_BYTES];
        bytes[..TASK_BYTES].copy_from_slice(&self.task.0);
        bytes[TASK_BYTES..TASK_BYTES + 4].copy_from_slice(&self.job.to_be_bytes());
        bytes[TASK_BYTES + 4..].copy_from_slice(&self.index.to_be_bytes());
        bytes
    }

    /// Its owner task.
    pub const fn task(self) -> Task {
        self.task
    }

    /// The number of its job.
    pub const fn job(self) -> u32 {
        self.job
    }

    /// Its index in the task, from 1.
    pub const fn index(self) -> u32 {
        self.index
    }

    /// Its text, spoken by this job: the short one if there is one.
    pub fn text(self, job: u32) -> String {
        match self.task.number() {
            Some(number) if job == self.job => format!("t{number}.{}", self.index),
            _ => self.to_string(),
        }
    }

    /// The object of a text, spoken by this job: `tN.I` for its own, `J/tN.I` for another's, or 56 lower-case hexadecimal digits.
    pub fn parse(text: &str, job: u32) -> Result<ObjectId, NoId> {
        let what = NoId("the text of an id is tN.I, J/tN.I or 56 lower-case hexadecimal digits");
        if !text.contains('t') {
            return ObjectId::from_bytes(digits(text).ok_or(what)?);
        }
        let (owner, short) = match text.split_once('/') {
            Some((owner, short)) => (short_number(owner).ok_or(what)?, short),
            None => (job, text),
        };
        if short.len() < text.len() && owner == job {
            return Err(NoId("the job's own ids are written without its number"));
        }
        let (task, index) = short.split_once('.').ok_or(what)?;
        ObjectId::new(task.parse().map_err(|_| what)?, owner, short_number(index).ok_or(what)?)
    }
}

impl fmt::Display for ObjectId {
    fn fmt(&self, f: &mut fmt::Formatter<'_>) -> fmt::Result {
        match self.task.number() {
            Some(number) => write!(f, "{}/t{number}.{}", self.job, self.index),
            None => write_digits(f, &self.to_bytes()),
        }
    }
}

impl fmt::Debug for ObjectId {
    fn fmt(&self, f: &mut fmt::Formatter<'_>) -> fmt::Result {
        write!(f, "ObjectId({self})")
    }
}

impl FromStr for ObjectId {
    type Err = NoId;

    /// The object of a text that names its job: `J/tN.I` or 56 lower-case hexadecimal digits.
    fn from_str(text: &str) -> Result<ObjectId, NoId> {
        ObjectId::parse(text, 0)
    }
}

fn write_digits(f: &mut fmt::Formatter<'_>, bytes: &[u8]) -> fmt::Result {
    bytes.iter().try_for_each(|byte| write!(f, "{byte:02x}"))
}

/// Reads a key's 64 lower-case hexadecimal digits, as the operator gives them; otherwise it is [`Error::Invalid`].
pub fn parse_key(text: &str) -> Result<Key, Error> {
    digits(text).ok_or_else(|| Error::Invalid("a key has 64 lower-case hexadecimal digits".into()))
}

/// The bytes of so many lower-case hexadecimal digits.
fn digits<const N: usize>(text: &str) -> Option<[u8; N]> {
    let text = text.as_bytes();
    if text.len() != 2 * N {
        return None;
    }
    let mut bytes = [0; N];
    for (byte, pair) in bytes.iter_mut().zip(text.chunks_exact(2)) {
        *byte = digit(pair[0])? << 4 | digit(pair[1])?;
    }
    Some(bytes)
}

fn digit(letter: u8) -> Option<u8> {
    match letter {
        b'0'..=b'9' => Some(letter - b'0'),
        b'a'..=b'f' => Some(letter - b'a' + 10),
        _ => None,
    }
}

/// A decimal number with no sign and no leading zero. Rust's own reader takes both.
fn decimal(text: &str) -> Option<u64> {
    let is_plain = text.bytes().all(|letter| letter.is_ascii_digit());
    if !is_plain || (text.len() > 1 && text.starts_with('0')) {
        return None;
    }
    text.parse().ok()
}

fn short_number(text: &str) -> Option<u32> {
    decimal(text).and_then(|number| u32::try_from(number).ok())
}

#[cfg(test)]
mod tests {
    use super::*;

    const LONG: &str = "0102030405060708090a0b0c0d0e0f101112131400000001ffffffff";

    #[test]
    fn texts_are_read_as_the_rules_say() {
        let one = Task::numbered(1).object(1, 1).unwrap();
        assert_eq!(ObjectId::parse("t1.1", 1), Ok(one));
        assert_eq!(ObjectId::parse("1/t1.1", 2), Ok(one));
        assert_eq!(ObjectId::parse("00000000000000000000000000000000000000010000000100000001", 9), Ok(one));
        assert_eq!(ObjectId::parse("t0.1", 1), Task::numbered(0).object(1, 1));
        assert_eq!("1/t1.1".parse(), Ok(one));
    }

    #[test]
    fn what_is_no_text_is_refused() {
        let upper = LONG.to_uppercase();
        for text in ["1/t1.1", "0/t1.1", "t1.0", "t01.1", "+t1.1", "t+1.1", "t1", "t1.", "t.1", "", "/t1.1", "t1.4294967296", &upper] {
            assert!(ObjectId::parse(text, 1).is_err(), "{text}");
        }
        for text in ["t18446744073709551616.1", &LONG[1..], &"0".repeat(56), "é1.1", "1/1/t1.1", "2/t1.1.1", "2/"] {
            assert!(ObjectId::parse(text, 1).is_err(), "{text}");
        }
        assert!("t1.1".parse::<ObjectId>().is_err(), "nobody speaks");
        assert!("t".parse::<Task>().is_err());
    }

    #[test]
    fn texts_are_printed_as_they_are_read() {
        let long = ObjectId::parse(LONG, 3).unwrap();
        assert_eq!((long.job(), long.index(), long.to_string()), (1, u32::MAX, LONG.to_owned()));
        assert_eq!(long.text(1), LONG);
        let short = Task::numbered(u64::MAX).object(4, 7).unwrap();
        assert_eq!(short.text(4), "t18446744073709551615.7");
        assert_eq!(short.text(1), "4/t18446744073709551615.7");
        assert_eq!(short.to_string().parse(), Ok(short));
        assert_eq!(long.task().to_string().parse(), Ok(long.task()));
    }

    #[test]
    fn keys_are_read() {
        let mut key = [0; 32];
        (key[0], key[31]) = (0x1f, 0xa0);
        assert_eq!(parse_key(&format!("1f{}a0", "0".repeat(60))).ok(), Some(key));
        for text in ["", &"0".repeat(63), &"0".repeat(65), &"A".repeat(64), &" 0".repeat(32), &"é".repeat(32)] {
            assert!(matches!(parse_key(text), Err(Error::Invalid(_))), "{text}");
        }
    }

    #[test]
    fn ids_are_ordered_as_their_bytes() {
        let lower = Task::numbered(1).object(3, 1).unwrap();
        let higher = Task::numbered(2).object(2, 1).unwrap();
        assert!(lower < higher && lower.to_bytes() < higher.to_bytes());
        assert_eq!(ObjectId::from_bytes(lower.to_bytes()), Ok(lower));
        assert!(ObjectId::from_bytes([0; ID_BYTES]).is_err());
    }
}
