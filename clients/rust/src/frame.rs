//! Frames: a length of 4 bytes, a kind of 1, and the body. Numbers are big-endian, and have 4 bytes if no other size is given.

use std::fmt;
use std::ops::RangeInclusive;

use crate::id::{NoId, ObjectId, Task, TASK_BYTES};
use crate::refusal::Refusal;

/// The longest command, in bytes after its length.
pub const LONGEST_COMMAND: usize = 65_600;
/// The longest reply, in bytes after its length.
pub const LONGEST_REPLY: usize = 262_144;
/// The most bytes that one Write, Read or Peek moves.
pub const MOST_BYTES: usize = 65_536;
/// The most bytes of an object.
pub const LARGEST: usize = 16_777_216;
/// The length and the kind of a frame, in bytes.
pub(crate) const HEAD_BYTES: usize = 5;

/// A job's key, which the operator gives.
pub type Key = [u8; 32];

/// Why bytes are no frame.
#[derive(Clone, Copy, Debug, PartialEq, Eq)]
#[non_exhaustive]
pub enum NoFrame {
    /// The length is 0, above the limit, or not the number of bytes that follow.
    Length,
    /// There is no such kind.
    Kind(u8),
    /// The body has another length than its kind says.
    Body,
    /// There is no such kind or state of a copy.
    Copy(u8),
    /// An object's job or index is 0.
    Id,
    /// No object has this length in bytes.
    ObjectLength(u32),
    /// A refusal has the number 0, which none has.
    Refusal,
}

impl fmt::Display for NoFrame {
    fn fmt(&self, f: &mut fmt::Formatter<'_>) -> fmt::Result {
        match self {
            NoFrame::Length => f.write_str("the length isn't that of a frame"),
            NoFrame::Kind(kind) => write!(f, "there is no kind {kind:#04x}"),
            NoFrame::Body => f.write_str("the body has another length than its kind says"),
            NoFrame::Copy(number) => write!(f, "a copy has no kind or state {number}"),
            NoFrame::Id => f.write_str("the job or the index of an id is 0"),
            NoFrame::ObjectLength(length) => write!(f, "no object has {length} bytes"),
            NoFrame::Refusal => f.write_str("no refusal has the number 0"),
        }
    }
}

impl std::error::Error for NoFrame {}

impl From<NoId> for NoFrame {
    fn from(_: NoId) -> NoFrame {
        NoFrame::Id
    }
}

/// Whether a copy is an object's first, or was transferred or offered.
#[derive(Clone, Copy, Debug, PartialEq, Eq, Hash)]
pub enum CopyKind {
    /// An object's first copy. It is written to the device if its room is needed.
    Primary,
    /// A copy of what lies elsewhere. It is removed if its room is needed.
    Secondary,
}

impl CopyKind {
    fn of(number: u8) -> Result<CopyKind, NoFrame> {
        match number {
            0 => Ok(CopyKind::Primary),
            1 => Ok(CopyKind::Secondary),
            _ => Err(NoFrame::Copy(number)),
        }
    }
}

/// What a copy is in the middle of.
#[derive(Clone, Copy, Debug, PartialEq, Eq, Hash)]
pub enum State {
    /// It is being written.
    Created,
    /// It lies in memory, and is immutable.
    Sealed,
    /// It is being read back from the device.
    Restoring,
    /// It is being looked for, or transferred from another node.
    Fetching,
    /// It lies on the device.
    Away,
}

impl State {
    const ALL: [State; 5] = [State::Created, State::Sealed, State::Restoring, State::Fetching, State::Away];

    fn of(number: u8) -> Result<State, NoFrame> {
        State::ALL.get(usize::from(number)).copied().ok_or(NoFrame::Copy(number))
    }
}

/// Where a new copy lies in the job's window.
#[derive(Clone, Copy, Debug, PartialEq, Eq)]
pub struct Placed {
    /// From the window's beginning, in bytes.
    pub offset: u32,
    /// The object's length, rounded up to a multiple of 16, in bytes.
    pub length: u32,
}

/// A copy of the job at the node.
#[derive(Clone, Copy, Debug, PartialEq, Eq)]
pub struct OwnItem {
    /// Its object.
    pub id: ObjectId,
    /// What it is in the middle of.
    pub state: State,
    /// Whether it is the first copy.
    pub kind: CopyKind,
    /// In bytes; 0 of a fetch that hasn't found the object.
    pub length: u32,
}

/// An object that another job granted.
#[derive(Clone, Copy, Debug, PartialEq, Eq)]
pub struct GrantedItem {
    /// The object.
    pub id: ObjectId,
    /// In bytes.
    pub length: u32,
    /// How many jobs the grant went through, 1 to 3.
    pub depth: u8,
}

/// What a List tells.
#[derive(Clone, Debug, Default, PartialEq, Eq)]
pub struct Listing {
    /// The job's own copies, in order of id.
    pub own: Vec<OwnItem>,
    /// What others granted to the job, in order of id.
    pub granted: Vec<GrantedItem>,
}

/// The job's quotas at the node, and what is used of them.
#[derive(Clone, Copy, Debug, Default, PartialEq, Eq)]
pub struct Usage {
    /// The window, in bytes.
    pub window: u64,
    /// How much of the window is used, in bytes.
    pub window_used: u64,
    /// The device quota, in bytes.
    pub device: u64,
    /// How much of the device quota is used, in bytes.
    pub device_used: u64,
    /// The copies, those that are deleted and still held and fetches too.
    pub copies: u64,
    /// The device works in flight.
    pub works: u64,
}

/// A command. The fields are those of its frame; an offset, a count and a length are in bytes. What `Debug` shows of a Hello has the key.
#[allow(missing_docs)]
#[derive(Clone, Copy, Debug, PartialEq, Eq)]
pub enum Command<'a> {
    Hello { job: u32, key: Key },
    Create { id: ObjectId, kind: CopyKind, length: u32 },
    Write { id: ObjectId, offset: u32, bytes: &'a [u8] },
    Seal(ObjectId),
    Get(ObjectId),
    Read { id: ObjectId, offset: u32, count: u32 },
    Release(ObjectId),
    Unpin { id: ObjectId, task: Task },
    Borrow { id: ObjectId, task: Task },
    GiveUp { id: ObjectId, task: Task },
    Delete(ObjectId),
    EndTask(Task),
    Grant { id: ObjectId, job: u32 },
    Withdraw { id: ObjectId, job: u32 },
    Peek { id: ObjectId, offset: u32, count: u32 },
    List,
    Usage,
    Leave,
    GetWait(ObjectId),
    CreateWait { id: ObjectId, kind: CopyKind, length: u32 },
}

impl<'a> Command<'a> {
    /// The whole frame. [`NoFrame::Length`] if a Write has more bytes than a frame takes, which is 65,567.
    pub fn encode(&self) -> Result<Vec<u8>, NoFrame> {
        let mut frame = Vec::new();
        self.encode_head(&mut frame)?;
        frame.extend_from_slice(self.tail());
        Ok(frame)
    }

    /// Adds the frame without its tail to what is to be sent. Nothing is added if it is refused.
    pub(crate) fn encode_head(&self, to: &mut Vec<u8>) -> Result<(), NoFrame> {
        let start = to.len();
        to.extend_from_slice(&[0, 0, 0, 0, self.kind()]);
        self.encode_fields(to);
        let length = to.len() - start - 4 + self.tail().len();
        match u32::try_from(length) {
            Ok(told) if length <= LONGEST_COMMAND => {
                to[start..start + 4].copy_from_slice(&told.to_be_bytes());
                Ok(())
            }
            _ => {
                to.truncate(start);
                Err(NoFrame::Length)
            }
        }
    }

    /// The bytes of a Write, which come last in its frame; none of any other.
    pub(crate) fn tail(&self) -> &'a [u8] {
        match self {
            Command::Write { bytes, .. } => bytes,
            _ => &[],
        }
    }

    fn kind(&self) -> u8 {
        match self {
            Command::Hello { .. } => 0x01,
            Command::Create { .. } => 0x02,
            Command::Write { .. } => 0x03,
            Command::Seal(_) => 0x04,
            Command::Get(_) => 0x05,
            Command::Read { .. } => 0x06,
            Command::Release(_) => 0x07,
            Command::Unpin { .. } => 0x08,
            Command::Borrow { .. } => 0x09,
            Command::GiveUp { .. } => 0x0a,
            Command::Delete(_) => 0x0b,
            Command::EndTask(_) => 0x0c,
            Command::Grant { .. } => 0x0d,
            Command::Withdraw { .. } => 0x0e,
            Command::Peek { .. } => 0x0f,
            Command::List => 0x10,
            Command::Usage => 0x11,
            Command::Leave => 0x12,
            Command::GetWait(_) => 0x13,
            Command::CreateWait { .. } => 0x14,
        }
    }

    fn encode_fields(&self, to: &mut Vec<u8>) {
        match *self {
            Command::Hello { job, key } => {
                add_number(to, job);
                to.extend_from_slice(&key);
            }
            Command::Create { id, kind, length } | Command::CreateWait { id, kind, length } => {
                to.extend_from_slice(&id.to_bytes());
                to.push(kind as u8);
                add_number(to, length);
            }
            Command::Write { id, offset, .. } => {
                to.extend_from_slice(&id.to_bytes());
                add_number(to, offset);
            }
            Command::Seal(id) | Command::Get(id) | Command::Release(id) | Command::Delete(id) | Command::GetWait(id) => {
                to.extend_from_slice(&id.to_bytes());
            }
            Command::Read { id, offset, count } | Command::Peek { id, offset, count } => {
                to.extend_from_slice(&id.to_bytes());
                add_number(to, offset);
                add_number(to, count);
            }
            Command::Unpin { id, task } | Command::Borrow { id, task } | Command::GiveUp { id, task } => {
                to.extend_from_slice(&id.to_bytes());
                to.extend_from_slice(&task.to_bytes());
            }
            Command::EndTask(task) => to.extend_from_slice(&task.to_bytes()),
            Command::Grant { id, job } | Command::Withdraw { id, job } => {
                to.extend_from_slice(&id.to_bytes());
                add_number(to, job);
            }
            Command::List | Command::Usage | Command::Leave => {}
        }
    }

    /// The command of a whole frame, and of nothing more.
    ///
    /// [`NoFrame::Id`] is told only of a frame that is well-formed otherwise, as the server does.
    pub fn decode(frame: &'a [u8]) -> Result<Command<'a>, NoFrame> {
        let (kind, mut body) = parted(frame, LONGEST_COMMAND)?;
        let command = match kind {
            0x01 => Command::Hello { job: body.number()?, key: body.take()? },
            0x0c => Command::EndTask(Task::from_bytes(body.take()?)),
            0x10 => Command::List,
            0x11 => Command::Usage,
            0x12 => Command::Leave,
            0x02..=0x14 => return Command::decode_on_object(kind, body),
            _ => return Err(NoFrame::Kind(kind)),
        };
        body.end()?;
        Ok(command)
    }

    fn decode_on_object(kind: u8, mut body: Body<'a>) -> Result<Command<'a>, NoFrame> {
        let checked = ObjectId::from_bytes(body.take()?);
        // whether the id is one is told last
        let id = match checked {
            Ok(id) => id,
            Err(_) => ObjectId::new(Task::numbered(0), 1, 1)?,
        };
        let command = match kind {
            0x02 => Command::Create { id, kind: CopyKind::of(body.byte()?)?, length: body.number()? },
            0x03 => Command::Write { id, offset: body.number()?, bytes: body.rest() },
            0x04 => Command::Seal(id),
            0x05 => Command::Get(id),
            0x06 => Command::Read { id, offset: body.number()?, count: body.number()? },
            0x07 => Command::Release(id),
            0x08 => Command::Unpin { id, task: body.task()? },
            0x09 => Command::Borrow { id, task: body.task()? },
            0x0a => Command::GiveUp { id, task: body.task()? },
            0x0b => Command::Delete(id),
            0x0d => Command::Grant { id, job: body.number()? },
            0x0e => Command::Withdraw { id, job: body.number()? },
            0x0f => Command::Peek { id, offset: body.number()?, count: body.number()? },
            0x13 => Command::GetWait(id),
            0x14 => Command::CreateWait { id, kind: CopyKind::of(body.byte()?)?, length: body.number()? },
            _ => return Err(NoFrame::Kind(kind)),
        };
        body.end()?;
        checked?;
        Ok(command)
    }

    /// The kind of the reply that isn't a refusal, and how many bytes its body may have.
    pub(crate) fn due(&self) -> (u8, RangeInclusive<usize>) {
        match *self {
            Command::Create { .. } | Command::CreateWait { .. } => (PLACED, 8..=8),
            Command::Get(_) | Command::GetWait(_) => (GOT, 4..=4),
            Command::Read { count, .. } | Command::Peek { count, .. } => (BYTES, count as usize..=count as usize),
            Command::List => (LIST, 8..=LONGEST_REPLY - 1),
            Command::Usage => (USAGE, 48..=48),
            _ => (OK, 0..=0),
        }
    }

    /// Whether the server answers only once something has happened.
    pub(crate) fn waits(&self) -> bool {
        matches!(self, Command::GetWait(_) | Command::CreateWait { .. })
    }

    /// Whether an object comes to be by it.
    pub(crate) fn makes(&self) -> bool {
        matches!(self, Command::Create { .. } | Command::CreateWait { .. } | Command::Write { .. } | Command::Seal(_))
    }
}

const OK: u8 = 0x80;
const PLACED: u8 = 0x81;
const GOT: u8 = 0x82;
pub(crate) const BYTES: u8 = 0x83;
const LIST: u8 = 0x84;
const USAGE: u8 = 0x85;
pub(crate) const REFUSED: u8 = 0x8f;

/// A reply.
#[derive(Clone, Debug, PartialEq, Eq)]
pub enum Reply {
    /// It is done.
    Ok,
    /// The copy was created.
    Placed(Placed),
    /// The session has one hold more; the object's length in bytes.
    Got(u32),
    /// Bytes of an object.
    Bytes(Vec<u8>),
    /// The job's copies.
    List(Listing),
    /// The job's quotas.
    Usage(Usage),
    /// It was refused.
    Refused(Refusal),
}

impl Reply {
    /// The reply of a whole frame, and of nothing more.
    pub fn decode(frame: &[u8]) -> Result<Reply, NoFrame> {
        let (kind, body) = parted(frame, LONGEST_REPLY)?;
        Reply::of(kind, body.0)
    }

    /// The reply of a kind and a body.
    pub(crate) fn of(kind: u8, body: &[u8]) -> Result<Reply, NoFrame> {
        let mut body = Body(body);
        let reply = match kind {
            OK => Reply::Ok,
            PLACED => Reply::Placed(Placed { offset: body.number()?, length: body.number()? }),
            GOT => Reply::Got(body.object_length(1)?),
            BYTES => Reply::Bytes(body.rest().to_vec()),
            LIST => Reply::List(Listing { own: body.items(own_item)?, granted: body.items(granted_item)? }),
            USAGE => Reply::Usage(body.usage()?),
            REFUSED => Reply::Refused(refusal(body.byte()?)?),
            _ => return Err(NoFrame::Kind(kind)),
        };
        body.end()?;
        Ok(reply)
    }

    /// The whole frame. [`NoFrame::Length`] if it is longer than any reply.
    pub fn encode(&self) -> Result<Vec<u8>, NoFrame> {
        let mut frame = vec![0; 4];
        match self {
            Reply::Ok => frame.push(OK),
            Reply::Placed(placed) => {
                frame.push(PLACED);
                add_number(&mut frame, placed.offset);
                add_number(&mut frame, placed.length);
            }
            Reply::Got(length) => {
                frame.push(GOT);
                add_number(&mut frame, *length);
            }
            Reply::Bytes(bytes) => {
                frame.push(BYTES);
                frame.extend_from_slice(bytes);
            }
            Reply::List(listing) => {
                frame.push(LIST);
                add_listing(&mut frame, listing)?;
            }
            Reply::Usage(usage) => {
                frame.push(USAGE);
                let numbers = [usage.window, usage.window_used, usage.device, usage.device_used, usage.copies, usage.works];
                numbers.iter().for_each(|number| frame.extend_from_slice(&number.to_be_bytes()));
            }
            Reply::Refused(refusal) => frame.extend_from_slice(&[REFUSED, refusal.number()]),
        }
        let length = frame.len() - 4;
        match u32::try_from(length) {
            Ok(told) if length <= LONGEST_REPLY => frame[..4].copy_from_slice(&told.to_be_bytes()),
            _ => return Err(NoFrame::Length),
        }
        Ok(frame)
    }
}

/// The refusal of this number, unless it is 0. One that this client has no name for may be of a later server.
pub(crate) fn refusal(number: u8) -> Result<Refusal, NoFrame> {
    match number {
        0 => Err(NoFrame::Refusal),
        _ => Ok(Refusal::from_number(number)),
    }
}

fn add_number(to: &mut Vec<u8>, number: u32) {
    to.extend_from_slice(&number.to_be_bytes());
}

fn add_listing(to: &mut Vec<u8>, listing: &Listing) -> Result<(), NoFrame> {
    add_number(to, u32::try_from(listing.own.len()).map_err(|_| NoFrame::Length)?);
    for item in &listing.own {
        to.extend_from_slice(&item.id.to_bytes());
        to.extend_from_slice(&[item.state as u8, item.kind as u8]);
        add_number(to, item.length);
    }
    add_number(to, u32::try_from(listing.granted.len()).map_err(|_| NoFrame::Length)?);
    for item in &listing.granted {
        to.extend_from_slice(&item.id.to_bytes());
        add_number(to, item.length);
        to.push(item.depth);
    }
    Ok(())
}

/// The kind and the body of a whole frame.
fn parted(frame: &[u8], longest: usize) -> Result<(u8, Body<'_>), NoFrame> {
    let mut body = Body(frame);
    let length = body.number().map_err(|_| NoFrame::Length)?;
    let kind = body.byte().map_err(|_| NoFrame::Length)?;
    if frame.len() - 4 > longest || usize::try_from(length) != Ok(frame.len() - 4) {
        return Err(NoFrame::Length);
    }
    Ok((kind, body))
}

fn own_item(body: &mut Body<'_>) -> Result<OwnItem, NoFrame> {
    Ok(OwnItem {
        id: ObjectId::from_bytes(body.take()?)?,
        state: State::of(body.byte()?)?,
        kind: CopyKind::of(body.byte()?)?,
        // a fetch that hasn't found the object has none
        length: body.object_length(0)?,
    })
}

fn granted_item(body: &mut Body<'_>) -> Result<GrantedItem, NoFrame> {
    Ok(GrantedItem { id: ObjectId::from_bytes(body.take()?)?, length: body.object_length(1)?, depth: body.byte()? })
}

/// What is left of a body.
struct Body<'a>(&'a [u8]);

impl<'a> Body<'a> {
    fn take<const N: usize>(&mut self) -> Result<[u8; N], NoFrame> {
        if self.0.len() < N {
            return Err(NoFrame::Body);
        }
        let (first, rest) = self.0.split_at(N);
        let mut taken = [0; N];
        taken.copy_from_slice(first);
        self.0 = rest;
        Ok(taken)
    }

    fn byte(&mut self) -> Result<u8, NoFrame> {
        self.take().map(|[byte]| byte)
    }

    fn number(&mut self) -> Result<u32, NoFrame> {
        self.take().map(u32::from_be_bytes)
    }

    /// The length of an object, from the least on: a server that names another gets no memory for it.
    fn object_length(&mut self, least: u32) -> Result<u32, NoFrame> {
        let length = self.number()?;
        if (least..=LARGEST as u32).contains(&length) {
            Ok(length)
        } else {
            Err(NoFrame::ObjectLength(length))
        }
    }

    fn long_number(&mut self) -> Result<u64, NoFrame> {
        self.take().map(u64::from_be_bytes)
    }

    fn task(&mut self) -> Result<Task, NoFrame> {
        self.take::<TASK_BYTES>().map(Task::from_bytes)
    }

    fn usage(&mut self) -> Result<Usage, NoFrame> {
        Ok(Usage {
            window: self.long_number()?,
            window_used: self.long_number()?,
            device: self.long_number()?,
            device_used: self.long_number()?,
            copies: self.long_number()?,
            works: self.long_number()?,
        })
    }

    /// A number, and so many items. They take memory as they are read, so a number that is too large takes none.
    fn items<T>(&mut self, read: fn(&mut Body<'a>) -> Result<T, NoFrame>) -> Result<Vec<T>, NoFrame> {
        let count = self.number()?;
        (0..count).map(|_| read(self)).collect()
    }

    fn rest(&mut self) -> &'a [u8] {
        std::mem::take(&mut self.0)
    }

    fn end(&self) -> Result<(), NoFrame> {
        if self.0.is_empty() {
            Ok(())
        } else {
            Err(NoFrame::Body)
        }
    }
}
