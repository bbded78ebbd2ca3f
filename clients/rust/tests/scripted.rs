//! Sessions at a script that stands in for a server: one that is silent, that sends what is no reply, or that goes away in the middle.

use std::fs;
use std::io::{Read, Write};
use std::net::Shutdown;
use std::os::unix::net::{UnixListener, UnixStream};
use std::path::PathBuf;
use std::sync::atomic::{AtomicUsize, Ordering};
use std::sync::mpsc::{self, Receiver, Sender};
use std::sync::{Arc, Mutex};
use std::thread;
use std::time::{Duration, Instant};

use store_client::frame::{Command, Reply};
use store_client::{CopyKind, Error, GrantedItem, Listing, ObjectId, OwnItem, Placed, Pool, Refusal, Session, State, Task, Usage};

const KEY: [u8; 32] = [1; 32];
const GET: u8 = 0x05;
const SHORT: Duration = Duration::from_millis(200);
// beyond what a call may take, on a machine that does much else
const SLACK: Duration = Duration::from_secs(60);

// at the end of a reply: the session is closed after it
const CLOSE: &[u8] = b"close";
// at the end of a reply: a Get in the command's place is Pending, and the reply is of what comes after it
const UNLESS_GET: &[u8] = b"unless Get";

static FOLDERS: AtomicUsize = AtomicUsize::new(0);

/// What takes sessions, keeps the frames that it is sent, and answers each with bytes that it was told; after these it is silent until
/// the session ends.
struct Script {
    folder: PathBuf,
    frames: Receiver<Vec<u8>>,
    // the session that it has now
    taken: Arc<Mutex<Option<UnixStream>>>,
}

impl Script {
    fn new(sessions: Vec<Vec<Vec<u8>>>) -> Script {
        let number = FOLDERS.fetch_add(1, Ordering::Relaxed);
        let folder = std::env::temp_dir().join(format!("store_client.{}.{number}", std::process::id()));
        fs::create_dir(&folder).expect("a folder");
        let listener = UnixListener::bind(folder.join("socket")).expect("a socket");
        let (sender, frames) = mpsc::channel();
        let script = Script { folder, frames, taken: Arc::default() };
        let taken = Arc::clone(&script.taken);
        thread::spawn(move || {
            for replies in sessions {
                let (stream, _) = listener.accept().expect("a session");
                *taken.lock().expect("a place") = Some(stream.try_clone().expect("the session once more"));
                serve(&stream, &replies, &sender);
                *taken.lock().expect("a place") = None;
            }
        });
        script
    }

    /// Ends the session that it has, in the middle of its silence. The client can see that from now on.
    fn hang_up(&self) {
        let taken = self.taken.lock().expect("a place");
        taken.as_ref().expect("a session").shutdown(Shutdown::Both).expect("its end");
    }

    fn connect(&self, patience: Option<Duration>) -> Session {
        Session::connect(self.path(), 1, &KEY, patience).expect("a session")
    }

    fn path(&self) -> PathBuf {
        self.folder.join("socket")
    }

    /// The kinds of the next commands that it is sent, so many.
    fn kinds(&self, count: usize) -> Vec<u8> {
        (0..count).map(|_| self.frames.recv_timeout(SLACK).expect("a command")[4]).collect()
    }
}

impl Drop for Script {
    fn drop(&mut self) {
        let _ = fs::remove_dir_all(&self.folder);
    }
}

fn serve(mut stream: &UnixStream, replies: &[Vec<u8>], frames: &Sender<Vec<u8>>) {
    let mut replies = replies.iter().peekable();
    let mut head = [0; 4];
    while stream.read_exact(&mut head).is_ok() {
        let mut frame = head.to_vec();
        frame.resize(4 + u32::from_be_bytes(head) as usize, 0);
        if stream.read_exact(&mut frame[4..]).is_err() {
            return;
        }
        let is_early = frame[4] == GET && replies.peek().is_some_and(|reply| reply.ends_with(UNLESS_GET));
        // a test that has seen enough doesn't listen any more
        let _ = frames.send(frame);
        let early = is_early.then(|| refused(Refusal::Pending));
        if let Some(reply) = early.as_ref().or_else(|| replies.next()) {
            let (closing, later) = (reply.strip_suffix(CLOSE), reply.strip_suffix(UNLESS_GET));
            if stream.write_all(closing.or(later).unwrap_or(reply)).is_err() || closing.is_some() {
                return;
            }
        }
    }
}

fn said(reply: Reply) -> Vec<u8> {
    reply.encode().expect("a reply")
}

fn ok() -> Vec<u8> {
    said(Reply::Ok)
}

fn refused(refusal: Refusal) -> Vec<u8> {
    said(Reply::Refused(refusal))
}

fn placed() -> Vec<u8> {
    said(Reply::Placed(Placed { offset: 0, length: 16 }))
}

fn id() -> ObjectId {
    part(1, 1)
}

fn part(job: u32, index: u32) -> ObjectId {
    Task::numbered(1).object(job, index).expect("an id")
}

/// One session that is answered so after its Hello.
fn after_hello(replies: Vec<Vec<u8>>) -> Script {
    Script::new(vec![[vec![ok()], replies].concat()])
}

#[test]
fn a_server_that_takes_no_hello_is_a_timeout() {
    let script = Script::new(vec![vec![]]);
    let began = Instant::now();
    let error = Session::connect(script.path(), 1, &KEY, Some(SHORT)).expect_err("silent");
    assert!(matches!(error, Error::Timeout), "{error}");
    assert!((SHORT..SLACK).contains(&began.elapsed()), "{:?}", began.elapsed());
}

#[test]
fn a_server_that_stands_still_is_a_timeout_and_loses_the_session() {
    let script = after_hello(vec![]);
    let store = script.connect(Some(SHORT));
    let began = Instant::now();
    let error = store.usage().expect_err("silent");
    assert!(matches!(error, Error::Timeout), "{error}");
    assert!((SHORT..SLACK).contains(&began.elapsed()), "{:?}", began.elapsed());
    assert!(!store.is_usable());
    let error = store.usage().expect_err("lost");
    assert!(matches!(error, Error::Lost(_)), "{error}");
}

#[test]
fn a_get_is_given_up_after_its_time_and_not_before_a_second() {
    let script = after_hello(vec![]);
    let store = script.connect(None);
    let began = Instant::now();
    let error = store.get(id(), Some(SHORT)).expect_err("silent");
    assert!(matches!(error, Error::Timeout), "{error}");
    assert!((Duration::from_secs(1)..SLACK).contains(&began.elapsed()), "{:?}", began.elapsed());
}

#[test]
fn a_thread_waits_for_its_turn_no_longer_than_it_may() {
    let script = after_hello(vec![]);
    let store = script.connect(None);
    thread::scope(|scope| {
        let waiting = scope.spawn(|| store.hold_wait(id(), None).expect_err("the session ends"));
        assert_eq!(script.kinds(2), [0x01, 0x13]);
        let error = store.get(id(), Some(SHORT));
        let is_usable = store.is_usable();
        script.hang_up();
        assert!(matches!(error, Err(Error::Timeout)), "{error:?}");
        assert!(is_usable, "another thread's call goes on");
        assert!(matches!(waiting.join().expect("its error"), Error::Lost(_)));
    });
}

#[test]
fn each_refusal_is_told_by_its_name_and_the_session_goes_on() {
    let script = after_hello((1..=u8::MAX).map(|number| refused(Refusal::from_number(number))).collect());
    let store = script.connect(None);
    for number in 1..=u8::MAX {
        let error = store.seal(id()).expect_err("refused");
        assert_eq!(error.refusal().map(Refusal::number), Some(number), "{error}");
    }
    assert!(store.is_usable());
}

#[test]
fn what_is_no_reply_is_a_protocol_error() {
    let rubbish: [&[u8]; 8] = [
        &[0, 0, 0, 0, 0x80],
        &[0xff, 0xff, 0xff, 0xff, 0x80],
        &[0, 0, 0, 1, 0x81],
        &[0, 0, 0, 2, 0x80, 0],
        &[0, 0, 0, 1, 0x8f],
        &[0, 0, 0, 2, 0x8f, 0],
        &[0, 0, 0, 3, 0x8f, 1, 1],
        b"HTTP/1.1 200 OK",
    ];
    for bytes in rubbish {
        let script = after_hello(vec![bytes.to_vec()]);
        let store = script.connect(Some(SLACK));
        let error = store.delete(id()).expect_err("rubbish");
        assert!(matches!(error, Error::Protocol(_)), "{error}");
        assert!(matches!(store.delete(id()), Err(Error::Lost(_))));
    }
}

#[test]
fn a_length_that_was_not_asked_for_is_refused_before_its_bytes_come() {
    // the heads alone are sent: a client that made room and waited for the bodies would be silent
    for head in [[0, 0, 0, 6, 0x83], [0, 0, 0, 4, 0x83], [0, 4, 0, 0, 0x83], [0, 0, 0, 1, 0x83]] {
        let script = after_hello(vec![head.to_vec()]);
        let error = script.connect(Some(SLACK)).read(id(), 0, &mut [0; 4]).expect_err("another length");
        assert!(matches!(error, Error::Protocol(_)), "{error}");
    }
    for head in [[0, 4, 0, 0, 0x85], [0, 0, 0, 2, 0x84], [0, 4, 0, 1, 0x84]] {
        let script = after_hello(vec![head.to_vec(), head.to_vec()]);
        let store = script.connect(Some(SLACK));
        let error = if head[4] == 0x85 { store.usage().expect_err("long") } else { store.list().expect_err("long") };
        assert!(matches!(error, Error::Protocol(_)), "{error}");
    }
}

#[test]
fn an_object_that_is_longer_than_any_takes_no_memory() {
    for length in [0, 16_777_217, u32::MAX] {
        let got = said(Reply::Got(length));
        is_no_reply(&got, |store| store.hold(id()).map(drop));
        is_no_reply(&got, |store| store.hold_wait(id(), Some(SLACK)).map(drop));
        is_no_reply(&got, |store| store.get(id(), None).map(drop));
        let granted = vec![GrantedItem { id: part(2, 1), length, depth: 1 }];
        is_no_reply(&said(Reply::List(Listing { own: Vec::new(), granted })), |store| store.get(part(2, 1), None).map(drop));
        if length > 0 {
            is_no_reply(&listed(&[(id(), State::Fetching, length)]), |store| store.list().map(drop));
        }
    }
}

/// A reply that is none loses the session.
fn is_no_reply(reply: &[u8], ask: impl Fn(&Session) -> Result<(), Error>) {
    let script = after_hello(vec![reply.to_vec()]);
    let store = script.connect(Some(SLACK));
    let error = ask(&store).expect_err("no reply");
    assert!(matches!(error, Error::Protocol(_)), "{error}");
    assert!(!store.is_usable());
    assert!(matches!(store.leave(), Err(Error::Lost(_))));
}

#[test]
fn a_server_that_goes_away_loses_the_session() {
    let script = after_hello(vec![CLOSE.to_vec()]);
    let store = script.connect(None);
    let error = store.seal(id()).expect_err("closed");
    assert!(matches!(error, Error::Lost(_)), "{error}");
    let script = Script::new(vec![vec![CLOSE.to_vec()]]);
    let error = Session::connect(script.path(), 1, &KEY, None).expect_err("closed");
    assert!(matches!(error, Error::Lost(_)), "{error}");
    let error = Session::connect("/nowhere/store.0", 1, &KEY, Some(SLACK)).expect_err("nobody listens");
    assert!(matches!(error, Error::Io(_)), "{error}");
    assert!(error.to_string().contains("/nowhere/store.0: No such file"), "{error}");
}

#[test]
fn a_small_put_is_one_round_trip() {
    // nothing is answered before all is there
    let script = after_hello(vec![vec![], vec![], [placed(), ok(), ok()].concat()]);
    let store = script.connect(Some(SLACK));
    let id = store.put(b"Hello", None).expect("a put");
    assert_eq!(script.kinds(1), [0x01]);
    let frames: Vec<Vec<u8>> = (0..3).map(|_| script.frames.recv_timeout(SLACK).expect("a command")).collect();
    assert!(matches!(Command::decode(&frames[0]), Ok(Command::Create { id: created, length: 5, .. }) if created == id));
    assert_eq!(Command::decode(&frames[1]), Ok(Command::Write { id, offset: 0, bytes: b"Hello" }));
    assert_eq!(Command::decode(&frames[2]), Ok(Command::Seal(id)));
}

#[test]
fn a_small_get_into_a_buffer_is_one_round_trip() {
    // nothing is answered before all is there
    let script = after_hello(vec![vec![], vec![], taking(b"Hello").concat(), ok()]);
    let (store, mut buffer) = (script.connect(Some(SLACK)), [0; 5]);
    store.get_into(id(), &mut buffer, None).expect("a get");
    assert_eq!(&buffer, b"Hello");
    was_sent_no_more_than(&script, &store, &[0x01, 0x05, 0x06, 0x07]);
}

#[test]
fn a_get_into_a_buffer_of_another_length_leaves_it_as_it_was() {
    let script = after_hello(vec![said(Reply::Got(6)), said(Reply::Bytes(b"Hello".to_vec())), ok(), ok()]);
    let (store, mut buffer) = (script.connect(Some(SLACK)), *b"other");
    let error = store.get_into(id(), &mut buffer, None).expect_err("another length");
    assert!(matches!(error, Error::Invalid(_)), "{error}");
    assert_eq!(&buffer, b"other");
    was_sent_no_more_than(&script, &store, &[0x01, 0x05, 0x06, 0x07]);
}

#[test]
fn a_get_into_a_buffer_whose_read_is_refused_keeps_no_hold() {
    let script = after_hello(vec![said(Reply::Got(5)), said(Reply::Got(5)), refused(Refusal::Damaged), ok(), ok()]);
    let (store, mut buffer) = (script.connect(Some(SLACK)), [0; 5]);
    store.hold(id()).expect("another hold");
    let error = store.get_into(id(), &mut buffer, None).expect_err("refused");
    assert_eq!(error.refusal(), Some(Refusal::Damaged), "{error}");
    was_sent_no_more_than(&script, &store, &[0x01, 0x05, 0x05, 0x06, 0x07]);
}

#[test]
fn a_put_that_is_refused_half_way_is_deleted_again() {
    let script = after_hello(vec![placed(), refused(Refusal::NoMemory), ok(), ok()]);
    let store = script.connect(Some(SLACK));
    let error = store.put(b"Hello", None).expect_err("refused");
    assert_eq!(error.refusal(), Some(Refusal::NoMemory), "{error}");
    assert_eq!(script.kinds(5), [0x01, 0x02, 0x03, 0x04, 0x0b]);
    assert!(store.is_usable());
}

#[test]
fn a_put_under_an_id_that_was_given_is_not_sealed_half_written() {
    let script = after_hello(vec![placed(), refused(Refusal::NoMemory), ok(), ok()]);
    let store = script.connect(Some(SLACK));
    let error = store.put_as(id(), b"Hello", None).expect_err("refused");
    assert_eq!(error.refusal(), Some(Refusal::NoMemory), "{error}");
    assert_eq!(script.kinds(4), [0x01, 0x02, 0x03, 0x0b]);
}

#[test]
fn a_put_that_loses_its_session_is_deleted_by_another_one() {
    let script = Script::new(vec![vec![ok(), placed(), b"no reply".to_vec()], vec![ok(), ok()]]);
    let store = script.connect(Some(SLACK));
    let error = store.put_as(id(), b"Hello", None).expect_err("lost");
    assert!(matches!(error, Error::Protocol(_)), "{error}");
    assert_eq!(script.kinds(3), [0x01, 0x02, 0x03]);
    assert_eq!(script.kinds(1), [0x01]);
    let delete = script.frames.recv_timeout(SLACK).expect("a command");
    assert_eq!(Command::decode(&delete), Ok(Command::Delete(id())));
}

#[test]
fn a_put_at_a_server_that_stands_still_ends_in_time() {
    let script = after_hello(vec![]);
    let store = script.connect(Some(SHORT));
    let began = Instant::now();
    let error = store.put(&[7; 1 << 20], None).expect_err("silent");
    assert!(matches!(error, Error::Timeout), "{error}");
    assert!((SHORT..SLACK).contains(&began.elapsed()), "{:?}", began.elapsed());
    assert!(!store.is_usable());
}

#[test]
fn a_put_waits_for_room() {
    let pending = || refused(Refusal::Pending);
    let replies = vec![pending(), refused(Refusal::Busy), placed(), ok(), ok(), pending()];
    let script = after_hello(replies);
    let store = script.connect(Some(SLACK));
    store.put_as(id(), b"Hello", None).expect("a put");
    assert_eq!(script.kinds(6), [0x01, 0x02, 0x02, 0x02, 0x03, 0x04]);
    let error = store.put_as(id(), b"Hello", Some(Duration::ZERO)).expect_err("no room");
    assert_eq!(error.refusal(), Some(Refusal::Pending), "{error}");
    assert_eq!(script.kinds(1), [0x02]);
}

#[test]
fn a_burst_that_finds_no_room_is_sent_again_once_there_is_some() {
    let replies = vec![refused(Refusal::Pending), refused(Refusal::Absent), refused(Refusal::Absent), placed(), ok(), ok()];
    let script = after_hello(replies);
    script.connect(Some(SLACK)).put(b"Hello", None).expect("a put");
    assert_eq!(script.kinds(7), [0x01, 0x02, 0x03, 0x04, 0x02, 0x03, 0x04]);
}

fn listed(items: &[(ObjectId, State, u32)]) -> Vec<u8> {
    let item = |&(id, state, length)| OwnItem { id, state, kind: CopyKind::Secondary, length };
    said(Reply::List(Listing { own: items.iter().map(item).collect(), granted: Vec::new() }))
}

fn found(state: State) -> Vec<u8> {
    listed(&[(id(), state, 0)])
}

#[test]
fn a_put_takes_a_fetch_away_that_is_in_its_place() {
    let replies = vec![refused(Refusal::Exists), found(State::Fetching), refused(Refusal::Absent), placed(), ok(), ok()];
    let script = after_hello(replies);
    script.connect(Some(SLACK)).put_as(id(), b"Hello", None).expect("a put");
    assert_eq!(script.kinds(7), [0x01, 0x02, 0x10, 0x05, 0x02, 0x03, 0x04]);
    let script = after_hello(vec![refused(Refusal::Exists), found(State::Created)]);
    let error = script.connect(Some(SLACK)).put_as(id(), b"Hello", None).expect_err("another producer's");
    assert_eq!(error.refusal(), Some(Refusal::Exists), "{error}");
}

#[test]
fn a_look_that_finds_twice_has_one_hold() {
    let got = || said(Reply::Got(5));
    let replies = vec![refused(Refusal::Absent), got(), got(), ok(), said(Reply::Bytes(b"Hello".to_vec())), ok()];
    let script = after_hello(replies);
    let store = script.connect(Some(SLACK));
    drop(store.get(id(), Some(SLACK)).expect("a get"));
    assert_eq!(script.kinds(7), [0x01, 0x05, 0x05, 0x05, 0x07, 0x06, 0x07]);
}

#[test]
fn a_transfer_is_waited_for_and_left_to_go_on() {
    let unless_get = |refusal| [&refused(refusal), UNLESS_GET].concat();
    let under_way = [refused(Refusal::Pending), refused(Refusal::Pending), unless_get(Refusal::NotSealed), unless_get(Refusal::NotHeld)];
    let replies = [&under_way[..], &[said(Reply::Got(5)), said(Reply::Bytes(b"Hello".to_vec())), ok()]].concat();
    let script = after_hello(replies);
    let store = script.connect(Some(SLACK));
    let mut held = store.get(id(), None).expect("a get");
    held.release().expect("a release");
    assert_eq!(held.into_bytes(), b"Hello");
    let kinds: Vec<u8> = script.frames.try_iter().map(|frame| frame[4]).collect();
    // on a slow machine it may be time for a Get before a Read
    let between: Vec<&[u8]> = kinds.split(|&kind| kind == 0x06).collect();
    let [[0x01, 0x05, 0x05, entering @ ..], going_on @ .., [0x05, arrived @ ..], [0x07]] = &between[..] else { panic!("{kinds:02x?}") };
    assert_eq!(going_on.len(), 1, "{kinds:02x?}");
    assert!([entering, going_on[0], arrived].concat().iter().all(|&kind| kind == 0x05), "{kinds:02x?}");
}

#[test]
fn a_fetch_that_finds_no_room_is_deleted_and_no_other_copy_is() {
    let script = after_hello(vec![refused(Refusal::Full), found(State::Fetching), ok()]);
    let error = script.connect(Some(SLACK)).get(id(), None).expect_err("no room");
    assert_eq!(error.refusal(), Some(Refusal::Full), "{error}");
    assert_eq!(script.kinds(4), [0x01, 0x05, 0x10, 0x0b]);
    let script = after_hello(vec![refused(Refusal::Full), found(State::Away), ok()]);
    let store = script.connect(Some(SLACK));
    assert_eq!(store.get(id(), None).expect_err("no room").refusal(), Some(Refusal::Full));
    store.leave().expect("the session goes on");
    assert_eq!(script.kinds(4), [0x01, 0x05, 0x10, 0x12]);
}

#[test]
fn another_producers_copy_is_never_deleted() {
    let listing = said(Reply::List(Default::default()));
    let replies = vec![refused(Refusal::Exists), listing, said(Reply::Got(5)), refused(Refusal::Exists), ok(), ok()];
    let script = after_hello(replies);
    let store = script.connect(Some(SLACK));
    let error = store.put_as(id(), b"Hello", None).expect_err("it is there");
    assert_eq!(error.refusal(), Some(Refusal::Exists), "{error}");
    // the Get that would take a fetch away found the object, so its hold is given up
    assert_eq!(script.kinds(6), [0x01, 0x02, 0x10, 0x05, 0x02, 0x07]);
    store.leave().expect("the session goes on");
    assert_eq!(script.kinds(1), [0x12]);
}

#[test]
fn what_is_held_is_released_once_it_is_dropped() {
    let script = after_hello(vec![said(Reply::Got(5)), said(Reply::Bytes(b"Hello".to_vec())), ok(), ok()]);
    let store = script.connect(Some(SLACK));
    let held = store.get(id(), None).expect("a get");
    assert_eq!(&held[..], b"Hello");
    assert_eq!(script.kinds(3), [0x01, 0x05, 0x06]);
    drop(held);
    assert_eq!(script.kinds(1), [0x07]);
}

#[test]
fn a_pool_lends_no_session_that_is_lost() {
    let used = said(Reply::Usage(Usage { window: 64, ..Usage::default() }));
    let sessions = vec![
        vec![ok(), b"no reply".to_vec()],
        // the server closes this one
        vec![ok(), used.clone(), CLOSE.to_vec()],
        vec![ok(), used],
    ];
    let script = Script::new(sessions);
    let pool = Pool::new(script.path(), 1, &KEY, Some(SLACK), 1).expect("a pool");
    let lease = pool.session(None).expect("a session");
    assert!(matches!(pool.session(Some(SHORT)), Err(Error::Timeout)), "there is but one");
    assert!(matches!(lease.usage(), Err(Error::Protocol(_))));
    drop(lease);
    assert_eq!(pool.idle_sessions(), 0);
    let lease = pool.session(None).expect("another one");
    assert_eq!(lease.usage().expect("its usage").window, 64);
    assert!(matches!(lease.usage(), Err(Error::Lost(_))));
    drop(lease);
    let lease = pool.session(Some(SLACK)).expect("a third one");
    assert_eq!(lease.usage().expect("its usage").window, 64);
    drop(lease);
    assert_eq!(pool.idle_sessions(), 1);
}

#[test]
fn a_pool_keeps_no_session_with_replies_that_nobody_asked_for() {
    let goodbye = [ok(), b"more than was asked for".to_vec()].concat();
    let script = Script::new(vec![vec![ok(), goodbye], vec![ok(), ok()]]);
    let pool = Pool::new(script.path(), 1, &KEY, Some(SLACK), 1).expect("a pool");
    let lease = pool.session(None).expect("a session");
    lease.leave().expect("an answer");
    drop(lease);
    let lease = pool.session(None).expect("another session");
    lease.leave().expect("an answer");
    assert_eq!(script.kinds(4), [0x01, 0x12, 0x01, 0x12]);
}

#[test]
fn a_pool_notices_a_session_that_was_closed_while_nobody_had_it() {
    let script = Script::new(vec![vec![ok(), ok()], vec![ok(), ok()]]);
    let pool = Pool::new(script.path(), 1, &KEY, Some(SLACK), 1).expect("a pool");
    pool.session(None).expect("a session").leave().expect("an answer");
    assert_eq!(pool.idle_sessions(), 1);
    script.hang_up();
    pool.session(None).expect("another session").leave().expect("an answer");
    assert_eq!(script.kinds(4), [0x01, 0x12, 0x01, 0x12]);
}

#[test]
fn arguments_that_cannot_be_meant_are_told_and_nothing_is_sent() {
    let script = after_hello(vec![ok()]);
    let store = script.connect(Some(SLACK));
    assert!(matches!(Pool::new(script.path(), 1, &KEY, None, 0), Err(Error::Invalid(_))));
    assert!(matches!(store.object(1, 0), Err(Error::Invalid(_))));
    assert!(matches!(store.write(id(), u32::MAX, &[0; 65_537]), Err(Error::Invalid(_))));
    store.leave().expect("the session goes on");
    assert_eq!(script.kinds(2), [0x01, 0x12]);
}

/// What is in parts of this length, as long as it says.
fn manifest(length: u64, part: u32, parts: &[ObjectId]) -> Vec<u8> {
    let mut bytes = [&b"store\0m1"[..], &length.to_be_bytes(), &part.to_be_bytes()].concat();
    parts.iter().for_each(|part| bytes.extend_from_slice(&part.to_bytes()));
    bytes
}

/// The replies to a client that takes an object as a whole, up to the Release.
fn taking(bytes: &[u8]) -> Vec<Vec<u8>> {
    vec![said(Reply::Got(bytes.len() as u32)), said(Reply::Bytes(bytes.to_vec())), ok()]
}

/// The commands of these kinds are all that were sent, and the session goes on.
fn was_sent_no_more_than(script: &Script, store: &Session, kinds: &[u8]) {
    store.leave().expect("the session goes on");
    assert_eq!(script.kinds(kinds.len() + 1), [kinds, &[0x12]].concat());
}

#[test]
fn a_manifest_that_cannot_be_right_is_invalid_and_nothing_is_asked_of_its_parts() {
    let many: Vec<ObjectId> = (0..1024).map(|number| part(1, 2 + number)).collect();
    let wrong = [
        ("a part twice", manifest(33, 32, &[part(1, 7), part(1, 7)])),
        ("itself", manifest(33, 32, &[part(1, 7), id()])),
        ("more than 1,023 parts", manifest(1024, 1, &many)),
        ("another job's part", manifest(33, 32, &[part(1, 7), part(2, 8)])),
        ("too few parts", manifest(65, 32, &[part(1, 7), part(1, 8)])),
    ];
    for (what, bytes) in wrong {
        let script = after_hello([taking(&bytes), vec![ok()]].concat());
        let store = script.connect(Some(SLACK));
        let error = store.get_whole(id(), None).expect_err(what);
        assert!(matches!(error, Error::Invalid(_)), "{what}: {error}");
        was_sent_no_more_than(&script, &store, &[0x01, 0x05, 0x06, 0x07]);
        let beginning = vec![said(Reply::Got(bytes.len() as u32)), said(Reply::Bytes(bytes[..8].to_vec())), ok()];
        let script = after_hello([beginning, taking(&bytes), vec![ok()]].concat());
        let store = script.connect(Some(SLACK));
        let error = store.delete_whole(id()).expect_err(what);
        assert!(matches!(error, Error::Invalid(_)), "{what}: {error}");
        was_sent_no_more_than(&script, &store, &[0x01, 0x05, 0x06, 0x07, 0x05, 0x06, 0x07]);
    }
}

#[test]
fn lengths_of_parts_are_looked_at_before_any_is_taken() {
    // it says that it has 16 GiB, less 16 MiB
    let parts: Vec<ObjectId> = (0..1023).map(|number| part(1, 2 + number)).collect();
    let bytes = manifest(1023 << 24, 1 << 24, &parts);
    let other = parts[1022];
    let known = [(parts[0], State::Sealed, 1 << 24), (parts[1], State::Fetching, 0), (other, State::Away, 16)];
    let script = after_hello([taking(&bytes), vec![listed(&known), ok()]].concat());
    let store = script.connect(Some(SLACK));
    let error = store.get_whole(id(), None).expect_err("another length");
    assert!(matches!(error, Error::Invalid(_)), "{error}");
    was_sent_no_more_than(&script, &store, &[0x01, 0x05, 0x06, 0x07, 0x10]);
}

#[test]
fn lengths_of_granted_parts_are_looked_at_before_any_is_taken() {
    let bytes = manifest(33, 32, &[part(2, 7), part(2, 8)]);
    let item = |index, length| GrantedItem { id: part(2, index), length, depth: 1 };
    let granted = || said(Reply::List(Listing { own: Vec::new(), granted: vec![item(1, 76), item(7, 32), item(8, 2)] }));
    let script = after_hello(vec![granted(), said(Reply::Bytes(bytes)), granted(), ok()]);
    let store = script.connect(Some(SLACK));
    let error = store.get_whole(part(2, 1), None).expect_err("another length");
    assert!(matches!(error, Error::Invalid(_)), "{error}");
    was_sent_no_more_than(&script, &store, &[0x01, 0x10, 0x0f, 0x10]);
}

#[test]
fn a_part_whose_length_is_known_only_once_it_is_here_is_looked_at_then() {
    let bytes = manifest(33, 32, &[part(1, 7), part(1, 8)]);
    let another = vec![listed(&[]), said(Reply::Got(31)), refused(Refusal::OutOfBounds), ok(), ok()];
    let script = after_hello([taking(&bytes), another].concat());
    let store = script.connect(Some(SLACK));
    let error = store.get_whole(id(), None).expect_err("another length");
    assert!(matches!(error, Error::Invalid(_)), "{error}");
    was_sent_no_more_than(&script, &store, &[0x01, 0x05, 0x06, 0x07, 0x10, 0x05, 0x06, 0x07]);
}

#[test]
fn a_whole_is_given_up_after_its_time_wherever_the_server_stands_still() {
    let bytes = manifest(33, 32, &[part(1, 7), part(1, 8)]);
    let replies = [taking(&bytes), vec![listed(&[])]].concat();
    for count in 0..=replies.len() {
        let script = after_hello(replies[..count].to_vec());
        let store = script.connect(Some(SLACK));
        let began = Instant::now();
        let error = store.get_whole(id(), Some(SHORT)).expect_err("silent");
        assert!(matches!(error, Error::Timeout), "after {count} replies: {error}");
        assert!((SHORT..SLACK).contains(&began.elapsed()), "after {count} replies: {:?}", began.elapsed());
    }
}
