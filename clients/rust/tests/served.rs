//! Sessions of two jobs at a server that runs: STORE_SOCKET, STORE_JOB and STORE_KEY name the first job's, STORE_OTHER_JOB and
//! STORE_OTHER_KEY the second's, and STORE_OTHER_SOCKET another node. The first has a window of 64 MiB, the second of 1 MiB. `tests/rust_client` starts such a server.

use std::env;
use std::sync::atomic::{AtomicUsize, Ordering};
use std::sync::Barrier;
use std::thread;
use std::time::{Duration, Instant};

use store_client::{parse_key, CopyKind, Error, Key, ObjectId, Pool, Refusal, Session, State, Task, LARGEST};

// for one answer, on a machine that does much else
const PATIENCE: Option<Duration> = Some(Duration::from_secs(100));

fn variable(name: &str) -> String {
    env::var(name).unwrap_or_else(|_| panic!("{name} isn't set: tests/rust_client starts a server and sets it"))
}

fn job(name: &str) -> u32 {
    variable(name).parse().expect(name)
}

fn key(name: &str) -> Key {
    parse_key(&variable(name)).expect(name)
}

fn connect() -> Session {
    Session::connect(variable("STORE_SOCKET"), job("STORE_JOB"), &key("STORE_KEY"), PATIENCE).expect("a session")
}

fn connect_other() -> Session {
    Session::connect(variable("STORE_SOCKET"), job("STORE_OTHER_JOB"), &key("STORE_OTHER_KEY"), PATIENCE).expect("a session")
}

/// Bytes of which no two pieces are alike.
fn drawn(length: usize, seed: u32) -> Vec<u8> {
    let mut state = seed.wrapping_mul(2_654_435_761).wrapping_add(1);
    let mut next = || {
        state = state.wrapping_mul(1_664_525).wrapping_add(1_013_904_223);
        (state >> 24) as u8
    };
    (0..length).map(|_| next()).collect()
}

fn refusal_of<T: std::fmt::Debug>(result: Result<T, Error>) -> Refusal {
    let error = result.expect_err("it should be refused");
    error.refusal().unwrap_or_else(|| panic!("no refusal: {error}"))
}

#[test]
#[ignore = "wants a server: tests/rust_client starts one"]
fn what_was_put_comes_back() {
    let store = connect();
    for length in [1, 5, 4096, 65_536, 65_537, 1 << 20, (1 << 20) + 1, LARGEST] {
        let data = drawn(length, 1);
        let id = store.put(&data, None).expect("a put");
        let held = store.get(id, None).expect("a get");
        assert!(held[..] == data[..], "{length} bytes came back otherwise");
        assert_eq!((held.id(), held.len()), (id, length));
        drop(held);
        let mut buffer = vec![0; length];
        store.get_into(id, &mut buffer, None).expect("a get");
        assert!(buffer == data, "{length} bytes came back otherwise");
        store.delete(id).expect("a delete");
        assert_eq!(refusal_of(store.get(id, None)), Refusal::Absent, "no hold was left");
    }
}

#[test]
#[ignore = "wants a server: tests/rust_client starts one"]
fn an_object_has_at_least_one_byte_and_at_most_16_mebibytes() {
    let store = connect();
    let id = store.object(1, 1).expect("an id");
    for length in [0, LARGEST + 1] {
        let data = vec![7; length];
        assert_eq!(refusal_of(store.put(&data, None)), Refusal::BadSize);
        assert_eq!(refusal_of(store.put_as(id, &data, None)), Refusal::BadSize);
    }
    assert!(!store.contains(id).expect("an answer"));
}

#[test]
#[ignore = "wants a server: tests/rust_client starts one"]
fn what_nobody_puts_is_absent_once_the_time_is_over() {
    let store = connect();
    let id = store.object(2, 1).expect("an id");
    assert_eq!(refusal_of(store.get(id, None)), Refusal::Absent);
    let (time, began) = (Duration::from_millis(300), Instant::now());
    assert_eq!(refusal_of(store.get(id, Some(time))), Refusal::Absent);
    assert!((time..Duration::from_secs(60)).contains(&began.elapsed()), "{:?}", began.elapsed());
    // nothing of the looks is in a producer's way
    store.put_as(id, b"Hello", None).expect("a put");
    assert_eq!(refusal_of(store.put_as(id, b"Hello", None)), Refusal::Exists);
    let error = store.get_into(id, &mut [0; 4], None).expect_err("another length");
    assert!(matches!(error, Error::Invalid(_)), "{error}");
    store.delete(id).expect("a delete");
}

#[test]
#[ignore = "wants a server: tests/rust_client starts one"]
fn a_wait_ends_by_another_threads_put() {
    let (store, producer) = (connect(), connect());
    let id = store.object(3, 1).expect("an id");
    thread::scope(|scope| {
        let waiting = scope.spawn(|| store.get(id, PATIENCE).map(|held| held.into_bytes()));
        thread::sleep(Duration::from_millis(200));
        assert!(!waiting.is_finished(), "nothing is there yet");
        producer.put_as(id, b"Hello", PATIENCE).expect("a put");
        let came = waiting.join().expect("no panic").expect("the object");
        assert_eq!(came, b"Hello");
    });
    producer.delete(id).expect("a delete");
    assert!(!store.contains(id).expect("an answer"), "no hold was left");
}

#[test]
#[ignore = "wants a server: tests/rust_client starts one"]
fn an_object_is_made_step_by_step() {
    let store = connect();
    let id = store.object(4, 1).expect("an id");
    assert_eq!(refusal_of(store.seal(id)), Refusal::Absent);
    let placed = store.create(id, CopyKind::Primary, 100_000).expect("a copy");
    assert_eq!(placed.length, 100_000);
    assert_eq!(refusal_of(store.hold(id)), Refusal::NotSealed);
    let data = drawn(70_000, 2);
    store.write(id, 20_000, &data).expect("two Writes");
    assert_eq!(refusal_of(store.write(id, 99_999, b"Hello")), Refusal::OutOfBounds);
    store.write(id, 100_000, b"").expect("no bytes at the end");
    store.seal(id).expect("a seal");
    assert_eq!(refusal_of(store.write(id, 0, b"Hello")), Refusal::AlreadySealed);
    let mut buffer = vec![1; 80_000];
    assert_eq!(refusal_of(store.read(id, 0, &mut buffer)), Refusal::NotHeld);
    assert_eq!(store.hold(id).expect("a hold"), 100_000);
    store.read(id, 15_000, &mut buffer).expect("two Reads");
    assert!(buffer[..5000].iter().all(|&byte| byte == 0) && buffer[5000..75_000] == data[..]);
    assert_eq!(refusal_of(store.read(id, 20_001, &mut buffer)), Refusal::OutOfBounds);
    let item = store.list().expect("a list").own.into_iter().find(|item| item.id == id).expect("its item");
    assert_eq!((item.state, item.kind, item.length), (State::Sealed, CopyKind::Primary, 100_000));
    let usage = store.usage().expect("the usage");
    assert!(usage.window == 1 << 26 && usage.window_used >= 100_000 && usage.copies >= 1, "{usage:?}");
    store.release(id).expect("a release");
    assert_eq!(refusal_of(store.release(id)), Refusal::NotHeld);
    store.delete(id).expect("a delete");
}

#[test]
#[ignore = "wants a server: tests/rust_client starts one"]
fn tasks_borrow_and_end() {
    let store = connect();
    // a task that has ended doesn't come back, so it is another one each time
    let id = store.new_id().expect("an id");
    let (owner, other) = (id.task(), Task::numbered(6));
    store.put_as(id, b"Hello", None).expect("a put");
    store.borrow(id, other).expect("a borrower");
    assert_eq!(refusal_of(store.borrow(id, other)), Refusal::Exists);
    assert_eq!(refusal_of(store.unpin(id, other)), Refusal::NotOwner);
    store.unpin(id, owner).expect("it is let go");
    assert!(store.contains(id).expect("an answer"), "a task borrows it");
    store.give_up(id, other).expect("nobody borrows it any more");
    assert!(!store.contains(id).expect("an answer"));
    store.end_task(owner).expect("the task's end");
    assert_eq!(refusal_of(store.put_as(id, b"Hello", None)), Refusal::Gone);
}

#[test]
#[ignore = "wants a server: tests/rust_client starts one"]
fn what_is_held_stays_though_it_is_deleted() {
    let store = connect();
    let id = store.put(b"Hello", None).expect("a put");
    let mut held = store.get(id, None).expect("a get");
    store.delete(id).expect("a delete");
    assert!(store.contains(id).expect("an answer"));
    held.release().expect("a release");
    held.release().expect("once");
    assert!(!store.contains(id).expect("an answer"));
    assert_eq!(&held[..], b"Hello");
    let id = store.put(b"Hello", None).expect("a put");
    assert_eq!(store.hold_wait(id, PATIENCE).expect("a hold"), 5);
    store.delete(id).expect("a delete");
    store.leave().expect("all holds are given up");
    assert!(!store.contains(id).expect("an answer"));
}

#[test]
#[ignore = "wants a server: tests/rust_client starts one"]
fn a_get_into_a_buffer_gives_no_other_hold_up() {
    let (store, mut buffer) = (connect(), [0; 5]);
    let id = store.put(b"Hello", None).expect("a put");
    let mut held = store.get(id, None).expect("a get");
    store.get_into(id, &mut buffer, None).expect("a get");
    assert_eq!(&buffer, b"Hello");
    store.delete(id).expect("a delete");
    // the Get is refused, and a Release with it would be of the other hold
    assert_eq!(refusal_of(store.get_into(id, &mut buffer, None)), Refusal::Absent);
    store.read(id, 0, &mut buffer).expect("it is held");
    held.release().expect("a release");
    assert_eq!(refusal_of(store.read(id, 0, &mut buffer)), Refusal::Absent);
}

#[test]
#[ignore = "wants a server: tests/rust_client starts one"]
fn a_wrong_key_is_not_admitted() {
    let wrong = Session::connect(variable("STORE_SOCKET"), job("STORE_JOB"), &[0; 32], PATIENCE);
    assert_eq!(refusal_of(wrong), Refusal::NotAdmitted);
    let nobody = Session::connect(variable("STORE_SOCKET"), u32::MAX, &key("STORE_KEY"), PATIENCE);
    assert_eq!(refusal_of(nobody), Refusal::NotAdmitted);
}

#[test]
#[ignore = "wants a server: tests/rust_client starts one"]
fn a_granted_object_is_got_by_the_other_job_alone() {
    let (store, other) = (connect(), connect_other());
    let data = drawn(100_000, 3);
    let id = store.put(&data, None).expect("a put");
    let mut buffer = vec![0; 70_000];
    assert_eq!(refusal_of(other.peek(id, 0, &mut buffer)), Refusal::NotGranted);
    assert_eq!(refusal_of(other.get(id, Some(Duration::ZERO))), Refusal::NotGranted);
    assert_eq!(refusal_of(store.grant(id, store.job())), Refusal::BadId);
    store.grant(id, other.job()).expect("a grant");
    other.peek(id, 20_000, &mut buffer).expect("two Peeks");
    assert!(buffer == data[20_000..90_000]);
    assert!(other.get(id, None).expect("the object")[..] == data[..]);
    let granted = other.list().expect("a list").granted.into_iter().find(|item| item.id == id).expect("its item");
    assert_eq!((granted.length, granted.depth), (100_000, 1));
    assert_eq!(refusal_of(store.delete(id)), Refusal::Granted);
    store.withdraw(id, other.job()).expect("no grant any more");
    assert_eq!(refusal_of(other.get(id, None)), Refusal::NotGranted);
    store.delete(id).expect("a delete");
}

#[test]
#[ignore = "wants a server: tests/rust_client starts one"]
fn an_object_of_another_node_is_fetched() {
    let here = connect();
    let there = Session::connect(variable("STORE_OTHER_SOCKET"), here.job(), &key("STORE_KEY"), PATIENCE).expect("a session");
    let data = drawn(3_000_001, 8);
    let id = here.put(&data, None).expect("a put");
    assert!(!there.contains(id).expect("an answer"));
    assert!(there.get(id, PATIENCE).expect("a get")[..] == data[..]);
    let item = there.list().expect("a list").own.into_iter().find(|item| item.id == id).expect("its item");
    assert_eq!((item.state, item.kind, item.length), (State::Sealed, CopyKind::Secondary, 3_000_001));
    let later = here.object(8, 1).expect("an id");
    thread::scope(|scope| {
        let waiting = scope.spawn(|| there.get(later, PATIENCE).map(|held| held.into_bytes()));
        thread::sleep(Duration::from_millis(200));
        here.put_as(later, &data, None).expect("a put");
        assert!(waiting.join().expect("no panic").expect("the object") == data);
    });
    [id, later].iter().for_each(|&id| here.delete(id).expect("a delete"));
}

#[test]
#[ignore = "wants a server: tests/rust_client starts one"]
fn many_threads_use_few_sessions_of_a_pool() {
    const MOST: usize = 3;
    let pool = Pool::new(variable("STORE_SOCKET"), job("STORE_JOB"), &key("STORE_KEY"), PATIENCE, MOST).expect("a pool");
    let (lent, most_lent) = (AtomicUsize::new(0), AtomicUsize::new(0));
    // in its first round each thread waits for others in theirs, so that all sessions are lent at once
    let all_lent = Barrier::new(MOST);
    thread::scope(|scope| {
        // a multiple of how many wait for one another
        for number in 0..4 * MOST as u32 {
            let (pool, lent, most_lent, all_lent) = (&pool, &lent, &most_lent, &all_lent);
            scope.spawn(move || {
                for round in 0..20 {
                    let store = pool.session(PATIENCE).expect("a session");
                    most_lent.fetch_max(lent.fetch_add(1, Ordering::SeqCst) + 1, Ordering::SeqCst);
                    if round == 0 {
                        all_lent.wait();
                    }
                    put_and_get(&store, &drawn(1 + 997 * round, number));
                    lent.fetch_sub(1, Ordering::SeqCst);
                }
            });
        }
    });
    assert_eq!(most_lent.load(Ordering::SeqCst), MOST);
    assert_eq!(pool.idle_sessions(), MOST);
}

fn put_and_get(store: &Session, data: &[u8]) {
    let id = store.put(data, None).expect("a put");
    assert!(store.get(id, None).expect("a get")[..] == *data);
    store.delete(id).expect("a delete");
    assert!(!store.contains(id).expect("an answer"));
}

#[test]
#[ignore = "wants a server: tests/rust_client starts one"]
fn threads_share_a_session() {
    let store = connect();
    thread::scope(|scope| {
        for number in 0..8 {
            let store = &store;
            scope.spawn(move || (0..10).for_each(|round| put_and_get(store, &drawn(1 + 9973 * round, number))));
        }
    });
    assert!(store.is_usable());
}

#[test]
#[ignore = "wants a server: tests/rust_client starts one"]
fn a_session_comes_back_to_its_pool_without_holds() {
    let pool = Pool::new(variable("STORE_SOCKET"), job("STORE_JOB"), &key("STORE_KEY"), PATIENCE, 1).expect("a pool");
    let lease = pool.session(PATIENCE).expect("a session");
    let id: ObjectId = lease.put(b"Hello", None).expect("a put");
    assert_eq!(lease.hold(id).expect("a hold"), 5);
    drop(lease);
    let lease = pool.session(PATIENCE).expect("the same session");
    assert_eq!(refusal_of(lease.read(id, 0, &mut [0; 5])), Refusal::NotHeld);
    lease.delete(id).expect("a delete");
}

#[test]
#[ignore = "wants a server: tests/rust_client starts one"]
fn what_is_longer_than_an_object_goes_in_parts() {
    let store = connect();
    let data = drawn(LARGEST + 5_000_001, 4);
    let named = store.object(7, 1).expect("an id");
    store.put_whole_as(named, &data, PATIENCE).expect("a put");
    assert!(store.get_whole(named, None).expect("a get") == data);
    let parts = store.parts(named).expect("its parts");
    assert!(parts.len() == 6 && parts.iter().all(|part| part.task() == named.task()), "of a sixteenth of the window each: {parts:?}");
    assert_eq!(refusal_of(store.put_whole_as(named, &data, PATIENCE)), Refusal::Exists);
    store.delete_whole(named).expect("a delete");
    for id in parts.iter().chain([&named]) {
        assert!(!store.contains(*id).expect("an answer"), "{id} is still there");
    }
    for length in [0, 5] {
        let id = store.put_whole(&data[..length], PATIENCE).expect("a put");
        assert_eq!(store.get_whole(id, None).expect("a get"), data[..length]);
        assert_eq!(store.parts(id).expect("its parts"), []);
        store.delete_whole(id).expect("a delete");
    }
}

#[test]
#[ignore = "wants a server: tests/rust_client starts one"]
fn parts_that_find_no_room_are_all_deleted_again() {
    let store = connect_other();
    let before = store.usage().expect("the usage");
    // the other job's window is of 1 MiB, and has no device
    assert_eq!(refusal_of(store.put_whole(&drawn(3 << 20, 5), Some(Duration::from_millis(200)))), Refusal::Full);
    assert_eq!(store.usage().expect("the usage"), before);
    let id = store.put_whole(&drawn(700_000, 6), PATIENCE).expect("a put");
    assert!(store.get_whole(id, None).expect("a get") == drawn(700_000, 6));
    store.delete_whole(id).expect("a delete");
}

#[test]
#[ignore = "wants a server: tests/rust_client starts one"]
fn parts_are_granted_one_by_one() {
    let (store, other) = (connect(), connect_other());
    let data = drawn(LARGEST + 1, 7);
    let id = store.put_whole(&data, PATIENCE).expect("a put");
    let mut ids = store.parts(id).expect("its parts");
    ids.push(id);
    ids.iter().for_each(|&one| store.grant(one, other.job()).expect("a grant"));
    assert_eq!(other.parts(id).expect("its parts"), ids[..ids.len() - 1]);
    assert!(other.get_whole(id, None).expect("a get") == data);
    ids.iter().for_each(|&one| store.withdraw(one, other.job()).expect("no grant any more"));
    store.delete_whole(id).expect("a delete");
}
