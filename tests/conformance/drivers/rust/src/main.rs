//! A driver of the client in Rust (see ../../README.md).

use std::env;
use std::io::{self, BufRead};
use std::process;
use std::time::Duration;

use store_client::{CopyKind, Error, Listing, ObjectId, Session, State, Task};

/// So long a server may be silent: the kit ends what is silent.
const PATIENCE: Option<Duration> = Some(Duration::from_secs(100));

/// What came of an operation, in words.
type Told = Result<String, Error>;

fn main() {
    let words: Vec<String> = env::args().collect();
    let [_, path, job, key] = &words[..] else { fail("usage: driver SOCKET JOB KEY") };
    let key = bytes(key).try_into().unwrap_or_else(|_| fail("a key has 32 bytes"));
    let connected = Session::connect(path, number(job), &key, PATIENCE);
    println!("{}", told(connected.as_ref().map(|_| "ok".to_owned())));
    let Ok(store) = connected else { return };
    for line in io::stdin().lock().lines() {
        let line = line.unwrap_or_else(|_| fail("the input can't be read"));
        let words: Vec<&str> = line.split_whitespace().collect();
        println!("{}", told(done(&store, &words).as_ref().map(String::clone)));
    }
}

fn fail(what: &str) -> ! {
    eprintln!("driver: {what}");
    process::exit(2);
}

fn told(came: Result<String, &Error>) -> String {
    match came {
        Ok(said) => said,
        Err(Error::Refused(refusal)) => format!("refused {} {}", refusal.number(), refusal.name()),
        Err(Error::Protocol(_)) => "protocol".to_owned(),
        Err(Error::Invalid(_)) => "invalid".to_owned(),
        Err(_) => "lost".to_owned(),
    }
}

fn number(text: &str) -> u32 {
    text.parse().unwrap_or_else(|_| fail("a number can't be read"))
}

fn task(text: &str) -> Task {
    text.parse().unwrap_or_else(|_| fail("a task can't be read"))
}

fn bytes(digits: &str) -> Vec<u8> {
    if digits == "-" {
        return Vec::new();
    }
    let pairs = (0..digits.len()).step_by(2).map(|at| digits.get(at..at + 2));
    let read = pairs.map(|pair| u8::from_str_radix(pair?, 16).ok()).collect::<Option<Vec<u8>>>();
    read.unwrap_or_else(|| fail("bytes can't be read"))
}

fn told_bytes(bytes: &[u8]) -> String {
    if bytes.is_empty() {
        return "bytes -".to_owned();
    }
    let digits: Vec<String> = bytes.iter().map(|byte| format!("{byte:02x}")).collect();
    format!("bytes {}", digits.concat())
}

fn ok(done: Result<(), Error>) -> Told {
    done.map(|()| "ok".to_owned())
}

/// Carries out the operation of these words. What can't be read ends the driver.
fn done(store: &Session, words: &[&str]) -> Told {
    match *words {
        ["list"] => store.list().map(|listing| told_list(&listing, store.job())),
        ["usage"] => store.usage().map(|used| {
            let (window, device) = (format!("{} {}", used.window, used.window_used), format!("{} {}", used.device, used.device_used));
            format!("usage {window} {device} {} {}", used.copies, used.works)
        }),
        ["leave"] => ok(store.leave()),
        ["endtask", text] => ok(store.end_task(task(text))),
        [word, text, ref words @ ..] => {
            let id = ObjectId::parse(text, store.job()).unwrap_or_else(|_| fail("an id can't be read"));
            on_object(store, word, id, words)
        }
        _ => fail("there is no such operation"),
    }
}

fn on_object(store: &Session, word: &str, id: ObjectId, words: &[&str]) -> Told {
    match (word, words) {
        ("create" | "copy" | "createwait" | "copywait", [length]) => create(store, word, id, number(length)),
        ("write", [offset, digits]) => ok(store.write(id, number(offset), &bytes(digits))),
        ("seal", []) => ok(store.seal(id)),
        ("get", []) => store.hold(id).map(|length| format!("got {length}")),
        ("getwait", []) => store.hold_wait(id, None).map(|length| format!("got {length}")),
        ("read" | "peek", [offset, count]) => {
            let mut into = vec![0; number(count) as usize];
            let read = if word == "read" { Session::read } else { Session::peek };
            read(store, id, number(offset), &mut into).map(|()| told_bytes(&into))
        }
        ("release", []) => ok(store.release(id)),
        ("unpin", [text]) => ok(store.unpin(id, task(text))),
        ("borrow", [text]) => ok(store.borrow(id, task(text))),
        ("giveup", [text]) => ok(store.give_up(id, task(text))),
        ("delete", []) => ok(store.delete(id)),
        ("grant", [job]) => ok(store.grant(id, number(job))),
        ("withdraw", [job]) => ok(store.withdraw(id, number(job))),
        _ => on_whole(store, word, id, words),
    }
}

fn create(store: &Session, word: &str, id: ObjectId, length: u32) -> Told {
    let kind = if word.starts_with("copy") { CopyKind::Secondary } else { CopyKind::Primary };
    let placed = if word.ends_with("wait") { store.create_wait(id, kind, length, None) } else { store.create(id, kind, length) }?;
    Ok(format!("placed {} {}", placed.offset, placed.length))
}

fn on_whole(store: &Session, word: &str, id: ObjectId, words: &[&str]) -> Told {
    match (word, words) {
        ("put", [digits]) => ok(store.put_as(id, &bytes(digits), PATIENCE)),
        ("take", []) => taken(store, id, None),
        ("wait", [seconds]) => taken(store, id, Some(Duration::from_secs(number(seconds).into()))),
        ("putwhole", [digits]) => ok(store.put_whole_as(id, &bytes(digits), PATIENCE)),
        ("takewhole", []) => store.get_whole(id, None).map(|bytes| told_bytes(&bytes)),
        ("deletewhole", []) => ok(store.delete_whole(id)),
        _ => fail("there is no such operation"),
    }
}

fn taken(store: &Session, id: ObjectId, timeout: Option<Duration>) -> Told {
    let mut held = store.get(id, timeout)?;
    held.release()?;
    Ok(told_bytes(&held))
}

fn told_list(listing: &Listing, job: u32) -> String {
    let mut words = vec!["list".to_owned()];
    for item in &listing.own {
        let state = match item.state {
            State::Created => "created",
            State::Sealed => "sealed",
            State::Restoring => "restoring",
            State::Fetching => "fetching",
            State::Away => "away",
        };
        let kind = if item.kind == CopyKind::Primary { "primary" } else { "secondary" };
        words.push(format!("{}:{state}:{kind}:{}", item.id.text(job), item.length));
    }
    for item in &listing.granted {
        words.push(format!("{}:granted:{}:{}", item.id.text(job), item.length, item.depth));
    }
    words.join(" ")
}
