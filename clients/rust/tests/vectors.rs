//! The documented frames: each is encoded from what its line says, and decoded to it; what was made of one by a fault is refused.

use std::collections::BTreeSet;
use std::fs;

use store_client::frame::{Command, NoFrame, Reply};
use store_client::{CopyKind, Listing, ObjectId, State, Task};

const JOB: u32 = 1;

/// The frames of the documented file, and what each says: commands if so, or replies.
fn vectors(commands: bool) -> Vec<(Vec<u8>, String)> {
    let path = concat!(env!("CARGO_MANIFEST_DIR"), "/../../docs/rules/frames.vectors");
    let text = fs::read_to_string(path).expect(path);
    let lines = text.lines().filter(|line| !line.is_empty() && !line.starts_with('#'));
    let vectors = lines.map(|line| line.split_once(' ').expect(line)).map(|(digits, said)| (bytes(digits), said.to_owned()));
    vectors.filter(|(frame, _)| (frame[4] < 0x80) == commands).collect()
}

fn kinds(vectors: &[(Vec<u8>, String)]) -> BTreeSet<u8> {
    vectors.iter().map(|(frame, _)| frame[4]).collect()
}

fn bytes(digits: &str) -> Vec<u8> {
    if digits == "-" {
        return Vec::new();
    }
    assert_eq!(digits.len() % 2, 0, "{digits}");
    (0..digits.len()).step_by(2).map(|at| u8::from_str_radix(&digits[at..at + 2], 16).expect(digits)).collect()
}

fn digits(bytes: &[u8]) -> String {
    match bytes {
        [] => "-".to_owned(),
        _ => bytes.iter().map(|byte| format!("{byte:02x}")).collect(),
    }
}

/// The command of a line, whose bytes are those that were read of it.
fn command_of<'a>(words: &[&str], bytes: &'a [u8]) -> Command<'a> {
    let number = |at: usize| words[at].parse::<u32>().expect(words[at]);
    let id = || ObjectId::parse(words[1], JOB).expect(words[1]);
    let task = |at: usize| words[at].parse::<Task>().expect(words[at]);
    match words[0] {
        "hello" => Command::Hello { job: number(1), key: bytes.try_into().expect("a key") },
        "create" => Command::Create { id: id(), kind: CopyKind::Primary, length: number(2) },
        "copy" => Command::Create { id: id(), kind: CopyKind::Secondary, length: number(2) },
        "createwait" => Command::CreateWait { id: id(), kind: CopyKind::Primary, length: number(2) },
        "copywait" => Command::CreateWait { id: id(), kind: CopyKind::Secondary, length: number(2) },
        "write" => Command::Write { id: id(), offset: number(2), bytes },
        "seal" => Command::Seal(id()),
        "get" => Command::Get(id()),
        "getwait" => Command::GetWait(id()),
        "read" => Command::Read { id: id(), offset: number(2), count: number(3) },
        "release" => Command::Release(id()),
        "unpin" => Command::Unpin { id: id(), task: task(2) },
        "borrow" => Command::Borrow { id: id(), task: task(2) },
        "giveup" => Command::GiveUp { id: id(), task: task(2) },
        "delete" => Command::Delete(id()),
        "endtask" => Command::EndTask(task(1)),
        "grant" => Command::Grant { id: id(), job: number(2) },
        "withdraw" => Command::Withdraw { id: id(), job: number(2) },
        "peek" => Command::Peek { id: id(), offset: number(2), count: number(3) },
        "list" => Command::List,
        "usage" => Command::Usage,
        "leave" => Command::Leave,
        word => panic!("there is no command {word}"),
    }
}

fn told(reply: &Reply) -> String {
    match reply {
        Reply::Ok => "ok".to_owned(),
        Reply::Placed(placed) => format!("placed {} {}", placed.offset, placed.length),
        Reply::Got(length) => format!("got {length}"),
        Reply::Bytes(bytes) => format!("bytes {}", digits(bytes)),
        Reply::List(listing) => told_list(listing),
        Reply::Usage(usage) => {
            let (used, device) = (usage.window_used, usage.device_used);
            format!("usage {} {used} {} {device} {} {}", usage.window, usage.device, usage.copies, usage.works)
        }
        Reply::Refused(refusal) => format!("refused {} {}", refusal.number(), refusal.name()),
    }
}

fn told_list(listing: &Listing) -> String {
    let mut words = vec!["list".to_owned()];
    for item in &listing.own {
        let state = match item.state {
            State::Created => "created",
            State::Sealed => "sealed",
            State::Restoring => "restoring",
            State::Fetching => "fetching",
            State::Away => "away",
        };
        let kind = if item.kind == CopyKind::Primary { "primary" } else { "secondary" };
        words.push(format!("{}:{state}:{kind}:{}", item.id.text(JOB), item.length));
    }
    for item in &listing.granted {
        words.push(format!("{}:granted:{}:{}", item.id.text(JOB), item.length, item.depth));
    }
    words.join(" ")
}

#[test]
fn commands_are_encoded_and_decoded() {
    let vectors = vectors(true);
    assert_eq!(kinds(&vectors), (0x01..=0x14).collect::<BTreeSet<u8>>());
    for (frame, said) in &vectors {
        let words: Vec<&str> = said.split(' ').collect();
        let last = match words[0] {
            "hello" | "write" => bytes(words[words.len() - 1]),
            _ => Vec::new(),
        };
        let command = command_of(&words, &last);
        assert_eq!(command.encode().as_ref(), Ok(frame), "{said}");
        assert_eq!(Command::decode(frame), Ok(command), "{said}");
    }
}

#[test]
fn replies_are_decoded_and_encoded() {
    let vectors = vectors(false);
    assert_eq!(kinds(&vectors), (0x80..=0x85).chain([0x8f]).collect::<BTreeSet<u8>>());
    for (frame, said) in &vectors {
        let reply = Reply::decode(frame).expect(said);
        assert_eq!(&told(&reply), said);
        assert_eq!(reply.encode().as_ref(), Ok(frame), "{said}");
    }
}

/// The frame with another body, and the length of that.
fn with_length(frame: &[u8]) -> Vec<u8> {
    let length = (frame.len() as u32 - 4).to_be_bytes();
    [&length, &frame[4..]].concat()
}

#[test]
fn what_is_cut_or_longer_is_refused() {
    for (frame, said) in vectors(true).iter().chain(&vectors(false)) {
        let decoded = |frame: &[u8]| match frame.get(4) {
            Some(0x80..) => Reply::decode(frame).map(|_| ()),
            _ => Command::decode(frame).map(|_| ()),
        };
        for length in 0..frame.len() {
            assert_eq!(decoded(&frame[..length]), Err(NoFrame::Length), "{said}, cut to {length}");
        }
        let longer = [&frame[..], &[0]].concat();
        assert_eq!(decoded(&longer), Err(NoFrame::Length), "{said}");
        // of these two the body may have any length
        if !matches!(frame[4], 0x03 | 0x83) {
            assert_eq!(decoded(&with_length(&longer)), Err(NoFrame::Body), "{said}");
            for length in 5..frame.len() {
                assert_eq!(decoded(&with_length(&frame[..length])), Err(NoFrame::Body), "{said}, cut to {length}");
            }
        }
    }
}

#[test]
fn kinds_that_are_none_are_refused() {
    for kind in [0x00, 0x15, 0x7f, 0x86, 0x8e, 0x90, 0xff] {
        assert_eq!(Command::decode(&[0, 0, 0, 1, kind]), Err(NoFrame::Kind(kind)));
        assert_eq!(Reply::decode(&[0, 0, 0, 1, kind]), Err(NoFrame::Kind(kind)));
    }
    assert_eq!(Command::decode(&[0, 0, 0, 1, 0x80]), Err(NoFrame::Kind(0x80)));
    assert_eq!(Reply::decode(&[0, 0, 0, 1, 0x10]), Err(NoFrame::Kind(0x10)));
    assert_eq!(Command::decode(&[0, 0, 0, 0]), Err(NoFrame::Length));
    assert_eq!(Reply::decode(&[0xff, 0xff, 0xff, 0xff, 0x80]), Err(NoFrame::Length));
}

#[test]
fn ids_and_copies_that_are_none_are_refused() {
    for (frame, said) in vectors(true) {
        if matches!(frame[4], 0x01 | 0x0c | 0x10..=0x12) {
            continue;
        }
        // the last byte of the job, and that of the index
        for last in [5 + 23, 5 + 27] {
            let mut changed = frame.clone();
            changed[last - 3..=last].fill(0);
            assert_eq!(Command::decode(&changed), Err(NoFrame::Id), "{said}");
            if matches!(frame[4], 0x02 | 0x14) {
                // what is both is told as malformed
                changed[5 + 28] = 2;
                assert_eq!(Command::decode(&changed), Err(NoFrame::Copy(2)), "{said}");
            }
        }
    }
    let item = "0000002b8400000001000000000000000000000000000000000000000100000001000000010100000001020000 0000".replace(' ', "");
    let good = bytes(&item);
    assert!(Reply::decode(&good).is_ok());
    for (at, number) in [(37, 5), (38, 2)] {
        let mut changed = good.clone();
        changed[at] = number;
        assert_eq!(Reply::decode(&changed), Err(NoFrame::Copy(number)));
    }
}

#[test]
fn refusals_and_lengths_that_are_none_are_refused() {
    assert_eq!(Reply::decode(&bytes("000000028f00")), Err(NoFrame::Refusal));
    let id = "00000000000000000000000000000000000000010000000100000001";
    for (length, digits) in [(0, "00000000"), (16_777_217, "01000001"), (u32::MAX, "ffffffff")] {
        let none = Err(NoFrame::ObjectLength(length));
        assert_eq!(Reply::decode(&bytes(&format!("0000000582{digits}"))), none);
        assert_eq!(Reply::decode(&bytes(&format!("0000002a840000000000000001{id}{digits}01"))), none);
        let own = Reply::decode(&bytes(&format!("0000002b8400000001{id}0301{digits}00000000")));
        // a fetch may have no length yet
        assert_eq!(own.is_ok(), length == 0);
        assert!(length == 0 || own == none);
    }
}

#[test]
fn a_list_of_more_items_than_its_bytes_takes_no_memory() {
    let frame = bytes("0000000984ffffffff00000000");
    assert_eq!(Reply::decode(&frame), Err(NoFrame::Body));
    assert_eq!(Reply::decode(&bytes("000000098400000000ffffffff")), Err(NoFrame::Body));
}

#[test]
fn the_longest_frames_are_those_of_the_rules() {
    let id = Task::numbered(1).object(1, 1).expect("an id");
    let room = vec![7; 65_568];
    let longest = Command::Write { id, offset: 0, bytes: &room[..65_567] };
    let frame = longest.encode().expect("the longest command");
    assert_eq!(frame.len(), 4 + 65_600);
    assert_eq!(Command::decode(&frame), Ok(longest));
    assert_eq!(Command::Write { id, offset: 0, bytes: &room }.encode(), Err(NoFrame::Length));
    assert_eq!(Command::decode(&with_length(&[&frame[..], &[7]].concat())), Err(NoFrame::Length));
    let reply = Reply::Bytes(vec![7; 262_143]);
    assert_eq!(Reply::decode(&reply.encode().expect("the longest reply")), Ok(reply));
    assert_eq!(Reply::Bytes(vec![7; 262_144]).encode(), Err(NoFrame::Length));
}
