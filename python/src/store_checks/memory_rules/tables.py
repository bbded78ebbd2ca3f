"""What tests/memory knows of the kit's calls, and the tables of what it lets pass, each line with its reason."""
from __future__ import annotations

from typing import Dict, Set

# The one crate that asks for memory.
GROWTH = "memory_growth"

# Functions of the kit's types that ask for memory, and answer by AllocError or AllocFailed. Left out are `write` of a text, `send`, `recv`,
# `env` and `build`, whose names others have that ask for nothing.
METHODS: Set[str] = set(
    """add_extension alias aliases append arg args bin_name clone clone_from clone_from_slice cloned collect concat conflicts_with
    conflicts_with_all copy_to_bytes current_dir display_name drain drain_into encode_hex encode_hex_upper entry env_remove envs error
    extend extend_from_slice extend_from_within extend_one extend_with_clones freeze freeze_to from_clones from_elem from_iter
    from_slice from_string from_utf16 from_utf16_lossy from_utf8_lossy from_vec group groups insert insert_before insert_full
    insert_mut insert_sorted insert_str into_owned into_vec join join_promised long_flag_alias make_mut overrides_with
    overrides_with_all push push_back push_back_mut push_front push_front_mut push_mut push_str put put_bytes put_f32 put_f32_le
    put_f64 put_f64_le put_from put_i128 put_i128_le put_i16 put_i16_le put_i32 put_i32_le put_i64 put_i64_le put_i8 put_int
    put_int_le put_slice put_u128 put_u128_le put_u16 put_u16_le put_u32 put_u32_le put_u64 put_u64_le put_u8 put_uint put_uint_le
    render_help render_long_help render_long_version render_usage render_version repeat replace replace_full replace_range replacen
    required_if_eq required_if_eq_all required_if_eq_any required_unless_present required_unless_present_all
    required_unless_present_any requires_all requires_arg reserve reserve_exact resize set_extension set_file_name shift_insert
    short_alias short_flag_alias slice sort sort_by sort_by_key sort_keys sort_unstable sort_unstable_keys splice split split_off
    split_to subcommand subcommands to_ascii_lowercase to_ascii_uppercase to_lowercase to_mut to_owned to_path_buf to_string
    to_string_lossy to_uppercase to_vec try_clone try_reserve try_reserve_exact try_take unsplit unwrap_or_clone unzip visible_alias
    visible_aliases visible_long_flag_alias visible_short_alias visible_short_flag_alias with_added_extension with_capacity
    with_capacity_and_hasher with_extension with_file_name with_hasher write_fmt writeln zeroed""".split()
)
# What types of the kit make by a path alone: `Box::new(..)`.
MADE: Dict[str, Set[str]] = {
    "new": {"Box", "Arc", "Rc", "LruCache", "CString", "Command", "Select"},
    "sparse": {"LruCache"},
    "unbounded": {"LruCache", "crossbeam_channel"},
    "unbounded_with_hasher": {"LruCache"},
    "downgrade": {"Arc", "Rc"},
    "copy_from_slice": {"Bytes", "BytesMut"},
    "copy_from_str": {"ByteStr"},
    "from_str": {"String", "PathBuf"},
    "of_words": {"Table"},
    "vacant": {"Table"},
    "bounded": {"crossbeam_channel"},
    "bounded_with": {"crossbeam_channel"},
    "encode": {"hex"},
    "encode_upper": {"hex"},
    "format": {"fmt"},
    "join_paths": {"env"},
    "at": {"Timer"},
}
# The kit's types and traits of which these are methods: a type of ours by such a name would count as one of them.
KIT: Set[str] = set(
    """Vec String Box Arc Rc Bytes BytesMut ByteStr IndexMap IndexSet BTreeMap BTreeSet HashMap HashSet VecDeque BinaryHeap LinkedList
    LruCache PathBuf CString Cow CowStr CowSlice Command Table Clone Extend FromIterator Iterator ToOwned ToString BufMut Buf Write
    Self""".split()
)
LIBRARIES = {"hex", "crossbeam_channel", "atomic_table"}
MADE_MACROS = {"format", "vec", "write", "writeln"}

# Calls of our own functions that have the name of one of the kit's, and calls of the kit that answer an error of their own: file, what
# stands before the parenthesis, and what it is.
OURS: Dict[str, Dict[str, str]] = {
    "fast_sha256/src/schedule.rt": {
        "u32x4::from_slice": "the lanes of a vector",
        "u8x16::from_slice": "the lanes of a vector",
    },
    "job_row/src/row.rt": {
        "self.window.resize": "a window",
    },
    "job_row/src/row_bytes.rt": {
        "self.put_bytes": "bytes into a window",
    },
    "job_row/src/row_steps.rt": {
        "self.copies.insert": "the copies of a job",
        "self.window.replace": "a window",
    },
    "job_tests/src/windows.rt": {
        "window.resize": "a window",
    },
    "lru_evictor/src/index.rt": {
        "self.residents.put": "a tree, with a node that was made before",
    },
    "node_core/src/quotas.rt": {
        "self.admission.resize": "the admission",
    },
    "room_commands/src/begin_pull.rt": {
        "messages.push": "a list of items",
    },
    "room_commands/src/create_command.rt": {
        "messages.push": "a list of items",
    },
    "node_journal/src/gate.rt": {
        "share.split": "a share of the seats",
    },
    "node_journal/src/kept.rt": {
        "logs.reserve": "the jobs' logs",
    },
    "node_journal/src/logs.rt": {
        "log.reserve": "a job's log",
    },
    "node_journal/src/posts.rt": {
        "messages.into_vec": "a list of items",
    },
    "node_journal/src/seats.rt": {
        "share.split_off": "a share of a ledger",
    },
    "node_snapshot/src/copies.rt": {
        "borrowers.into_vec": "a list of items",
        "holds.into_vec": "a list of items",
    },
    "node_snapshot/src/row.rt": {
        "ended_tasks.into_vec": "a list of items",
        "given.into_vec": "a list of items",
    },
    "owner_directory/src/row.rt": {
        "entries.put": "the entries of an object",
    },
    "plain_store/src/create.rt": {
        "self.insert": "a store without contents",
    },
    "plain_store/src/getting.rt": {
        "self.insert": "a store without contents",
    },
    "schedule_runs/src/journal.rt": {
        "notes.into_vec": "a list of items",
    },
    "cluster_threads/src/cluster.rt": {
        "all.push": "a list of nodes",
        "pause.clone": "what pauses a test: its error is the system's",
    },
    "session_threads/src/listening.rt": {
        "listener.try_clone": "a listener: its error is the system's",
    },
    "spill_work/src/lib.rt": {
        "self.append": "the line of works",
    },
    "control_socket/src/connecting.rt": {
        "listener.try_clone": "a listener: its error is the system's",
    },
    "fetch_link/src/lib.rt": {
        "use bounded_with": "a link: its error is the system's",
    },
    "journal_text/src/items.rt": {
        "granted.push": "a list of items",
        "items.push": "a list of items",
        "own.push": "a list of items",
    },
    "journal_text/src/locations.rt": {
        "entries.push": "a list of items",
    },
    "grants/src/endings.rt": {
        "gone.push": "the grants that end",
    },
    "store_server/src/main.rt": {
        "env::args(&rt)?.collect": "the program's words: its error is the system's",
    },
    "text_tests/src/printing.rt": {
        "grants.push": "a list of items",
        "items.push": "a list of items",
    },
    "words_tests/src/ids.rt": {
        "items.push": "a list of items",
    },
    "world_core/src/delivering.rt": {
        "self.messages.reserve": "the messages of a world",
    },
    "world_core/src/lib.rt": {
        "self.messages.reserve": "the messages of a world",
    },
    "world_core/src/messages.rt": {
        "log.reserve": "a job's messages",
        "posts.into_vec": "a list of items",
        "self.fresh.reserve": "a job's messages",
    },
    "world_core/src/runs.rt": {
        "trace.push": "a trace",
    },
}

# Files of which each such call answers an error of the kit's own, and which.
BUILDERS: Dict[str, str] = {
    "schedule_runs/src/command_line.rt": "the command line's, which ends the program before it does anything",
}

# Places where an error is made after something else failed, or a count came to its end: file, text, and why.
PLACES: Dict[str, Dict[str, str]] = {
    "job_tests/src/windows.rt": {
        "fn share { window.shared(extent).ok_or(Refusal::NoMemory": "a test: bytes that aren't shared, since there was no memory for that",
    },
    "journal_replay/src/journal.rt": {
        "match replay_line(alloc, &mut replay, &line) { Err(_) => return Err(ReplayFault::NoMemory": "the line wasn't replayed",
        "match reader.read_until(b'\\n', line) { ...ind() == ErrorKind::OutOfMemory => Err(ReplayFault::NoMemory":
            "the system's error of a read",
    },
    "journal_replay/src/program.rt": {
        "let Ok(text) = outcome_text(alloc, &outcome) else { return Err(ReplayFault::NoMemory": "the outcome's text wasn't made",
    },
    "node_journal/src/not_stepped.rt": {
        "impl From<NotStepped> for OutOfMemory": "which of two growths was refused is forgotten",
        "fn from { Refusal::from(OutOfMemory": "the same, as a refusal",
    },
    "obj_id/src/refusals.rt": {
        "...al::Busy, Refusal::TooMany, Refusal::Gone, Refusal::NoMemory": "the table of all refusals",
        "match failure { Failure::Memory(_) => Refusal::NoMemory": "the failure was that memory ran out",
    },
    "operator_service/src/attending.rt": {
        "...r, alloc, nodes, count, number, taken, line, closing) else { return Err(Fault::NoMemory": "the answer wasn't made",
    },
    "operator_service/src/serving.rt": {
        "match hear_order(alloc, text, count) { Err(_) => Err(Fault::NoMemory": "the order wasn't read",
        "...Prefix::Operator(node), &StepAnswer::Response(reply)) else { return Err(Fault::NoMemory": "the answer's line wasn't made",
        "let Ok(line) = report_line(alloc, report) else { return Err(Fault::NoMemory": "the report's line wasn't made",
    },
    "program_lines/src/reading.rt": {
        "match reader.read_until(b'\\n', line) { ...rror.kind() == ErrorKind::OutOfMemory => Err(Fault::NoMemory":
            "the system's error of a read",
    },
    "program_lines/src/taking.rt": {
        "match reader.read(&mut byte) { ...rror.kind() == ErrorKind::OutOfMemory => Err(Fault::NoMemory": "the system's error of a read",
        "match lists::push(line, byte) { Err(_) => Err(Fault::NoMemory": "the byte wasn't added to the line",
    },
    "schedule_runs/src/run.rt": {
        "let Ok(mut world) = World::new(alloc, shape) else { return Err(Fault::NoMemory": "the world wasn't made",
        "...et Ok(mut workers) = Workers::new(alloc, shape.nodes) else { return Err(Fault::NoMemory": "the workers weren't made",
        "match parse_line(alloc, text, nodes) { Err(_) => Err(Fault::NoMemory": "the line wasn't read",
        "...answer) = workers.hand_in(node, job, number, outcome) else { return Err(Fault::NoMemory":
            "the answer of a work wasn't handed in",
        "...ine) = answered(alloc, world, workers, journal, step) else { return Err(Fault::NoMemory": "the answer's line wasn't made",
    },
    "schedule_runs/src/workers.rt": {
        "match answer { Err(DeviceFault::NoMemory) => Err(Fault::NoMemory": "the device's own answer was out of memory",
    },
    "session_tests/src/sessions.rt": {
        "fn faults_are_told_in_words { ...Write, \"the session's output failed\"), (SessionFault::Memory":
            "a test of how it is printed",
    },
    "session_engine/src/sending.rt": {
        "let Ok(frame) = encode_reply(alloc, &reply) else { return Err(SessionFault::Memory": "the reply's frame wasn't made",
    },
    "session_engine/src/serving.rt": {
        "...r) = lists::filled(self.alloc, 0u8, FIRST_PIECE_SIZE) else { return Err(SessionFault::Memory": "the buffer wasn't made",
        "match self.frames.feed(self.alloc, part) { Err(_) => Err(SessionFault::Memory":
            "the refusal isn't Malformed: what is left is out of memory",
    },
    "shared_nodes/src/working.rt": {
        "match reply { Reply::Refused(Refusal::NoMemory) => WorkDone::NoMemory": "the answer to a worker's step was NoMemory",
    },
    "spill_device/src/file.rt": {
        "if error.kind() == ErrorKind::OutOfMemory { return Err(DeviceFault::NoMemory": "the system's error of a call",
    },
    "control_socket/src/connecting.rt": {
        "...r(fault) => control.course.stop(rt, Some(fault)), } } else { control.course.stop(rt, Some(Fault::NoMemory":
            "the reader of standard input wasn't made",
    },
    "store_server/src/main.rt": {
        "...t Ok(mut reader) = BufReader::new(alloc, rt.reader()) else { return Err(Fault::NoMemory": "the reader wasn't made",
        "...k(mut writer) = BufWriter::new(alloc, io::writer(rt)) else { return Err(Fault::NoMemory": "the writer wasn't made",
        "let Ok(mut journal) = RunJournal::new(alloc, keep) else { return Err(Fault::NoMemory": "the journal wasn't made",
        "let file = match File::open(rt, path) { ...= ErrorKind::OutOfMemory => return Err(ReplayFault::NoMemory":
            "the system's error of an opened file",
        "let Ok(mut reader) = BufReader::new(alloc, file) else { return Err(ReplayFault::NoMemory": "the reader wasn't made",
        "...k(mut writer) = BufWriter::new(alloc, io::writer(rt)) else { return Err(ReplayFault::NoMemory": "the writer wasn't made",
    },
    "server_host/src/serve_fault.rt": {
        "match fault { ...olderFault::NoMemory(_) => ServeFault::Fault(Fault::NoMemory": "the folder's own fault was out of memory",
    },
    "store_server/src/serving.rt": {
        "...Reader::new(host.alloc(), Patient::new(reader, host)) else { return Err(tell(host, ServeFault::Fault(Fault::NoMemory":
            "the reader wasn't made",
        "...t.alloc(), shape.nodes, shape.memory, seats, NoPause) else { return Err(tell(host, ServeFault::Fault(Fault::NoMemory":
            "the nodes weren't made",
        "let outcome = match cluster.connect(rt) { Err(_) => Err(ServeFault::Fault(Fault::NoMemory":
            "the ways between the nodes weren't made",
    },
    "text_tests/src/printing.rt": {
        "fn the_operator_is_answered { ... op refused 21 NoRoom\\n\"), (Reply::Refused(Refusal::NoMemory": "a test of how it is printed",
        "fn a_delivery_is_answered { let memory = Reply::Refused(Refusal::NoMemory": "a test of how it is printed",
    },
    "world_core/src/stepped.rt": {
        "fn without_memory { ...alloc, StepAnswer::Response(Reply::Refused(Refusal::NoMemory":
            "the answer of a step that found no memory, which has a name of its own",
    },
}

# Files that define macros, and what they are.
MACROS: Dict[str, str] = {
    "assertions/src/lib.rt": "same! and holds!, which compare and end a test",
    "memory_growth/src/lib.rt": "text_of!, a call of one of its functions with a format",
}

# Numbers that nothing has room for, and that ask for no memory: file, text, and what it is.
HUGE: Dict[str, Dict[str, str]] = {
    "copy_tests/src/fetches.rt": {
        "fn each_asked_chunk_is_sent_in_the_order_asked { let sent = served(rt.alloc(), &bytes, &[1, 2, 0, 1, u32::MAX":
            "the index of a chunk that isn't there",
    },
    "device_tests/src/devices.rt": {
        "fn has { let len = u32::try_from(bytes.len()).unwrap_or(u32::MAX": "a length that no object has",
    },
    "session_tests/src/sessions.rt": {
        "const PLAIN: Way = Way { cut: 0, at_once: usize::MAX": "a test's stream that gives all that there is at once",
        "const SIPPING: Way = Way { cut: 0, at_once: usize::MAX": "a test's stream that gives all that there is at once",
    },
    "text_tests/src/reading.rt": {
        "fn said { ...text = named(alloc, text.as_str(), TaskNo::numbered(u64::MAX": "the greatest number of a task",
    },
}

# Files that make a refusal of its number or its name, and of what they read it.
NUMBERED: Dict[str, str] = {
    "journal_text/src/replies.rt": "the name in an answer's line of a saved journal",
    "node_housekeeping/src/job_counts.rt": "all refusals, each to have its count shown",
    "words_tests/src/ids.rt": "a test of the numbers and the names",
}
