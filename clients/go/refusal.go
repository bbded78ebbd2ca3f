package storeclient

import "fmt"

// Refusal is what a server refuses, by its number: an error after which the session goes on. 0 is none.
type Refusal uint8

// The refusals; Meaning says what each means.
const (
	NotAdmitted Refusal = 1 + iota
	BadID
	Exists
	Absent
	NotSealed
	AlreadySealed
	BadSize
	OutOfBounds
	Full
	Pending
	NotHeld
	Granted
	NotGranted
	DeviceFailed
	Damaged
	Busy
	TooMany
	Gone
	NoMemory
	Malformed
	NoRoom
	NotOwner
	NotResident
	Stale
)

// of each number its name, as texts have it, and what it means
var refusals = map[Refusal][2]string{
	NotAdmitted:   {"NotAdmitted", "the job isn't live at this node, or the key isn't its own"},
	BadID:         {"BadId", "an id or a job number is invalid"},
	Exists:        {"Exists", "it is there already: a copy, a grant, a borrower, or the session's job"},
	Absent:        {"Absent", "there is no copy of it here, and for a get no node has it sealed"},
	NotSealed:     {"NotSealed", "the copy is still being written or fetched"},
	AlreadySealed: {"AlreadySealed", "the copy isn't being written any more"},
	BadSize:       {"BadSize", "a length is outside its range: an object has 1 to 16,777,216 bytes, and at most the window"},
	OutOfBounds:   {"OutOfBounds", "offset and count pass the object's end"},
	Full:          {"Full", "there is no room in the job's window, or there are no device bytes for what would be spilled"},
	Pending:       {"Pending", "not yet: ask again"},
	NotHeld:       {"NotHeld", "this session has no hold on it; to an Unpin, it isn't pinned any more"},
	Granted:       {"Granted", "a granted object isn't deleted"},
	NotGranted:    {"NotGranted", "it is another job's object, which this job may not use so; or there is no such grant"},
	DeviceFailed:  {"DeviceFailed", "a spill or a restore of this job failed"},
	Damaged:       {"Damaged", "what was restored or fetched isn't what was sealed"},
	Busy:          {"Busy", "the job has 8 device works in flight"},
	TooMany:       {"TooMany", "a count of this job or copy is at its limit"},
	Gone:          {"Gone", "the task has ended here"},
	NoMemory:      {"NoMemory", "the server is out of memory"},
	Malformed:     {"Malformed", "the server has no such command, and ends the session"},
	NoRoom:        {"NoRoom", "there is no place for a window in the node's memory"},
	NotOwner:      {"NotOwner", "the task isn't the owner, or the copy isn't a primary"},
	NotResident:   {"NotResident", "the copy isn't a primary that lies sealed in memory"},
	Stale:         {"Stale", "there is no such work, job or entry"},
}

// Name is the refusal's name, as texts have it; Unknown if this client has no name for the number.
func (r Refusal) Name() string {
	if words, known := refusals[r]; known {
		return words[0]
	}
	return "Unknown"
}

// Meaning says what the refusal means.
func (r Refusal) Meaning() string {
	if words, known := refusals[r]; known {
		return words[1]
	}
	return "this client has no name for the number"
}

func (r Refusal) Error() string {
	return fmt.Sprintf("%d %s: %s", uint8(r), r.Name(), r.Meaning())
}

// isForNow says whether it may be another answer later on, without anybody's doing.
func (r Refusal) isForNow() bool {
	return r == Pending || r == Busy
}
