package storeclient

import (
	"bytes"
	"encoding/binary"
	"encoding/hex"
	"fmt"
	"strconv"
	"strings"
)

const (
	// TaskBytes are the bytes of a task.
	TaskBytes = 20
	// IDBytes are the bytes of an object's id.
	IDBytes = 28
	// the first bytes of a task that has a number are zeros, so many
	taskZeros = TaskBytes - 8
)

// Task is a task of a job: 20 bytes, of any values.
//
// Its text is tN if its first 12 bytes are zero and the last 8 are the number N, and 40 lower-case hexadecimal digits otherwise.
type Task [TaskBytes]byte

// NumberedTask is the task of this number, whose text is tN.
func NumberedTask(number uint64) Task {
	var task Task
	binary.BigEndian.PutUint64(task[taskZeros:], number)
	return task
}

// ParseTask reads a task's text.
func ParseTask(text string) (Task, error) {
	var task Task
	if number, found := cutPrefix(text, "t"); found {
		if value, good := decimal(number, 64); good {
			return NumberedTask(value), nil
		}
	} else if digits(task[:], text) {
		return task, nil
	}
	return Task{}, invalid("%q is no task: its text is tN or 40 lower-case hexadecimal digits", text)
}

// Object is the job's object of this index in the task. Both are at least 1.
func (t Task) Object(job, index uint32) (ObjectID, error) {
	if job == 0 || index == 0 {
		return ObjectID{}, invalid("the job and the index of an object are at least 1")
	}
	return ObjectID{t, job, index}, nil
}

func (t Task) String() string {
	if number, has := t.number(); has {
		return fmt.Sprintf("t%d", number)
	}
	return hex.EncodeToString(t[:])
}

func (t Task) number() (uint64, bool) {
	if bytes.Count(t[:taskZeros], []byte{0}) < taskZeros {
		return 0, false
	}
	return binary.BigEndian.Uint64(t[taskZeros:]), true
}

// ObjectID is an object: its task, its job, and its index in the task. Ids can be compared and are keys of maps; the zero value is none.
//
// String gives the text that any job understands, J/tN.I or 56 lower-case hexadecimal digits. [ObjectID.Text] and [ParseID] do so for one
// job that speaks, whose own objects are tN.I.
type ObjectID struct {
	task  Task
	job   uint32
	index uint32
}

// IDFromBytes is the object of 28 bytes.
func IDFromBytes(from [IDBytes]byte) (ObjectID, error) {
	var task Task
	copy(task[:], from[:])
	return task.Object(binary.BigEndian.Uint32(from[TaskBytes:]), binary.BigEndian.Uint32(from[TaskBytes+4:]))
}

// ParseID reads an object's text, spoken by this job: tN.I for its own, J/tN.I for another's, or 56 lower-case hexadecimal digits. If
// nobody speaks the job is 0.
func ParseID(text string, job uint32) (ObjectID, error) {
	id, err := parseID(text, job)
	if err != nil {
		return ObjectID{}, invalid("%q is no id: %v", text, err)
	}
	return id, nil
}

func parseID(text string, job uint32) (ObjectID, error) {
	what := invalid("its text is tN.I, J/tN.I or 56 lower-case hexadecimal digits")
	if !strings.Contains(text, "t") {
		var from [IDBytes]byte
		if !digits(from[:], text) {
			return ObjectID{}, what
		}
		return IDFromBytes(from)
	}
	owner, short, isForeign := strings.Cut(text, "/")
	if !isForeign {
		short = text
	} else if number, good := decimal(owner, 32); !good {
		return ObjectID{}, what
	} else if uint32(number) == job {
		return ObjectID{}, invalid("the job's own ids are written without its number")
	} else {
		job = uint32(number)
	}
	name, last, _ := strings.Cut(short, ".")
	task, err := ParseTask(name)
	index, good := decimal(last, 32)
	if err != nil || !good {
		return ObjectID{}, what
	}
	return task.Object(job, uint32(index))
}

// Bytes are the id's 28 bytes.
func (id ObjectID) Bytes() [IDBytes]byte {
	var to [IDBytes]byte
	copy(to[:], id.task[:])
	binary.BigEndian.PutUint32(to[TaskBytes:], id.job)
	binary.BigEndian.PutUint32(to[TaskBytes+4:], id.index)
	return to
}

// Task is the object's owner task.
func (id ObjectID) Task() Task { return id.task }

// Job is the number of the object's job.
func (id ObjectID) Job() uint32 { return id.job }

// Index is the object's index in its task, from 1.
func (id ObjectID) Index() uint32 { return id.index }

// Less orders ids as their bytes.
func (id ObjectID) Less(other ObjectID) bool {
	one, two := id.Bytes(), other.Bytes()
	return bytes.Compare(one[:], two[:]) < 0
}

// Text is the id's text, spoken by this job: the short one if there is one.
func (id ObjectID) Text(job uint32) string {
	if number, has := id.task.number(); has && job == id.job {
		return fmt.Sprintf("t%d.%d", number, id.index)
	}
	return id.String()
}

func (id ObjectID) String() string {
	if number, has := id.task.number(); has {
		return fmt.Sprintf("%d/t%d.%d", id.job, number, id.index)
	}
	all := id.Bytes()
	return hex.EncodeToString(all[:])
}

// Key is a job's key, which the operator gives. It isn't shown by what prints values.
type Key [32]byte

// ParseKey reads a key's 64 lower-case hexadecimal digits.
func ParseKey(text string) (Key, error) {
	var key Key
	if !digits(key[:], text) {
		return Key{}, invalid("a key has 64 lower-case hexadecimal digits")
	}
	return key, nil
}

func (Key) String() string { return "(a key)" }

// GoString hides the key, too.
func (Key) GoString() string { return "(a key)" }

// digits fills the bytes from so many lower-case hexadecimal digits.
func digits(to []byte, text string) bool {
	if len(text) != 2*len(to) || strings.ToLower(text) != text {
		return false
	}
	_, err := hex.Decode(to, []byte(text))
	return err == nil
}

// decimal is a number with no sign and no leading zero. Go's own reader takes both.
func decimal(text string, bits int) (uint64, bool) {
	number, err := strconv.ParseUint(text, 10, bits)
	return number, err == nil && strconv.FormatUint(number, 10) == text
}

func cutPrefix(text, prefix string) (string, bool) {
	return strings.TrimPrefix(text, prefix), strings.HasPrefix(text, prefix)
}
