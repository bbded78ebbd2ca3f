package storeclient

import (
	"encoding/binary"
	"math"
)

// A frame is a length of 4 bytes, a kind of 1, and the body. Numbers are big-endian, and have 4 bytes if no other size is given.
const (
	// Largest is the most bytes of an object.
	Largest = 16_777_216
	// MostBytes are the most bytes that one Write, Read or Peek moves.
	MostBytes = 65_536
	// the longest reply, in bytes after the length
	longestReply = 262_144
	// the length and the kind of a frame, in bytes
	headBytes = 5
)

// the kinds of commands
const (
	kindHello byte = 1 + iota
	kindCreate
	kindWrite
	kindSeal
	kindGet
	kindRead
	kindRelease
	kindUnpin
	kindBorrow
	kindGiveUp
	kindDelete
	kindEndTask
	kindGrant
	kindWithdraw
	kindPeek
	kindList
	kindUsage
	kindLeave
	kindGetWait
	kindCreateWait
)

// the kinds of replies
const (
	kindOK byte = 0x80 + iota
	kindPlaced
	kindGot
	kindBytes
	kindListed
	kindUsed
	kindRefused byte = 0x8f
)

// CopyKind says whether a copy is an object's first, or was transferred or offered.
type CopyKind uint8

const (
	// Primary is an object's first copy. It is written to the device if its room is needed.
	Primary CopyKind = iota
	// Secondary is a copy of what lies elsewhere. It is removed if its room is needed.
	Secondary
)

func (k CopyKind) String() string { return nameOf(k, "primary", "secondary") }

// State is what a copy is in the middle of.
type State uint8

const (
	// Created is being written.
	Created State = iota
	// Sealed lies in memory, and is immutable.
	Sealed
	// Restoring is being read back from the device.
	Restoring
	// Fetching is being looked for, or transferred from another node.
	Fetching
	// Away lies on the device.
	Away
)

func (s State) String() string {
	return nameOf(s, "created", "sealed", "restoring", "fetching", "away")
}

func nameOf[T ~uint8](number T, names ...string) string {
	if int(number) < len(names) {
		return names[number]
	}
	return "unknown"
}

// Placed is where a new copy lies in the job's window, in bytes; the length is the object's, rounded up to a multiple of 16.
type Placed struct{ Offset, Length uint32 }

// OwnItem is a copy of the job at the node. The length is 0 of a fetch that hasn't found the object.
type OwnItem struct {
	ID     ObjectID
	State  State
	Kind   CopyKind
	Length uint32
}

// GrantedItem is an object that another job granted; the depth is how many jobs the grant went through, 1 to 3.
type GrantedItem struct {
	ID     ObjectID
	Length uint32
	Depth  uint8
}

// Listing has the job's own copies and what others granted to it, each in order of id.
type Listing struct {
	Own     []OwnItem
	Granted []GrantedItem
}

// Usage has the job's quotas at the node and what is used of them, in bytes; its copies, those that are deleted and still held and
// fetches too; and its device works in flight.
type Usage struct {
	Window, WindowUsed, Device, DeviceUsed, Copies, Works uint64
}

// request is a command to be sent, and what is known of its reply.
type request struct {
	kind   byte
	fields []byte
	// the bytes of a Write, which come last in its frame
	tail []byte
	// the kind of the reply that isn't a refusal, and how many bytes its body may have
	due         byte
	least, most int
	// where the body goes if it is bytes, exactly as many
	into []byte
	// what reads the body otherwise
	take func(body *body)
}

// ---- commands

func hello(job uint32, key Key) request {
	return request{kind: kindHello, fields: append(addNumber(nil, job), key[:]...), due: kindOK}
}

func create(wait bool, id ObjectID, kind CopyKind, length uint32, placed *Placed) request {
	command := kindCreate
	if wait {
		command = kindCreateWait
	}
	fields := addNumber(append(idBytes(id), byte(kind)), length)
	take := func(body *body) { *placed = Placed{body.number(), body.number()} }
	return request{kind: command, fields: fields, due: kindPlaced, least: 8, most: 8, take: take}
}

func write(id ObjectID, offset uint32, data []byte) request {
	return request{kind: kindWrite, fields: addNumber(idBytes(id), offset), tail: data, due: kindOK}
}

// get is a Get or a GetWait; the length is that of an object, or the reply is none.
func get(kind byte, id ObjectID, length *int) request {
	take := func(body *body) {
		told := body.number()
		body.check(isLength(told))
		*length = int(told)
	}
	return request{kind: kind, fields: idBytes(id), due: kindGot, least: 4, most: 4, take: take}
}

// read is a Read or a Peek that fills the buffer, of at most 65,536 bytes.
func read(kind byte, id ObjectID, offset uint32, into []byte) request {
	fields := addNumber(addNumber(idBytes(id), offset), uint32(len(into)))
	return request{kind: kind, fields: fields, due: kindBytes, least: len(into), most: len(into), into: into}
}

// onObject is a command on an object and nothing more.
func onObject(kind byte, id ObjectID) request {
	return request{kind: kind, fields: idBytes(id), due: kindOK}
}

func onTask(kind byte, id ObjectID, task Task) request {
	return request{kind: kind, fields: append(idBytes(id), task[:]...), due: kindOK}
}

func onJob(kind byte, id ObjectID, job uint32) request {
	return request{kind: kind, fields: addNumber(idBytes(id), job), due: kindOK}
}

func endTask(task Task) request {
	return request{kind: kindEndTask, fields: task[:], due: kindOK}
}

func list(listing *Listing) request {
	take := func(body *body) { *listing = Listing{items(body, ownItem), items(body, grantedItem)} }
	return request{kind: kindList, due: kindListed, least: 8, most: longestReply - 1, take: take}
}

func usage(used *Usage) request {
	take := func(body *body) {
		*used = Usage{body.long(), body.long(), body.long(), body.long(), body.long(), body.long()}
	}
	return request{kind: kindUsage, due: kindUsed, least: 48, most: 48, take: take}
}

func leave() request { return request{kind: kindLeave, due: kindOK} }

// waits says whether the server answers only once something has happened.
func (r *request) waits() bool { return r.kind == kindGetWait || r.kind == kindCreateWait }

// makes says whether an object comes to be by it.
func (r *request) makes() bool {
	return r.kind == kindCreate || r.kind == kindCreateWait || r.kind == kindWrite || r.kind == kindSeal
}

// head is the frame without its tail. A tail has at most 65,536 bytes, so the frame isn't too long.
func (r *request) head() []byte {
	length := 1 + len(r.fields) + len(r.tail)
	return append(append(addNumber(nil, uint32(length)), r.kind), r.fields...)
}

func addNumber(to []byte, number uint32) []byte { return binary.BigEndian.AppendUint32(to, number) }

func idBytes(id ObjectID) []byte {
	all := id.Bytes()
	return all[:]
}

// ---- pieces

// writes are the Writes of these bytes, which are one of none if there are none.
func writes(id ObjectID, offset uint32, data []byte) ([]request, error) {
	return pieces(offset, data, func(at uint32, piece []byte) request { return write(id, at, piece) })
}

// reads are the Reads or Peeks that fill the buffer.
func reads(kind byte, id ObjectID, offset uint32, into []byte) ([]request, error) {
	return pieces(offset, into, func(at uint32, piece []byte) request { return read(kind, id, at, piece) })
}

func pieces(offset uint32, data []byte, one func(at uint32, piece []byte) request) ([]request, error) {
	requests := []request{one(offset, data[:least(len(data), MostBytes)])}
	for at := MostBytes; at < len(data); at += MostBytes {
		if uint64(offset)+uint64(at) > math.MaxUint32 {
			return nil, invalid("an offset of more than %d bytes", uint32(math.MaxUint32))
		}
		requests = append(requests, one(offset+uint32(at), data[at:least(len(data), at+MostBytes)]))
	}
	return requests, nil
}

func least(one, two int) int {
	if one < two {
		return one
	}
	return two
}

// ---- replies

// takeBody reads the body of a reply of the kind that is due.
func (r *request) takeBody(bytes []byte) error {
	body := &body{bytes, false}
	if r.take != nil {
		r.take(body)
	}
	if body.isWrong || len(body.rest) > 0 {
		return noReply("a body of %d bytes of kind %#02x can't be right", len(bytes), r.due)
	}
	return nil
}

// body is what is left of a body. What is wrong with it is told at the end, and numbers are 0 from there on.
type body struct {
	rest    []byte
	isWrong bool
}

func (b *body) check(good bool) { b.isWrong = b.isWrong || !good }

func (b *body) bytes(count int) []byte {
	b.check(count <= len(b.rest))
	if b.isWrong {
		return make([]byte, count)
	}
	taken := b.rest[:count]
	b.rest = b.rest[count:]
	return taken
}

func (b *body) byte() uint8    { return b.bytes(1)[0] }
func (b *body) number() uint32 { return binary.BigEndian.Uint32(b.bytes(4)) }
func (b *body) long() uint64   { return binary.BigEndian.Uint64(b.bytes(8)) }

func (b *body) id() ObjectID {
	var from [IDBytes]byte
	copy(from[:], b.bytes(IDBytes))
	id, err := IDFromBytes(from)
	b.check(err == nil)
	return id
}

// items are a number, and so many items. They take memory as they are read, so a number that is too large takes none.
func items[T any](b *body, read func(*body) T) []T {
	var all []T
	for count := b.number(); count > 0 && !b.isWrong; count-- {
		all = append(all, read(b))
	}
	return all
}

func ownItem(b *body) OwnItem {
	item := OwnItem{b.id(), State(b.byte()), CopyKind(b.byte()), b.number()}
	// a fetch that hasn't found the object has no length
	b.check(item.State <= Away && item.Kind <= Secondary && (isLength(item.Length) || item.State == Fetching && item.Length == 0))
	return item
}

func grantedItem(b *body) GrantedItem {
	item := GrantedItem{b.id(), b.number(), b.byte()}
	b.check(isLength(item.Length))
	return item
}

// isLength says whether an object may be so long.
func isLength(length uint32) bool { return length >= 1 && length <= Largest }
