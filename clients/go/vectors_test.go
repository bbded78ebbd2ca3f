package storeclient

import (
	"bufio"
	"bytes"
	"encoding/binary"
	"encoding/hex"
	"errors"
	"fmt"
	"os"
	"strconv"
	"strings"
	"testing"
)

// the job that speaks in the documented frames
const speaker = 1

// vector is a documented frame, and what it says.
type vector struct {
	frame []byte
	said  string
}

// vectors are the frames of the documented file: the commands, and the replies.
func vectors(t *testing.T) (commands, replies []vector) {
	t.Helper()
	text, err := os.ReadFile("../../docs/rules/frames.vectors")
	if err != nil {
		t.Fatal(err)
	}
	for _, line := range strings.Split(string(text), "\n") {
		if line == "" || strings.HasPrefix(line, "#") {
			continue
		}
		digits, said, _ := strings.Cut(line, " ")
		one := vector{fromHex(t, digits), said}
		if one.frame[4] < 0x80 {
			commands = append(commands, one)
		} else {
			replies = append(replies, one)
		}
	}
	return commands, replies
}

func fromHex(t *testing.T, digits string) []byte {
	t.Helper()
	data, err := hex.DecodeString(strings.TrimSuffix(digits, "-"))
	if err != nil {
		t.Fatalf("%s: %v", digits, err)
	}
	return data
}

func toHex(data []byte) string {
	if len(data) == 0 {
		return "-"
	}
	return hex.EncodeToString(data)
}

func kindsOf(vectors []vector) map[byte]bool {
	kinds := map[byte]bool{}
	for _, one := range vectors {
		kinds[one.frame[4]] = true
	}
	return kinds
}

// line has the words of a command's line.
type line struct {
	t     *testing.T
	words []string
}

func (l line) number(at int) uint32 {
	number, err := strconv.ParseUint(l.words[at], 10, 32)
	if err != nil {
		l.t.Fatal(err)
	}
	return uint32(number)
}

func (l line) id() ObjectID {
	id, err := ParseID(l.words[1], speaker)
	if err != nil {
		l.t.Fatal(err)
	}
	return id
}

func (l line) task(at int) Task {
	task, err := ParseTask(l.words[at])
	if err != nil {
		l.t.Fatal(err)
	}
	return task
}

func (l line) request() request {
	last := l.words[len(l.words)-1]
	switch word := l.words[0]; word {
	case "hello":
		key, err := ParseKey(last)
		if err != nil {
			l.t.Fatal(err)
		}
		return hello(l.number(1), key)
	case "write":
		return write(l.id(), l.number(2), fromHex(l.t, last))
	case "create", "copy", "createwait", "copywait":
		kind := Primary
		if strings.HasPrefix(word, "copy") {
			kind = Secondary
		}
		return create(strings.HasSuffix(word, "wait"), l.id(), kind, l.number(2), new(Placed))
	case "read":
		return read(kindRead, l.id(), l.number(2), make([]byte, l.number(3)))
	case "peek":
		return read(kindPeek, l.id(), l.number(2), make([]byte, l.number(3)))
	case "endtask":
		return endTask(l.task(1))
	case "list":
		return list(new(Listing))
	case "usage":
		return usage(new(Usage))
	case "leave":
		return leave()
	}
	return l.requestOnObject()
}

func (l line) requestOnObject() request {
	switch word := l.words[0]; word {
	case "get":
		return get(kindGet, l.id(), new(int))
	case "getwait":
		return get(kindGetWait, l.id(), new(int))
	case "seal", "release", "delete":
		return onObject(map[string]byte{"seal": kindSeal, "release": kindRelease, "delete": kindDelete}[word], l.id())
	case "unpin", "borrow", "giveup":
		return onTask(map[string]byte{"unpin": kindUnpin, "borrow": kindBorrow, "giveup": kindGiveUp}[word], l.id(), l.task(2))
	case "grant", "withdraw":
		return onJob(map[string]byte{"grant": kindGrant, "withdraw": kindWithdraw}[word], l.id(), l.number(2))
	}
	l.t.Fatalf("there is no command %s", l.words[0])
	return request{}
}

func encoded(request request) []byte { return append(request.head(), request.tail...) }

// received is what the client makes of a frame that comes as the reply to a request.
func received(frame []byte, request request) (Refusal, error) {
	stream := stream{reader: bufio.NewReader(bytes.NewReader(frame))}
	return stream.receive(&request)
}

// told is what a reply says, if it is one to a request that it may answer.
func told(frame []byte) (string, error) {
	id, _ := NumberedTask(1).Object(speaker, 1)
	var placed Placed
	var length int
	var listing Listing
	var used Usage
	into := make([]byte, binary.BigEndian.Uint32(frame)-1)
	asked, say := onObject(kindSeal, id), func() string { return "ok" }
	switch frame[4] {
	case kindPlaced:
		asked = create(false, id, Primary, 1, &placed)
		say = func() string { return fmt.Sprintf("placed %d %d", placed.Offset, placed.Length) }
	case kindGot:
		asked, say = get(kindGet, id, &length), func() string { return fmt.Sprintf("got %d", length) }
	case kindBytes:
		asked, say = read(kindRead, id, 0, into), func() string { return "bytes " + toHex(into) }
	case kindListed:
		asked, say = list(&listing), func() string { return toldList(listing) }
	case kindUsed:
		asked, say = usage(&used), func() string {
			device := fmt.Sprintf("%d %d %d %d", used.Device, used.DeviceUsed, used.Copies, used.Works)
			return fmt.Sprintf("usage %d %d %s", used.Window, used.WindowUsed, device)
		}
	}
	refusal, err := received(frame, asked)
	if refusal != 0 {
		return fmt.Sprintf("refused %d %s", refusal, refusal.Name()), err
	}
	return say(), err
}

func toldList(listing Listing) string {
	words := []string{"list"}
	for _, item := range listing.Own {
		words = append(words, fmt.Sprintf("%s:%v:%v:%d", item.ID.Text(speaker), item.State, item.Kind, item.Length))
	}
	for _, item := range listing.Granted {
		words = append(words, fmt.Sprintf("%s:granted:%d:%d", item.ID.Text(speaker), item.Length, item.Depth))
	}
	return strings.Join(words, " ")
}

func TestCommandsAreEncoded(t *testing.T) {
	commands, _ := vectors(t)
	kinds := kindsOf(commands)
	for kind := kindHello; kind <= kindCreateWait; kind++ {
		if !kinds[kind] {
			t.Errorf("there is no command of kind %#02x", kind)
		}
	}
	for _, one := range commands {
		request := line{t, strings.Split(one.said, " ")}.request()
		if frame := encoded(request); !bytes.Equal(frame, one.frame) {
			t.Errorf("%s is encoded as %x", one.said, frame)
		}
	}
}

func TestRepliesAreDecoded(t *testing.T) {
	_, replies := vectors(t)
	kinds := kindsOf(replies)
	for _, kind := range []byte{kindOK, kindPlaced, kindGot, kindBytes, kindListed, kindUsed, kindRefused} {
		if !kinds[kind] {
			t.Errorf("there is no reply of kind %#02x", kind)
		}
	}
	for _, one := range replies {
		if said, err := told(one.frame); said != one.said || err != nil {
			t.Errorf("%s is decoded as %s, %v", one.said, said, err)
		}
	}
}

func TestRepliesThatAreCutOrLongerAreRefused(t *testing.T) {
	_, replies := vectors(t)
	for _, one := range replies {
		var lost *LostError
		for length := headBytes; length < len(one.frame); length++ {
			if _, err := told(one.frame[:length]); !errors.As(err, &lost) {
				t.Errorf("%s, cut to %d: %v", one.said, length, err)
			}
		}
		if one.frame[4] == kindBytes {
			// whose body may have any length
			continue
		}
		wrong := [][]byte{append(append([]byte(nil), one.frame...), 0)}
		for length := headBytes; length < len(one.frame); length++ {
			wrong = append(wrong, append([]byte(nil), one.frame[:length]...))
		}
		var protocol *ProtocolError
		for _, frame := range wrong {
			copy(frame, addNumber(nil, uint32(len(frame)-4)))
			if _, err := told(frame); !errors.As(err, &protocol) {
				t.Errorf("%s, of %d bytes: %v", one.said, len(frame), err)
			}
		}
	}
}

func TestItemsThatAreNoneAreRefused(t *testing.T) {
	good := fromHex(t, "0000002b84000000010000000000000000000000000000000000000001000000010000000101000000010200000000")
	if said, err := told(good); said != "list t1.1:sealed:primary:258" || err != nil {
		t.Fatalf("%s, %v", said, err)
	}
	var protocol *ProtocolError
	for at, number := range map[int]byte{37: 5, 38: 2, 32: 0, 36: 0, 8: 2} {
		changed := append([]byte(nil), good...)
		changed[at] = number
		if _, err := told(changed); !errors.As(err, &protocol) {
			t.Errorf("byte %d is %d: %v", at, number, err)
		}
	}
	for _, digits := range []string{"0000000984ffffffff00000000", "000000098400000000ffffffff"} {
		if _, err := told(fromHex(t, digits)); !errors.As(err, &protocol) {
			t.Errorf("%s: %v", digits, err)
		}
	}
}

func TestRefusalsOfEachNumber(t *testing.T) {
	seal := onObject(kindSeal, ObjectID{job: 1, index: 1})
	for number := 1; number <= 255; number++ {
		refusal, err := received([]byte{0, 0, 0, 2, 0x8f, byte(number)}, seal)
		if refusal != Refusal(number) || err != nil {
			t.Errorf("%d is %v, %v", number, refusal, err)
		}
		if isKnown := refusal.Name() != "Unknown"; isKnown != (number <= 24) {
			t.Errorf("%d is named %s", number, refusal.Name())
		}
	}
	if text := Pending.Error(); text != "10 Pending: not yet: ask again" {
		t.Error(text)
	}
}
