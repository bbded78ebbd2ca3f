package storeclient

import (
	"context"
	"encoding/binary"
	"io"
	"net"
	"os"
	"path/filepath"
	"testing"
	"time"
)

const (
	shortTime = 200 * time.Millisecond
	// what a call may take to begin, on a machine that does much else
	fewSeconds = 3 * time.Second
	// beyond what a call may take, on a machine that does much else
	slack = 60 * time.Second
)

var anyKey = Key{1, 1, 1}

// script is what stands in for a server: it takes sessions, keeps the frames that it is sent, and answers each with bytes that it was
// told; after these it is silent until the session ends.
type script struct {
	t      *testing.T
	path   string
	frames chan []byte
	// that a session has ended
	ended chan struct{}
}

// said is the answer to a command.
type said struct {
	bytes []byte
	// that the session is closed after it
	closes bool
	// what is done before it
	before func()
	// that a Get in the command's place is Pending
	unlessGet bool
}

// newScript has one session for each list of answers.
func newScript(t *testing.T, sessions ...[]said) *script {
	t.Helper()
	s := &script{t, filepath.Join(t.TempDir(), "socket"), make(chan []byte, 1000), make(chan struct{}, 10)}
	listener := must(net.Listen("unix", s.path))
	t.Cleanup(func() { listener.Close() })
	go func() {
		for _, answers := range sessions {
			stream, err := listener.Accept()
			if err != nil {
				return
			}
			s.serve(stream, answers)
		}
	}()
	return s
}

// afterHello has one session that is answered so after its Hello.
func afterHello(t *testing.T, answers ...said) *script {
	t.Helper()
	return newScript(t, append([]said{ok()}, answers...))
}

func (s *script) serve(stream net.Conn, answers []said) {
	defer func() {
		_ = stream.Close()
		s.ended <- struct{}{}
	}()
	for {
		frame := make([]byte, 4)
		if _, err := io.ReadFull(stream, frame); err != nil {
			return
		}
		frame = append(frame, make([]byte, binary.BigEndian.Uint32(frame))...)
		if _, err := io.ReadFull(stream, frame[4:]); err != nil {
			return
		}
		s.frames <- frame
		if len(answers) == 0 {
			continue
		}
		answer := answers[0]
		if answer.unlessGet && frame[4] == kindGet {
			answer = refused(Pending)
		} else {
			answers = answers[1:]
		}
		if answer.before != nil {
			answer.before()
		}
		if _, err := stream.Write(answer.bytes); err != nil || answer.closes {
			return
		}
	}
}

func (s *script) access(patience time.Duration) Access { return Access{s.path, 1, anyKey, patience} }

func (s *script) connect(patience time.Duration) *Session {
	s.t.Helper()
	session, err := Connect(context.Background(), s.access(patience))
	if err != nil {
		s.t.Fatal(err)
	}
	s.t.Cleanup(session.Close)
	return session
}

func (s *script) frame() []byte {
	s.t.Helper()
	select {
	case frame := <-s.frames:
		return frame
	case <-time.After(slack):
		s.t.Fatal("no command came")
		return nil
	}
}

// expect compares the kinds of the next commands that came.
func (s *script) expect(kinds ...byte) {
	s.t.Helper()
	for place, kind := range kinds {
		if came := s.frame()[4]; came != kind {
			s.t.Errorf("command %d is of kind %#02x, and %#02x is due", place, came, kind)
		}
	}
}

// expectNoMore says that nothing else has come until the session's next command, which it sends.
func (s *script) expectNoMore(session *Session) {
	s.t.Helper()
	// its answer may be any
	_ = session.Leave(within(s.t, slack))
	s.expect(kindLeave)
}

func reply(kind byte, body ...byte) said {
	return raw(append(addNumber(nil, uint32(1+len(body))), append([]byte{kind}, body...)...)...)
}

func ok() said                     { return reply(kindOK) }
func refused(refusal Refusal) said { return reply(kindRefused, byte(refusal)) }
func placedReply() said            { return reply(kindPlaced, 0, 0, 0, 0, 0, 0, 0, 16) }
func gotReply(length uint32) said  { return reply(kindGot, addNumber(nil, length)...) }
func bytesReply(text string) said  { return reply(kindBytes, []byte(text)...) }
func closing(answer said) said     { return said{bytes: answer.bytes, closes: true} }
func unlessGet(answer said) said   { return said{bytes: answer.bytes, unlessGet: true} }
func raw(bytes ...byte) said       { return said{bytes: bytes} }
func usedReply(window byte) said {
	return reply(kindUsed, append(make([]byte, 7), append([]byte{window}, make([]byte, 40)...)...)...)
}

func before(do func(), answer said) said { return said{bytes: answer.bytes, before: do} }

func together(answers ...said) said {
	var all []byte
	for _, answer := range answers {
		all = append(all, answer.bytes...)
	}
	return raw(all...)
}

func listed(states ...State) said {
	body := addNumber(nil, uint32(len(states)))
	for _, state := range states {
		length := uint32(1)
		if state == Fetching {
			length = 0
		}
		body = addNumber(append(append(body, idBytes(anyID())...), byte(state), byte(Secondary)), length)
	}
	return reply(kindListed, addNumber(body, 0)...)
}

func anyID() ObjectID { return must(NumberedTask(1).Object(1, 1)) }

// within is a context that ends after so long, or with the test.
func within(t *testing.T, time time.Duration) context.Context {
	ctx, cancel := context.WithTimeout(context.Background(), time)
	t.Cleanup(cancel)
	return ctx
}

// TestMain has all tests but those of silence be patient with servers.
func TestMain(m *testing.M) {
	grace = slack
	os.Exit(m.Run())
}

// ownGrace has the client's own grace in a test of silence.
func ownGrace(t *testing.T) {
	grace = time.Second
	t.Cleanup(func() { grace = slack })
}
