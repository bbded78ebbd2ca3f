package storeclient

import (
	"bufio"
	"context"
	"errors"
	"fmt"
	"io"
	"net"
	"os"
	"syscall"
	"time"
)

const (
	// So many commands may be unanswered. The frames of so many Reads, and the replies to so many Writes, don't fill a socket: so a
	// server that can't write a reply never keeps the client from reading it.
	inFlight = 16
	// how much is read ahead, and how much is gathered before it is sent, in bytes
	buffered = 8192
)

// How long the server has for the exchange in which a call's time ends: it isn't given up for a late look.
var grace = time.Second

const serverGone = "the server is gone or closed the session, as it does at once beyond 1024 sessions of a node"

// what is read or written until then is given up at once
var longAgo = time.Unix(1, 0)

// stream is a connected socket, and what is known of the session at its other end.
type stream struct {
	socket *net.UnixConn
	reader *bufio.Reader
	writer *bufio.Writer
	// how many holds the session has
	holds int
}

func newStream(socket *net.UnixConn) *stream {
	return &stream{socket, bufio.NewReaderSize(socket, buffered), bufio.NewWriterSize(socket, buffered), 0}
}

// dial connects. A node whose queue of connections is full is asked again.
func dial(b *bounds, path string) (*net.UnixConn, error) {
	pauses := newPauses()
	for {
		socket, err := net.DialUnix("unix", nil, &net.UnixAddr{Name: path, Net: "unix"})
		if !errors.Is(err, syscall.EAGAIN) {
			return socket, err
		}
		if b.isOver() {
			return nil, b.timedOut("the server takes no connection")
		}
		pauses.pause(b.ctx)
	}
}

// exchange sends the requests, and gives each answer as it comes: a refusal or none. So the answers are there up to a fault, too.
func (s *stream) exchange(requests []request) ([]Refusal, error) {
	answers := make([]Refusal, 0, len(requests))
	sent, isOpen := 0, true
	for answered := range requests {
		if sent-answered <= inFlight/2 {
			for ; isOpen && sent < len(requests) && sent-answered < inFlight; sent++ {
				s.add(&requests[sent])
			}
			if err := s.writer.Flush(); err != nil {
				// a server that has closed may have said why
				if isOpen = !errors.Is(err, syscall.EPIPE) && !errors.Is(err, syscall.ECONNRESET); isOpen {
					return answers, err
				}
			}
		}
		refusal, err := s.receive(&requests[answered])
		if err != nil {
			return answers, err
		}
		s.countHolds(&requests[answered], refusal)
		answers = append(answers, refusal)
	}
	return answers, nil
}

// add adds a command to what is to be sent. What the socket says is told by the flush that comes after.
func (s *stream) add(request *request) {
	_, _ = s.writer.Write(request.head())
	_, _ = s.writer.Write(request.tail)
}

// receive reads the reply to a request. What wasn't asked for is refused by its length and kind, before it takes any memory.
func (s *stream) receive(request *request) (Refusal, error) {
	var head [headBytes]byte
	if err := s.fill(head[:]); err != nil {
		return 0, err
	}
	told := body{head[:], false}
	length, kind := int64(told.number())-1, told.byte()
	if length < 0 || length >= longestReply {
		return 0, noReply("a frame of %d bytes", length+1)
	}
	if kind == kindRefused && length == 1 {
		return s.refusal()
	}
	if kind != request.due || length < int64(request.least) || length > int64(request.most) {
		due := fmt.Sprintf("%#02x is due with %d to %d", request.due, request.least, request.most)
		return 0, noReply("%d bytes of kind %#02x came, and %s", length, kind, due)
	}
	if request.into != nil {
		return 0, s.fill(request.into)
	}
	body := make([]byte, length)
	if err := s.fill(body); err != nil {
		return 0, err
	}
	return 0, request.takeBody(body)
}

func (s *stream) refusal() (Refusal, error) {
	var number [1]byte
	if err := s.fill(number[:]); err != nil {
		return 0, err
	}
	if number[0] == 0 {
		return 0, noReply("a refusal of number 0")
	}
	return Refusal(number[0]), nil
}

func (s *stream) fill(into []byte) error {
	_, err := io.ReadFull(s.reader, into)
	if errors.Is(err, io.EOF) || errors.Is(err, io.ErrUnexpectedEOF) || errors.Is(err, syscall.ECONNRESET) {
		return &LostError{serverGone}
	}
	return err
}

func (s *stream) countHolds(request *request, refusal Refusal) {
	switch {
	case refusal != 0:
	case request.due == kindGot:
		s.holds++
	case request.kind == kindRelease && s.holds > 0:
		s.holds--
	case request.kind == kindLeave:
		s.holds = 0
	}
}

// isQuiet says whether the server hasn't closed the session, and hasn't sent what nobody asked for.
func (s *stream) isQuiet() bool {
	raw, err := s.socket.SyscallConn()
	if err != nil || s.reader.Buffered() > 0 {
		return false
	}
	isQuiet := false
	err = raw.Control(func(descriptor uintptr) {
		_, _, came := syscall.Recvfrom(int(descriptor), make([]byte, 1), syscall.MSG_PEEK|syscall.MSG_DONTWAIT)
		isQuiet = errors.Is(came, syscall.EAGAIN)
	})
	return err == nil && isQuiet
}

// finish sends no more, and waits at most so long until the server has answered all that it was sent. Whether it has.
func (s *stream) finish(within time.Duration) bool {
	if s.socket.SetDeadline(time.Now().Add(within)) != nil || s.socket.CloseWrite() != nil {
		return false
	}
	_, err := io.Copy(io.Discard, s.socket)
	return err == nil
}

// bounds say when an exchange is given up: once the patience is over; or once the context has ended, but not before a second.
type bounds struct {
	ctx   context.Context
	start time.Time
	// none is 0
	patience time.Duration
}

func newBounds(ctx context.Context, patience time.Duration) *bounds {
	return &bounds{ctx, time.Now(), patience}
}

func (b *bounds) isOver() bool {
	return b.ctx.Err() != nil || b.patience > 0 && time.Since(b.start) >= b.patience
}

func (b *bounds) timedOut(what string) error { return timedOut(b.ctx, what) }

// await returns once the exchange is to be given up, which is true, or once it is stopped.
func (b *bounds) await(stopped <-chan struct{}) bool {
	var over <-chan time.Time
	if b.patience > 0 {
		timer := time.NewTimer(time.Until(b.start.Add(b.patience)))
		defer timer.Stop()
		over = timer.C
	}
	select {
	case <-stopped:
		return false
	case <-over:
		return true
	case <-b.ctx.Done():
	}
	timer := time.NewTimer(time.Until(b.start.Add(grace)))
	defer timer.Stop()
	select {
	case <-stopped:
		return false
	case <-over:
	case <-timer.C:
	}
	return true
}

// watch calls giveUp once the exchange is to be given up. The watch ends, and is waited for, by the function that it gives.
func (b *bounds) watch(giveUp func()) (stop func()) {
	if b.patience <= 0 && b.ctx.Done() == nil {
		return func() {}
	}
	stopped, ended := make(chan struct{}), make(chan struct{})
	go func() {
		defer close(ended)
		if b.await(stopped) {
			giveUp()
		}
	}()
	return func() {
		close(stopped)
		<-ended
	}
}

// during does the exchange, which a read or write that is given up ends.
func (b *bounds) during(s *stream, requests []request) ([]Refusal, error) {
	isGivenUp := false
	stop := b.watch(func() { isGivenUp = s.socket.SetDeadline(longAgo) == nil })
	answers, err := s.exchange(requests)
	stop()
	if errors.Is(err, os.ErrDeadlineExceeded) {
		return answers, b.timedOut("the server didn't answer in time")
	}
	if isGivenUp {
		// it was answered just then
		_ = s.socket.SetDeadline(time.Time{})
	}
	return answers, err
}

const (
	firstPause   = time.Millisecond
	longestPause = 50 * time.Millisecond
)

// pauses between tries: a 32nd of the time already waited. What comes soon is seen soon, and a long wait costs little.
type pauses struct{ since time.Time }

func newPauses() *pauses { return &pauses{time.Now()} }

func (p *pauses) restart() { p.since = time.Now() }

// pause sleeps, and not beyond the context's end.
func (p *pauses) pause(ctx context.Context) {
	length := time.Since(p.since) / 32
	if length < firstPause {
		length = firstPause
	} else if length > longestPause {
		length = longestPause
	}
	timer := time.NewTimer(length)
	defer timer.Stop()
	select {
	case <-timer.C:
	case <-ctx.Done():
	}
}
