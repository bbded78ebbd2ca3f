package storeclient

import (
	"context"
	"crypto/rand"
	"errors"
	"fmt"
	"math"
	"net"
	"sync"
	"time"
)

// So long the server has to do what it was sent before, and to delete what was left, once a put was cut off.
const lastRespects = time.Second

// Access is what opens a session: the socket of a node, a job, and the key that the operator gave.
type Access struct {
	Path string
	Job  uint32
	Key  Key
	// Patience is how long the server has to answer, now and whenever a call sends something, but for HoldWait and CreateWait. 0 is any
	// time.
	Patience time.Duration
}

// Session is a session of a job with a node.
//
// Goroutines may share it: their exchanges with the server take turns. It ends, and gives up its holds, when it is closed. Each call
// takes a context. If that has ended before, nothing is sent. If it ends in the middle, the exchange goes on for at most a second from its
// beginning; a server that hasn't answered then is a [TimeoutError], and the session is lost, since nothing takes a command back.
//
// After a TimeoutError of a silent server, a [LostError], a [ProtocolError] and an error of the socket each later call is a LostError.
type Session struct {
	access Access
	// what has sent into it has the stream
	turn   chan struct{}
	stream *stream

	// guards what is below
	mutex sync.Mutex
	lost  string
	// whether the server has done all that it was sent, once the session is lost
	isSettled bool
	// holds that were given up while the session was in use
	dropped []ObjectID
	ids     newIDs
}

// Connect opens a session. [NotAdmitted]; a [LostError] if the server has no place for a session; an error of package net if nobody
// listens.
func Connect(ctx context.Context, access Access) (*Session, error) {
	if err := notBegun(ctx); err != nil {
		return nil, err
	}
	socket, err := dial(newBounds(ctx, access.Patience), access.Path)
	if err != nil {
		return nil, fmt.Errorf("the session can't be opened: %w", err)
	}
	session := &Session{access: access, turn: make(chan struct{}, 1), stream: newStream(socket)}
	if err := session.ask(ctx, hello(access.Job, access.Key)); err != nil {
		session.Close()
		return nil, err
	}
	return session, nil
}

// Close ends the session, also under a call that is in it. Its holds are given up; copies that are still being written stay.
func (s *Session) Close() {
	s.lose("it was closed")
	_ = s.stream.socket.Close()
}

// Job is the number of the job that speaks.
func (s *Session) Job() uint32 { return s.access.Job }

// IsUsable says whether the session isn't lost, as far as is known.
func (s *Session) IsUsable() bool { return s.lostError() == nil }

// Object is the job's object of this index, from 1, in its task of this number.
func (s *Session) Object(task uint64, index uint32) (ObjectID, error) {
	return NumberedTask(task).Object(s.Job(), index)
}

// NewID is an id that nobody else makes: of a random task, with the next index.
func (s *Session) NewID() (ObjectID, error) {
	s.mutex.Lock()
	defer s.mutex.Unlock()
	return s.ids.next(s.Job())
}

func (s *Session) String() string {
	return fmt.Sprintf("session of job %d at %s", s.access.Job, s.access.Path)
}

// ---- how

// ask sends the requests unless the context has ended. All of them are answered; the first refusal is the error.
func (s *Session) ask(ctx context.Context, requests ...request) error {
	if err := notBegun(ctx); err != nil {
		return err
	}
	answers, err := s.exchange(ctx, requests)
	if err != nil {
		return err
	}
	return firstRefusal(answers)
}

func firstRefusal(answers []Refusal) error {
	for _, refusal := range answers {
		if refusal != 0 {
			return refusal
		}
	}
	return nil
}

// exchange sends the requests in one burst, and gives their answers, also those before a fault. After a fault of the stream it isn't
// known which replies are still to come, so no other call can follow. What was begun is asked to its end though the context has ended.
//
// What is last is sent with them only if the session holds nothing, and has no answer otherwise. It is a Release after its Get: if that
// is refused, the Release would give up another hold.
func (s *Session) exchange(ctx context.Context, requests []request, last ...request) ([]Refusal, error) {
	b := newBounds(ctx, s.access.Patience)
	for i := range requests {
		if requests[i].waits() {
			b.patience = 0
		}
	}
	if err := s.takeTurn(b); err != nil {
		return nil, err
	}
	defer s.giveTurn()
	if err := s.lostError(); err != nil {
		return nil, err
	}
	answers, err := s.exchangeInTurn(b, requests, last...)
	if err != nil {
		s.giveUp(requests)
	}
	if errors.Is(err, net.ErrClosed) {
		err = s.lostError()
	}
	return answers, err
}

// exchangeInTurn first releases what was dropped.
func (s *Session) exchangeInTurn(b *bounds, requests []request, last ...request) ([]Refusal, error) {
	s.mutex.Lock()
	var all []request
	for _, id := range s.dropped {
		all = append(all, onObject(kindRelease, id))
	}
	s.dropped = nil
	s.mutex.Unlock()
	dropped := len(all)
	all = append(all, requests...)
	if s.stream.holds == dropped {
		all = append(all, last...)
	}
	answers, err := b.during(s.stream, all)
	return answers[least(dropped, len(answers)):], err
}

func (s *Session) takeTurn(b *bounds) error {
	select {
	case s.turn <- struct{}{}:
		return nil
	default:
	}
	over := make(chan struct{})
	stop := b.watch(func() { close(over) })
	defer stop()
	select {
	case s.turn <- struct{}{}:
		return nil
	case <-over:
		return b.timedOut("the session was in use all the time")
	}
}

func (s *Session) giveTurn() { <-s.turn }

func (s *Session) lose(why string) {
	s.mutex.Lock()
	defer s.mutex.Unlock()
	if s.lost == "" {
		s.lost = why
	}
}

func (s *Session) lostError() error {
	s.mutex.Lock()
	defer s.mutex.Unlock()
	if s.lost == "" {
		return nil
	}
	return &LostError{s.lost}
}

// giveUp loses the session. If objects come to be by what was sent, the server has a moment to do it, so that they can be deleted then.
func (s *Session) giveUp(requests []request) {
	s.lose("an earlier call lost it")
	for i := range requests {
		if requests[i].makes() {
			isSettled := s.stream.finish(lastRespects)
			s.mutex.Lock()
			s.isSettled = isSettled
			s.mutex.Unlock()
			break
		}
	}
	_ = s.stream.socket.Close()
}

// releaseLater is one hold less: now, or with the next call if another goroutine is in one. A fault is told to the next call.
func (s *Session) releaseLater(id ObjectID) {
	s.mutex.Lock()
	s.dropped = append(s.dropped, id)
	s.mutex.Unlock()
	select {
	case s.turn <- struct{}{}:
	default:
		return
	}
	defer s.giveTurn()
	if s.lostError() != nil {
		return
	}
	if _, err := s.exchangeInTurn(newBounds(context.Background(), grace), nil); err != nil {
		s.giveUp(nil)
	}
}

// takeBack deletes objects of ours, by another session if this one was lost by what made them. Nothing is told of it. The context may
// have ended.
func (s *Session) takeBack(ctx context.Context, ids []ObjectID) {
	ctx, cancel := afterwards(ctx, s.access.Patience)
	defer cancel()
	var deletes []request
	for _, id := range ids {
		deletes = append(deletes, onObject(kindDelete, id))
	}
	if s.IsUsable() {
		_, _ = s.exchange(ctx, deletes)
		return
	}
	s.mutex.Lock()
	isSettled := s.isSettled
	s.mutex.Unlock()
	if !isSettled {
		return
	}
	access := s.access
	access.Patience = lastRespects
	if other, err := Connect(context.Background(), access); err == nil {
		_, _ = other.exchange(context.Background(), deletes)
		other.Close()
	}
}

// afterwards is a context for what comes after a call: its time is what the call has left, but at least a second; without an end the
// patience bounds it.
func afterwards(ctx context.Context, patience time.Duration) (context.Context, context.CancelFunc) {
	end, has := ctx.Deadline()
	if ctx.Err() == nil && !has {
		return context.WithCancel(context.Background())
	}
	if soonest := time.Now().Add(lastRespects); end.Before(soonest) || ctx.Err() != nil {
		end = soonest
	}
	return context.WithDeadline(context.Background(), end)
}

// isAsNew says whether another goroutine may have the session: the server hasn't closed it, and no hold of it is left.
func (s *Session) isAsNew() bool {
	select {
	case s.turn <- struct{}{}:
	default:
		return false
	}
	isQuiet, holds := s.IsUsable() && s.stream.isQuiet(), s.stream.holds
	s.giveTurn()
	return isQuiet && (holds == 0 || s.Leave(context.Background()) == nil)
}

// newIDs makes ids that no other process, goroutine or session makes.
type newIDs struct {
	task Task
	last uint32
}

func (n *newIDs) next(job uint32) (ObjectID, error) {
	if n.last == 0 || n.last == math.MaxUint32 {
		if _, err := rand.Read(n.task[:]); err != nil {
			return ObjectID{}, fmt.Errorf("the system gives no random bytes: %w", err)
		}
		n.last = 0
	}
	n.last++
	return n.task.Object(job, n.last)
}
