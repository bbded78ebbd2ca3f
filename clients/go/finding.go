package storeclient

import (
	"context"
	"time"
)

// How a get looks for what may not be there yet, and leaves nothing in a producer's way.
//
// A Get of an id that the node doesn't know enters a fetch, and answers Pending. The next Get is told what came of it: if no node has the
// object sealed, Absent, and the fetch is removed. In between, a Create of the object is Exists. So a Get that is Pending is at once
// followed by another, and from the second look on both are sent together. What is pending after two Gets is a transfer, or a restore
// from the device: it goes on by itself, and is asked about by a Read of no bytes, which changes nothing, and by a Get now and then. A
// fetch that finds no room is deleted by the look that found it.

// after how long a transfer is asked for again, at first and at most
const (
	firstReminder = 100 * time.Millisecond
	lastReminder  = 2 * time.Second
)

// Get gives an object's bytes, and a hold on it until they are closed. It is got if it is sealed at this node or another one, and brought
// here if need be; otherwise it is [Absent] or [NotSealed]. [Session.Wait] waits until somebody puts it.
//
// An object of another job is got if it is granted, and otherwise is [NotGranted].
func (s *Session) Get(ctx context.Context, id ObjectID) (*Held, error) {
	return s.getHeld(ctx, id, false)
}

// Wait is as Get, but the object is waited for until somebody has put it, or granted it. Once the context has ended it is a [WaitError],
// with the last refusal.
func (s *Session) Wait(ctx context.Context, id ObjectID) (*Held, error) {
	return s.getHeld(ctx, id, true)
}

// GetInto fills the buffer with the object's bytes, which are as many; no hold stays. It is refused as Get; an [InvalidError] if the object
// has another length: the buffer is as it was then. Up to 65,536 bytes take one trip to the server, if the session holds nothing.
func (s *Session) GetInto(ctx context.Context, id ObjectID, into []byte) error {
	return s.getInto(ctx, id, into, false)
}

// WaitInto is as GetInto, and waits as Wait.
func (s *Session) WaitInto(ctx context.Context, id ObjectID, into []byte) error {
	return s.getInto(ctx, id, into, true)
}

// Contains says whether the object lies sealed at this node, in memory or on the device, or is granted to the job. Nothing changes by it.
// A copy that is deleted and still held by a session counts.
func (s *Session) Contains(ctx context.Context, id ObjectID) (bool, error) {
	kind := kindRead
	if id.Job() != s.Job() {
		kind = kindPeek
	}
	err := s.ask(ctx, read(kind, id, 0, nil))
	switch refusal := refusalOf(err); {
	case err == nil || refusal == NotHeld:
		return true, nil
	case refusal == Absent || refusal == NotSealed || refusal == NotGranted:
		return false, nil
	}
	return false, err
}

func (s *Session) getHeld(ctx context.Context, id ObjectID, waits bool) (*Held, error) {
	if id.Job() != s.Job() {
		length, err := s.grantedLength(ctx, id, waits)
		if err != nil {
			return nil, err
		}
		held := &Held{id: id, data: make([]byte, length)}
		if err := s.Peek(ctx, id, 0, held.data); err != nil {
			return nil, err
		}
		return held, nil
	}
	length, err := s.find(ctx, id, waits)
	if err != nil {
		return nil, err
	}
	held := &Held{holder: s, id: id, data: make([]byte, length)}
	if err := s.Read(ctx, id, 0, held.data); err != nil {
		_ = held.Close()
		return nil, err
	}
	return held, nil
}

func (s *Session) getInto(ctx context.Context, id ObjectID, into []byte, waits bool) error {
	if id.Job() != s.Job() {
		length, err := s.grantedLength(ctx, id, waits)
		if err == nil {
			err = fits(length, into)
		}
		if err != nil {
			return err
		}
		return s.Peek(ctx, id, 0, into)
	}
	search := newSearch(s, id)
	if len(into) <= MostBytes {
		search.likely = make([]byte, len(into))
	}
	if err := search.find(ctx, waits); err != nil {
		return err
	}
	if err := fits(search.length, into); err != nil {
		if search.holds > 0 {
			s.releaseLater(id)
		}
		return err
	}
	if search.isRead {
		copy(into, search.likely)
		return search.release(ctx, search.holds)
	}
	requests, err := reads(kindRead, id, 0, into)
	if err != nil {
		return err
	}
	answers, err := s.exchange(ctx, append(requests, onObject(kindRelease, id)))
	if err != nil {
		return err
	}
	return firstRefusal(answers)
}

func fits(length int, into []byte) error {
	if length != len(into) {
		return invalid("the object has %d bytes, and the buffer %d", length, len(into))
	}
	return nil
}

// stateOf is the state of this job's copy at the node, if there is one.
func (s *Session) stateOf(ctx context.Context, id ObjectID) (State, bool, error) {
	listing, err := s.listing(ctx)
	for _, item := range listing.Own {
		if item.ID == id {
			return item.State, true, err
		}
	}
	return 0, false, err
}

// listing is a List that is sent though the context has ended.
func (s *Session) listing(ctx context.Context) (Listing, error) {
	var listing Listing
	answers, err := s.exchange(ctx, []request{list(&listing)})
	if err != nil {
		return Listing{}, err
	}
	return listing, firstRefusal(answers)
}

// grantedLength is the length of an object that another job granted.
func (s *Session) grantedLength(ctx context.Context, id ObjectID, waits bool) (int, error) {
	if err := notBegun(ctx); err != nil {
		return 0, err
	}
	pauses := newPauses()
	for {
		listing, err := s.listing(ctx)
		if err != nil {
			return 0, err
		}
		for _, item := range listing.Granted {
			if item.ID == id {
				return lengthOf(item)
			}
		}
		if !waits {
			return 0, NotGranted
		}
		if pauses.pause(ctx); ctx.Err() != nil {
			return 0, &WaitError{NotGranted, ctx.Err()}
		}
	}
}

// lengthOf gives a server that names another length than an object has no memory for it.
func lengthOf(item GrantedItem) (int, error) {
	if item.Length < 1 || item.Length > Largest {
		return 0, noReply("a length of %d bytes isn't that of an object", item.Length)
	}
	return int(item.Length), nil
}

// find is one hold of an object of this job, and its length.
func (s *Session) find(ctx context.Context, id ObjectID, waits bool) (int, error) {
	search := newSearch(s, id)
	err := search.find(ctx, waits)
	return search.length, err
}

// phase says what is asked next of an object.
type phase int

const (
	// one Get
	unknown phase = iota
	// one Get, at once
	entered
	// a Read of no bytes, or a Get when it is time
	underWay
	// two Gets
	missing
	// nothing: it is here
	found
	// nothing: it is refused for a reason that doesn't pass
	over
)

// search is what is known of one object that is waited for.
type search struct {
	session *Session
	id      ObjectID
	phase   phase
	refusal Refusal
	// how many holds the search has, and the object's length
	holds, length int
	// as long as the object is likely to be: its bytes are asked for with the first Get, and the hold is given up in the same trip, if the
	// session has no other
	likely []byte
	// that these are the object's bytes
	isRead   bool
	reminder time.Duration
	remindAt time.Time
}

func newSearch(session *Session, id ObjectID) *search {
	return &search{session: session, id: id, reminder: firstReminder}
}

// find looks until the object is here, with a hold of it unless its bytes were read at once.
func (s *search) find(ctx context.Context, waits bool) error {
	if err := notBegun(ctx); err != nil {
		return err
	}
	pauses := newPauses()
	for {
		before := s.phase
		if err := s.look(ctx); err != nil {
			return err
		}
		if s.phase == found {
			return s.release(ctx, s.holds-1)
		}
		// what is on its way is waited for in any case
		if s.phase == over || !waits && s.refusal != Pending {
			return s.refusal
		}
		if s.phase == underWay && before != underWay {
			pauses.restart()
		}
		if pauses.pause(ctx); ctx.Err() != nil {
			return &WaitError{s.refusal, ctx.Err()}
		}
	}
}

// look is one look, asked to its end though the context may have ended.
func (s *search) look(ctx context.Context) error {
	for {
		if err := s.ask(ctx); err != nil || s.phase != entered {
			return err
		}
	}
}

func (s *search) ask(ctx context.Context) error {
	switch {
	case s.phase == underWay && time.Now().Before(s.remindAt):
		return s.lookByReading(ctx)
	case s.phase == unknown && len(s.likely) > 0:
		return s.lookAndRead(ctx)
	}
	return s.lookByGets(ctx)
}

func (s *search) lookByReading(ctx context.Context) error {
	answers, err := s.session.exchange(ctx, []request{read(kindRead, s.id, 0, nil)})
	if err != nil {
		return err
	}
	// a copy that is no longer being fetched is here, or being restored, or gone: a Get tells
	if answers[0] != NotSealed {
		s.phase = entered
	}
	return nil
}

func (s *search) lookByGets(ctx context.Context) error {
	requests := []request{get(kindGet, s.id, &s.length)}
	if s.phase == missing {
		requests = append(requests, requests[0])
	}
	answers, err := s.session.exchange(ctx, requests)
	if err != nil {
		return err
	}
	return s.hear(ctx, answers)
}

// lookAndRead is the first look at an object that is likely to have a length.
func (s *search) lookAndRead(ctx context.Context) error {
	requests := []request{get(kindGet, s.id, &s.length), read(kindRead, s.id, 0, s.likely)}
	answers, err := s.session.exchange(ctx, requests, onObject(kindRelease, s.id))
	if err != nil {
		return err
	}
	if err := s.hear(ctx, answers[:1]); err != nil || s.phase != found {
		return err
	}
	if len(answers) > len(requests) {
		s.holds--
	}
	if s.isRead = s.length == len(s.likely); s.isRead && answers[1] != 0 {
		_ = s.release(ctx, s.holds)
		return answers[1]
	}
	return nil
}

// hear takes the answers to Gets.
func (s *search) hear(ctx context.Context, answers []Refusal) error {
	for _, refusal := range answers {
		if refusal == 0 {
			s.holds++
		}
	}
	if s.holds > 0 {
		s.phase = found
		return nil
	}
	for _, refusal := range answers {
		s.phase = s.phaseAfter(refusal)
		s.refusal = refusal
	}
	if s.refusal == Full || s.refusal == BadSize {
		return s.dropFetch(ctx)
	}
	return nil
}

func (s *search) phaseAfter(refusal Refusal) phase {
	if refusal == Pending {
		// this Get may have entered the fetch
		if s.refusal != Pending {
			return entered
		}
		s.remindAt = time.Now().Add(s.reminder)
		if s.reminder *= 2; s.reminder > lastReminder {
			s.reminder = lastReminder
		}
		return underWay
	}
	s.reminder = firstReminder
	if refusal == Absent || refusal == NotSealed || refusal == Busy {
		return missing
	}
	return over
}

// dropFetch gives the copy up that found no room, if it is a fetch. A refusal of that means that somebody else was first.
func (s *search) dropFetch(ctx context.Context) error {
	state, isThere, err := s.session.stateOf(ctx, s.id)
	if err != nil || !isThere || state != Fetching {
		return err
	}
	_, err = s.session.exchange(ctx, []request{onObject(kindDelete, s.id)})
	return err
}

// release gives so many holds up, if there are any.
func (s *search) release(ctx context.Context, count int) error {
	if count <= 0 {
		return nil
	}
	s.holds -= count
	var releases []request
	for ; count > 0; count-- {
		releases = append(releases, onObject(kindRelease, s.id))
	}
	_, err := s.session.exchange(ctx, releases)
	return err
}
