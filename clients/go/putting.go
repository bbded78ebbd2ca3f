package storeclient

import (
	"context"
	"math"
)

// A put under a new id, which nobody else can know, is sent in one burst: Create, the Writes, Seal. Under an id that was given, others
// may know the object: it is created first, since otherwise our Writes would go into a copy that another producer is writing; and it is
// sealed once all Writes are answered, since nobody should see it half written.
//
// A Create that meets a fetch in the object's place takes the fetch away, by a Get and never by a Delete: a fetch that failed is removed
// by that, and any other copy stays what it is.

// Up to which length, in bytes, the whole object is sent with its Create: what is longer would be sent in vain too often.
const burst = 1 << 20

// Put makes a sealed object of these bytes, 1 to 16,777,216, under a new id ([Session.NewID]).
//
// Waits while room is to come ([Pending], [Busy]), until the context ends: a [WaitError], with the last refusal. Other refusals are told
// at once: [BadSize], [Full], [TooMany] and others.
//
// If the object can't be written whole it is deleted again, by another session if this one is lost by that. It stays unsealed if the
// server doesn't answer any more, or if the process ends; List shows it as [Created].
func (s *Session) Put(ctx context.Context, data []byte) (ObjectID, error) {
	id, err := s.NewID()
	if err != nil {
		return ObjectID{}, err
	}
	made := newCopy{session: s, id: id, isSecret: true}
	if err := made.make(ctx, data); err != nil {
		return ObjectID{}, err
	}
	return id, nil
}

// PutAs is as Put under an id that is given: [Exists] if it is there already. A fetch in its place, which a get has left there, is taken
// away.
//
// An object that can't be written whole stays unsealed, too, if the session is lost before it is known whose copy it is.
func (s *Session) PutAs(ctx context.Context, id ObjectID, data []byte) error {
	made := newCopy{session: s, id: id}
	return made.make(ctx, data)
}

// newCopy is a copy that is to be created. Whether there is one to be taken back is known at any time, also after a fault.
type newCopy struct {
	session *Session
	id      ObjectID
	// that nobody else can know the id
	isSecret  bool
	isCreated bool
	// that a Create was sent and not answered
	isOpen bool
}

// isOurs says whether a Create was answered with a copy; or may have been, if nobody else can know the id.
func (c *newCopy) isOurs() bool { return c.isCreated || c.isSecret && c.isOpen }

// make creates, writes and seals it, or takes it back.
func (c *newCopy) make(ctx context.Context, data []byte) error {
	if uint64(len(data)) > math.MaxUint32 {
		// what no frame can say is no length of an object
		return BadSize
	}
	fill := c.fillNamed
	if c.isSecret {
		fill = c.fillNew
	}
	err := fill(ctx, data)
	if err != nil && c.isOurs() {
		c.session.takeBack(ctx, []ObjectID{c.id})
	}
	return err
}

func (c *newCopy) fillNew(ctx context.Context, data []byte) error {
	if len(data) >= 1 && len(data) <= burst {
		err := c.fillInOneBurst(ctx, data)
		if refusal := refusalOf(err); !refusal.isForNow() {
			return err
		} else if ctx.Err() != nil {
			return &WaitError{refusal, ctx.Err()}
		}
	}
	if err := c.reserve(ctx, len(data)); err != nil {
		return err
	}
	requests, err := c.writes(data)
	if err != nil {
		return err
	}
	return c.session.ask(ctx, append(requests, onObject(kindSeal, c.id))...)
}

// fillInOneBurst finds room at once, or is refused; by a refusal for now if the copy has to be waited for.
func (c *newCopy) fillInOneBurst(ctx context.Context, data []byte) error {
	if err := notBegun(ctx); err != nil {
		return err
	}
	requests, err := c.writes(data)
	if err != nil {
		return err
	}
	requests = append([]request{c.create(len(data))}, append(requests, onObject(kindSeal, c.id))...)
	answers, err := c.exchange(ctx, requests, 0)
	if err != nil {
		return err
	}
	return firstRefusal(answers)
}

func (c *newCopy) fillNamed(ctx context.Context, data []byte) error {
	if err := c.reserve(ctx, len(data)); err != nil {
		return err
	}
	return c.writeAndSeal(ctx, data)
}

// writeAndSeal fills a copy that was created, and seals it once all of it is there.
func (c *newCopy) writeAndSeal(ctx context.Context, data []byte) error {
	if err := c.session.Write(ctx, c.id, 0, data); err != nil {
		return err
	}
	return c.session.Seal(ctx, c.id)
}

// reserve creates the copy, as soon as there is room and no fetch in its place.
func (c *newCopy) reserve(ctx context.Context, length int) error {
	if err := notBegun(ctx); err != nil {
		return err
	}
	pauses := newPauses()
	for {
		answers, err := c.exchange(ctx, []request{c.create(length)}, 0)
		if err != nil {
			return err
		}
		refusal := answers[0]
		if refusal == Exists {
			if refusal, err = c.takeFetchAway(ctx, length); err != nil {
				return err
			}
		}
		if !refusal.isForNow() {
			return firstRefusal([]Refusal{refusal})
		}
		if pauses.pause(ctx); ctx.Err() != nil {
			return &WaitError{refusal, ctx.Err()}
		}
	}
}

// takeFetchAway creates the copy in the place of a fetch that has failed. It is Pending as long as the fetch hasn't, and Exists if another
// copy is there.
func (c *newCopy) takeFetchAway(ctx context.Context, length int) (Refusal, error) {
	state, isThere, err := c.session.stateOf(ctx, c.id)
	if err != nil {
		return 0, err
	}
	if isThere && state != Fetching {
		return Exists, nil
	}
	var found int
	answers, err := c.exchange(ctx, []request{get(kindGet, c.id, &found), c.create(length)}, 1)
	if err != nil {
		return 0, err
	}
	got, created := answers[0], answers[1]
	if created == Exists && got != 0 {
		return Pending, nil
	}
	if created != 0 && got == 0 {
		_, err = c.session.exchange(ctx, []request{onObject(kindRelease, c.id)})
		return Exists, err
	}
	return created, nil
}

// create is a try to create it; the length is one that a frame can say.
func (c *newCopy) create(length int) request {
	return create(false, c.id, Primary, uint32(length), new(Placed))
}

func (c *newCopy) writes(data []byte) ([]request, error) { return writes(c.id, 0, data) }

// exchange gives the answers to a burst whose Create is at this place.
func (c *newCopy) exchange(ctx context.Context, requests []request, place int) ([]Refusal, error) {
	answers, err := c.session.exchange(ctx, requests)
	c.isOpen = len(answers) <= place
	c.isCreated = c.isCreated || !c.isOpen && answers[place] == 0
	return answers, err
}
