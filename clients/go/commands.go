package storeclient

import "context"

// Create makes a copy of zeros to be written, of this length in bytes, and says where it lies. [Exists], [Pending], [Full], [BadSize]
// and others.
func (s *Session) Create(ctx context.Context, id ObjectID, kind CopyKind, length uint32) (Placed, error) {
	var placed Placed
	err := s.ask(ctx, create(false, id, kind, length, &placed))
	return placed, err
}

// CreateWait is as Create, but the server answers once it isn't pending any more. A job can wait for itself without end: so bound the
// context. If it ends before the answer, the session is lost, but not before a second, and what becomes of the copy isn't known then.
func (s *Session) CreateWait(ctx context.Context, id ObjectID, kind CopyKind, length uint32) (Placed, error) {
	var placed Placed
	err := s.ask(ctx, create(true, id, kind, length, &placed))
	return placed, err
}

// Write writes the bytes from the offset on, while the copy is being written. More than 65,536 go in pieces; a refusal is of the first
// piece that was refused. [AlreadySealed], [OutOfBounds]; an [InvalidError] if no number tells an offset.
func (s *Session) Write(ctx context.Context, id ObjectID, offset uint32, data []byte) error {
	requests, err := writes(id, offset, data)
	if err != nil {
		return err
	}
	return s.ask(ctx, requests...)
}

// Seal makes the copy immutable, and others see it. [Absent], [AlreadySealed].
func (s *Session) Seal(ctx context.Context, id ObjectID) error {
	return s.ask(ctx, onObject(kindSeal, id))
}

// Hold is one hold more of the session on the sealed copy, and its length in bytes; or what brings it here is [Pending], and has to be
// asked again until it is another answer, since a fetch lies in the object's place until then.
func (s *Session) Hold(ctx context.Context, id ObjectID) (int, error) {
	var length int
	err := s.ask(ctx, get(kindGet, id, &length))
	return length, err
}

// HoldWait is as Hold, but the server answers once it isn't pending any more. If the context ends before, the session is lost, but not
// before a second.
func (s *Session) HoldWait(ctx context.Context, id ObjectID) (int, error) {
	var length int
	err := s.ask(ctx, get(kindGetWait, id, &length))
	return length, err
}

// Read fills the buffer with bytes from the offset on of an object that the session holds. More than 65,536 come in pieces, several of
// them on their way at once. What the buffer has after a refusal isn't said. [NotHeld], [OutOfBounds].
func (s *Session) Read(ctx context.Context, id ObjectID, offset uint32, into []byte) error {
	return s.readAll(ctx, kindRead, id, offset, into)
}

// Peek is as Read, of an object that another job granted; it isn't held for that. [NotGranted], [OutOfBounds].
func (s *Session) Peek(ctx context.Context, id ObjectID, offset uint32, into []byte) error {
	return s.readAll(ctx, kindPeek, id, offset, into)
}

func (s *Session) readAll(ctx context.Context, kind byte, id ObjectID, offset uint32, into []byte) error {
	requests, err := reads(kind, id, offset, into)
	if err != nil {
		return err
	}
	return s.ask(ctx, requests...)
}

// Release is one hold of the session less. [NotHeld].
func (s *Session) Release(ctx context.Context, id ObjectID) error {
	return s.ask(ctx, onObject(kindRelease, id))
}

// Unpin says that the owner task lets the object go: it is removed once no task borrows it. [NotOwner], [NotHeld].
func (s *Session) Unpin(ctx context.Context, id ObjectID, task Task) error {
	return s.ask(ctx, onTask(kindUnpin, id, task))
}

// Borrow says that the task refers to the object, which stays until the task gives it up or ends. [Exists], [NotOwner].
func (s *Session) Borrow(ctx context.Context, id ObjectID, task Task) error {
	return s.ask(ctx, onTask(kindBorrow, id, task))
}

// GiveUp says that the task that borrowed the object refers to it no longer. [Absent].
func (s *Session) GiveUp(ctx context.Context, id ObjectID, task Task) error {
	return s.ask(ctx, onTask(kindGiveUp, id, task))
}

// Delete removes the copy once nobody holds it. [Absent], [Granted].
func (s *Session) Delete(ctx context.Context, id ObjectID) error {
	return s.ask(ctx, onObject(kindDelete, id))
}

// EndTask removes all objects of the task at this node once nobody holds them. None of them can be created or got here any more.
// [Gone], [TooMany].
func (s *Session) EndTask(ctx context.Context, task Task) error {
	return s.ask(ctx, endTask(task))
}

// Grant lets the job get and peek at the object. [Exists], [NotResident], [TooMany] and others.
func (s *Session) Grant(ctx context.Context, id ObjectID, job uint32) error {
	return s.ask(ctx, onJob(kindGrant, id, job))
}

// Withdraw lets the job do so no longer, nor those to which it handed the grant on. [NotGranted].
func (s *Session) Withdraw(ctx context.Context, id ObjectID, job uint32) error {
	return s.ask(ctx, onJob(kindWithdraw, id, job))
}

// List tells the job's copies at the node, and what others granted to it.
func (s *Session) List(ctx context.Context) (Listing, error) {
	var listing Listing
	err := s.ask(ctx, list(&listing))
	return listing, err
}

// Usage tells the job's quotas at the node, and what is used of them.
func (s *Session) Usage(ctx context.Context) (Usage, error) {
	var used Usage
	err := s.ask(ctx, usage(&used))
	return used, err
}

// Leave gives up all holds of the session, which goes on.
func (s *Session) Leave(ctx context.Context) error {
	return s.ask(ctx, leave())
}
