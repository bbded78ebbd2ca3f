package storeclient

import (
	"context"
	"fmt"
	"sync"
)

// Held has an object's bytes, read, and a hold of the session on the object until it is closed or released.
//
// As long as it is held, the object stays at the node though it is deleted. The bytes stay as long as anybody has them. An object that
// another job granted is never held.
type Held struct {
	id    ObjectID
	data  []byte
	mutex sync.Mutex
	// none once the hold was given up
	holder *Session
}

// ID is the object.
func (h *Held) ID() ObjectID { return h.id }

// Bytes are the object's bytes, in memory of this process, which whoever has the Held may change.
func (h *Held) Bytes() []byte { return h.data }

// Release gives the hold up, once, and says whether that went well. It does so though the context has ended.
func (h *Held) Release(ctx context.Context) error {
	holder := h.letGo()
	if holder == nil {
		return nil
	}
	answers, err := holder.exchange(ctx, []request{onObject(kindRelease, h.id)})
	if err != nil {
		return err
	}
	return firstRefusal(answers)
}

// Close gives the hold up, once: now, in at most a second, or with the session's next call if another goroutine is in one. A fault is
// told to the next call, so the error is nil.
func (h *Held) Close() error {
	if holder := h.letGo(); holder != nil {
		holder.releaseLater(h.id)
	}
	return nil
}

func (h *Held) letGo() *Session {
	h.mutex.Lock()
	defer h.mutex.Unlock()
	holder := h.holder
	h.holder = nil
	return holder
}

func (h *Held) String() string { return fmt.Sprintf("%v, %d bytes", h.id, len(h.data)) }
