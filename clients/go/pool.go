package storeclient

import (
	"context"
	"fmt"
	"sync"
)

// Pool has sessions of one job with one node, at most so many, which are lent to goroutines.
//
// A session that comes back is lent again, unless it is lost: then it is closed, and another one is opened when it is needed. Holds that
// were left in it are given up.
type Pool struct {
	access Access
	// what has sent into it has one of the places
	places chan struct{}

	// guards what is below
	mutex    sync.Mutex
	idle     []*Session
	isClosed bool
}

// NewPool opens nothing yet. An [InvalidError] if the pool is to have no session at all.
func NewPool(access Access, most int) (*Pool, error) {
	if most < 1 {
		return nil, invalid("a pool has at least one session, and not %d", most)
	}
	return &Pool{access: access, places: make(chan struct{}, most)}, nil
}

// Session lends a session to the caller alone, until the lease is closed: one that came back, or a new one.
//
// If all are lent, one is waited for, until the context ends: a [TimeoutError]. A goroutine that waits for a second session while it has
// one may wait for itself. Otherwise as [Connect].
func (p *Pool) Session(ctx context.Context) (*Lease, error) {
	if err := notBegun(ctx); err != nil {
		return nil, err
	}
	select {
	case p.places <- struct{}{}:
	case <-ctx.Done():
		return nil, timedOut(ctx, "all sessions were in use all the time")
	}
	session, err := p.fresh(ctx)
	if err != nil {
		<-p.places
		return nil, err
	}
	return &Lease{Session: session, pool: p}, nil
}

// fresh is a session that came back, if the server hasn't closed it meanwhile, or a new one.
func (p *Pool) fresh(ctx context.Context) (*Session, error) {
	p.mutex.Lock()
	var session *Session
	if last := len(p.idle) - 1; last >= 0 {
		session, p.idle = p.idle[last], p.idle[:last]
	}
	isClosed := p.isClosed
	p.mutex.Unlock()
	if isClosed {
		return nil, &LostError{"the pool was closed"}
	}
	if session != nil {
		if session.isAsNew() {
			return session, nil
		}
		session.Close()
	}
	return Connect(ctx, p.access)
}

// IdleSessions are how many sessions came back, and aren't lent.
func (p *Pool) IdleSessions() int {
	p.mutex.Lock()
	defer p.mutex.Unlock()
	return len(p.idle)
}

// Close ends the sessions that aren't lent now, and each other one when it comes back. No session is lent any more.
func (p *Pool) Close() {
	p.mutex.Lock()
	defer p.mutex.Unlock()
	p.isClosed = true
	for _, session := range p.idle {
		session.Close()
	}
	p.idle = nil
}

func (p *Pool) String() string {
	return fmt.Sprintf("at most %d sessions of job %d at %s", cap(p.places), p.access.Job, p.access.Path)
}

// Lease is a session of a pool's, until it is closed.
type Lease struct {
	*Session
	pool *Pool
	once sync.Once
}

// Close gives the session back to its pool, once.
func (l *Lease) Close() {
	l.once.Do(func() {
		isAsNew := l.isAsNew()
		l.pool.mutex.Lock()
		if isAsNew = isAsNew && !l.pool.isClosed; isAsNew {
			l.pool.idle = append(l.pool.idle, l.Session)
		}
		l.pool.mutex.Unlock()
		if !isAsNew {
			l.Session.Close()
		}
		<-l.pool.places
	})
}
