package storeclient

import (
	"context"
	"errors"
	"fmt"
	"os"
)

// WaitError says that the time of a put or a wait was over: what was refused last, and how the context ended. Both are found by
// errors.Is and errors.As. The session goes on.
type WaitError struct {
	Refusal Refusal
	Cause   error
}

func (e *WaitError) Error() string {
	return fmt.Sprintf("%v: the last answer was %v", e.Cause, e.Refusal)
}

// Unwrap gives the refusal.
func (e *WaitError) Unwrap() error { return e.Refusal }

// Is says whether the context ended so.
func (e *WaitError) Is(target error) bool { return errors.Is(e.Cause, target) }

// TimeoutError says that the server didn't answer in time, or that the session, or all those of a pool, were in use by others all the
// time. Its cause is the context's error, or else os.ErrDeadlineExceeded.
type TimeoutError struct {
	What  string
	Cause error
}

func (e *TimeoutError) Error() string { return e.What + ": " + e.Cause.Error() }

// Timeout is true, as of a net.Error.
func (e *TimeoutError) Timeout() bool { return true }

// Unwrap gives the cause.
func (e *TimeoutError) Unwrap() error { return e.Cause }

// LostError says that the server is gone or closed the session, that the session was closed here, or that an earlier call lost it.
type LostError struct{ Why string }

func (e *LostError) Error() string { return "the session is lost: " + e.Why }

// ProtocolError says that what came is no reply to the command. The session is lost.
type ProtocolError struct{ What string }

func (e *ProtocolError) Error() string { return "what came is no reply: " + e.What }

// InvalidError says that an argument can't be meant so, or that an object isn't what it should be. The session goes on.
type InvalidError struct{ What string }

func (e *InvalidError) Error() string { return e.What }

func invalid(format string, values ...any) error {
	return &InvalidError{fmt.Sprintf(format, values...)}
}

func noReply(format string, values ...any) error {
	return &ProtocolError{fmt.Sprintf(format, values...)}
}

// timedOut is a timeout that the context has caused, if it has ended, and otherwise a patience that is over.
func timedOut(ctx context.Context, what string) error {
	if cause := ctx.Err(); cause != nil {
		return &TimeoutError{what, cause}
	}
	return &TimeoutError{what, os.ErrDeadlineExceeded}
}

// notBegun is an error if the context has ended, so that nothing is to be sent.
func notBegun(ctx context.Context) error {
	if ctx.Err() == nil {
		return nil
	}
	return timedOut(ctx, "nothing was sent")
}

// refusalOf is the refusal that the error is or has, or none.
func refusalOf(err error) Refusal {
	var refusal Refusal
	if errors.As(err, &refusal) {
		return refusal
	}
	return 0
}
