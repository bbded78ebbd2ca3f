package storeclient

import (
	"bytes"
	"context"
	"errors"
	"fmt"
	"net"
	"os"
	"regexp"
	"strings"
	"syscall"
	"testing"
	"time"
)

// Sessions at a script that stands in for a server: one that is silent, that sends what is no reply, or that goes away in the middle.

var background = context.Background()

// expectTook says that what began then took at least so long, and no longer than it may.
func expectTook(t *testing.T, began time.Time, least time.Duration) {
	t.Helper()
	if took := time.Since(began); took < least || took > slack {
		t.Errorf("it took %v", took)
	}
}

func expectAs[T error](t *testing.T, err error) {
	t.Helper()
	var due T
	if !errors.As(err, &due) {
		t.Errorf("%v, and %T is due", err, due)
	}
}

func expectIs(t *testing.T, err, due error) {
	t.Helper()
	if !errors.Is(err, due) {
		t.Errorf("%v, and %v is due", err, due)
	}
}

func expectNil(t *testing.T, err error) {
	t.Helper()
	if err != nil {
		t.Error(err)
	}
}

func errorOf[T any](_ T, err error) error { return err }

func TestAServerThatTakesNoHelloIsATimeout(t *testing.T) {
	script, began := newScript(t, nil), time.Now()
	err := errorOf(Connect(background, script.access(shortTime)))
	expectAs[*TimeoutError](t, err)
	expectIs(t, err, os.ErrDeadlineExceeded)
	expectTook(t, began, shortTime)
}

func TestAServerWhoseQueueIsFullIsGivenUp(t *testing.T) {
	path := t.TempDir() + "/socket"
	listener := must(syscall.Socket(syscall.AF_UNIX, syscall.SOCK_STREAM, 0))
	defer syscall.Close(listener)
	expectNil(t, syscall.Bind(listener, &syscall.SockaddrUnix{Name: path}))
	expectNil(t, syscall.Listen(listener, 1))
	// nobody accepts, so soon the queue has no place
	for {
		socket, err := net.Dial("unix", path)
		if err != nil {
			expectIs(t, err, syscall.EAGAIN)
			break
		}
		defer socket.Close()
	}
	began := time.Now()
	err := errorOf(Connect(background, Access{path, 1, anyKey, shortTime}))
	expectAs[*TimeoutError](t, err)
	expectTook(t, began, shortTime)
}

func TestAServerThatStandsStillIsATimeoutAndLosesTheSession(t *testing.T) {
	script := afterHello(t)
	store, began := script.connect(shortTime), time.Now()
	expectAs[*TimeoutError](t, errorOf(store.Usage(background)))
	expectTook(t, began, shortTime)
	if store.IsUsable() {
		t.Error("it is usable")
	}
	expectAs[*LostError](t, errorOf(store.Usage(background)))
}

func TestACallIsGivenUpAfterItsTimeAndNotBeforeASecond(t *testing.T) {
	ownGrace(t)
	script := afterHello(t)
	store, began := script.connect(0), time.Now()
	err := errorOf(store.Wait(within(t, shortTime), anyID()))
	expectAs[*TimeoutError](t, err)
	expectIs(t, err, context.DeadlineExceeded)
	expectTook(t, began, time.Second)
}

func TestACallThatIsCancelledIsGivenUp(t *testing.T) {
	ownGrace(t)
	script := afterHello(t)
	store := script.connect(slack)
	ctx, cancel := context.WithCancel(background)
	time.AfterFunc(shortTime, cancel)
	began := time.Now()
	err := errorOf(store.HoldWait(ctx, anyID()))
	expectAs[*TimeoutError](t, err)
	expectIs(t, err, context.Canceled)
	expectTook(t, began, time.Second)
	expectAs[*LostError](t, store.Leave(background))
}

func TestAContextThatHasEndedSendsNothing(t *testing.T) {
	script := afterHello(t, ok())
	store := script.connect(slack)
	ctx, cancel := context.WithCancel(background)
	cancel()
	expectIs(t, errorOf(Connect(ctx, script.access(0))), context.Canceled)
	expectIs(t, errorOf(store.Put(ctx, []byte("Hello"))), context.Canceled)
	expectIs(t, store.PutAs(ctx, anyID(), []byte("Hello")), context.Canceled)
	expectIs(t, errorOf(store.Get(ctx, anyID())), context.Canceled)
	expectIs(t, errorOf(store.Wait(ctx, anyID())), context.Canceled)
	expectIs(t, store.Seal(ctx, anyID()), context.Canceled)
	script.expect(kindHello)
	script.expectNoMore(store)
}

func TestAWaitThatEndsInALookTellsItsAnswerAndTheSessionGoesOn(t *testing.T) {
	ctx, cancel := context.WithCancel(background)
	script := afterHello(t, before(cancel, refused(NotSealed)), ok())
	store := script.connect(slack)
	err := errorOf(store.Wait(ctx, anyID()))
	expectAs[*WaitError](t, err)
	expectAs[Refusal](t, err)
	expectIs(t, err, NotSealed)
	expectIs(t, err, context.Canceled)
	script.expect(kindHello, kindGet)
	script.expectNoMore(store)
}

func TestALookIsAskedToItsEndThoughTheContextHasEnded(t *testing.T) {
	ctx, cancel := context.WithCancel(background)
	script := afterHello(t, before(cancel, refused(Pending)), refused(Absent), ok())
	store := script.connect(slack)
	expectIs(t, errorOf(store.Wait(ctx, anyID())), Absent)
	script.expect(kindHello, kindGet, kindGet)
	script.expectNoMore(store)
}

func TestAGoroutineWaitsForItsTurnNoLongerThanItMay(t *testing.T) {
	ownGrace(t)
	script := afterHello(t)
	store := script.connect(0)
	ended := make(chan error)
	waiting, cancel := context.WithCancel(background)
	go func() { ended <- errorOf(store.HoldWait(waiting, anyID())) }()
	script.expect(kindHello, kindGetWait)
	began := time.Now()
	expectAs[*TimeoutError](t, errorOf(store.Get(within(t, shortTime), anyID())))
	expectTook(t, began, time.Second)
	if !store.IsUsable() {
		t.Error("another goroutine's call goes on")
	}
	cancel()
	expectAs[*TimeoutError](t, <-ended)
}

func TestASessionThatIsClosedEndsTheCallInIt(t *testing.T) {
	script := afterHello(t)
	store := script.connect(0)
	ended := make(chan error)
	go func() { ended <- errorOf(store.HoldWait(background, anyID())) }()
	script.expect(kindHello, kindGetWait)
	store.Close()
	expectAs[*LostError](t, <-ended)
	expectAs[*LostError](t, store.Leave(background))
}

func TestEachRefusalIsToldByItsNumberAndTheSessionGoesOn(t *testing.T) {
	var answers []said
	for number := 1; number <= 255; number++ {
		answers = append(answers, refused(Refusal(number)))
	}
	store := afterHello(t, answers...).connect(slack)
	for number := 1; number <= 255; number++ {
		expectIs(t, store.Seal(background, anyID()), Refusal(number))
	}
	if !store.IsUsable() {
		t.Error("it was lost")
	}
}

func TestWhatIsNoReplyIsAProtocolError(t *testing.T) {
	for _, bytes := range [][]byte{
		{0, 0, 0, 0, 0x80}, {0xff, 0xff, 0xff, 0xff, 0x80}, {0, 0, 0, 1, 0x81}, {0, 0, 0, 2, 0x80, 0}, {0, 0, 0, 1, 0x8f},
		{0, 0, 0, 3, 0x8f, 1, 1}, {0, 0, 0, 2, 0x8f, 0}, []byte("HTTP/1.1 200 OK"),
	} {
		store := afterHello(t, raw(bytes...)).connect(slack)
		expectAs[*ProtocolError](t, store.Delete(background, anyID()))
		expectAs[*LostError](t, store.Delete(background, anyID()))
	}
}

func TestALengthThatWasNotAskedForIsRefusedBeforeItsBytesCome(t *testing.T) {
	// the heads alone are sent: a client that made room and waited for the bodies would be silent
	for _, head := range [][]byte{{0, 0, 0, 6, 0x83}, {0, 0, 0, 4, 0x83}, {0, 4, 0, 0, 0x83}, {0, 0, 0, 1, 0x83}} {
		store := afterHello(t, raw(head...)).connect(slack)
		expectAs[*ProtocolError](t, store.Read(background, anyID(), 0, make([]byte, 4)))
	}
	for _, head := range [][]byte{{0, 4, 0, 0, 0x85}, {0, 0, 0, 2, 0x85}} {
		expectAs[*ProtocolError](t, errorOf(afterHello(t, raw(head...)).connect(slack).Usage(background)))
	}
	for _, head := range [][]byte{{0, 0, 0, 2, 0x84}, {0, 4, 0, 1, 0x84}} {
		expectAs[*ProtocolError](t, errorOf(afterHello(t, raw(head...)).connect(slack).List(background)))
	}
}

func TestAnObjectThatIsLongerThanAnyTakesNoMemory(t *testing.T) {
	for _, length := range []uint32{0, Largest + 1, 0xffffffff} {
		store := afterHello(t, gotReply(length)).connect(slack)
		expectAs[*ProtocolError](t, errorOf(store.Get(background, anyID())))
	}
}

func TestAServerThatGoesAwayLosesTheSession(t *testing.T) {
	store := afterHello(t, closing(raw())).connect(0)
	expectAs[*LostError](t, store.Seal(background, anyID()))
	script := newScript(t, []said{closing(raw())})
	expectAs[*LostError](t, errorOf(Connect(background, script.access(0))))
	expectIs(t, errorOf(Connect(background, Access{Path: "/nowhere/store.0", Job: 1})), os.ErrNotExist)
}

func TestAServerThatClosesMayHaveSaidWhy(t *testing.T) {
	script := newScript(t, []said{closing(refused(NotAdmitted))})
	expectIs(t, errorOf(Connect(background, script.access(slack))), NotAdmitted)
}

func TestASmallPutIsOneRoundTrip(t *testing.T) {
	// nothing is answered before all is there
	script := afterHello(t, raw(), raw(), together(placedReply(), ok(), ok()))
	id, err := script.connect(slack).Put(background, []byte("Hello"))
	expectNil(t, err)
	script.expect(kindHello)
	for _, request := range []request{create(false, id, Primary, 5, nil), write(id, 0, []byte("Hello")), onObject(kindSeal, id)} {
		if frame := script.frame(); !bytes.Equal(frame, encoded(request)) {
			t.Errorf("%x came", frame)
		}
	}
}

func TestASmallGetIntoABufferIsOneRoundTrip(t *testing.T) {
	// nothing is answered before all is there
	script := afterHello(t, raw(), raw(), together(gotReply(5), bytesReply("Hello"), ok()))
	store, into := script.connect(slack), make([]byte, 5)
	expectBytes(t, into, store.GetInto(background, anyID(), into), []byte("Hello"))
	script.expect(kindHello, kindGet, kindRead, kindRelease)
	script.expectNoMore(store)
}

func TestAGetIntoABufferOfAnotherLengthLeavesItAsItWas(t *testing.T) {
	script := afterHello(t, gotReply(6), bytesReply("Hello"), ok())
	store, into := script.connect(slack), []byte("other")
	expectAs[*InvalidError](t, store.GetInto(background, anyID(), into))
	expectBytes(t, into, nil, []byte("other"))
	script.expect(kindHello, kindGet, kindRead, kindRelease)
	script.expectNoMore(store)
}

func TestAGetIntoABufferWhoseReadIsRefusedKeepsNoHold(t *testing.T) {
	script := afterHello(t, gotReply(5), gotReply(5), refused(Damaged), ok())
	store, into := script.connect(slack), make([]byte, 5)
	expectNil(t, errorOf(store.Hold(background, anyID())))
	expectIs(t, store.GetInto(background, anyID(), into), Damaged)
	script.expect(kindHello, kindGet, kindGet, kindRead, kindRelease)
	script.expectNoMore(store)
}

func TestAPutThatIsRefusedHalfWayIsDeletedAgain(t *testing.T) {
	script := afterHello(t, placedReply(), refused(NoMemory), ok(), ok(), ok())
	store := script.connect(slack)
	expectIs(t, errorOf(store.Put(background, []byte("Hello"))), NoMemory)
	script.expect(kindHello, kindCreate, kindWrite, kindSeal, kindDelete)
	script.expectNoMore(store)
}

func TestAPutUnderAnIDThatWasGivenIsNotSealedHalfWritten(t *testing.T) {
	script := afterHello(t, placedReply(), refused(NoMemory), ok(), ok())
	store := script.connect(slack)
	expectIs(t, store.PutAs(background, anyID(), []byte("Hello")), NoMemory)
	script.expect(kindHello, kindCreate, kindWrite, kindDelete)
	script.expectNoMore(store)
}

func TestAPutThatIsCancelledIsDeletedAgain(t *testing.T) {
	script := afterHello(t, placedReply(), ok(), ok(), ok())
	store := script.connect(slack)
	ctx, cancel := context.WithCancel(background)
	made := newCopy{session: store, id: anyID()}
	expectNil(t, made.reserve(ctx, 5))
	cancel()
	err := made.make(ctx, []byte("Hello"))
	expectIs(t, err, context.Canceled)
	script.expect(kindHello, kindCreate, kindDelete)
	script.expectNoMore(store)
}

func TestAPutThatLosesItsSessionIsDeletedByAnotherOne(t *testing.T) {
	script := newScript(t, []said{ok(), placedReply(), raw([]byte("no reply")...)}, []said{ok(), ok()})
	expectAs[*ProtocolError](t, script.connect(slack).PutAs(background, anyID(), []byte("Hello")))
	script.expect(kindHello, kindCreate, kindWrite, kindHello)
	if frame := script.frame(); !bytes.Equal(frame, encoded(onObject(kindDelete, anyID()))) {
		t.Errorf("%x came", frame)
	}
}

func TestAPutAtAServerThatStandsStillEndsInTime(t *testing.T) {
	store, began := afterHello(t).connect(shortTime), time.Now()
	expectAs[*TimeoutError](t, errorOf(store.Put(background, make([]byte, 1<<20))))
	expectTook(t, began, shortTime)
	if store.IsUsable() {
		t.Error("it is usable")
	}
}

func TestAPutWaitsForRoom(t *testing.T) {
	ctx, cancel := context.WithCancel(background)
	script := afterHello(t, refused(Pending), refused(Busy), placedReply(), ok(), ok(), before(cancel, refused(Pending)), ok())
	store := script.connect(slack)
	expectNil(t, store.PutAs(background, anyID(), []byte("Hello")))
	script.expect(kindHello, kindCreate, kindCreate, kindCreate, kindWrite, kindSeal)
	err := store.PutAs(ctx, anyID(), []byte("Hello"))
	expectIs(t, err, Pending)
	expectIs(t, err, context.Canceled)
	script.expect(kindCreate)
	script.expectNoMore(store)
}

func TestABurstThatFindsNoRoomIsSentAgainOnceThereIsSome(t *testing.T) {
	script := afterHello(t, refused(Pending), refused(Absent), refused(Absent), placedReply(), ok(), ok())
	expectNil(t, errorOf(script.connect(slack).Put(background, []byte("Hello"))))
	script.expect(kindHello, kindCreate, kindWrite, kindSeal, kindCreate, kindWrite, kindSeal)
}

func TestAPutTakesAFetchAwayThatIsInItsPlace(t *testing.T) {
	script := afterHello(t, refused(Exists), listed(Fetching), refused(Absent), placedReply(), ok(), ok())
	expectNil(t, script.connect(slack).PutAs(background, anyID(), []byte("Hello")))
	script.expect(kindHello, kindCreate, kindList, kindGet, kindCreate, kindWrite, kindSeal)
	script = afterHello(t, refused(Exists), listed(Created), ok())
	store := script.connect(slack)
	expectIs(t, store.PutAs(background, anyID(), []byte("Hello")), Exists)
	script.expect(kindHello, kindCreate, kindList)
	script.expectNoMore(store)
}

func TestAnotherProducersCopyIsNeverDeleted(t *testing.T) {
	script := afterHello(t, refused(Exists), listed(), gotReply(5), refused(Exists), ok(), ok())
	store := script.connect(slack)
	expectIs(t, store.PutAs(background, anyID(), []byte("Hello")), Exists)
	// the Get that would take a fetch away found the object, so its hold is given up
	script.expect(kindHello, kindCreate, kindList, kindGet, kindCreate, kindRelease)
	script.expectNoMore(store)
}

func TestALookThatFindsTwiceHasOneHold(t *testing.T) {
	script := afterHello(t, refused(Absent), gotReply(5), gotReply(5), ok(), bytesReply("Hello"), ok(), ok())
	store := script.connect(slack)
	held, err := store.Wait(within(t, slack), anyID())
	expectNil(t, err)
	expectNil(t, held.Close())
	script.expect(kindHello, kindGet, kindGet, kindGet, kindRelease, kindRead, kindRelease)
	script.expectNoMore(store)
}

func TestATransferIsWaitedForAndLeftToGoOn(t *testing.T) {
	asked := []said{refused(Pending), refused(Pending), unlessGet(refused(NotSealed)), unlessGet(refused(NotHeld)), gotReply(5)}
	script := afterHello(t, append(asked, bytesReply("Hello"))...)
	held, err := script.connect(slack).Get(background, anyID())
	if err != nil || string(held.Bytes()) != "Hello" {
		t.Fatal(held, err)
	}
	var kinds []byte
	for len(script.frames) > 0 {
		kinds = append(kinds, script.frame()[4])
	}
	// on a slow machine it may be time for a Get before a Read
	if asked := strings.ReplaceAll(fmt.Sprintf("%x", kinds), "05", "g"); !regexp.MustCompile("^01ggg*06g*06g06$").MatchString(asked) {
		t.Error(asked)
	}
}

func TestAFetchThatFindsNoRoomIsDeletedAndNoOtherCopyIs(t *testing.T) {
	script := afterHello(t, refused(Full), listed(Fetching), ok(), ok())
	store := script.connect(slack)
	expectIs(t, errorOf(store.Get(background, anyID())), Full)
	script.expect(kindHello, kindGet, kindList, kindDelete)
	script.expectNoMore(store)
	script = afterHello(t, refused(Full), listed(Away), ok())
	store = script.connect(slack)
	expectIs(t, errorOf(store.Get(background, anyID())), Full)
	script.expect(kindHello, kindGet, kindList)
	script.expectNoMore(store)
}

func TestWhatIsHeldIsReleasedOnce(t *testing.T) {
	script := afterHello(t, gotReply(5), bytesReply("Hello"), ok(), ok())
	store := script.connect(slack)
	held, err := store.Get(background, anyID())
	if err != nil || string(held.Bytes()) != "Hello" {
		t.Fatal(held, err)
	}
	script.expect(kindHello, kindGet, kindRead)
	ctx, cancel := context.WithCancel(background)
	cancel()
	expectNil(t, held.Release(ctx))
	expectNil(t, held.Release(ctx))
	expectNil(t, held.Close())
	script.expect(kindRelease)
	script.expectNoMore(store)
}

func TestAHoldIsGivenUpWithTheNextCallIfTheSessionIsInUse(t *testing.T) {
	script := afterHello(t, gotReply(5), bytesReply("Hello"), raw(), together(ok(), gotReply(7)))
	store := script.connect(slack)
	held := must(store.Get(background, anyID()))
	expectNil(t, store.takeTurn(newBounds(background, slack)))
	expectNil(t, held.Close())
	store.giveTurn()
	if length := must(store.Hold(background, anyID())); length != 7 || store.stream.holds != 1 {
		t.Error(length, store.stream.holds)
	}
	script.expect(kindHello, kindGet, kindRead, kindRelease, kindGet)
}

func TestAPoolLendsNoSessionThatIsLost(t *testing.T) {
	rubbish := []said{ok(), raw([]byte("no reply")...)}
	script := newScript(t, rubbish, []said{ok(), usedReply(64), closing(raw())}, []said{ok(), usedReply(64)})
	pool := must(NewPool(script.access(slack), 1))
	defer pool.Close()
	lease := must(pool.Session(background))
	expectAs[*TimeoutError](t, errorOf(pool.Session(within(t, shortTime))))
	expectAs[*ProtocolError](t, errorOf(lease.Usage(background)))
	lease.Close()
	lease.Close()
	for round := 0; round < 2; round++ {
		if idle := pool.IdleSessions(); idle != 0 {
			t.Errorf("%d came back", idle)
		}
		lease = must(pool.Session(background))
		if used := must(lease.Usage(background)); used.Window != 64 {
			t.Error(used)
		}
		if round == 0 {
			expectAs[*LostError](t, errorOf(lease.Usage(background)))
		}
		lease.Close()
	}
	if idle := pool.IdleSessions(); idle != 1 {
		t.Errorf("%d came back", idle)
	}
	pool.Close()
	expectAs[*LostError](t, errorOf(pool.Session(background)))
}

func TestAPoolKeepsNoSessionWithRepliesThatNobodyAskedFor(t *testing.T) {
	script := newScript(t, []said{ok(), together(ok(), raw([]byte("more than was asked for")...))}, []said{ok(), ok()})
	leaveTwice(t, script, func() {})
}

func TestAPoolNoticesASessionThatWasClosedWhileNobodyHadIt(t *testing.T) {
	script := newScript(t, []said{ok(), closing(ok())}, []said{ok(), ok()})
	leaveTwice(t, script, func() { <-script.ended })
}

// leaveTwice says that the second time another session is lent.
func leaveTwice(t *testing.T, script *script, afterFirst func()) {
	t.Helper()
	pool := must(NewPool(script.access(slack), 1))
	defer pool.Close()
	for _, after := range []func(){afterFirst, func() {}} {
		lease := must(pool.Session(background))
		expectNil(t, lease.Leave(background))
		lease.Close()
		after()
	}
	script.expect(kindHello, kindLeave, kindHello, kindLeave)
}

func TestArgumentsThatCannotBeMeantAreToldAndNothingIsSent(t *testing.T) {
	script := afterHello(t, ok())
	store := script.connect(slack)
	expectAs[*InvalidError](t, errorOf(NewPool(script.access(0), 0)))
	expectAs[*InvalidError](t, errorOf(store.Object(1, 0)))
	expectAs[*InvalidError](t, store.Write(background, anyID(), 0xffffffff, make([]byte, MostBytes+1)))
	script.expect(kindHello)
	script.expectNoMore(store)
}
