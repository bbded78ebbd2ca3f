package storeclient

import (
	"bytes"
	"context"
	"math/rand"
	"os"
	"reflect"
	"strconv"
	"sync"
	"testing"
	"time"
)

// Sessions of two jobs at a server that runs: STORE_SOCKET, STORE_JOB and STORE_KEY name the first job's, STORE_OTHER_JOB and
// STORE_OTHER_KEY the second's, and STORE_OTHER_SOCKET another node. The first has a window of 64 MiB, the second of 1 MiB.
// tests/go_client starts such a server; without one these tests are skipped, which it counts as failed.

func variable(t *testing.T, name string) string {
	t.Helper()
	value, has := os.LookupEnv(name)
	if !has {
		t.Skipf("%s isn't set: tests/go_client starts a server and sets it", name)
	}
	return value
}

func accessOf(t *testing.T, socket, job, key string) Access {
	t.Helper()
	number := must(strconv.ParseUint(variable(t, job), 10, 32))
	return Access{variable(t, socket), uint32(number), must(ParseKey(variable(t, key))), slack}
}

func firstAccess(t *testing.T) Access { return accessOf(t, "STORE_SOCKET", "STORE_JOB", "STORE_KEY") }

func opened(t *testing.T, access Access) *Session {
	t.Helper()
	session, err := Connect(background, access)
	if err != nil {
		t.Fatal(err)
	}
	t.Cleanup(session.Close)
	return session
}

func connected(t *testing.T) *Session { return opened(t, firstAccess(t)) }

func connectedOther(t *testing.T) *Session {
	return opened(t, accessOf(t, "STORE_SOCKET", "STORE_OTHER_JOB", "STORE_OTHER_KEY"))
}

// drawn are bytes of which no two pieces are alike.
func drawn(length int, seed int64) []byte {
	data := make([]byte, length)
	rand.New(rand.NewSource(seed)).Read(data)
	return data
}

func expectThere(t *testing.T, store *Session, id ObjectID, due bool) {
	t.Helper()
	if isThere, err := store.Contains(background, id); isThere != due || err != nil {
		t.Errorf("%v is there: %v, %v", id, isThere, err)
	}
}

func expectBytes(t *testing.T, data []byte, err error, due []byte) {
	t.Helper()
	if err != nil || !bytes.Equal(data, due) {
		t.Errorf("%d bytes came back as %d others: %v", len(due), len(data), err)
	}
}

func TestWhatWasPutComesBack(t *testing.T) {
	store := connected(t)
	for _, length := range []int{1, 5, 4096, 65_536, 65_537, 1 << 20, 1<<20 + 1, Largest} {
		data := drawn(length, 1)
		id := must(store.Put(background, data))
		held := must(store.Get(background, id))
		expectBytes(t, held.Bytes(), nil, data)
		expectNil(t, held.Close())
		into := make([]byte, length)
		expectBytes(t, into, store.GetInto(background, id, into), data)
		expectNil(t, store.Delete(background, id))
		// no hold was left
		expectIs(t, errorOf(store.Get(background, id)), Absent)
	}
}

func TestAGetIntoABufferGivesNoOtherHoldUp(t *testing.T) {
	store, into := connected(t), make([]byte, 5)
	id := must(store.Put(background, []byte("Hello")))
	held := must(store.Get(background, id))
	expectBytes(t, into, store.GetInto(background, id, into), []byte("Hello"))
	expectNil(t, store.Delete(background, id))
	// the Get is refused, and a Release with it would be of the other hold
	expectIs(t, store.GetInto(background, id, into), Absent)
	expectBytes(t, into, store.Read(background, id, 0, into), []byte("Hello"))
	expectNil(t, held.Release(background))
	expectIs(t, store.Read(background, id, 0, into), Absent)
}

func TestAnObjectHasAtLeastOneByteAndAtMost16Mebibytes(t *testing.T) {
	store := connected(t)
	id := must(store.Object(1, 1))
	for _, length := range []int{0, Largest + 1} {
		expectIs(t, errorOf(store.Put(background, make([]byte, length))), BadSize)
		expectIs(t, store.PutAs(background, id, make([]byte, length)), BadSize)
	}
	expectThere(t, store, id, false)
}

func TestWhatNobodyPutsIsAbsentOnceTheTimeIsOver(t *testing.T) {
	store := connected(t)
	id := must(store.Object(2, 1))
	expectIs(t, errorOf(store.Get(background, id)), Absent)
	began := time.Now()
	err := errorOf(store.Wait(within(t, fewSeconds), id))
	expectIs(t, err, Absent)
	expectIs(t, err, context.DeadlineExceeded)
	expectTook(t, began, fewSeconds)
	// nothing of the looks is in a producer's way
	expectNil(t, store.PutAs(background, id, []byte("Hello")))
	expectIs(t, store.PutAs(background, id, []byte("Hello")), Exists)
	expectAs[*InvalidError](t, store.GetInto(background, id, make([]byte, 4)))
	expectNil(t, store.Delete(background, id))
	expectThere(t, store, id, false)
}

func TestAWaitEndsByAnotherGoroutinesPut(t *testing.T) {
	store, producer := connected(t), connected(t)
	id := must(store.Object(3, 1))
	came := make(chan []byte)
	go func() {
		defer close(came)
		if data, err := store.WaitWhole(within(t, slack), id); err == nil {
			came <- data
		}
	}()
	select {
	case <-came:
		t.Error("nothing is there yet")
	case <-time.After(shortTime):
	}
	expectNil(t, producer.PutAs(background, id, []byte("Hello")))
	expectBytes(t, <-came, nil, []byte("Hello"))
	expectNil(t, producer.Delete(background, id))
	// no hold was left
	expectThere(t, producer, id, false)
}

func TestAnObjectIsMadeStepByStep(t *testing.T) {
	store := connected(t)
	id := must(store.Object(4, 1))
	expectIs(t, store.Seal(background, id), Absent)
	if placed := must(store.Create(background, id, Primary, 100_000)); placed.Length != 100_000 {
		t.Error(placed)
	}
	expectIs(t, errorOf(store.Hold(background, id)), NotSealed)
	data := drawn(70_000, 2)
	expectNil(t, store.Write(background, id, 20_000, data))
	expectIs(t, store.Write(background, id, 99_999, []byte("Hello")), OutOfBounds)
	expectNil(t, store.Write(background, id, 100_000, nil))
	expectNil(t, store.Seal(background, id))
	expectIs(t, store.Write(background, id, 0, []byte("Hello")), AlreadySealed)
	into := bytes.Repeat([]byte{1}, 80_000)
	expectIs(t, store.Read(background, id, 0, into), NotHeld)
	if length := must(store.Hold(background, id)); length != 100_000 {
		t.Error(length)
	}
	due := append(append(make([]byte, 5000), data...), make([]byte, 5000)...)
	expectBytes(t, into, store.Read(background, id, 15_000, into), due)
	expectIs(t, store.Read(background, id, 20_001, into), OutOfBounds)
	expectListed(t, store, OwnItem{id, Sealed, Primary, 100_000})
	if used := must(store.Usage(background)); used.Window != 1<<26 || used.WindowUsed < 100_000 || used.Copies < 1 {
		t.Error(used)
	}
	expectNil(t, store.Release(background, id))
	expectIs(t, store.Release(background, id), NotHeld)
	expectNil(t, store.Delete(background, id))
}

func expectListed(t *testing.T, store *Session, due OwnItem) {
	t.Helper()
	for _, item := range must(store.List(background)).Own {
		if item == due {
			return
		}
	}
	t.Errorf("%v isn't listed", due)
}

func TestCreateWaitAndHoldWait(t *testing.T) {
	store := connected(t)
	id := must(store.NewID())
	if placed := must(store.CreateWait(background, id, Secondary, 20)); placed.Length != 32 {
		t.Error(placed)
	}
	expectNil(t, store.Seal(background, id))
	if length := must(store.HoldWait(background, id)); length != 20 {
		t.Error(length)
	}
	expectListed(t, store, OwnItem{id, Sealed, Secondary, 20})
	expectNil(t, store.Delete(background, id))
	expectThere(t, store, id, true)
	// all holds are given up
	expectNil(t, store.Leave(background))
	expectThere(t, store, id, false)
	expectIs(t, errorOf(store.HoldWait(background, id)), Absent)
}

func TestTasksBorrowAndEnd(t *testing.T) {
	store := connected(t)
	// a task that has ended doesn't come back, so it is another one each time
	id := must(store.NewID())
	owner, other := id.Task(), NumberedTask(6)
	expectNil(t, store.PutAs(background, id, []byte("Hello")))
	expectNil(t, store.Borrow(background, id, other))
	expectIs(t, store.Borrow(background, id, other), Exists)
	expectIs(t, store.Unpin(background, id, other), NotOwner)
	expectNil(t, store.Unpin(background, id, owner))
	// a task borrows it
	expectThere(t, store, id, true)
	expectNil(t, store.GiveUp(background, id, other))
	expectThere(t, store, id, false)
	expectNil(t, store.EndTask(background, owner))
	expectIs(t, store.PutAs(background, id, []byte("Hello")), Gone)
}

func TestWhatIsHeldStaysThoughItIsDeleted(t *testing.T) {
	store := connected(t)
	id := must(store.Put(background, []byte("Hello")))
	held := must(store.Get(background, id))
	expectNil(t, store.Delete(background, id))
	expectThere(t, store, id, true)
	expectNil(t, held.Release(background))
	expectThere(t, store, id, false)
	expectBytes(t, held.Bytes(), held.Close(), []byte("Hello"))
}

func TestAWrongKeyIsNotAdmitted(t *testing.T) {
	access := firstAccess(t)
	access.Key = Key{}
	expectIs(t, errorOf(Connect(background, access)), NotAdmitted)
	access = firstAccess(t)
	access.Job = 0xffffffff
	expectIs(t, errorOf(Connect(background, access)), NotAdmitted)
}

func TestAGrantedObjectIsGotByTheOtherJobAlone(t *testing.T) {
	store, other := connected(t), connectedOther(t)
	data := drawn(100_000, 3)
	id := must(store.Put(background, data))
	into := make([]byte, 70_000)
	expectIs(t, other.Peek(background, id, 0, into), NotGranted)
	expectIs(t, errorOf(other.Get(background, id)), NotGranted)
	expectIs(t, errorOf(other.Wait(within(t, fewSeconds), id)), NotGranted)
	expectIs(t, store.Grant(background, id, store.Job()), BadID)
	expectNil(t, store.Grant(background, id, other.Job()))
	expectBytes(t, into, other.Peek(background, id, 20_000, into), data[20_000:90_000])
	expectBytes(t, must(other.Get(background, id)).Bytes(), nil, data)
	whole := make([]byte, len(data))
	expectBytes(t, whole, other.WaitInto(within(t, slack), id, whole), data)
	granted := must(other.List(background)).Granted
	if due := (GrantedItem{id, 100_000, 1}); len(granted) != 1 || granted[0] != due {
		t.Error(granted)
	}
	expectIs(t, store.Delete(background, id), Granted)
	expectNil(t, store.Withdraw(background, id, other.Job()))
	expectIs(t, errorOf(other.Get(background, id)), NotGranted)
	expectNil(t, store.Delete(background, id))
}

func TestAnObjectOfAnotherNodeIsFetched(t *testing.T) {
	here, there := connected(t), opened(t, accessOf(t, "STORE_OTHER_SOCKET", "STORE_JOB", "STORE_KEY"))
	data := drawn(3_000_001, 8)
	id := must(here.Put(background, data))
	expectThere(t, there, id, false)
	expectBytes(t, must(there.Get(background, id)).Bytes(), nil, data)
	expectListed(t, there, OwnItem{id, Sealed, Secondary, 3_000_001})
	later := must(here.Object(8, 1))
	came := make(chan []byte)
	go func() {
		defer close(came)
		if data, err := there.WaitWhole(within(t, slack), later); err == nil {
			came <- data
		}
	}()
	time.Sleep(shortTime)
	expectNil(t, here.PutAs(background, later, data))
	expectBytes(t, <-came, nil, data)
	expectNil(t, here.Delete(background, id))
	expectNil(t, here.Delete(background, later))
}

func putAndGet(store *Session, data []byte) error {
	id, err := store.Put(background, data)
	if err != nil {
		return err
	}
	held, err := store.Get(background, id)
	if err != nil {
		return err
	}
	if !bytes.Equal(held.Bytes(), data) {
		return invalid("%d bytes came back otherwise", len(data))
	}
	if err := held.Release(background); err != nil {
		return err
	}
	if err := store.Delete(background, id); err != nil {
		return err
	}
	if isThere, err := store.Contains(background, id); err != nil || isThere {
		return invalid("%v is there: %v, %v", id, isThere, err)
	}
	return nil
}

// lentCount is how many sessions are lent, and how many were at once.
type lentCount struct {
	mutex     sync.Mutex
	now, most int
}

func (c *lentCount) add(more int) {
	c.mutex.Lock()
	defer c.mutex.Unlock()
	if c.now += more; c.now > c.most {
		c.most = c.now
	}
}

func TestManyGoroutinesUseFewSessionsOfAPool(t *testing.T) {
	const most, rounds = 3, 20
	pool := must(NewPool(firstAccess(t), most))
	defer pool.Close()
	var all, firstRound sync.WaitGroup
	var lent lentCount
	// in their first round the first ones wait for one another, so that all sessions are lent at once
	firstRound.Add(most)
	work := func(number int) {
		defer all.Done()
		for round := 0; round < rounds; round++ {
			lease := must(pool.Session(within(t, slack)))
			lent.add(1)
			if number < most && round == 0 {
				firstRound.Done()
				firstRound.Wait()
			}
			expectNil(t, putAndGet(lease.Session, drawn(1+997*round, int64(number))))
			lent.add(-1)
			lease.Close()
		}
	}
	for number := 0; number < 4*most; number++ {
		all.Add(1)
		go work(number)
	}
	all.Wait()
	if idle := pool.IdleSessions(); lent.most != most || idle != most {
		t.Errorf("%d were lent at once, %d came back", lent.most, idle)
	}
}

func TestGoroutinesShareASession(t *testing.T) {
	store := connected(t)
	var all sync.WaitGroup
	for number := int64(0); number < 8; number++ {
		all.Add(1)
		go func(number int64) {
			defer all.Done()
			for round := 0; round < 10; round++ {
				expectNil(t, putAndGet(store, drawn(1+9973*round, number)))
			}
		}(number)
	}
	all.Wait()
	if !store.IsUsable() {
		t.Error("it was lost")
	}
}

func TestASessionComesBackToItsPoolWithoutHolds(t *testing.T) {
	pool := must(NewPool(firstAccess(t), 1))
	defer pool.Close()
	lease := must(pool.Session(background))
	session := lease.Session
	id := must(lease.Put(background, []byte("Hello")))
	expectNil(t, errorOf(lease.Hold(background, id)))
	lease.Close()
	lease = must(pool.Session(background))
	if lease.Session != session {
		t.Error("it is another session")
	}
	expectIs(t, lease.Read(background, id, 0, make([]byte, 5)), NotHeld)
	expectNil(t, lease.Delete(background, id))
	lease.Close()
}

func TestWhatIsLongerThanAnObjectGoesInParts(t *testing.T) {
	store := connected(t)
	data := drawn(Largest+5_000_001, 4)
	named := must(store.Object(7, 1))
	expectNil(t, store.PutWholeAs(background, named, data))
	whole, err := store.GetWhole(background, named)
	expectBytes(t, whole, err, data)
	// of a sixteenth of the window each
	parts := must(store.Parts(background, named))
	if len(parts) != 6 {
		t.Error(parts)
	}
	for _, part := range parts {
		if part.Task() != named.Task() {
			t.Errorf("%v is of another task", part)
		}
	}
	expectIs(t, store.PutWholeAs(background, named, data), Exists)
	expectNil(t, store.DeleteWhole(background, named))
	for _, id := range append(parts, named) {
		expectThere(t, store, id, false)
	}
	for _, length := range []int{0, 5} {
		id := must(store.PutWhole(background, data[:length]))
		whole, err := store.WaitWhole(within(t, slack), id)
		expectBytes(t, whole, err, data[:length])
		if parts := must(store.Parts(background, id)); len(parts) > 0 {
			t.Error(parts)
		}
		expectNil(t, store.DeleteWhole(background, id))
	}
}

func TestPartsThatFindNoRoomAreAllDeletedAgain(t *testing.T) {
	store := connectedOther(t)
	before := must(store.Usage(background))
	// the other job's window is of 1 MiB, and has no device
	expectIs(t, errorOf(store.PutWhole(background, drawn(3<<20, 5))), Full)
	if after := must(store.Usage(background)); after != before {
		t.Error(before, after)
	}
	id := must(store.PutWhole(background, drawn(700_000, 6)))
	whole, err := store.GetWhole(background, id)
	expectBytes(t, whole, err, drawn(700_000, 6))
	expectNil(t, store.DeleteWhole(background, id))
}

func TestPartsAreGrantedOneByOne(t *testing.T) {
	store, other := connected(t), connectedOther(t)
	data := drawn(Largest+1, 7)
	id := must(store.PutWhole(background, data))
	parts := must(store.Parts(background, id))
	all := append(append([]ObjectID{}, parts...), id)
	for _, one := range all {
		expectNil(t, store.Grant(background, one, other.Job()))
	}
	if seen := must(other.Parts(background, id)); len(seen) != 5 || !reflect.DeepEqual(seen, parts) {
		t.Error(seen)
	}
	whole, err := other.GetWhole(background, id)
	expectBytes(t, whole, err, data)
	for _, one := range all {
		expectNil(t, store.Withdraw(background, one, other.Job()))
	}
	expectNil(t, store.DeleteWhole(background, id))
}
