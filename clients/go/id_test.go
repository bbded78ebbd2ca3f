package storeclient

import (
	"fmt"
	"math"
	"strings"
	"testing"
)

const longID = "0102030405060708090a0b0c0d0e0f101112131400000001ffffffff"

// must gives the value of a call that may not fail.
func must[T any](value T, err error) T {
	if err != nil {
		panic(err)
	}
	return value
}

func TestTextsAreReadAsTheRulesSay(t *testing.T) {
	one := must(NumberedTask(1).Object(1, 1))
	for _, spoken := range []struct {
		text string
		job  uint32
	}{{"t1.1", 1}, {"1/t1.1", 2}, {"00000000000000000000000000000000000000010000000100000001", 9}, {"1/t1.1", 0}} {
		if id, err := ParseID(spoken.text, spoken.job); id != one || err != nil {
			t.Errorf("%s of job %d: %v, %v", spoken.text, spoken.job, id, err)
		}
	}
	if id, err := ParseID("t0.1", 1); id != must(NumberedTask(0).Object(1, 1)) || err != nil {
		t.Errorf("t0.1: %v, %v", id, err)
	}
}

func TestWhatIsNoTextIsRefused(t *testing.T) {
	texts := []string{"1/t1.1", "0/t1.1", "t1.0", "t01.1", "+t1.1", "t+1.1", "t1", "t1.", "t.1", "", "/t1.1", "t1.4294967296",
		strings.ToUpper(longID), "t18446744073709551616.1", longID[1:], strings.Repeat("0", 56), "é1.1", "1/1/t1.1", "2/t1.1.1", "2/"}
	for _, text := range texts {
		if id, err := ParseID(text, 1); err == nil {
			t.Errorf("%q is read as %v", text, id)
		}
	}
	if id, err := ParseID("t1.1", 0); err == nil {
		t.Errorf("nobody speaks, and it is %v", id)
	}
	if task, err := ParseTask("t"); err == nil {
		t.Errorf("t is read as %v", task)
	}
}

func TestTextsArePrintedAsTheyAreRead(t *testing.T) {
	long := must(ParseID(longID, 3))
	if long.Job() != 1 || long.Index() != math.MaxUint32 || long.String() != longID || long.Text(1) != longID {
		t.Errorf("%v of job %d, index %d", long, long.Job(), long.Index())
	}
	if task := must(ParseTask(long.Task().String())); task != long.Task() {
		t.Error(task)
	}
	short := must(NumberedTask(math.MaxUint64).Object(4, 7))
	if texts := short.Text(4) + " " + short.Text(1); texts != "t18446744073709551615.7 4/t18446744073709551615.7" {
		t.Error(texts)
	}
	if must(ParseID(short.String(), 0)) != short {
		t.Error(short)
	}
}

func TestIDsAreOrderedAsTheirBytes(t *testing.T) {
	lower, higher := must(NumberedTask(1).Object(3, 1)), must(NumberedTask(2).Object(2, 1))
	if !lower.Less(higher) || higher.Less(lower) || lower.Less(lower) {
		t.Errorf("%v and %v", lower, higher)
	}
	if must(IDFromBytes(lower.Bytes())) != lower {
		t.Error(lower)
	}
}

func TestAKeyIsReadAndNotShown(t *testing.T) {
	key := must(ParseKey(strings.Repeat("0f", 32)))
	if key[0] != 0x0f || key[31] != 0x0f {
		t.Error(key[:])
	}
	if shown := fmt.Sprintf("%v %+v %#v %s", key, Access{Key: key}, Access{Key: key}, key); strings.Contains(shown, "15") ||
		strings.Contains(shown, "0f") {
		t.Error(shown)
	}
	for _, text := range []string{"", strings.Repeat("0F", 32), strings.Repeat("0f", 33), strings.Repeat("0g", 32)} {
		if _, err := ParseKey(text); err == nil {
			t.Errorf("%q is a key", text)
		}
	}
}
