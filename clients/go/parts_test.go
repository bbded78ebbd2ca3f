package storeclient

import (
	"bytes"
	"math"
	"reflect"
	"testing"
)

func partID(job, index uint32) ObjectID { return must(NumberedTask(1).Object(job, index)) }

func twoParts() *manifest {
	return &manifest{length: 33, part: 32, ids: []ObjectID{partID(1, 7), partID(1, 8)}}
}

func TestAManifestHasTheBytesOfTheClientInPython(t *testing.T) {
	parts := twoParts()
	ids := append(idBytes(partID(1, 7)), idBytes(partID(1, 8))...)
	due := append([]byte("store\x00m1\x00\x00\x00\x00\x00\x00\x00\x21\x00\x00\x00\x20"), ids...)
	if encoded := parts.encode(); !bytes.Equal(encoded, due) {
		t.Errorf("%x", encoded)
	}
	if parts.lengthOf(0) != 32 || parts.lengthOf(1) != 1 {
		t.Error(parts.lengthOf(0), parts.lengthOf(1))
	}
	if decoded := must(decodeManifest(due, partID(1, 1))); !reflect.DeepEqual(decoded, parts) {
		t.Error(decoded)
	}
	if decoded := must(decodeManifest([]byte("store\x00v1"), partID(1, 1))); decoded != nil {
		t.Error(decoded)
	}
}

func TestAManifestThatCannotBeRightIsTold(t *testing.T) {
	good := twoParts().encode()
	refused := func(what string, data []byte, id ObjectID) {
		if decoded, err := decodeManifest(data, id); err == nil {
			t.Errorf("%s: %v", what, decoded)
		}
	}
	refused("another job's parts", good, partID(2, 1))
	refused("itself among its parts", good, partID(1, 8))
	for length := len(manifestMark); length < len(good); length++ {
		refused("cut", good[:length], partID(1, 1))
	}
	for _, wrong := range []manifest{{0, 32, nil}, {32, 32, nil}, {65, 32, nil}, {33, 0, nil}, {math.MaxUint64, 32, nil},
		{2 * Largest, Largest + 1, nil}} {
		wrong.ids = twoParts().ids
		refused("lengths", wrong.encode(), partID(1, 1))
	}
	twice := manifest{33, 32, []ObjectID{partID(1, 7), partID(1, 7)}}
	refused("a part twice", twice.encode(), partID(1, 1))
	many := manifest{length: mostParts + 1, part: 1}
	for index := uint32(2); len(many.ids) < mostParts+1; index++ {
		many.ids = append(many.ids, partID(1, index))
	}
	refused("too many", many.encode(), partID(1, 1))
}

func TestAPartIsASixteenthOfTheWindow(t *testing.T) {
	for window, due := range map[uint64]uint32{0: 16, 64: 16, 600: 32, 1 << 26: 1 << 22, 1 << 28: Largest, math.MaxUint64: Largest} {
		if length := partLength(window); length != due {
			t.Errorf("%d of %d, and %d is due", length, window, due)
		}
	}
}
