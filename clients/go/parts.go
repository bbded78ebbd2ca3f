package storeclient

import (
	"bytes"
	"context"
	"crypto/rand"
	"encoding/binary"
	"fmt"
)

// What is longer than one object is put in parts with a manifest, as a whole or not at all.
//
// The manifest is created first, so it is known at once whether its id is free; then the parts are put, one after the other; then the
// manifest is written and sealed. Who finds it sealed finds all parts. The parts' ids are of the manifest's task if its id was given, so
// they end with it. The manifest's bytes are those of the client in Python.

const (
	manifestMark = "store\x00m1"
	// what comes before the ids, in bytes: the mark, the length of the whole, the length of each part
	manifestHead = len(manifestMark) + 8 + 4
	// the manifest and its parts are copies of a job at a node, which has at most 1,024
	mostParts = 1023
	// so many parts have room beside each other in the window
	partsOfAWindow = 16
	// the parts of an object whose id was given have indexes from here on in its task, which hardly anybody gives
	firstIndex = 1 << 31
)

// PutWhole puts bytes of any length, also none, under a new id. What is longer than an object, or than the window, is put in parts, which
// [Session.GetWhole] puts together again: all of them, or none. There are at most 1,023 parts, each of at most a sixteenth of the window;
// what would need more is [BadSize]. Waits and is refused as Put.
func (s *Session) PutWhole(ctx context.Context, data []byte) (ObjectID, error) {
	id, err := s.NewID()
	if err != nil {
		return ObjectID{}, err
	}
	whole := newCopy{session: s, id: id, isSecret: true}
	if err := whole.makeWhole(ctx, data, func(int) (ObjectID, error) { return s.NewID() }); err != nil {
		return ObjectID{}, err
	}
	return id, nil
}

// PutWholeAs is as PutWhole under an id that is given. It is refused as PutAs.
func (s *Session) PutWholeAs(ctx context.Context, id ObjectID, data []byte) error {
	var drawn [4]byte
	if _, err := rand.Read(drawn[:]); err != nil {
		return fmt.Errorf("the system gives no random bytes: %w", err)
	}
	first := firstIndex + binary.BigEndian.Uint32(drawn[:])%(firstIndex-mostParts)
	part := func(number int) (ObjectID, error) { return id.Task().Object(id.Job(), first+uint32(number)) }
	whole := newCopy{session: s, id: id}
	return whole.makeWhole(ctx, data, part)
}

// GetWhole gives the bytes that PutWhole or another put has stored, without a hold. It is refused as Get; an [InvalidError] if it is a
// manifest that can't be right.
func (s *Session) GetWhole(ctx context.Context, id ObjectID) ([]byte, error) {
	return s.getWhole(ctx, id, false)
}

// WaitWhole is as GetWhole, and waits as Wait.
func (s *Session) WaitWhole(ctx context.Context, id ObjectID) ([]byte, error) {
	return s.getWhole(ctx, id, true)
}

// Parts are the ids of the parts, each of which is granted and withdrawn like any object; none if the object isn't in parts. It is refused
// as Get.
func (s *Session) Parts(ctx context.Context, id ObjectID) ([]ObjectID, error) {
	if id.Job() == s.Job() {
		if isManifest, err := s.beginsAsAManifest(ctx, id); err != nil || !isManifest {
			return nil, err
		}
	}
	held, err := s.Get(ctx, id)
	if err != nil {
		return nil, err
	}
	defer held.Close()
	parts, err := decodeManifest(held.Bytes(), id)
	if err != nil || parts == nil {
		return nil, err
	}
	return parts.ids, nil
}

// DeleteWhole removes the object, and its parts. It is refused as Get and Delete; parts that are refused stay.
func (s *Session) DeleteWhole(ctx context.Context, id ObjectID) error {
	parts, err := s.Parts(ctx, id)
	if err != nil {
		return err
	}
	if err := s.Delete(ctx, id); err != nil {
		return err
	}
	if len(parts) > 0 {
		s.takeBack(ctx, parts)
	}
	return nil
}

func (s *Session) getWhole(ctx context.Context, id ObjectID, waits bool) ([]byte, error) {
	held, err := s.getHeld(ctx, id, waits)
	if err != nil {
		return nil, err
	}
	defer held.Close()
	parts, err := decodeManifest(held.Bytes(), id)
	if err != nil {
		return nil, err
	}
	if parts == nil {
		return held.Bytes(), nil
	}
	if err := held.Release(ctx); err != nil {
		return nil, err
	}
	var data []byte
	for number, part := range parts.ids {
		// who granted a manifest may have said anything of the whole: memory is taken part by part
		piece := make([]byte, parts.lengthOf(number))
		if err := s.getInto(ctx, part, piece, waits); err != nil {
			return nil, err
		}
		data = append(data, piece...)
	}
	return data, nil
}

func (s *Session) beginsAsAManifest(ctx context.Context, id ObjectID) (bool, error) {
	length, err := s.find(ctx, id, false)
	if err != nil {
		return false, err
	}
	beginning := make([]byte, least(length, len(manifestMark)))
	requests := []request{read(kindRead, id, 0, beginning), onObject(kindRelease, id)}
	answers, err := s.exchange(ctx, requests)
	if err != nil {
		return false, err
	}
	return string(beginning) == manifestMark, firstRefusal(answers)
}

// makeWhole makes one object, or parts with a manifest if it is too long for one.
func (c *newCopy) makeWhole(ctx context.Context, data []byte, part func(number int) (ObjectID, error)) error {
	if len(data) <= Largest {
		// the window may be smaller than that, or there are no bytes
		if err := c.make(ctx, data); refusalOf(err) != BadSize {
			return err
		}
	}
	parts, err := c.session.cut(ctx, len(data), part)
	if err != nil {
		return err
	}
	copies := []*newCopy{c}
	for _, id := range parts.ids {
		copies = append(copies, &newCopy{session: c.session, id: id, isSecret: true})
	}
	err = fillParts(ctx, copies, parts, data)
	var ours []ObjectID
	for _, one := range copies {
		if one.isOurs() {
			ours = append(ours, one.id)
		}
	}
	if err != nil && len(ours) > 0 {
		c.session.takeBack(ctx, ours)
	}
	return err
}

// cut says which parts make up so many bytes. The ids are drawn or counted.
func (s *Session) cut(ctx context.Context, length int, part func(number int) (ObjectID, error)) (*manifest, error) {
	used, err := s.Usage(ctx)
	if err != nil {
		return nil, err
	}
	parts := &manifest{length: uint64(length), part: partLength(used.Window)}
	count := parts.count()
	if count > mostParts {
		return nil, BadSize
	}
	for number := 0; number < int(count); number++ {
		id, err := part(number)
		if err != nil {
			return nil, err
		}
		parts.ids = append(parts.ids, id)
	}
	return parts, nil
}

// fillParts puts the parts and then the manifest, which is the first of the copies.
func fillParts(ctx context.Context, copies []*newCopy, parts *manifest, data []byte) error {
	whole, encoded := copies[0], parts.encode()
	if err := whole.reserve(ctx, len(encoded)); err != nil {
		return err
	}
	for number, part := range copies[1:] {
		piece := data[:parts.lengthOf(number)]
		data = data[len(piece):]
		if err := part.fillNamed(ctx, piece); err != nil {
			return err
		}
	}
	return whole.writeAndSeal(ctx, encoded)
}

// partLength is the length of a part in a window of so many bytes: a multiple of 16.
func partLength(window uint64) uint32 {
	share := window / partsOfAWindow / 16 * 16
	if share < 16 {
		return 16
	}
	if share > Largest {
		return Largest
	}
	return uint32(share)
}

// manifest says which parts make up what is longer than one object.
type manifest struct {
	length uint64
	// of each part, but for the last one, which has what is left
	part uint32
	ids  []ObjectID
}

// count is how many parts there have to be.
func (m *manifest) count() uint64 {
	part := uint64(m.part)
	count := m.length / part
	if m.length%part > 0 {
		count++
	}
	return count
}

// lengthOf is the length of the part of this number, which is one of them.
func (m *manifest) lengthOf(number int) int {
	rest := m.length - uint64(number)*uint64(m.part)
	if rest < uint64(m.part) {
		return int(rest)
	}
	return int(m.part)
}

func (m *manifest) encode() []byte {
	encoded := binary.BigEndian.AppendUint64([]byte(manifestMark), m.length)
	encoded = binary.BigEndian.AppendUint32(encoded, m.part)
	for _, id := range m.ids {
		encoded = append(encoded, idBytes(id)...)
	}
	return encoded
}

// decodeManifest gives the manifest that is the object of this id; nil if the object is none.
func decodeManifest(data []byte, id ObjectID) (*manifest, error) {
	if !bytes.HasPrefix(data, []byte(manifestMark)) {
		return nil, nil
	}
	if len(data) > manifestHead+mostParts*IDBytes {
		return nil, invalid("%v is a manifest of more than %d parts, and no job has so many copies", id, mostParts)
	}
	body := &body{data[len(manifestMark):], false}
	parts := &manifest{length: body.long(), part: body.number()}
	for len(body.rest) > 0 && !body.isWrong {
		parts.ids = append(parts.ids, body.id())
	}
	if body.isWrong {
		return nil, invalid("%v is a manifest that was cut short", id)
	}
	if parts.part < 1 || parts.part > Largest || parts.count() != uint64(len(parts.ids)) {
		return nil, invalid("%v is a manifest whose parts can't be right", id)
	}
	return parts, parts.checkIDs(id)
}

// checkIDs says whether each part is another object of the manifest's job. Who grants a manifest can't have others read what is their own.
func (m *manifest) checkIDs(id ObjectID) error {
	seen := map[ObjectID]bool{id: true}
	for _, part := range m.ids {
		if seen[part] {
			return invalid("%v is a manifest that can't be right: a part stands in it twice, or it itself", id)
		}
		if part.Job() != id.Job() {
			return invalid("%v is a manifest whose parts are another job's", id)
		}
		seen[part] = true
	}
	return nil
}
