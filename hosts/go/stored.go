package pool

import (
	"encoding/binary"
	"errors"
	"fmt"
	"hash/crc32"
)

// A stored table is one slice. Numbers stand lowest byte first:
//
//	8 bytes    the mark
//	4 bytes    how many bytes the table has
//	4 bytes    how many elements it has
//	           its bytes, its eight slots of 40 bytes each, its elements of 4 bytes each
//	4 bytes    the CRC-32 of all that stands before, so that damage, or a mixture with an older copy, is noticed
const (
	storedMark  = "pooltab\x02"
	storedHead  = len(storedMark) + 8
	storedSlots = Slots * (2*4 + 4*8)
	storedSum   = 4
)

// MarshalBinary gives a copy of the whole table in one slice. It is the caller's to erase: later calls do not reach it. Of a table that
// was neither opened nor restored there is none (ErrNil).
func (t *Table) MarshalBinary() ([]byte, error) {
	if t == nil || len(t.bytes) == 0 {
		return nil, missing("store", "the table")
	}
	order := binary.LittleEndian
	b := make([]byte, 0, storedHead+len(t.bytes)+storedSlots+elementBytes*len(t.elements)+storedSum)
	b = append(b, storedMark...)
	b = order.AppendUint32(b, uint32(len(t.bytes)))
	b = order.AppendUint32(b, uint32(len(t.elements)))
	b = append(b, t.bytes...)
	for _, x := range t.slots {
		id, stage, r, s, d, e := slotNumbers(x)
		b = order.AppendUint32(order.AppendUint32(b, id), stage)
		for _, number := range [...]uint64{r, s, d, e} {
			b = order.AppendUint64(b, number)
		}
	}
	for _, x := range t.elements {
		b = order.AppendUint32(b, x)
	}
	return order.AppendUint32(b, crc32.ChecksumIEEE(b)), nil
}

// UnmarshalBinary makes the table the one that was stored. A slice that is not as MarshalBinary gives it, cut or damaged, or that holds
// what no opening and no calls after it can have left, is an error (ErrStored) and leaves the table as it was. A checksum notices
// damage, not intent.
//
// Restore the last table that was stored and no older one: see pool.h.
func (t *Table) UnmarshalBinary(b []byte) error {
	if t == nil {
		return missing("restore", "the table")
	}
	length, count, err := storedLengths(b)
	if err != nil {
		return fmt.Errorf("pool: restore: %w", notStored{err})
	}
	var restored Table
	restored.bytes = append([]byte(nil), b[storedHead:][:length]...)
	rest := b[storedHead+length:]
	for k := range restored.slots {
		restored.slots[k], rest = storedSlot(rest), rest[storedSlots/Slots:]
	}
	restored.elements = numbers(rest[:elementBytes*count])
	if err := restored.check(); err != nil {
		return fmt.Errorf("pool: restore: %w", notStored{err})
	}
	t.bytes, t.slots, t.elements = restored.bytes, restored.slots, restored.elements
	return nil
}

// notStored is ErrStored with what is wrong, which may be a Refusal.
type notStored struct{ wrong error }

func (e notStored) Error() string {
	return fmt.Sprintf("%v: %v; restore the table that was stored last, and no older one", ErrStored, e.wrong)
}
func (e notStored) Is(target error) bool { return target == ErrStored }
func (e notStored) Unwrap() error        { return e.wrong }

// check says what no opening and no calls can have left: a table that the core refuses, one that is longer than it need be, or one that
// was closed too early.
func (t *Table) check() error {
	length, count := len(t.bytes), len(t.elements)
	state, number := coreState(t, length, count)
	if number != 0 {
		return Refusal(number)
	}
	if _, number := coreState(t, length-1, count); number == 0 {
		return fmt.Errorf("%d bytes are too many", length)
	}
	if _, number := coreState(t, length, count-1); number == 0 {
		return fmt.Errorf("%d elements are too many", count)
	}
	if state.Closed && (state.Waiting > 0 || state.Entered < state.Least) {
		return fmt.Errorf("a close that is refused: %v", state)
	}
	return nil
}

// storedLengths gives how many bytes and elements a stored table has, once the whole of it fits them.
func storedLengths(b []byte) (length, count int, err error) {
	if len(b) < storedHead+storedSum || string(b[:len(storedMark)]) != storedMark {
		return 0, 0, errors.New("another beginning")
	}
	order := binary.LittleEndian
	nb, ne := order.Uint32(b[len(storedMark):]), order.Uint32(b[len(storedMark)+4:])
	if nb > maxTable || ne > maxElements || ne%Slots != 0 {
		return 0, 0, fmt.Errorf("%d bytes and %d elements are those of no table", nb, ne)
	}
	length, count = int(nb), int(ne)
	if whole := storedHead + length + storedSlots + elementBytes*count + storedSum; len(b) != whole {
		return 0, 0, fmt.Errorf("its length is %d, not %d", len(b), whole)
	}
	sum := len(b) - storedSum
	if crc32.ChecksumIEEE(b[:sum]) != order.Uint32(b[sum:]) {
		return 0, 0, errors.New("it was altered, or only a part of it was written")
	}
	return length, count, nil
}

// storedSlot reads a slot.
func storedSlot(b []byte) slot {
	order := binary.LittleEndian
	return newSlot(order.Uint32(b), order.Uint32(b[4:]), order.Uint64(b[8:]), order.Uint64(b[16:]), order.Uint64(b[24:]),
		order.Uint64(b[32:]))
}
