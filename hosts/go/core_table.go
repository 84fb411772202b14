package pool

// #include "pool.h"
//
// // The sizes of a table's parts.
// static size_t table_bytes(size_t sheet, uint32_t published, uint32_t returns)
// {
//     return POOL_TABLE_BYTES(sheet, published, returns);
// }
// static size_t table_elements(uint32_t share) { return POOL_ELEMENTS(share); }
import "C"

// The C functions on tables. Each lends all three parts of the table, which has no other user meanwhile.

// Slots is how many returns can wait in a table at a time.
const Slots = C.POOL_SLOTS

const (
	maxTable    = C.POOL_MAX_TABLE_BYTES
	maxElements = C.POOL_MAX_ELEMENTS
	slotFree    = C.POOL_FREE
	slotOne     = C.POOL_AWAITS_ONE
	slotTwo     = C.POOL_AWAITS_TWO
	slotEntry   = C.POOL_AWAITS_ENTRY
)

// slot is what a table notes of a return that waits, beside its share.
type slot = C.pool_slot

// newSlot makes a slot of its numbers, and slotNumbers gives them back.
func newSlot(id, stage uint32, r, s, d, e uint64) slot {
	return slot{C.uint32_t(id), C.uint32_t(stage), C.uint64_t(r), C.uint64_t(s), C.uint64_t(d), C.uint64_t(e)}
}

func slotNumbers(x slot) (id, stage uint32, r, s, d, e uint64) {
	return uint32(x.id), uint32(x.stage), uint64(x.r), uint64(x.s), uint64(x.d), uint64(x.e)
}

// tableBytes is the length of the bytes of a table for so many returns.
func (s *Sheet) tableBytes(returns uint32) int {
	return int(C.table_bytes(C.size_t(len(s.bytes)), C.uint32_t(s.sizes.Published), C.uint32_t(returns)))
}

// tableElements is the number of elements of a table: the places of eight shares.
func (s *Sheet) tableElements() int {
	return int(C.table_elements(C.uint32_t(s.sizes.ShareBytes)))
}

// lendSlots and lendElements give the pointer and length of the other parts of a table.
func (t *Table) lendSlots() (*C.pool_slot, C.size_t) { return &t.slots[0], Slots }

func (t *Table) lendElements() (*C.uint32_t, C.size_t) {
	if len(t.elements) == 0 {
		return nil, 0
	}
	return (*C.uint32_t)(&t.elements[0]), C.size_t(len(t.elements))
}

// coreState tells what a table says of itself, taken as long as these lengths of its bytes and elements.
func coreState(t *Table, bytes, elements int) (state State, answer uint32) {
	var servers, own, returns, least, closed, decided, entered, waiting C.uint32_t
	b, nb := lend(t.bytes[:bytes])
	s, ns := t.lendSlots()
	e, _ := t.lendElements()
	answer = uint32(C.pool_state(b, nb, s, ns, e, C.size_t(elements), &servers, &own, &returns, &least, &closed, &decided, &entered,
		&waiting))
	return State{uint32(servers), uint32(own), uint32(returns), uint32(least), closed == 1, uint32(decided), uint32(entered),
		uint32(waiting)}, answer
}

func coreOpen(servers, own uint32, sheet []byte, returns, least uint32, t *Table) (written int, answer uint32) {
	var w C.size_t
	at, n := lend(sheet)
	b, nb := lend(t.bytes)
	s, ns := t.lendSlots()
	e, ne := t.lendElements()
	answer = uint32(C.pool_open(C.uint32_t(servers), C.uint32_t(own), at, n, C.uint32_t(returns), C.uint32_t(least), b, nb,
		s, ns, e, ne, &w))
	return int(w), answer
}

func coreShare(t *Table, message []byte, r, s uint64, out []byte) (written int, answer uint32) {
	var w C.size_t
	b, nb := lend(t.bytes)
	sl, ns := t.lendSlots()
	e, ne := t.lendElements()
	at, n := lend(message)
	to, room := lend(out)
	answer = uint32(C.pool_share(b, nb, sl, ns, e, ne, at, n, C.uint64_t(r), C.uint64_t(s), to, room, &w))
	return int(w), answer
}

func coreRoundOne(t *Table, id uint32, joined, out []byte) (written int, answer uint32) {
	var w C.size_t
	b, nb := lend(t.bytes)
	s, ns := t.lendSlots()
	e, ne := t.lendElements()
	at, n := lend(joined)
	to, room := lend(out)
	answer = uint32(C.pool_round_one(b, nb, s, ns, e, ne, C.uint32_t(id), at, n, to, room, &w))
	return int(w), answer
}

func coreRoundTwo(t *Table, id uint32, joined []byte) (accepted, answer uint32) {
	var a C.uint32_t
	b, nb := lend(t.bytes)
	s, ns := t.lendSlots()
	e, ne := t.lendElements()
	at, n := lend(joined)
	answer = uint32(C.pool_round_two(b, nb, s, ns, e, ne, C.uint32_t(id), at, n, &a))
	return uint32(a), answer
}

func coreEnter(t *Table, id uint32) (answer uint32) {
	b, nb := lend(t.bytes)
	s, ns := t.lendSlots()
	e, ne := t.lendElements()
	return uint32(C.pool_enter(b, nb, s, ns, e, ne, C.uint32_t(id)))
}

func coreDrop(t *Table, id uint32) (answer uint32) {
	b, nb := lend(t.bytes)
	s, ns := t.lendSlots()
	e, ne := t.lendElements()
	return uint32(C.pool_drop(b, nb, s, ns, e, ne, C.uint32_t(id)))
}

func coreClose(t *Table, out []byte) (written int, answer uint32) {
	var w C.size_t
	b, nb := lend(t.bytes)
	s, ns := t.lendSlots()
	e, ne := t.lendElements()
	to, room := lend(out)
	answer = uint32(C.pool_close(b, nb, s, ns, e, ne, to, room, &w))
	return int(w), answer
}
