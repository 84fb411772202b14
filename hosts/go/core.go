package pool

// #include "pool.h"
//
// // The sizes of buffers, which the header gives as macros of what pool_sizes tells.
// static size_t random_bytes(uint32_t servers, uint32_t share) { return POOL_RANDOM_BYTES(servers, share); }
// static size_t make_bytes(uint32_t servers, uint32_t share) { return POOL_MAKE_BYTES(servers, share); }
// static size_t seeds_bytes(uint32_t servers) { return POOL_SEEDS_BYTES(servers); }
// static size_t make_seeded_bytes(uint32_t servers, uint32_t share) { return POOL_MAKE_SEEDED_BYTES(servers, share); }
// static size_t join_bytes(uint32_t published) { return POOL_JOIN_BYTES(published); }
import "C"

// The C functions, one for one, on byte slices; those on tables are in core_table.go. Nothing else in the package calls C.

// Numbers of the header.
const (
	prime        = uint32(C.POOL_PRIME)
	minServers   = C.POOL_MIN_SERVERS
	maxServers   = C.POOL_MAX_SERVERS
	maxReturns   = C.POOL_MAX_RETURNS
	oneBytes     = C.POOL_ROUND_ONE_BYTES // of a round-one message
	twoBytes     = C.POOL_ROUND_TWO_BYTES // of a round-two message
	maxTotals    = C.POOL_MAX_TOTALS_BYTES
	elementBytes = 4
	maxEvery     = C.POOL_MAX_EVERY_RETURN_BYTES
	maxShelf     = C.POOL_MAX_SHELF_MESSAGES
	maxWidth     = C.POOL_MAX_SHELF_WIDTH

	seedBytes         = C.POOL_SEED_BYTES
	seedMessageBytes  = C.POOL_SEED_MESSAGE_BYTES
	seededRandomBytes = C.POOL_SEEDED_RANDOM_BYTES
	kindShare         = 33 // of a share message
	kindSeed          = 38 // of a seed message
)

// What a column asks for.
const (
	KindYesNo  Kind = C.POOL_YES_NO // yes or no: 1 or 0
	KindChoice Kind = C.POOL_CHOICE // one of some options
	KindNumber Kind = C.POOL_NUMBER // a number of some bits
	KindTop    Kind = C.POOL_TOP    // a number up to a top of its own
	KindPoint  Kind = C.POOL_POINT  // two numbers of some bits, x and y
)

// randomBytes is the length of the random elements of a return for so many servers.
func (s *Sheet) randomBytes(servers uint32) int {
	return int(C.random_bytes(C.uint32_t(servers), C.uint32_t(s.sizes.ShareBytes)))
}

// makeBytes is the length of the share messages of a return for so many servers.
func (s *Sheet) makeBytes(servers uint32) int {
	return int(C.make_bytes(C.uint32_t(servers), C.uint32_t(s.sizes.ShareBytes)))
}

// seedsBytes is the length of the seeds of a return for so many servers.
func seedsBytes(servers uint32) int { return int(C.seeds_bytes(C.uint32_t(servers))) }

// makeSeededBytes is the length of the messages of a return made from seeds for so many servers.
func (s *Sheet) makeSeededBytes(servers uint32) int {
	return int(C.make_seeded_bytes(C.uint32_t(servers), C.uint32_t(s.sizes.ShareBytes)))
}

// joinBytes is the length of the joined totals.
func (s *Sheet) joinBytes() int {
	return int(C.join_bytes(C.uint32_t(s.sizes.Published)))
}

// lend gives the pointer and length of a slice; an empty one has no pointer.
func lend(b []byte) (*C.uint8_t, C.size_t) {
	if len(b) == 0 {
		return nil, 0
	}
	return (*C.uint8_t)(&b[0]), C.size_t(len(b))
}

func coreSizes(sheet []byte) (sizes Sizes, answer uint32) {
	var columns, entries, published, wires, multiplications, tests, circuit, share, returns C.uint32_t
	at, n := lend(sheet)
	answer = uint32(C.pool_sizes(at, n, &columns, &entries, &published, &wires, &multiplications, &tests, &circuit,
		&share, &returns))
	return Sizes{int(columns), int(entries), int(published), int(wires), int(multiplications), int(tests),
		int(circuit), int(share), int(returns)}, answer
}

func coreCircuit(sheet, out []byte) (written int, answer uint32) {
	var w C.size_t
	at, n := lend(sheet)
	to, room := lend(out)
	answer = uint32(C.pool_circuit(at, n, to, room, &w))
	return int(w), answer
}

func coreReadCircuit(entries uint32, circuit []byte) (wires, multiplications, tests, answer uint32) {
	var w, m, t C.uint32_t
	at, n := lend(circuit)
	answer = uint32(C.pool_read_circuit(C.uint32_t(entries), at, n, &w, &m, &t))
	return uint32(w), uint32(m), uint32(t), answer
}

func coreEveryReturn(sheet, out []byte) (lists uint32, written int, answer uint32) {
	var l C.uint32_t
	var w C.size_t
	at, n := lend(sheet)
	to, room := lend(out)
	answer = uint32(C.pool_every_return(at, n, to, room, &l, &w))
	return uint32(l), int(w), answer
}

func coreMake(sheet []byte, servers, id uint32, values, random, out []byte) (written int, answer uint32) {
	var w C.size_t
	at, n := lend(sheet)
	v, nv := lend(values)
	x, nx := lend(random)
	to, room := lend(out)
	answer = uint32(C.pool_make(at, n, C.uint32_t(servers), C.uint32_t(id), v, nv, x, nx, to, room, &w))
	return int(w), answer
}

func coreMakeSeeded(sheet []byte, servers, id uint32, values, random, seeds, out []byte) (written int, answer uint32) {
	var w C.size_t
	at, n := lend(sheet)
	v, nv := lend(values)
	x, nx := lend(random)
	s, ns := lend(seeds)
	to, room := lend(out)
	answer = uint32(C.pool_make_seeded(at, n, C.uint32_t(servers), C.uint32_t(id), v, nv, x, nx, s, ns, to, room, &w))
	return int(w), answer
}

func coreJoin(servers uint32, sheet []byte, returns uint32, joined, out []byte) (
	accepted uint32, written int, answer uint32) {
	var a C.uint32_t
	var w C.size_t
	at, n := lend(sheet)
	j, nj := lend(joined)
	to, room := lend(out)
	answer = uint32(C.pool_join(C.uint32_t(servers), at, n, C.uint32_t(returns), j, nj, to, room, &a, &w))
	return uint32(a), int(w), answer
}

func coreLine(servers uint32, sheet []byte, returns uint32, joined []byte, column uint32) (fit Fit, answer uint32) {
	var determinant, slope, intercept C.int64_t
	at, n := lend(sheet)
	j, nj := lend(joined)
	answer = uint32(C.pool_line(C.uint32_t(servers), at, n, C.uint32_t(returns), j, nj, C.uint32_t(column), &determinant,
		&slope, &intercept))
	return Fit{int64(determinant), int64(slope), int64(intercept)}, answer
}

func coreShelve(messages, width uint32, run, out []byte) (written int, answer uint32) {
	var w C.size_t
	at, n := lend(run)
	to, room := lend(out)
	answer = uint32(C.pool_shelve(C.uint32_t(messages), C.uint32_t(width), at, n, to, room, &w))
	return int(w), answer
}

func coreUnshelve(messages, width uint32, run, out []byte) (written int, answer uint32) {
	var w C.size_t
	at, n := lend(run)
	to, room := lend(out)
	answer = uint32(C.pool_unshelve(C.uint32_t(messages), C.uint32_t(width), at, n, to, room, &w))
	return int(w), answer
}
