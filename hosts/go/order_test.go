package pool

import (
	"bytes"
	"encoding/binary"
	"errors"
	"fmt"
	"reflect"
	"testing"
)

// serverByte is where a round message says whose it is.
const serverByte = 5

// ordered gives copies of the messages of these servers, in this order.
func ordered(messages [][]byte, from ...int) [][]byte {
	var list [][]byte
	for _, k := range from {
		list = append(list, append([]byte(nil), messages[k]...))
	}
	return list
}

// reversed gives the messages in reverse order.
func reversed(messages [][]byte) [][]byte {
	var list [][]byte
	for k := len(messages) - 1; k >= 0; k-- {
		list = append(list, messages[k])
	}
	return list
}

// stored gives all of a table.
func stored(t *testing.T, table *Table) []byte {
	t.Helper()
	b, err := table.MarshalBinary()
	if err != nil {
		t.Fatal(err)
	}
	return b
}

// judged takes a return through both rounds, each server getting the messages as arrive orders them, and enters it where it is
// accepted. It gives the round-two messages, the verdicts and the tables after each round and after entry.
func (all servers) judged(t *testing.T, shares [][]byte, pair Pair, arrive func(own int, messages [][]byte) [][]byte) (
	twos [][]byte, verdicts []bool, tables [][]byte) {
	t.Helper()
	id := binary.LittleEndian.Uint32(shares[0][1:])
	ones := all.each(t, func(own int, table *Table) ([]byte, error) { return table.Share(shares[own], pair) })
	twos = all.each(t, func(own int, table *Table) ([]byte, error) { return table.RoundOne(id, arrive(own, ones)) })
	for _, table := range all {
		tables = append(tables, stored(t, table))
	}
	for own, table := range all {
		accepted, err := table.RoundTwo(id, arrive(own, twos))
		if err != nil {
			t.Fatal(err)
		}
		verdicts, tables = append(verdicts, accepted), append(tables, stored(t, table))
		if accepted {
			if err := table.Enter(id); err != nil {
				t.Fatal(err)
			}
			tables = append(tables, stored(t, table))
		}
	}
	return twos, verdicts, tables
}

// One server has the messages in reverse order, the next in server order, and so on; another pool has all in server order. All
// that the tables give and hold is the same, for an honest return and for a false one.
func TestAsTheyArrive(t *testing.T) {
	sheet := sheetOf(t, YesNo(), Number(8))
	inOrder := func(_ int, messages [][]byte) [][]byte { return messages }
	mixed := func(own int, messages [][]byte) [][]byte {
		if own%2 == 0 {
			return reversed(messages)
		}
		return messages
	}
	for n := uint32(2); n <= 8; n++ {
		client := Client{Sheet: sheet, Servers: n}
		one, other := openAll(t, n, sheet, 2), openAll(t, n, sheet, 2)
		for id, honest := range []bool{true, false} {
			shares, _ := client.Make(uint32(id), []uint32{1, 40})
			if !honest {
				falsify(shares[n-1])
			}
			twos, verdicts, tables := one.judged(t, shares, Pair{1000, 7}, mixed)
			wantTwos, wantVerdicts, wantTables := other.judged(t, shares, Pair{1000, 7}, inOrder)
			if !reflect.DeepEqual(twos, wantTwos) || !reflect.DeepEqual(verdicts, wantVerdicts) || verdicts[0] != honest {
				t.Errorf("%d servers, honest %v: %v, want %v", n, honest, verdicts, wantVerdicts)
			}
			if !reflect.DeepEqual(tables, wantTables) {
				t.Errorf("%d servers, honest %v: the tables differ", n, honest)
			}
		}
		totals, want := one.closeAndJoin(t, sheet, 2), Totals{1, []Line{{1, 0, 1}, {2, 0, 40}}}
		if plain := other.closeAndJoin(t, sheet, 2); !reflect.DeepEqual(totals, want) || !reflect.DeepEqual(plain, want) {
			t.Errorf("%d servers: totals %v and %v, want %v", n, totals, plain, want)
		}
	}
}

// runFault is a run of joined messages that server 1 of three must refuse.
type runFault struct {
	name     string
	messages [][]byte
}

// wrongServers makes runs of the messages of a round in which a server is missing or comes twice.
func wrongServers(messages [][]byte) []runFault {
	return []runFault{
		{"no messages", nil},
		{"server 0 missing", ordered(messages, 2, 1)},
		{"the own one missing", ordered(messages, 2, 0)},
		{"server 2 twice, all there", ordered(messages, 2, 0, 1, 2)},
		{"server 2 twice, server 0 missing", ordered(messages, 2, 1, 2)},
		{"server 0 twice, server 2 missing", ordered(messages, 0, 0, 1)},
		{"server 0 twice, the own one missing", ordered(messages, 0, 2, 0)},
		{"the own one twice", ordered(messages, 1, 0, 1)},
		{"the own one twice, in its place too", ordered(messages, 1, 1, 2)},
		{"the own one thrice", ordered(messages, 1, 1, 1)},
	}
}

// alteredRuns makes runs in which a byte of one message is altered, the own one standing in the place of its number or elsewhere.
func alteredRuns(messages [][]byte) (faults []runFault) {
	// The message of a server is altered in a run of this order.
	alter := func(name string, server, at int, to func(byte) byte, order ...int) {
		list := ordered(messages, order...)
		for k, from := range order {
			if from == server {
				list[k][at] = to(list[k][at])
			}
		}
		faults = append(faults, runFault{fmt.Sprintf("%s, in the order %v", name, order), list})
	}
	flip := func(x byte) byte { return x ^ 1 }
	set := func(x byte) func(byte) byte { return func(byte) byte { return x } }
	for _, order := range [][]int{{0, 1, 2}, {2, 1, 0}, {1, 0, 2}, {2, 0, 1}} {
		for _, server := range []byte{3, 4, 8, 9, 128, 255} {
			alter(fmt.Sprint("server byte ", server), 2, serverByte, set(server), order...)
			alter(fmt.Sprint("own server byte ", server), 1, serverByte, set(server), order...)
		}
		alter("another's named as the own one", 2, serverByte, set(1), order...)
		alter("the own one named as another's", 1, serverByte, set(2), order...)
		alter("the own one altered", 1, 6, flip, order...)
		alter("the own one altered at its end", 1, 10, flip, order...)
		alter("another kind", 0, 0, flip, order...)
		alter("another id", 2, 1, flip, order...)
		alter("an element not below p", 0, 9, set(128), order...)
	}
	return faults
}

// mustRefuse tries runs that a table must refuse with 12. They leave it as it was.
func mustRefuse(t *testing.T, table *Table, round string, messages [][]byte, call func(messages [][]byte) error) {
	t.Helper()
	before := stored(t, table)
	for _, fault := range append(wrongServers(messages), alteredRuns(messages)...) {
		if err := call(fault.messages); !errors.Is(err, ErrJoined) {
			t.Errorf("%s, %s: %v", round, fault.name, err)
		}
		if !bytes.Equal(before, stored(t, table)) {
			t.Fatalf("%s, %s: the table is changed", round, fault.name)
		}
	}
}

// Each server is there exactly once, and the own message is as it was written, wherever it stands.
func TestEachServerOnce(t *testing.T) {
	sheet := sheetOf(t, YesNo(), Number(8))
	client := Client{Sheet: sheet, Servers: 3}
	all := openAll(t, 3, sheet, 1)
	shares, _ := client.Make(600, []uint32{1, 40})
	ones := all.start(t, sheet, shares)
	mustRefuse(t, all[1], "round one", ones, func(messages [][]byte) error {
		_, err := all[1].RoundOne(600, messages)
		return err
	})
	twos := all.roundOne(t, 600, ones)
	mustRefuse(t, all[1], "round two", twos, func(messages [][]byte) error {
		_, err := all[1].RoundTwo(600, messages)
		return err
	})
	if !all.roundTwo(t, 600, twos) {
		t.Error("an honest return is rejected")
	}
}

// What stands in the place of the own number is another's where the own one stands elsewhere: it may be any sound message.
func TestAnothersInTheOwnPlace(t *testing.T) {
	sheet := sheetOf(t, YesNo())
	client := Client{Sheet: sheet, Servers: 2}
	all := openAll(t, 2, sheet, 1)
	shares, _ := client.Make(5, []uint32{1})
	ones := all.start(t, sheet, shares)
	run := ordered(ones, 1, 0)
	binary.LittleEndian.PutUint32(run[0][6:], 12345)
	if _, err := all[0].RoundOne(5, run); err != nil {
		t.Errorf("server 0: %v", err)
	}
	_, err := all[1].RoundOne(5, run)
	refused(t, err, ErrJoined)
}

// Totals messages stand in server order, each server once.
func TestTotalsInServerOrder(t *testing.T) {
	sheet := sheetOf(t, YesNo())
	client := Client{Sheet: sheet, Servers: 3}
	all := openAll(t, 3, sheet, 1)
	shares, _ := client.Make(1, []uint32{1})
	all.judge(t, sheet, shares)
	totals := all.each(t, func(_ int, table *Table) ([]byte, error) { return table.Close() })
	for _, from := range [][]int{{1, 0, 2}, {0, 2, 1}, {2, 1, 0}, {1, 2, 0}, {0, 0, 2}, {0, 1, 1}, {0, 1}, {0, 1, 2, 2}} {
		_, err := Join(3, sheet, 1, ordered(totals, from...))
		refused(t, err, ErrJoined)
	}
	got, err := Join(3, sheet, 1, totals)
	if want := (Totals{1, []Line{{1, 0, 1}}}); err != nil || !reflect.DeepEqual(got, want) {
		t.Errorf("totals %v, %v, want %v", got, err, want)
	}
}
