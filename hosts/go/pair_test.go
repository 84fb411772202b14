package pool

import (
	"bytes"
	"encoding/binary"
	"errors"
	"io"
	"testing"
)

// edit puts a number into the message of a server, at a place.
type edit struct {
	server, at int
	number     uint32
}

// Places in a round-one message.
const (
	dPlace = 6
	ePlace = 10
	rPlace = 14
	sPlace = 18
)

// edited gives copies of the messages, altered and in this order.
func edited(messages [][]byte, edits []edit, order ...int) [][]byte {
	all := ordered(messages, 0, 1, 2)
	for _, e := range edits {
		binary.LittleEndian.PutUint32(all[e.server][e.at:], e.number)
	}
	return ordered(all, order...)
}

// pairFault is something in the round-one messages that server 1 of three has, all three with the pair 1000, 7.
type pairFault struct {
	want  Refusal // 0 where the messages are taken
	edits []edit
}

// The faults of 12 come before 16, and in another's r and s only an element not below p is one of them.
var pairFaults = map[string]pairFault{
	"another's r is 0":           {ErrUnequal, []edit{{0, rPlace, 0}}},
	"another's r is M":           {ErrUnequal, []edit{{2, rPlace, 1}}},
	"another's r is p - 1":       {ErrUnequal, []edit{{2, rPlace, prime - 1}}},
	"another's s is 0":           {ErrUnequal, []edit{{0, sPlace, 0}}},
	"another's s is p - 1":       {ErrUnequal, []edit{{2, sPlace, prime - 1}}},
	"another's r for s":          {ErrUnequal, []edit{{0, rPlace, 7}, {0, sPlace, 1000}}},
	"both others' r":             {ErrUnequal, []edit{{0, rPlace, 1001}, {2, rPlace, 1001}}},
	"another's r and d":          {ErrUnequal, []edit{{0, rPlace, 1001}, {0, dPlace, 12345}}},
	"another's r is p":           {ErrJoined, []edit{{0, rPlace, prime}}},
	"another's r is 2^32 - 1":    {ErrJoined, []edit{{2, rPlace, 1<<32 - 1}}},
	"another's s is p":           {ErrJoined, []edit{{2, sPlace, prime}}},
	"another's s is 2^31 + 7":    {ErrJoined, []edit{{0, sPlace, 1<<31 + 7}}},
	"the own r":                  {ErrJoined, []edit{{1, rPlace, 1001}}},
	"the own r is 0":             {ErrJoined, []edit{{1, rPlace, 0}}},
	"the own s":                  {ErrJoined, []edit{{1, sPlace, 8}}},
	"everyone's r":               {ErrJoined, []edit{{0, rPlace, 1001}, {1, rPlace, 1001}, {2, rPlace, 1001}}},
	"everyone's s":               {ErrJoined, []edit{{0, sPlace, 8}, {1, sPlace, 8}, {2, sPlace, 8}}},
	"r 0 and another p":          {ErrJoined, []edit{{0, rPlace, 0}, {2, rPlace, prime}}},
	"another's r and the own d":  {ErrJoined, []edit{{0, rPlace, 1001}, {1, dPlace, 12345}}},
	"another's s, and an e of p": {ErrJoined, []edit{{0, sPlace, 8}, {2, ePlace, prime}}},
	"another's r and its id":     {ErrJoined, []edit{{0, rPlace, 1001}, {0, 1, 601}}},
	"another's d and e":          {0, []edit{{0, dPlace, 12345}, {2, ePlace, 54321}}},
	"another's pair, as it was":  {0, []edit{{0, rPlace, 1000}, {0, sPlace, 7}}},
}

// waitingThree has three servers take their shares of return 600 with the pair 1000, 7.
func waitingThree(t *testing.T) (all servers, ones [][]byte) {
	t.Helper()
	sheet := sheetOf(t, YesNo())
	client := Client{Sheet: sheet, Servers: 3}
	all = openAll(t, 3, sheet, 1)
	shares, err := client.Make(600, []uint32{1})
	if err != nil {
		t.Fatal(err)
	}
	return all, all.startWith(t, shares, alike(3, Pair{1000, 7}))
}

// tryRoundOne tries round one on copies of a table, in room enough and in too little.
func tryRoundOne(t *testing.T, table *Table, name string, messages [][]byte, want Refusal) {
	t.Helper()
	before := stored(t, table)
	for _, room := range []int{14, 13} {
		again := new(Table)
		if err := again.UnmarshalBinary(before); err != nil {
			t.Fatal(err)
		}
		if room < 14 && want == 0 {
			want = ErrRoom
		}
		_, number := coreRoundOne(again, 600, bytes.Join(messages, nil), make([]byte, room))
		if Refusal(number) != want {
			t.Errorf("%s, room %d: %d, want %d", name, room, number, want)
		}
		if number != 0 && !bytes.Equal(before, stored(t, again)) {
			t.Errorf("%s, room %d: the table is changed", name, room)
		}
	}
}

// What is refused 12 and what 16, wherever a message stands.
func TestPairFaults(t *testing.T) {
	all, ones := waitingThree(t)
	for name, fault := range pairFaults {
		for _, order := range [][]int{{0, 1, 2}, {2, 1, 0}, {1, 0, 2}, {2, 0, 1}} {
			tryRoundOne(t, all[1], name, edited(ones, fault.edits, order...), fault.want)
		}
	}
}

// A round-one message has 22 bytes: the 14 that stand before r and s are no message.
func TestOldLength(t *testing.T) {
	all, ones := waitingThree(t)
	cut := func(lengths ...int) [][]byte {
		list := ordered(ones, 0, 1, 2)
		for k, length := range lengths {
			list[k] = append(list[k], make([]byte, 40)...)[:length]
		}
		return list
	}
	for _, messages := range [][][]byte{cut(14, 14, 14), cut(14, 22, 22), cut(22, 14, 22), cut(22, 22, 14), cut(22, 22, 21),
		cut(22, 22, 23), cut(14, 22, 30), cut(30, 22, 14), cut(22, 22, 44), cut(22, 22, 0), nil} {
		tryRoundOne(t, all[1], "other lengths", messages, ErrJoined)
	}
	tryRoundOne(t, all[1], "the lengths that they have", cut(22, 22, 22), 0)
}

// The room of the messages: 22 bytes for round one, 14 for round two.
func TestRoundRooms(t *testing.T) {
	if oneBytes != 22 || twoBytes != 14 {
		t.Errorf("lengths %d and %d", oneBytes, twoBytes)
	}
	sheet := sheetOf(t, YesNo())
	client := Client{Sheet: sheet, Servers: 2}
	shares, _ := client.Make(1, []uint32{1})
	all := openAll(t, 2, sheet, 1)
	before := stored(t, all[0])
	for room := 0; room < 22; room++ {
		if n, number := coreShare(all[0], shares[0], 1000, 7, make([]byte, room)); n != 0 || Refusal(number) != ErrRoom {
			t.Errorf("a share in %d bytes: %d, %d", room, n, number)
		}
	}
	if !bytes.Equal(before, stored(t, all[0])) {
		t.Error("a share without room changes the table")
	}
	ones := all.start(t, sheet, shares)
	for room := 0; room < 14; room++ {
		if n, number := coreRoundOne(all[0], 1, bytes.Join(ones, nil), make([]byte, room)); n != 0 || Refusal(number) != ErrRoom {
			t.Errorf("round one in %d bytes: %d, %d", room, n, number)
		}
	}
	twos := all.roundOne(t, 1, ones)
	for _, messages := range [][][]byte{ones, {append(twos[0], make([]byte, 8)...), append(twos[1], make([]byte, 8)...)}} {
		_, err := all[0].RoundTwo(1, messages)
		refused(t, err, ErrJoined)
	}
	if !all.roundTwo(t, 1, twos) {
		t.Error("an honest return is rejected")
	}
}

func TestDrawing(t *testing.T) {
	// p itself is drawn again; the top bit does not count.
	x, err := drawBelow(bytes.NewReader([]byte{255, 255, 255, 127, 254, 255, 255, 255}), prime)
	if err != nil || x != prime-1 {
		t.Errorf("drew %d, %v", x, err)
	}
	client := Client{Sheet: sheetOf(t, YesNo()), Servers: 2, Random: bytes.NewReader(nil)}
	if _, err := client.Make(1, []uint32{0}); !errors.Is(err, io.EOF) {
		t.Errorf("no random bytes: %v", err)
	}
}

func TestPairs(t *testing.T) {
	sheet := sheetOf(t, YesNo())
	low, top := Pair{2, 0}, Pair{uint64(prime) - 1, uint64(prime) - 1}
	for _, test := range []struct{ a, b, want Pair }{
		{low, low, low}, {low, top, top}, {top, Pair{3, 1}, low}, {Pair{5, 6}, Pair{7, 8}, Pair{10, 14}},
	} {
		if got, err := sheet.AddPairs(test.a, test.b); err != nil || got != test.want {
			t.Errorf("%v + %v = %v, %v, want %v", test.a, test.b, got, err, test.want)
		}
	}
	for _, part := range []Pair{{}, {1, 0}, {uint64(prime), 0}, {1 << 32, 0}, {1<<64 - 1, 0}, {2, uint64(prime)}, {2, 1 << 32}} {
		_, err := sheet.AddPairs(low, part, top)
		refused(t, err, ErrPair)
	}
	for k := 0; k < 100; k++ {
		pair, err := sheet.DrawPair(nil)
		if err != nil || pair.R < 2 || pair.R >= uint64(prime) || pair.S >= uint64(prime) {
			t.Errorf("drew %v, %v", pair, err)
		}
	}
}
