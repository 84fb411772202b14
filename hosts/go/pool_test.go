package pool

import (
	"bytes"
	"encoding/binary"
	"encoding/hex"
	"errors"
	"math/rand"
	"reflect"
	"testing"
)

// sheetOf makes a sheet that must be sound.
func sheetOf(t *testing.T, columns ...Column) *Sheet {
	t.Helper()
	sheet, err := NewSheet(columns...)
	if err != nil {
		t.Fatal(err)
	}
	return sheet
}

// servers are the tables of one pool.
type servers []*Table

// openAll opens tables that can be closed with one entered return.
func openAll(t *testing.T, n uint32, sheet *Sheet, returns uint32) servers {
	t.Helper()
	return openLeast(t, n, sheet, returns, 1)
}

func openLeast(t *testing.T, n uint32, sheet *Sheet, returns, least uint32) servers {
	t.Helper()
	var all servers
	for own := uint32(0); own < n; own++ {
		table, err := Open(n, own, sheet, returns, least)
		if err != nil {
			t.Fatal(err)
		}
		all = append(all, table)
	}
	return all
}

// each collects what a call gives at every server.
func (all servers) each(t *testing.T, call func(own int, table *Table) ([]byte, error)) [][]byte {
	t.Helper()
	var messages [][]byte
	for own, table := range all {
		message, err := call(own, table)
		if err != nil {
			t.Fatal(err)
		}
		messages = append(messages, message)
	}
	return messages
}

// start takes the shares of a return at every server, up to the round-one messages.
func (all servers) start(t *testing.T, sheet *Sheet, shares [][]byte) [][]byte {
	t.Helper()
	pair, err := sheet.DrawPair(nil)
	if err != nil {
		t.Fatal(err)
	}
	return all.each(t, func(own int, table *Table) ([]byte, error) { return table.Share(shares[own], pair) })
}

// arrivals draws the orders in which messages arrive, the same in each run of the tests.
var arrivals = rand.New(rand.NewSource(1))

// arrived gives the messages of a round in a random order, as they could have arrived at a server.
func arrived(messages [][]byte) [][]byte {
	list := make([][]byte, len(messages))
	for k, from := range arrivals.Perm(len(messages)) {
		list[k] = messages[from]
	}
	return list
}

// roundOne takes the round-one messages of a return at every server, up to the round-two messages.
func (all servers) roundOne(t *testing.T, id uint32, ones [][]byte) [][]byte {
	t.Helper()
	return all.each(t, func(_ int, table *Table) ([]byte, error) { return table.RoundOne(id, arrived(ones)) })
}

// roundTwo gives the verdict on a return, the same at every server.
func (all servers) roundTwo(t *testing.T, id uint32, twos [][]byte) bool {
	t.Helper()
	verdicts := 0
	for _, table := range all {
		accepted, err := table.RoundTwo(id, arrived(twos))
		if err != nil {
			t.Fatal(err)
		}
		if accepted {
			verdicts++
		}
	}
	if verdicts != 0 && verdicts != len(all) {
		t.Fatalf("%d of %d servers accept", verdicts, len(all))
	}
	return verdicts > 0
}

// enter enters a return at every server.
func (all servers) enter(t *testing.T, id uint32) {
	t.Helper()
	all.each(t, func(_ int, table *Table) ([]byte, error) { return nil, table.Enter(id) })
}

// judge takes a return through both rounds, enters it where it is accepted, and gives the verdict.
func (all servers) judge(t *testing.T, sheet *Sheet, shares [][]byte) bool {
	t.Helper()
	id := binary.LittleEndian.Uint32(shares[0][1:])
	accepted := all.roundTwo(t, id, all.roundOne(t, id, all.start(t, sheet, shares)))
	if accepted {
		all.enter(t, id)
	}
	return accepted
}

// drop drops a return at every server.
func (all servers) drop(t *testing.T, id uint32) {
	t.Helper()
	all.each(t, func(_ int, table *Table) ([]byte, error) { return nil, table.Drop(id) })
}

func (all servers) closeAndJoin(t *testing.T, sheet *Sheet, returns uint32) Totals {
	t.Helper()
	messages := all.each(t, func(_ int, table *Table) ([]byte, error) { return table.Close() })
	totals, err := Join(uint32(len(all)), sheet, returns, messages)
	if err != nil {
		t.Fatal(err)
	}
	return totals
}

// refused checks that an error is this refusal.
func refused(t *testing.T, err error, want Refusal) {
	t.Helper()
	var got Refusal
	if !errors.As(err, &got) || got != want || !errors.Is(err, want) {
		t.Errorf("got %v, want %v", err, want)
	}
}

func TestSheet(t *testing.T) {
	sheet, err := ReadSheet([]byte{17, 18, 3, 20, 200, 1, 2, 0, 21, 7, 19, 4})
	if err != nil {
		t.Fatal(err)
	}
	if want := "1: yes/no, 2: choice of 3, 3: number up to 131528, 4: point of 7 bits, 5: number of 4 bits"; sheet.String() != want {
		t.Errorf("%v, want %s", sheet, want)
	}
	want := []Column{YesNo(), Choice(3), UpTo(200 + 256 + 2*65536), Point(7), Number(4)}
	if !reflect.DeepEqual(sheet.Columns(), want) {
		t.Errorf("columns %v, want %v", sheet.Columns(), want)
	}
	for _, test := range []struct {
		sheet []byte
		want  Refusal
	}{{nil, ErrLimit}, {[]byte{20}, ErrKind}, {[]byte{18}, ErrKind}, {[]byte{18, 1}, ErrLimit}, {[]byte{18, 65}, ErrLimit},
		{[]byte{19, 0}, ErrLimit}, {[]byte{19, 25}, ErrLimit}, {bytes.Repeat([]byte{17}, 257), ErrLimit}, {[]byte{22}, ErrKind},
		{[]byte{21}, ErrKind}, {[]byte{21, 0}, ErrLimit}, {[]byte{21, 13}, ErrLimit}, {[]byte{17, 21}, ErrKind}, {[]byte{16, 12}, ErrKind},
		{[]byte{20, 200, 0, 0}, ErrKind}, {[]byte{20, 0, 0, 0, 0}, ErrLimit}, {[]byte{20, 0, 0, 0, 1}, ErrLimit}} {
		_, err := ReadSheet(test.sheet)
		refused(t, err, test.want)
	}
}

func TestCircuit(t *testing.T) {
	sheet := sheetOf(t, YesNo())
	circuit, err := sheet.Circuit()
	if err != nil {
		t.Fatal(err)
	}
	if got := hex.EncodeToString(circuit); got != "01feffff7f02000003010000000501000200060300" {
		t.Errorf("circuit %s", got)
	}
	counts, err := ReadCircuit(1, circuit)
	if want := (CircuitCounts{4, 1, 1}); err != nil || counts != want {
		t.Errorf("counts %v, %v", counts, err)
	}
	_, err = ReadCircuit(1, []byte{6, 0, 0})
	refused(t, err, ErrWire)
}

// addPlain adds the values of a return on the sheet of TestPools to the plain sums.
func addPlain(plain, values []uint32) {
	plain[0] += values[0]
	plain[1+values[1]]++
	plain[6] += values[2]
	plain[7+values[3]]++
	plain[9] += values[4]
	plain[10] += values[5]
	x, y := values[6]%32, values[6]/32
	for k, sum := range []uint32{x, x * x, y, x * y} {
		plain[11+k] += sum
	}
}

// Random pools of every number of servers: the totals are the plain sums.
func TestPools(t *testing.T) {
	random := rand.New(rand.NewSource(1))
	for n := uint32(2); n <= 8; n++ {
		sheet := sheetOf(t, YesNo(), Choice(5), Number(10), Choice(2), Number(1), UpTo(200), Point(5))
		limits := []uint32{2, 5, 1024, 2, 2, 201, 1024}
		client := Client{Sheet: sheet, Servers: n}
		all := openAll(t, n, sheet, 6)
		plain := make([]uint32, sheet.Sizes().Published)
		for id := uint32(0); id < 6; id++ {
			values := make([]uint32, len(limits))
			for k, limit := range limits {
				values[k] = uint32(random.Intn(int(limit)))
			}
			shares, err := client.Make(id, values)
			if err != nil {
				t.Fatal(err)
			}
			if !all.judge(t, sheet, shares) {
				t.Fatalf("%d servers, return %d: an honest return is rejected", n, id)
			}
			addPlain(plain, values)
		}
		totals := all.closeAndJoin(t, sheet, 6)
		if totals.Accepted != 6 {
			t.Errorf("%d servers: accepted %d", n, totals.Accepted)
		}
		for k, line := range totals.Lines {
			if line.Total != plain[k] {
				t.Errorf("%d servers: %+v, want %d", n, line, plain[k])
			}
		}
		if last := totals.Lines[8]; last.Column != 4 || last.Option != 1 {
			t.Errorf("place of a total: %+v", last)
		}
		if last := totals.Lines[14]; last.Column != 7 || last.Option != 3 || len(totals.Lines) != 15 {
			t.Errorf("place of a total: %+v", last)
		}
	}
}
