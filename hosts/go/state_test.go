package pool

import (
	"encoding/binary"
	"errors"
	"fmt"
	"hash/crc32"
	"reflect"
	"strings"
	"testing"
)

// mustBe holds the state of every table to this one, all but the own number.
func (all servers) mustBe(t *testing.T, when string, want State) {
	t.Helper()
	for own, table := range all {
		before := stored(t, table)
		want.Own = uint32(own)
		if got, err := table.State(); err != nil || got != want {
			t.Errorf("%s: %v, %v, want %v", when, got, err, want)
		}
		if !reflect.DeepEqual(before, stored(t, table)) {
			t.Errorf("%s, server %d: the table is changed", when, own)
		}
	}
}

// A table tells how far it is at each step, and the same after a restart.
func TestState(t *testing.T) {
	sheet := sheetOf(t, YesNo(), Number(8))
	all := openLeast(t, 3, sheet, 300, 2)
	courses := newCourses(t, sheet, 3, 6)
	falsify(courses[1].shares[0])
	want := State{Servers: 3, Returns: 300, Least: 2}
	all.mustBe(t, "opened", want)
	for k := range courses {
		courses[k].step(t, all, sheet)
		want.Waiting++
		all.mustBe(t, "a share", want)
	}
	all.drop(t, 5)
	want.Waiting, want.Decided = 5, 1
	all.mustBe(t, "dropped", want)
	for _, c := range courses[:5] {
		c.upTo(t, all, sheet, AwaitsEntry)
		if c.id == 1 {
			want.Waiting, want.Decided = 4, 2
		}
		all.mustBe(t, "a verdict", want)
	}
	for _, id := range []uint32{0, 4, 2, 3} {
		all.enter(t, id)
		want.Waiting, want.Decided, want.Entered = want.Waiting-1, want.Decided+1, want.Entered+1
		all.mustBe(t, "entered", want)
		all.restart(t)
		all.mustBe(t, "restored", want)
	}
	all.closeAndJoin(t, sheet, 300)
	want.Closed = true
	all.mustBe(t, "closed", want)
	all.restart(t)
	all.mustBe(t, "closed and restored", want)
}

// restart stores and restores every table.
func (all servers) restart(t *testing.T) {
	t.Helper()
	for own, table := range all {
		all[own] = restored(t, stored(t, table))
	}
}

// A table is printed by its state.
func TestStateInWords(t *testing.T) {
	sheet := sheetOf(t, YesNo(), Number(8))
	all := openLeast(t, 3, sheet, 300, 1)
	for _, c := range newCourses(t, sheet, 3, 2) {
		c.finish(t, all, sheet)
	}
	all.closeAndJoin(t, sheet, 300)
	state, _ := all[2].State()
	const words = "server 2 of 3, closed: 2 of at most 300 returns decided, 2 entered of at least 1, 0 waiting"
	if got := state.String(); got != words || fmt.Sprint(all[2]) != words || fmt.Sprintf("%+v", all[2]) != words {
		t.Errorf("got %s and %v, want %s", got, all[2], words)
	}
	for _, table := range []*Table{nil, {}} {
		if got := table.String(); !strings.HasPrefix(got, "no table: pool: state: ") {
			t.Errorf("got %s", got)
		}
	}
}

// Eight wait: the table tells so, and which they are.
func TestStateOfEight(t *testing.T) {
	sheet := sheetOf(t, YesNo(), Number(8))
	all := openAll(t, 2, sheet, Slots)
	fill(t, all, sheet, newCourses(t, sheet, 2, Slots))
	all.mustBe(t, "eight wait", State{Servers: 2, Returns: Slots, Least: 1, Waiting: Slots})
	if got := all[0].Waiting(); len(got) != Slots || got[7] != (Waiting{7, AwaitsOne}) {
		t.Errorf("%v wait", got)
	}
}

// mended gives a stored table with another checksum, that of what it holds.
func mended(b []byte) []byte {
	sum := len(b) - storedSum
	return binary.LittleEndian.AppendUint32(append([]byte(nil), b[:sum]...), crc32.ChecksumIEEE(b[:sum]))
}

// longer gives a copy of a table with more bytes and elements.
func longer(t *testing.T, table *Table, bytes, elements int) *Table {
	t.Helper()
	long := restored(t, stored(t, table))
	long.bytes = append(long.bytes, make([]byte, bytes)...)
	long.elements = append(long.elements, make([]uint32, elements)...)
	return long
}

// unopened gives what no opening and no calls can have left of a table in which one return of two is entered and one waits.
func unopened(t *testing.T, sheet *Sheet, table *Table) map[string]*Table {
	t.Helper()
	wrong := map[string]*Table{"a byte more": longer(t, table, 1, 0), "an id more": longer(t, table, 4, 0),
		"a place more": longer(t, table, 0, Slots), "both": longer(t, table, 4, Slots)}
	closed := closedAt(t, sheet)
	for name, edit := range map[string]func(*Table){
		"a byte less":            func(x *Table) { x.bytes = x.bytes[:len(x.bytes)-1] },
		"a place less":           func(x *Table) { x.elements = x.elements[:len(x.elements)-Slots] },
		"no elements":            func(x *Table) { x.elements = nil },
		"zeros":                  func(x *Table) { x.bytes = make([]byte, len(x.bytes)) },
		"another kind":           func(x *Table) { x.bytes[0]++ },
		"closed, and one waits":  func(x *Table) { x.bytes[closed] = 1 },
		"closed, with too few":   func(x *Table) { x.bytes[closed], x.slots = 1, [Slots]slot{} },
		"a stage that is not":    func(x *Table) { x.bytes[closed] = 2 },
		"a return's stage":       func(x *Table) { x.slots[0] = newSlot(1, 4, 1000, 5, 1, 1) },
		"an element of p":        func(x *Table) { x.elements[0] = prime },
		"r outside its range":    func(x *Table) { x.slots[0] = newSlot(1, 1, 1, 5, 1, 1) },
		"s of more than 32 bits": func(x *Table) { x.slots[0] = newSlot(1, 1, 1000, 1<<32+5, 1, 1) },
	} {
		x := restored(t, stored(t, table))
		edit(x)
		wrong[name] = x
	}
	return wrong
}

// Such tables are not restored, though their checksums are right. The table stays as it was.
func TestNotRestored(t *testing.T) {
	sheet := sheetOf(t, YesNo(), Number(8))
	all := openLeast(t, 2, sheet, 5, 2)
	courses := newCourses(t, sheet, 2, 3)
	courses[0].finish(t, all, sheet)
	courses[1].step(t, all, sheet)
	table := restored(t, stored(t, all[0]))
	for name, x := range unopened(t, sheet, table) {
		b, err := x.MarshalBinary()
		if err != nil {
			t.Fatal(err)
		}
		if err := table.UnmarshalBinary(b); !errors.Is(err, ErrStored) {
			t.Errorf("%s: %v", name, err)
		}
	}
	if !reflect.DeepEqual(table, all[0]) {
		t.Error("a wrong slice changes the table")
	}
	b := stored(t, all[0])
	b[storedHead]++
	if err := table.UnmarshalBinary(mended(b)); !errors.Is(err, ErrStored) || !errors.Is(err, ErrStage) {
		t.Errorf("got %v", err)
	}
}

// closedAt finds where a table holds its stage: where it differs once it is closed, with nothing entered between.
func closedAt(t *testing.T, sheet *Sheet) int {
	t.Helper()
	all := openAll(t, 2, sheet, 5)
	newCourses(t, sheet, 2, 1)[0].finish(t, all, sheet)
	before := append([]byte(nil), all[0].bytes...)
	if _, err := all[0].Close(); err != nil {
		t.Fatal(err)
	}
	for at, b := range all[0].bytes {
		if before[at] != b {
			return at
		}
	}
	t.Fatal("the stage is not in the table")
	return 0
}

// A damaged table tells nothing of itself.
func TestStateOfDamaged(t *testing.T) {
	sheet := sheetOf(t, YesNo(), Number(8))
	all := openLeast(t, 2, sheet, 1000, 3)
	at := leastAt(t, sheet, 1000)
	for _, least := range []uint16{0, 1001, 1<<16 - 1} {
		binary.LittleEndian.PutUint16(all[0].bytes[at:], least)
		state, err := all[0].State()
		refused(t, err, ErrStage)
		if state != (State{}) {
			t.Errorf("refused, and the state %v", state)
		}
	}
}
