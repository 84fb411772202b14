package pool

import (
	"bytes"
	"encoding/binary"
	"errors"
	"math"
	"reflect"
	"testing"
)

// The least count is from 1 to N, and no number is cut.
func TestLeastLimits(t *testing.T) {
	sheet := sheetOf(t, YesNo())
	for _, returns := range []uint32{1, 2, 5, 255, 256, 1023, 1024} {
		for _, least := range []uint32{1, (returns + 1) / 2, returns} {
			if _, err := Open(2, 0, sheet, returns, least); err != nil {
				t.Errorf("%d of %d: %v", least, returns, err)
			}
		}
		for _, least := range []uint32{0, returns + 1, returns + 256, 1025, 1<<16 + 1, 1<<31 + 1, math.MaxUint32} {
			if _, err := Open(2, 0, sheet, returns, least); !errors.Is(err, ErrLimit) {
				t.Errorf("%d of %d: %v", least, returns, err)
			}
		}
	}
}

// The least count is judged after N, before refusal 4 and before the room.
func TestLeastOrder(t *testing.T) {
	wide := sheetOf(t, Number(24))
	for _, test := range []struct {
		returns, least uint32
		want           Refusal
	}{{129, 0, ErrLimit}, {129, 130, ErrLimit}, {129, 1, ErrWrap}, {129, 129, ErrWrap}, {0, 0, ErrLimit}, {0, 1, ErrLimit},
		{1025, 1025, ErrLimit}} {
		_, err := Open(2, 0, wide, test.returns, test.least)
		refused(t, err, test.want)
	}
	for least, want := range map[uint32]Refusal{0: ErrLimit, 1: ErrRoom, 5: ErrRoom, 6: ErrLimit} {
		table := &Table{bytes: make([]byte, wide.tableBytes(5)-1), elements: make([]uint32, wide.tableElements())}
		if _, number := coreOpen(2, 0, wide.bytes, 5, least, table); Refusal(number) != want {
			t.Errorf("%d of 5 in too little room: %d, want %d", least, number, want)
		}
	}
}

// mustRefuseClose checks that every server refuses to close, and is left as it was.
func (all servers) mustRefuseClose(t *testing.T, when string, want Refusal) {
	t.Helper()
	for own, table := range all {
		before := stored(t, table)
		if totals, err := table.Close(); totals != nil || !errors.Is(err, want) {
			t.Errorf("%s, server %d: %v, %v", when, own, totals, err)
		}
		out := []byte{1, 2, 3}
		if written, number := coreClose(table, out); written != 0 || Refusal(number) != want || !bytes.Equal(out, []byte{1, 2, 3}) {
			t.Errorf("%s, server %d, in little room: %d, %d", when, own, written, number)
		}
		if !bytes.Equal(before, stored(t, table)) {
			t.Errorf("%s, server %d: the table is changed", when, own)
		}
	}
}

// With one fewer than the least count entered no server closes, whatever was rejected and dropped; with one more all do.
func TestTooFew(t *testing.T) {
	sheet := sheetOf(t, YesNo(), Number(8))
	all := openLeast(t, 3, sheet, 6, 3)
	courses := newCourses(t, sheet, 3, 6)
	falsify(courses[1].shares[0])
	all.mustRefuseClose(t, "opened", ErrFew)
	for k, c := range courses[:5] {
		c.step(t, all, sheet)
		all.mustRefuseClose(t, "one waits", ErrStage)
		if k == 3 {
			all.drop(t, c.id)
		} else {
			c.step(t, all, sheet)
			all.mustRefuseClose(t, "one awaits round two", ErrStage)
			if accepted := c.step(t, all, sheet); accepted != (k != 1) {
				t.Errorf("return %d: accepted %v", k, accepted)
			} else if accepted {
				all.mustRefuseClose(t, "one awaits entry", ErrStage)
				c.step(t, all, sheet)
			}
		}
		if k < 4 {
			all.mustRefuseClose(t, "too few entered", ErrFew)
		}
	}
	for _, table := range all {
		if _, number := coreClose(table, make([]byte, 3)); Refusal(number) != ErrRoom {
			t.Errorf("enough entered, in little room: %d", number)
		}
	}
	want := Totals{3, []Line{{1, 0, 0}, {2, 0, 0 + 20 + 40}}}
	if got := all.closeAndJoin(t, sheet, 6); !reflect.DeepEqual(got, want) {
		t.Errorf("totals %v, want %v", got, want)
	}
	all.mustRefuseClose(t, "closed", ErrStage)
}

// A pool whose least count is N closes when all of them are entered.
func TestLeastIsAll(t *testing.T) {
	sheet := sheetOf(t, YesNo(), Number(8))
	all := openLeast(t, 2, sheet, 2, 2)
	courses := newCourses(t, sheet, 2, 2)
	for _, c := range courses {
		all.mustRefuseClose(t, "too few entered", ErrFew)
		if !all.judge(t, sheet, c.shares) {
			t.Errorf("return %d is rejected", c.id)
		}
	}
	if got := all.closeAndJoin(t, sheet, 2); got.Accepted != 2 || got.Lines[1].Total != 10 {
		t.Errorf("totals %v", got)
	}
}

// With N decided and fewer than the least count entered a pool takes no share and never closes.
func TestNeverCloses(t *testing.T) {
	sheet := sheetOf(t, YesNo(), Number(8))
	all := openLeast(t, 2, sheet, 3, 2)
	courses := newCourses(t, sheet, 2, 4)
	falsify(courses[1].shares[1])
	for _, c := range courses[:2] {
		if accepted := all.judge(t, sheet, c.shares); accepted != (c.id == 0) {
			t.Errorf("return %d: accepted %v", c.id, accepted)
		}
	}
	courses[2].step(t, all, sheet)
	all.drop(t, 2)
	for k := 0; k < 2; k++ {
		all.mustRefuseClose(t, "all are decided", ErrFew)
		for own, table := range all {
			_, err := table.Share(courses[3].shares[own], Pair{1000, 5})
			refused(t, err, ErrFull)
		}
	}
}

// The least count survives a restart.
func TestLeastRestored(t *testing.T) {
	sheet := sheetOf(t, YesNo(), Number(8))
	all := openLeast(t, 2, sheet, 5, 2)
	courses := newCourses(t, sheet, 2, 2)
	for _, c := range courses {
		all.mustRefuseClose(t, "too few entered", ErrFew)
		for own, table := range all {
			all[own] = new(Table)
			if err := all[own].UnmarshalBinary(stored(t, table)); err != nil {
				t.Fatal(err)
			}
		}
		all.mustRefuseClose(t, "restored", ErrFew)
		all.judge(t, sheet, c.shares)
	}
	if got := all.closeAndJoin(t, sheet, 5); got.Accepted != 2 {
		t.Errorf("totals %v", got)
	}
}

// leastAt finds where a table holds its least count: where two tables differ that were opened with two counts.
func leastAt(t *testing.T, sheet *Sheet, returns uint32) int {
	t.Helper()
	one, other := openLeast(t, 2, sheet, returns, 0x0101), openLeast(t, 2, sheet, returns, 0x0202)
	for at := range one[0].bytes {
		if one[0].bytes[at] != other[0].bytes[at] {
			return at
		}
	}
	t.Fatal("the least count is not in the table")
	return 0
}

// A table whose least count is outside its range is refused by every call; within it the count is as good as any.
func TestLeastDamaged(t *testing.T) {
	sheet := sheetOf(t, YesNo(), Number(8))
	all := openLeast(t, 2, sheet, 1000, 3)
	courses := newCourses(t, sheet, 2, 3)
	one := courses[0]
	one.step(t, all, sheet)
	table, at := all[0], leastAt(t, sheet, 1000)
	for _, least := range []uint16{0, 1001, 1024, 0x8003, math.MaxUint16} {
		binary.LittleEndian.PutUint16(table.bytes[at:], least)
		before := stored(t, table)
		_, err := table.Share(courses[1].shares[0], Pair{1000, 5})
		refused(t, err, ErrStage)
		_, err = table.RoundOne(0, one.messages)
		refused(t, err, ErrStage)
		_, err = table.RoundTwo(0, one.messages)
		refused(t, err, ErrStage)
		refused(t, table.Enter(0), ErrStage)
		refused(t, table.Drop(0), ErrStage)
		_, err = table.Close()
		refused(t, err, ErrStage)
		if !bytes.Equal(before, stored(t, table)) {
			t.Errorf("least count %d: the table is changed", least)
		}
	}
	for _, least := range []uint16{1000, 2, 1} {
		binary.LittleEndian.PutUint16(table.bytes[at:], least)
		one.finish(t, all, sheet)
		if _, err := table.Close(); errors.Is(err, ErrFew) != (least > 1) || (err == nil) != (least == 1) {
			t.Errorf("least count %d, one entered: %v", least, err)
		}
	}
}
