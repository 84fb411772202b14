package pool

import (
	"bytes"
	"fmt"
	"math"
	"reflect"
	"testing"
)

// sumsOf gives the totals of some returns on the sheet of newCourses.
func sumsOf(courses ...*course) Totals {
	sums := Totals{uint32(len(courses)), []Line{{1, 0, 0}, {2, 0, 0}}}
	for _, c := range courses {
		sums.Lines[0].Total += c.values[0]
		sums.Lines[1].Total += c.values[1]
	}
	return sums
}

// mustJoin closes the tables and holds their totals to those of these returns.
func (all servers) mustJoin(t *testing.T, sheet *Sheet, returns uint32, entered ...*course) {
	t.Helper()
	if got, want := all.closeAndJoin(t, sheet, returns), sumsOf(entered...); !reflect.DeepEqual(got, want) {
		t.Errorf("totals %v, want %v", got, want)
	}
}

// mustRefuseEntry checks that every server refuses to enter a return, and is left as it was.
func (all servers) mustRefuseEntry(t *testing.T, when string, id uint32) {
	t.Helper()
	for own, table := range all {
		before := stored(t, table)
		refused(t, table.Enter(id), ErrStage)
		if !bytes.Equal(before, stored(t, table)) {
			t.Errorf("%s, server %d: the table is changed", when, own)
		}
	}
}

// upTo takes a return on until it awaits this.
func (c *course) upTo(t *testing.T, all servers, sheet *Sheet, awaits Awaits) {
	t.Helper()
	for c.awaits < awaits {
		c.step(t, all, sheet)
	}
}

// An accepted verdict changes the stage of the return and nothing else: its share stays, and nothing is added or counted.
func TestVerdictOnly(t *testing.T) {
	sheet := sheetOf(t, YesNo(), Number(8))
	all := openAll(t, 3, sheet, 4)
	courses := newCourses(t, sheet, 3, 3)
	for _, c := range courses {
		c.upTo(t, all, sheet, AwaitsTwo)
	}
	before := make([]Table, len(all))
	for own, table := range all {
		if err := before[own].UnmarshalBinary(stored(t, table)); err != nil {
			t.Fatal(err)
		}
	}
	if !courses[1].step(t, all, sheet) {
		t.Fatal("an honest return is rejected")
	}
	for own, table := range all {
		id, stage, r, s, d, e := slotNumbers(before[own].slots[1])
		if id != 1 || Awaits(stage) != AwaitsTwo {
			t.Fatalf("server %d: return %d in slot 1, %v", own, id, Awaits(stage))
		}
		before[own].slots[1] = newSlot(id, uint32(AwaitsEntry), r, s, d, e)
		if !reflect.DeepEqual(table, &before[own]) {
			t.Errorf("server %d: more than the stage is changed", own)
		}
	}
}

// Entering adds a return exactly once: again, it is refused.
func TestEnterOnce(t *testing.T) {
	sheet := sheetOf(t, YesNo(), Number(8))
	all := openAll(t, 3, sheet, 4)
	courses := newCourses(t, sheet, 3, 2)
	for _, c := range courses {
		c.finish(t, all, sheet)
		for again := 0; again < 3; again++ {
			all.mustRefuseEntry(t, "entered", c.id)
		}
	}
	all.mustRefuseEntry(t, "the first of two", 0)
	all.mustJoin(t, sheet, 4, courses...)
	all.mustRefuseEntry(t, "closed", 1)
}

// A return is entered after an accepted verdict only: not while it awaits a round, not rejected, not dropped, not unknown.
func TestEnterRefused(t *testing.T) {
	sheet := sheetOf(t, YesNo(), Number(8))
	all := openAll(t, 2, sheet, 9)
	courses := newCourses(t, sheet, 2, 6)
	falsify(courses[2].shares[0])
	courses[0].upTo(t, all, sheet, AwaitsOne)
	courses[1].upTo(t, all, sheet, AwaitsTwo)
	if courses[2].finish(t, all, sheet) {
		t.Error("a false return is accepted")
	}
	courses[3].upTo(t, all, sheet, AwaitsTwo)
	all.drop(t, 3)
	courses[4].upTo(t, all, sheet, AwaitsEntry)
	all.drop(t, 4)
	courses[5].upTo(t, all, sheet, AwaitsEntry) // one that could be entered in place of another
	for id, when := range []string{"awaits round one", "awaits round two", "rejected", "dropped before its verdict", "accepted and dropped"} {
		all.mustRefuseEntry(t, when, uint32(id))
	}
	for _, id := range []uint32{6, 256 + 5, 1<<16 + 5, 1<<31 + 5, math.MaxUint32} {
		all.mustRefuseEntry(t, "unknown", id)
	}
	all.enter(t, 5)
	all.drop(t, 0)
	all.drop(t, 1)
	all.mustJoin(t, sheet, 9, courses[5])
}

// While a return awaits entry no server closes, whatever the least count is.
func TestCloseAwaitingEntry(t *testing.T) {
	sheet := sheetOf(t, YesNo(), Number(8))
	all := openAll(t, 2, sheet, 4)
	courses := newCourses(t, sheet, 2, 2)
	courses[0].finish(t, all, sheet)
	courses[1].upTo(t, all, sheet, AwaitsEntry)
	all.mustRefuseClose(t, "one awaits entry", ErrStage)
	_, err := all[0].RoundTwo(1, courses[1].messages)
	refused(t, err, ErrStage)
	_, err = all[0].RoundOne(1, courses[1].messages)
	refused(t, err, ErrStage)
	all.enter(t, 1)
	all.mustJoin(t, sheet, 4, courses...)
}

// A return that was accepted and is dropped is in no total. Its share is erased, its id is used, and it is decided.
func TestAcceptedAndDropped(t *testing.T) {
	sheet := sheetOf(t, YesNo(), Number(8))
	all := openAll(t, 3, sheet, 3)
	courses := newCourses(t, sheet, 3, 4)
	for _, c := range courses[:3] {
		c.upTo(t, all, sheet, AwaitsEntry)
	}
	all.hold(t, sheet, "three await entry", []int{0, 1, 2})
	all.enter(t, 0)
	all.hold(t, sheet, "the first is entered", []int{1, 2})
	all.drop(t, 1)
	all.hold(t, sheet, "the second is dropped", []int{2})
	for own, table := range all {
		refused(t, table.Drop(1), ErrStage)
		_, err := table.Share(courses[3].shares[own], Pair{1000, 5})
		refused(t, err, ErrFull) // two are decided and one waits: N is 3
	}
	all.enter(t, 2)
	all.mustJoin(t, sheet, 3, courses[0], courses[2])
}

// Each server drops a return at its own stage, some before and some after an accepted verdict: it is entered nowhere.
func TestDroppedAtEachStage(t *testing.T) {
	sheet := sheetOf(t, YesNo(), Number(8))
	all := openAll(t, 3, sheet, 3)
	courses := newCourses(t, sheet, 3, 2)
	c := courses[1]
	c.upTo(t, all, sheet, AwaitsTwo)
	if err := all[0].Drop(1); err != nil {
		t.Error(err)
	}
	if accepted, err := all[1].RoundTwo(1, c.messages); !accepted || err != nil {
		t.Errorf("accepted %v, %v", accepted, err)
	}
	c.messages[0][6] ^= 1 // altered on its way to the last server, which rejects
	if accepted, err := all[2].RoundTwo(1, c.messages); accepted || err != nil {
		t.Errorf("accepted %v, %v", accepted, err)
	}
	if err := all[1].Drop(1); err != nil {
		t.Error(err)
	}
	all.mustRefuseEntry(t, "dropped or rejected", 1)
	courses[0].finish(t, all, sheet)
	all.mustJoin(t, sheet, 3, courses[0])
}

// The least count is of entered returns: neither those that await entry nor accepted ones that were dropped help to reach it.
func TestLeastCountsEntered(t *testing.T) {
	sheet := sheetOf(t, YesNo(), Number(8))
	all := openLeast(t, 2, sheet, 5, 2)
	courses := newCourses(t, sheet, 2, 4)
	courses[0].finish(t, all, sheet)
	for _, c := range courses[1:3] {
		c.upTo(t, all, sheet, AwaitsEntry)
	}
	all.mustRefuseClose(t, "one is entered, two await entry", ErrStage)
	all.drop(t, 1)
	all.drop(t, 2)
	all.mustRefuseClose(t, "three were accepted, one is entered", ErrFew)
	courses[3].upTo(t, all, sheet, AwaitsEntry)
	all.mustRefuseClose(t, "one awaits entry", ErrStage)
	courses[3].finish(t, all, sheet)
	all.mustJoin(t, sheet, 5, courses[0], courses[3])
}

// Returns that await entry are of the eight, and count towards N.
func TestEightAwaitEntry(t *testing.T) {
	sheet := sheetOf(t, YesNo(), Number(8))
	all := openAll(t, 2, sheet, Slots+1)
	courses := newCourses(t, sheet, 2, Slots+2)
	for _, c := range courses[:Slots] {
		c.upTo(t, all, sheet, AwaitsEntry)
	}
	_, err := all[0].Share(courses[Slots].shares[0], Pair{1000, 5})
	refused(t, err, ErrStage)
	all.enter(t, 5)
	_, err = all[0].Share(courses[2].shares[0], Pair{1000, 5})
	refused(t, err, ErrDecided)
	courses[Slots].upTo(t, all, sheet, AwaitsEntry)
	for _, id := range []uint32{7, 0, 8, 3, 6, 1, 2, 4} {
		_, err = all[0].Share(courses[Slots+1].shares[0], Pair{1000, 5})
		if waits := len(all[0].Waiting()); waits == Slots {
			refused(t, err, ErrStage)
		} else {
			refused(t, err, ErrFull)
		}
		all.enter(t, id)
	}
	all.mustJoin(t, sheet, Slots+1, courses[:Slots+1]...)
}

// A table with a stage that there is not is refused by every call.
func TestUnknownStage(t *testing.T) {
	sheet := sheetOf(t, YesNo(), Number(8))
	all := openAll(t, 2, sheet, 3)
	courses := newCourses(t, sheet, 2, 3)
	courses[0].upTo(t, all, sheet, AwaitsEntry)
	courses[1].upTo(t, all, sheet, AwaitsTwo)
	table := all[0]
	sound := table.slots[0]
	id, _, r, s, d, e := slotNumbers(sound)
	for _, stage := range []uint32{4, 5, 7, 256 + 3, 1<<16 + 3, 1<<31 + 3, math.MaxUint32} {
		table.slots[0] = newSlot(id, stage, r, s, d, e)
		before := stored(t, table)
		_, err := table.Share(courses[2].shares[0], Pair{1000, 5})
		refused(t, err, ErrStage)
		_, err = table.RoundTwo(1, courses[1].messages)
		refused(t, err, ErrStage)
		refused(t, table.Enter(0), ErrStage)
		refused(t, table.Drop(1), ErrStage)
		if !bytes.Equal(before, stored(t, table)) {
			t.Errorf("stage %d: the table is changed", stage)
		}
		if got, want := table.Waiting()[0].Awaits.String(), fmt.Sprintf("unknown stage %d", stage); got != want {
			t.Errorf("stage %d: %q", stage, got)
		}
	}
	table.slots[0] = sound
	all.enter(t, 0)
	courses[1].finish(t, all, sheet)
	all.mustJoin(t, sheet, 3, courses[0], courses[1])
}
