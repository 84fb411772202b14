package pool

import (
	"bytes"
	"encoding/binary"
	"errors"
	"math/rand"
	"reflect"
	"testing"
)

// course is a return that is under way at all servers.
type course struct {
	id       uint32
	values   []uint32
	shares   [][]byte
	awaits   Awaits // 0 where its shares are not yet taken, ended where it is decided
	messages [][]byte
}

const ended = AwaitsEntry + 1

// newCourses makes so many returns, with ids from 0, on a sheet of a yes/no and a number of 8 bits.
func newCourses(t *testing.T, sheet *Sheet, servers uint32, n int) []*course {
	t.Helper()
	client := Client{Sheet: sheet, Servers: servers}
	var list []*course
	for id := 0; id < n; id++ {
		c := &course{id: uint32(id), values: []uint32{uint32(id % 2), uint32(10 * id)}}
		var err error
		if c.shares, err = client.Make(c.id, c.values); err != nil {
			t.Fatal(err)
		}
		list = append(list, c)
	}
	return list
}

// step takes a return one step on at every server; that of round two gives the verdict.
func (c *course) step(t *testing.T, all servers, sheet *Sheet) (accepted bool) {
	t.Helper()
	switch c.awaits {
	case 0:
		c.messages = all.start(t, sheet, c.shares)
	case AwaitsOne:
		c.messages = all.roundOne(t, c.id, c.messages)
	case AwaitsTwo:
		if accepted = all.roundTwo(t, c.id, c.messages); !accepted {
			c.awaits = ended
			return false
		}
	case AwaitsEntry:
		all.enter(t, c.id)
	}
	c.awaits++
	return accepted
}

// finish takes a return to its end, entered or rejected, and gives the verdict where it has none yet.
func (c *course) finish(t *testing.T, all servers, sheet *Sheet) (accepted bool) {
	t.Helper()
	for c.awaits < ended {
		accepted = c.step(t, all, sheet) || accepted
	}
	return accepted
}

// waiting gives the ids that wait at a server, each with what it awaits.
func waiting(table *Table) map[uint32]Awaits {
	got := map[uint32]Awaits{}
	for _, w := range table.Waiting() {
		got[w.ID] = w.Awaits
	}
	return got
}

// isFalse and isDropped say what becomes of a return in TestSeveralUnderWay.
func (c *course) isFalse() bool   { return c.id%7 == 3 }
func (c *course) isDropped() bool { return c.id%5 == 2 }

// Many returns, up to eight of them under way, each step of a random one: false ones are rejected, honest ones accepted and
// entered, dropped ones in no total, at whichever stage they are dropped.
func TestSeveralUnderWay(t *testing.T) {
	sheet := sheetOf(t, YesNo(), Number(8))
	for seed := int64(0); seed < 20; seed++ {
		all := openAll(t, 3, sheet, 30)
		courses := newCourses(t, sheet, 3, 25)
		want := Totals{0, []Line{{1, 0, 0}, {2, 0, 0}}}
		for _, c := range courses {
			if c.isFalse() {
				binary.LittleEndian.PutUint32(c.shares[1][6:], 12345)
			} else if !c.isDropped() {
				want.Accepted++
				want.Lines[0].Total += c.values[0]
				want.Lines[1].Total += c.values[1]
			}
		}
		mix(t, rand.New(rand.NewSource(seed)), all, sheet, courses)
		if got := all.closeAndJoin(t, sheet, 30); !reflect.DeepEqual(got, want) {
			t.Errorf("seed %d: totals %v, want %v", seed, got, want)
		}
	}
}

// mix takes all returns to their end in a random order of steps.
func mix(t *testing.T, random *rand.Rand, all servers, sheet *Sheet, courses []*course) {
	t.Helper()
	var under []*course
	for len(courses) > 0 || len(under) > 0 {
		k := random.Intn(Slots)
		if k >= len(under) {
			if len(courses) == 0 {
				continue
			}
			k, under, courses = len(under), append(under, courses[0]), courses[1:]
		}
		c := under[k]
		judged := c.awaits == AwaitsTwo
		if c.isDropped() && c.awaits > Awaits(c.id%3) {
			all.drop(t, c.id)
			c.awaits = ended
		} else if accepted := c.step(t, all, sheet); judged && accepted == c.isFalse() {
			t.Errorf("the verdict on return %d", c.id)
		}
		if c.awaits == ended {
			under = append(under[:k:k], under[k+1:]...)
		}
		still := map[uint32]Awaits{}
		for _, c := range under {
			still[c.id] = c.awaits
		}
		for own, table := range all {
			if got := waiting(table); !reflect.DeepEqual(got, still) {
				t.Fatalf("server %d: %v wait, want %v", own, got, still)
			}
		}
	}
}

// fill takes the shares of the first returns at every server.
func fill(t *testing.T, all servers, sheet *Sheet, courses []*course) {
	t.Helper()
	for _, c := range courses {
		c.step(t, all, sheet)
	}
}

// A ninth share is refused 11 and taken once a return is decided; an id that waits is refused 10.
func TestNinthShare(t *testing.T) {
	sheet := sheetOf(t, YesNo(), Number(8))
	all := openAll(t, 2, sheet, 20)
	courses := newCourses(t, sheet, 2, 10)
	fill(t, all, sheet, courses[:Slots-1])
	_, err := all[0].Share(courses[3].shares[0], Pair{100, 5})
	refused(t, err, ErrDecided)
	fill(t, all, sheet, courses[Slots-1:Slots])
	for own, table := range all {
		refusedWithEight(t, table, courses[8].shares[own], courses[0].messages)
	}
	all.drop(t, 4)
	fill(t, all, sheet, courses[8:9])
	for _, k := range []int{7, 0, 8, 2, 1, 6, 3, 5} {
		courses[k].step(t, all, sheet)
	}
	for _, k := range []int{5, 8, 1, 0, 7, 3, 6, 2} {
		if !courses[k].finish(t, all, sheet) {
			t.Errorf("return %d is rejected", k)
		}
	}
	want := Totals{8, []Line{{1, 0, 4}, {2, 0, 10 * (0 + 1 + 2 + 3 + 5 + 6 + 7 + 8)}}}
	if got := all.closeAndJoin(t, sheet, 20); !reflect.DeepEqual(got, want) {
		t.Errorf("totals %v, want %v", got, want)
	}
}

// refusedWithEight tries what a table refuses in which the returns 0 to 7 await round one, with the share of return 8 and the
// round-one messages of return 0.
func refusedWithEight(t *testing.T, table *Table, ninth []byte, ones [][]byte) {
	t.Helper()
	before, _ := table.MarshalBinary()
	_, err := table.Share(ninth, Pair{100, 5})
	refused(t, err, ErrStage)
	_, err = table.Share(nil, Pair{})
	refused(t, err, ErrStage)
	_, err = table.Close()
	refused(t, err, ErrStage)
	_, err = table.RoundOne(8, ones)
	refused(t, err, ErrStage)
	_, err = table.RoundOne(1, ones)
	refused(t, err, ErrJoined)
	_, err = table.RoundTwo(1, ones)
	refused(t, err, ErrStage)
	refused(t, table.Enter(1), ErrStage)
	refused(t, table.Drop(8), ErrStage)
	if after, _ := table.MarshalBinary(); !bytes.Equal(before, after) {
		t.Error("a refused call changes the table")
	}
}

// Decided and waiting returns together are N at most. With eight waiting a share is refused 11, whatever N is.
func TestDecidedAndWaiting(t *testing.T) {
	sheet := sheetOf(t, YesNo(), Number(8))
	all := openAll(t, 2, sheet, Slots)
	courses := newCourses(t, sheet, 2, Slots+1)
	last := courses[Slots].shares[0]
	fill(t, all, sheet, courses[:Slots-1])
	if _, err := all[0].Share(last[:20], Pair{}); !errors.Is(err, ErrShare) {
		t.Errorf("seven wait: %v", err)
	}
	fill(t, all, sheet, courses[Slots-1:Slots])
	_, err := all[0].Share(last, Pair{100, 5})
	refused(t, err, ErrStage)
	for k := 0; k < Slots; k++ {
		all.drop(t, uint32(k))
		_, err := all[0].Share(last, Pair{100, 5})
		refused(t, err, ErrFull)
	}
	_, err = all[0].Close()
	refused(t, err, ErrFew)
}

// Tables are stored and restored with eight returns waiting, some in each stage, and finish as if nothing had been.
func TestRestartWithEightWaiting(t *testing.T) {
	sheet := sheetOf(t, YesNo(), Number(8))
	all := openAll(t, 2, sheet, 20)
	courses := newCourses(t, sheet, 2, 10)
	fill(t, all, sheet, courses[:Slots])
	for _, k := range []int{0, 3, 6, 3, 6} {
		courses[k].step(t, all, sheet)
	}
	for own, table := range all {
		b, err := table.MarshalBinary()
		if err != nil {
			t.Fatal(err)
		}
		all[own] = new(Table)
		if err := all[own].UnmarshalBinary(b); err != nil {
			t.Fatal(err)
		}
		if !reflect.DeepEqual(all[own], table) {
			t.Error("another table is restored")
		}
		if got := waiting(all[own]); len(got) != Slots || got[0] != AwaitsTwo || got[1] != AwaitsOne || got[6] != AwaitsEntry {
			t.Errorf("after the restart %v wait", got)
		}
	}
	_, err := all[0].Share(courses[8].shares[0], Pair{100, 5})
	refused(t, err, ErrStage)
	for k := Slots - 1; k >= 0; k-- {
		if judged := courses[k].awaits == AwaitsEntry; courses[k].finish(t, all, sheet) == judged {
			t.Errorf("return %d is rejected, or judged again", k)
		}
	}
	if got := all.closeAndJoin(t, sheet, 20); got.Accepted != 8 || got.Lines[1].Total != 280 {
		t.Errorf("totals %v", got)
	}
}

// What is no whole stored table is not restored, and the table stays as it was.
func TestStored(t *testing.T) {
	sheet := sheetOf(t, YesNo(), Number(8))
	all := openAll(t, 2, sheet, 3)
	courses := newCourses(t, sheet, 2, 2)
	older, _ := all[0].MarshalBinary()
	fill(t, all, sheet, courses)
	stored, _ := all[0].MarshalBinary()
	restored := new(Table)
	if err := restored.UnmarshalBinary(stored); err != nil {
		t.Fatal(err)
	}
	alter := func(at int, by byte) []byte {
		b := append([]byte(nil), stored...)
		b[at] ^= by
		return b
	}
	wrong := [][]byte{nil, {2, 0}, all[0].bytes, stored[1:], stored[:len(stored)-1], append(alter(0, 0), 0),
		append(append([]byte(nil), stored...), stored...), alter(7, 1), alter(8, 1), alter(11, 0x80), alter(12, 8), alter(15, 0xff),
		alter(len(stored)-1, 1), append(append([]byte(nil), stored[:200]...), older[200:]...), make([]byte, len(stored))}
	for at := range stored {
		wrong = append(wrong, alter(at, 1<<(at%8)))
	}
	for k, b := range wrong {
		if err := restored.UnmarshalBinary(b); !errors.Is(err, ErrStored) {
			t.Errorf("wrong slice %d: %v", k, err)
		}
	}
	if !reflect.DeepEqual(restored, all[0]) {
		t.Error("a wrong slice changes the table")
	}
}
