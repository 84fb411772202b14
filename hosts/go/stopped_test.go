package pool

import (
	"bytes"
	"errors"
	"reflect"
	"testing"
)

// restored gives a table as it was stored.
func restored(t *testing.T, b []byte) *Table {
	t.Helper()
	table := new(Table)
	if err := table.UnmarshalBinary(b); err != nil {
		t.Fatal(err)
	}
	return table
}

// settle ends the returns that await entry at a server as the others have: some are entered, the rest are dropped.
func settle(t *testing.T, table *Table, entered map[uint32]bool) {
	t.Helper()
	for _, w := range table.Waiting() {
		if w.Awaits != AwaitsEntry {
			continue
		}
		end := table.Drop
		if entered[w.ID] {
			end = table.Enter
		}
		if err := end(w.ID); err != nil {
			t.Errorf("return %d: %v", w.ID, err)
		}
	}
}

// One of three servers stops between verdict and entry. The others enter two returns, drop a third and go on. It goes on later from
// its stored table, settles what awaits entry as they have, and its totals join with theirs.
func TestStopsBetweenVerdictAndEntry(t *testing.T) {
	sheet := sheetOf(t, YesNo(), Number(8))
	for stops := 0; stops < 3; stops++ {
		all := openLeast(t, 3, sheet, 8, 5)
		courses := newCourses(t, sheet, 3, 6)
		courses[0].finish(t, all, sheet)
		for _, c := range courses[1:4] {
			c.upTo(t, all, sheet, AwaitsEntry)
		}
		courses[4].upTo(t, all, sheet, AwaitsTwo)
		late := stored(t, all[stops])
		all[stops] = nil
		for _, table := range all {
			if table == nil {
				continue
			}
			for _, err := range []error{table.Enter(3), table.Drop(2), table.Enter(1)} {
				if err != nil {
					t.Fatal(err)
				}
			}
		}
		all[stops] = restored(t, late)
		want := map[uint32]Awaits{1: AwaitsEntry, 2: AwaitsEntry, 3: AwaitsEntry, 4: AwaitsTwo}
		if got := waiting(all[stops]); !reflect.DeepEqual(got, want) {
			t.Errorf("server %d stops: %v wait, want %v", stops, got, want)
		}
		settle(t, all[stops], map[uint32]bool{1: true, 3: true})
		courses[4].finish(t, all, sheet)
		courses[5].finish(t, all, sheet)
		all.mustJoin(t, sheet, 8, courses[0], courses[1], courses[3], courses[4], courses[5])
	}
}

// A server that does not know whether it has entered a return tries: on the table before, that is done, on the one after it is
// refused, and both come to the same table.
func TestNotSureWhetherEntered(t *testing.T) {
	sheet := sheetOf(t, YesNo(), Number(8))
	all := openAll(t, 2, sheet, 2)
	courses := newCourses(t, sheet, 2, 2)
	courses[0].finish(t, all, sheet)
	courses[1].upTo(t, all, sheet, AwaitsEntry)
	before := restored(t, stored(t, all[1]))
	all.enter(t, 1)
	after := restored(t, stored(t, all[1]))
	if err := before.Enter(1); err != nil {
		t.Error(err)
	}
	refused(t, after.Enter(1), ErrStage)
	if len(after.Waiting()) != 0 || !bytes.Equal(stored(t, before), stored(t, after)) {
		t.Error("the tables differ")
	}
	all[1] = after
	all.mustJoin(t, sheet, 2, courses...)
}

// A server that has entered a return which another one dropped: the counts differ, and joining is refused. With as many entered no
// returns give the totals, and joining tells that the servers went apart.
func TestEntriesThatDiffer(t *testing.T) {
	sheet := sheetOf(t, YesNo(), Number(8))
	open := func() servers {
		all, courses := openAll(t, 2, sheet, 4), newCourses(t, sheet, 2, 3)
		for _, c := range courses {
			c.upTo(t, all, sheet, AwaitsEntry)
		}
		return all
	}
	all := open()
	settle(t, all[0], map[uint32]bool{0: true, 1: true, 2: true})
	settle(t, all[1], map[uint32]bool{0: true, 2: true})
	_, err := Join(2, sheet, 4, all.each(t, func(_ int, table *Table) ([]byte, error) { return table.Close() }))
	refused(t, err, ErrJoined)

	all = open()
	settle(t, all[0], map[uint32]bool{0: true, 1: true})
	settle(t, all[1], map[uint32]bool{0: true, 2: true})
	totals, err := Join(2, sheet, 4, all.each(t, func(_ int, table *Table) ([]byte, error) { return table.Close() }))
	if !errors.Is(err, ErrApart) || totals.Lines != nil {
		t.Errorf("totals %v, %v", totals, err)
	}
}
