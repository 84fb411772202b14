package pool

import (
	"encoding/binary"
	"reflect"
	"testing"
)

// falsify adds 7 to the first entry of a share.
func falsify(share []byte) {
	entry := share[6:]
	binary.LittleEndian.PutUint32(entry, (binary.LittleEndian.Uint32(entry)+7)%prime)
}

func TestCheatAndDrop(t *testing.T) {
	sheet := sheetOf(t, YesNo(), Number(8))
	client := Client{Sheet: sheet, Servers: 3}
	all := openAll(t, 3, sheet, 4)
	honest, _ := client.Make(1, []uint32{1, 40})
	false1, _ := client.Make(2, []uint32{1, 50})
	late, _ := client.Make(3, []uint32{1, 60})

	falsify(false1[2])
	if !all.judge(t, sheet, honest) || all.judge(t, sheet, false1) {
		t.Error("wrong verdicts")
	}
	all.start(t, sheet, late)
	for _, table := range all {
		refused(t, table.Drop(2), ErrStage)
		if err := table.Drop(3); err != nil {
			t.Error(err)
		}
		refused(t, table.Drop(3), ErrStage)
	}
	_, err := all[0].Share(late[0], Pair{100, 5})
	refused(t, err, ErrDecided)
	totals := all.closeAndJoin(t, sheet, 4)
	want := Totals{1, []Line{{1, 0, 1}, {2, 0, 40}}}
	if !reflect.DeepEqual(totals, want) {
		t.Errorf("totals %v, want %v", totals, want)
	}
	refused(t, all[0].Drop(3), ErrStage)
}

// hold says in which slots a return must be; in the others all is 0, in their places too.
func (all servers) hold(t *testing.T, sheet *Sheet, stage string, want []int) {
	t.Helper()
	place := sheet.tableElements() / Slots
	for own, table := range all {
		var got []int
		for k, x := range table.slots {
			if x != (slot{}) {
				got = append(got, k)
			} else if zeros := make([]uint32, place); !reflect.DeepEqual(table.elements[k*place:][:place], zeros) {
				t.Errorf("%s, server %d: elements stay in place %d", stage, own, k)
			}
		}
		if !reflect.DeepEqual(got, want) {
			t.Errorf("%s, server %d: returns in slots %v, want %v", stage, own, got, want)
		}
	}
}

// A return that is decided leaves zeros where it waited, however it was decided, and the others that wait stay.
func TestErased(t *testing.T) {
	sheet := sheetOf(t, YesNo(), Number(8))
	client := Client{Sheet: sheet, Servers: 2}
	all := openAll(t, 2, sheet, 8)
	holds := func(stage string, want ...int) {
		t.Helper()
		all.hold(t, sheet, stage, want)
	}
	var shares [6][][]byte
	for id := range shares {
		shares[id], _ = client.Make(uint32(id), []uint32{1, 40})
	}
	falsify(shares[1][0])

	holds("opened")
	for id, stage := range []string{"entered", "rejected"} {
		if accepted := all.judge(t, sheet, shares[id]); accepted != (id == 0) {
			t.Errorf("%s: the verdict is %v", stage, accepted)
		}
		holds(stage)
	}
	all.start(t, sheet, shares[2])
	ones := all.start(t, sheet, shares[3])
	last := all.start(t, sheet, shares[4])
	holds("three await round one", 0, 1, 2)
	all.roundOne(t, 3, ones)
	holds("the second awaits round two", 0, 1, 2)
	all.drop(t, 2)
	holds("the first is dropped before round one", 1, 2)
	all.start(t, sheet, shares[5])
	holds("the first slot is taken again", 0, 1, 2)
	all.drop(t, 3)
	holds("the second is dropped before round two", 0, 2)
	all.roundTwo(t, 4, all.roundOne(t, 4, last))
	holds("the third is accepted", 0, 2)
	all.drop(t, 5)
	holds("the first is dropped before round one", 2)
	all.enter(t, 4)
	holds("all are decided")
	all.closeAndJoin(t, sheet, 8)
	holds("closed")
}

// A table goes on after a restart, at each of its stages.
func TestRestart(t *testing.T) {
	sheet := sheetOf(t, Choice(3))
	client := Client{Sheet: sheet, Servers: 2}
	all := openAll(t, 2, sheet, 2)
	restart := func() {
		for k, table := range all {
			b, err := table.MarshalBinary()
			if err != nil {
				t.Fatal(err)
			}
			all[k] = new(Table)
			if err := all[k].UnmarshalBinary(b); err != nil {
				t.Fatal(err)
			}
			for at := range b {
				b[at] ^= 1 // the table has a copy
			}
		}
	}
	shares, _ := client.Make(9, []uint32{2})
	restart()
	ones := all.start(t, sheet, shares)
	restart()
	twos := all.roundOne(t, 9, ones)
	restart()
	if !all.roundTwo(t, 9, twos) {
		t.Error("an honest return is rejected")
	}
	restart()
	all.enter(t, 9)
	restart()
	if totals := all.closeAndJoin(t, sheet, 2); totals.Accepted != 1 || totals.Lines[2].Total != 1 {
		t.Errorf("totals %v", totals)
	}
	var empty Table
	refused(t, empty.Drop(0), ErrStage)
	refused(t, empty.Enter(0), ErrStage)
}

func TestRefusals(t *testing.T) {
	sheet := sheetOf(t, YesNo())
	for _, n := range []uint32{0, 1, 9, 258, 1<<32 - 1} {
		client := Client{Sheet: sheet, Servers: n}
		_, err := client.Make(1, []uint32{1})
		refused(t, err, ErrLimit)
		_, err = Open(n, 0, sheet, 1, 1)
		refused(t, err, ErrLimit)
		_, err = Join(n, sheet, 1, nil)
		refused(t, err, ErrLimit)
	}
	client := Client{Sheet: sheet, Servers: 2}
	_, err := client.Make(1, []uint32{2})
	refused(t, err, ErrValue)
	_, err = client.Make(1, nil)
	refused(t, err, ErrValue)
	for _, returns := range []uint32{0, 1025, 1<<32 - 1} {
		_, err = Open(2, 0, sheet, returns, 1)
		refused(t, err, ErrLimit)
	}
	_, err = Open(2, 0, sheetOf(t, Number(24)), 129, 1)
	refused(t, err, ErrWrap)
	_, err = Open(2, 0, sheetOf(t, UpTo(1<<24-1)), 129, 1)
	refused(t, err, ErrWrap)
	_, err = Join(2, sheet, 1, nil)
	refused(t, err, ErrJoined)
}

func TestTableRefusals(t *testing.T) {
	sheet := sheetOf(t, YesNo())
	client := Client{Sheet: sheet, Servers: 2}
	table, err := Open(2, 0, sheet, 1, 1)
	if err != nil {
		t.Fatal(err)
	}
	shares, _ := client.Make(1, []uint32{1})
	_, err = table.Share(shares[1], Pair{2, 0})
	refused(t, err, ErrShare)
	for _, pair := range []Pair{{1, 0}, {uint64(prime), 0}, {1<<32 + 4, 0}, {4, uint64(prime)}} {
		_, err = table.Share(shares[0], pair)
		refused(t, err, ErrPair)
	}
	_, err = table.RoundOne(1, nil)
	refused(t, err, ErrStage)
	if _, err = table.Share(shares[0], Pair{2, 0}); err != nil {
		t.Error(err)
	}
	_, err = table.RoundOne(2, nil)
	refused(t, err, ErrStage)
	_, err = table.RoundTwo(1, nil)
	refused(t, err, ErrStage)
	_, err = table.RoundOne(1, nil)
	refused(t, err, ErrJoined)
	_, err = table.Close()
	refused(t, err, ErrStage)
	if err = table.Drop(1); err != nil {
		t.Error(err)
	}
	_, err = table.Share(shares[0], Pair{2, 0})
	refused(t, err, ErrFull)
}
