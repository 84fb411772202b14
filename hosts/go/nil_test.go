package pool

import (
	"errors"
	"math"
	"math/big"
	"testing"
)

// mustBeNil checks that an error tells of what is nil or empty.
func mustBeNil(t *testing.T, call string, err error) {
	t.Helper()
	if !errors.Is(err, ErrNil) {
		t.Errorf("%s: %v", call, err)
	}
}

// A sheet that is nil or empty gives errors, and tells nothing where there is none to give.
func TestNoSheet(t *testing.T) {
	for _, sheet := range []*Sheet{nil, {}} {
		clients := []*Client{nil, {}, {Sheet: sheet}, {Sheet: sheet, Servers: 2}, {Sheet: sheet, Servers: 9}}
		for _, client := range clients {
			_, err := client.Make(1, []uint32{1})
			mustBeNil(t, "make", err)
			_, err = client.MakeSeeded(1, nil)
			mustBeNil(t, "make from seeds", err)
		}
		_, err := Open(2, 0, sheet, 5, 1)
		mustBeNil(t, "open", err)
		_, err = Join(2, sheet, 5, nil)
		mustBeNil(t, "join", err)
		_, err = FitLine(2, sheet, 5, nil, 1)
		mustBeNil(t, "fit line", err)
		_, err = Totals{}.PointSums(sheet, 1)
		mustBeNil(t, "point sums", err)
		_, err = sheet.EveryReturn()
		mustBeNil(t, "every return", err)
		_, err = sheet.Circuit()
		mustBeNil(t, "circuit", err)
		_, err = sheet.DrawPair(nil)
		mustBeNil(t, "draw pair", err)
		_, err = sheet.AddPairs(Pair{2, 0})
		mustBeNil(t, "add pairs", err)
		if sheet.Bytes() != nil || sheet.Columns() != nil || sheet.Sizes() != (Sizes{}) || sheet.String() != "no sheet" {
			t.Errorf("%v has %v, %v, %v", sheet, sheet.Bytes(), sheet.Columns(), sheet.Sizes())
		}
	}
	_, err := sheetOf(t, YesNo()).AddPairs()
	mustBeNil(t, "add no pairs", err)
}

// A nil table gives errors, and so does one that was neither opened nor restored.
func TestNoTable(t *testing.T) {
	calls := func(table *Table) map[string]error {
		all := map[string]error{"enter": table.Enter(1), "drop": table.Drop(1)}
		_, all["share"] = table.Share(nil, Pair{})
		_, all["round one"] = table.RoundOne(1, nil)
		_, all["round two"] = table.RoundTwo(1, [][]byte{nil, {}})
		_, all["close"] = table.Close()
		_, all["state"] = table.State()
		return all
	}
	for call, err := range calls(nil) {
		mustBeNil(t, call, err)
	}
	for _, err := range calls(new(Table)) {
		refused(t, err, ErrStage)
	}
	for _, table := range []*Table{nil, {}} {
		_, err := table.MarshalBinary()
		mustBeNil(t, "store", err)
		if list := table.Waiting(); list != nil {
			t.Errorf("%v wait", list)
		}
	}
	b, _ := openAll(t, 2, sheetOf(t, YesNo()), 1)[0].MarshalBinary()
	mustBeNil(t, "restore", (*Table)(nil).UnmarshalBinary(b))
	if err := new(Table).UnmarshalBinary(nil); !errors.Is(err, ErrStored) {
		t.Errorf("nothing is restored: %v", err)
	}
}

// Empty messages and lists are refused by the core.
func TestNothing(t *testing.T) {
	sheet := sheetOf(t, YesNo(), Point(2))
	table := openAll(t, 2, sheet, 1)[0]
	for _, message := range [][]byte{nil, {}} {
		_, err := table.Share(message, Pair{1000, 5})
		refused(t, err, ErrShare)
		_, err = ReadSheet(message)
		refused(t, err, ErrLimit)
		_, err = Unshelve(1, 1, message)
		refused(t, err, ErrRun)
		if _, _, ok := RoundOnePair(message); ok || IsSeedMessage(message) {
			t.Error("nothing is a message")
		}
	}
	_, err := NewSheet()
	refused(t, err, ErrLimit)
	_, err = NewSheet(Column{})
	refused(t, err, ErrKind)
	for _, messages := range [][][]byte{nil, {}, {nil, nil}} {
		_, err = Join(2, sheet, 1, messages)
		refused(t, err, ErrJoined)
		_, err = FitLine(2, sheet, 1, messages, 2)
		refused(t, err, ErrJoined)
		_, err = Shelve(messages)
		refused(t, err, ErrLimit)
	}
	client := Client{Sheet: sheet, Servers: 2}
	_, err = client.Make(1, nil)
	refused(t, err, ErrValue)
	_, err = client.MakeSeeded(1, []uint32{})
	refused(t, err, ErrValue)
}

// Without a line there is nothing to say of it.
func TestNoFit(t *testing.T) {
	var none Fit
	slope, intercept := none.Fractions()
	near, other := none.Floats()
	if slope != nil || intercept != nil || !math.IsNaN(near) || !math.IsNaN(other) || none.String() != "no line" {
		t.Errorf("%v, %v, %v, %v, %v", slope, intercept, near, other, none)
	}
	if none.At(big.NewRat(1, 1)) != nil || (Fit{4, -8, 4}).At(nil) != nil {
		t.Error("an x or a line that is not there has a y")
	}
}
