package pool

import (
	"reflect"
	"testing"
)

func TestEveryReturn(t *testing.T) {
	got, err := sheetOf(t, YesNo(), Choice(3)).EveryReturn()
	if want := [][]uint32{{0, 0}, {0, 1}, {0, 2}, {1, 0}, {1, 1}, {1, 2}}; err != nil || !reflect.DeepEqual(got, want) {
		t.Errorf("got %v, %v, want %v", got, err, want)
	}
}

// As many returns as may be, each one more than the one before it, as in counting.
func TestEveryReturnCounts(t *testing.T) {
	many := make([]Column, 12)
	bases := make([]uint32, 12)
	for k := range many {
		many[k], bases[k] = YesNo(), 2
	}
	for _, test := range []struct {
		sheet *Sheet
		bases []uint32 // how many values each column has
	}{
		{sheetOf(t, many...), bases},
		{sheetOf(t, Number(12)), []uint32{4096}},
		{sheetOf(t, Choice(64), Number(6)), []uint32{64, 64}},
		{sheetOf(t, Number(2), YesNo(), Choice(5), Number(1)), []uint32{4, 2, 5, 2}},
		{sheetOf(t, UpTo(4095)), []uint32{4096}},
		{sheetOf(t, YesNo(), UpTo(200), UpTo(1), UpTo(4)), []uint32{2, 201, 2, 5}},
		{sheetOf(t, Point(6)), []uint32{4096}},
		{sheetOf(t, Point(1), Choice(3), Point(2), YesNo()), []uint32{4, 3, 16, 2}},
	} {
		all, err := test.sheet.EveryReturn()
		if err != nil {
			t.Fatal(err)
		}
		next := make([]uint32, len(test.bases))
		for _, values := range all {
			if !reflect.DeepEqual(values, next) {
				t.Fatalf("%v: got %v, want %v", test.sheet.Columns(), values, next)
			}
			count(next, test.bases)
		}
		want := 1 // the room of the list is the number that the core told
		for _, base := range test.bases {
			want *= int(base)
		}
		if len(all) != want || cap(all) != want {
			t.Errorf("%v: %d returns, told %d, want %d", test.sheet.Columns(), len(all), cap(all), want)
		}
	}
}

// count adds one to a list of digits, the last counting least; after the greatest comes the least again.
func count(digits, bases []uint32) {
	for k := len(digits) - 1; k >= 0; k-- {
		if digits[k]++; digits[k] < bases[k] {
			return
		}
		digits[k] = 0
	}
}

// Every legal return can be made.
func TestEveryReturnIsLegal(t *testing.T) {
	client := Client{Sheet: sheetOf(t, Choice(3), Number(2), YesNo(), UpTo(2), Point(1)), Servers: 2}
	all, err := client.Sheet.EveryReturn()
	if err != nil || len(all) != 288 {
		t.Errorf("%d returns, %v", len(all), err)
	}
	for id, values := range all {
		if _, err := client.Make(uint32(id), values); err != nil {
			t.Errorf("%v: %v", values, err)
		}
	}
}

func TestTooManyReturns(t *testing.T) {
	many := make([]Column, 256)
	for k := range many {
		many[k] = YesNo()
	}
	for _, columns := range [][]Column{many[:13], many, {Number(13)}, {Choice(64), Choice(64), YesNo()},
		{YesNo(), Choice(41), Choice(50)}, {UpTo(4096)}, {UpTo(2048), YesNo()}, {UpTo(1<<24 - 1)},
		{Point(7)}, {Point(6), YesNo()}, {Point(12)}} {
		_, err := sheetOf(t, columns...).EveryReturn()
		refused(t, err, ErrMany)
	}
}
