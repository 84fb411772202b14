package pool

import (
	"fmt"
	"math"
	"reflect"
	"testing"
)

// A column tells what it was made with.
func TestColumns(t *testing.T) {
	for _, test := range []struct {
		column  Column
		kind    Kind
		size    int
		largest uint32
		text    string
	}{
		{YesNo(), KindYesNo, 0, 1, "yes/no"},
		{Choice(2), KindChoice, 2, 1, "choice of 2"},
		{Choice(64), KindChoice, 64, 63, "choice of 64"},
		{Number(1), KindNumber, 1, 1, "number of 1 bit"},
		{Number(24), KindNumber, 24, 1<<24 - 1, "number of 24 bits"},
		{UpTo(200), KindTop, 200, 200, "number up to 200"},
		{UpTo(1<<24 - 1), KindTop, 1<<24 - 1, 1<<24 - 1, "number up to 16777215"},
		{Point(1), KindPoint, 1, 3, "point of 1 bit"},
		{Point(12), KindPoint, 12, 1<<24 - 1, "point of 12 bits"},
	} {
		c := test.column
		if c.Kind() != test.kind || c.Size() != test.size || c.Largest() != test.largest || c.String() != test.text {
			t.Errorf("%v: %v, %d, %d", c, c.Kind(), c.Size(), c.Largest())
		}
		client := Client{Sheet: sheetOf(t, c), Servers: 2}
		if _, err := client.Make(1, []uint32{c.Largest()}); err != nil || !reflect.DeepEqual(client.Sheet.Columns(), []Column{c}) {
			t.Errorf("%v: %v, on its sheet %v", c, err, client.Sheet)
		}
		_, err := client.Make(1, []uint32{c.Largest() + 1})
		refused(t, err, ErrValue)
	}
}

// What does not fit into a column is refused and not cut.
func TestColumnSizes(t *testing.T) {
	for _, size := range []int{-1, 0, 255, 256 + 4, 1<<16 + 4, 1<<32 + 4, math.MinInt, math.MinInt + 4, math.MaxInt} {
		for _, c := range []Column{Choice(size), Number(size), Point(size)} {
			_, err := NewSheet(YesNo(), c)
			refused(t, err, ErrLimit)
		}
	}
}

func TestKindsInWords(t *testing.T) {
	for _, test := range []struct {
		names fmt.Stringer
		want  string
	}{{Kind(22), "unknown kind 22"}, {Column{}, "unknown kind 0"}, {KindTop, "number up to a top"}, {KindChoice, "choice"}} {
		if got := test.names.String(); got != test.want {
			t.Errorf("%s, want %s", got, test.want)
		}
	}
}
