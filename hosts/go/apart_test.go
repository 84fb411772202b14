package pool

import (
	"errors"
	"math/rand"
	"strings"
	"testing"
)

// sums gives the totals of returns in one column, worked out plainly.
func (c Column) sums(values []uint32) []uint32 {
	sums := make([]uint32, c.published())
	for _, value := range values {
		switch c.Kind() {
		case KindChoice:
			sums[value]++
		case KindPoint:
			x, y, _ := c.PointXY(value)
			for k, sum := range [pointTotals]uint32{x, x * x, y, x * y} {
				sums[k] += sum
			}
		default:
			sums[0] += value
		}
	}
	return sums
}

// What returns give is joined, whatever they are: all lists of three points of two bits, and random and extreme values of all columns.
func TestTotalsOfReturns(t *testing.T) {
	point := sheetOf(t, Point(2))
	for a := uint32(0); a < 16; a++ {
		for b := a; b < 16; b++ {
			for c := b; c < 16; c++ {
				mustJoinTotals(t, point, 3, point.Columns()[0].sums([]uint32{a, b, c}))
			}
		}
	}
	random := rand.New(rand.NewSource(3))
	for _, sheet := range []*Sheet{sheetOf(t, YesNo()), sheetOf(t, Choice(2)), sheetOf(t, Choice(64)), sheetOf(t, Number(1)),
		sheetOf(t, Number(24)), sheetOf(t, UpTo(1)), sheetOf(t, UpTo(1<<24-1)), sheetOf(t, Point(1)), sheetOf(t, Point(12))} {
		column := sheet.Columns()[0]
		for _, n := range []int{0, 1, 2, 100, sheet.Sizes().GreatestReturns} {
			values := [3][]uint32{make([]uint32, n), make([]uint32, n), make([]uint32, n)} // least, largest, random
			for k := 0; k < n; k++ {
				values[1][k], values[2][k] = column.Largest(), uint32(random.Int63n(int64(column.Largest())+1))
			}
			for _, list := range values {
				mustJoinTotals(t, sheet, uint32(n), column.sums(list))
			}
		}
	}
}

// mustJoinTotals checks that totals are joined as they are.
func mustJoinTotals(t *testing.T, sheet *Sheet, n uint32, totals []uint32) {
	t.Helper()
	got, err := Join(2, sheet, uint32(sheet.Sizes().GreatestReturns), totalsMessages(2, n, totals...))
	if err != nil || got.Accepted != n || len(got.Lines) != len(totals) {
		t.Fatalf("%v, %d returns, %v: %v, %v", sheet, n, totals, got, err)
	}
	for k, line := range got.Lines {
		if line.Total != totals[k] {
			t.Fatalf("%v: %v, want %v", sheet, got, totals)
		}
	}
}

// totalsApart are totals that no n returns in a column give.
var totalsApart = []struct {
	column Column
	n      uint32
	totals []uint32
	says   string
}{
	{YesNo(), 0, []uint32{1}, "the total is 1, and 0 at most"},
	{YesNo(), 3, []uint32{4}, "the total is 4, and 3 at most"},
	{YesNo(), 3, []uint32{prime - 1}, "and 3 at most"},
	{Number(8), 2, []uint32{511}, "the total is 511, and 510 at most"},
	{UpTo(200), 2, []uint32{401}, "the total is 401, and 400 at most"},
	{Choice(3), 3, []uint32{1, 1, 0}, "the options add up to 2"},
	{Choice(3), 3, []uint32{3, 1, 0}, "the options add up to 4"},
	{Choice(2), 1, []uint32{prime - 1, 2}, "the options add up to 2147483648"},
	{Choice(3), 0, []uint32{0, 0, 1}, "the options add up to 1"},
	{Point(2), 2, []uint32{7, 14, 3, 10}, "x is above its bits"},
	{Point(2), 2, []uint32{3, 5, 7, 9}, "y is above its bits"},
	{Point(2), 2, []uint32{3, 2, 3, 4}, "x * x is below x"},
	{Point(2), 2, []uint32{1, 4, 3, 1}, "x * x is above x times its top"},
	{Point(2), 2, []uint32{1, 1, 3, 4}, "x * y is above x times the top of y"},
	{Point(2), 2, []uint32{3, 5, 1, 4}, "x * y is above y times the top of x"},
	{Point(2), 2, []uint32{6, 18, 6, 17}, "x * y is below what x and y near their tops have"},
	{Point(2), 2, []uint32{4, 7, 3, 6}, "x squared is above the number of returns times x * x"},
}

// They are an error that says so, beside columns that have nothing wrong.
func TestApart(t *testing.T) {
	for _, test := range totalsApart {
		sheet := sheetOf(t, Number(3), test.column, YesNo())
		messages := totalsMessages(3, test.n, append(append([]uint32{0}, test.totals...), 0)...)
		got, err := Join(3, sheet, 100, messages)
		if !errors.Is(err, ErrApart) || got.Lines != nil || !strings.Contains(err.Error(), test.says) ||
			!strings.Contains(err.Error(), "column 2, ") {
			t.Errorf("%v of %d: %v, %v", test.column, test.n, got, err)
		}
		var refusal Refusal
		if errors.As(err, &refusal) {
			t.Errorf("%v: a refusal of the core", err)
		}
		if test.column.IsPoint() {
			if fit, err := FitLine(3, sheet, 100, messages, 2); !errors.Is(err, ErrApart) || fit != (Fit{}) {
				t.Errorf("%v of %d: the line %v, %v", test.column, test.n, fit, err)
			}
		}
	}
}

// Two of three servers enter return 1 where the third enters return 2, in each column by itself: joining tells.
func TestEnteredApart(t *testing.T) {
	for _, column := range []Column{YesNo(), Choice(3), Number(8), UpTo(200), Point(6)} {
		sheet := sheetOf(t, column)
		client := Client{Sheet: sheet, Servers: 3}
		all := openAll(t, 3, sheet, 4)
		for id := uint32(1); id <= 2; id++ {
			shares, err := client.Make(id, []uint32{id - 1})
			if err != nil || !all.roundTwo(t, id, all.roundOne(t, id, all.start(t, sheet, shares))) {
				t.Fatalf("%v: return %d, %v", column, id, err)
			}
		}
		settle(t, all[0], map[uint32]bool{1: true})
		settle(t, all[1], map[uint32]bool{1: true})
		settle(t, all[2], map[uint32]bool{2: true})
		messages := all.each(t, func(_ int, table *Table) ([]byte, error) { return table.Close() })
		if totals, err := Join(3, sheet, 4, messages); !errors.Is(err, ErrApart) {
			t.Errorf("%v: %v, %v", column, totals, err)
		}
	}
}
