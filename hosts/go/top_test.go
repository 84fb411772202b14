package pool

import (
	"bytes"
	"math"
	"reflect"
	"testing"
)

func TestTopInSheet(t *testing.T) {
	sheet := sheetOf(t, UpTo(200), YesNo(), UpTo(1<<24-1))
	if want := []byte{20, 200, 0, 0, 0, 17, 20, 255, 255, 255, 0}; !bytes.Equal(sheet.Bytes(), want) {
		t.Errorf("bytes %v, want %v", sheet.Bytes(), want)
	}
	if got := sheet.Columns()[0]; got != UpTo(200) || got.String() != "number up to 200" {
		t.Errorf("column %v", got)
	}
	for _, top := range []int{-1, 0, 1 << 24, 1<<24 + 1, 1 << 31, 1<<32 - 1, 1 << 32, 1<<32 + 200, math.MinInt, math.MaxInt} {
		_, err := NewSheet(UpTo(top))
		refused(t, err, ErrLimit)
	}
	// 85 columns of 3 entries, and one of 1.
	long := make([]Column, 85, 87)
	for k := range long {
		long[k] = UpTo(1)
	}
	longest := sheetOf(t, append(long, YesNo())...)
	if len(longest.Bytes()) != 426 || longest.Sizes().Entries != 256 {
		t.Errorf("%d bytes, %+v", len(longest.Bytes()), longest.Sizes())
	}
	testMade(t, longest)
	_, err := NewSheet(append(long, YesNo(), YesNo())...)
	refused(t, err, ErrLimit)
}

// The top is taken, and one more is not, whether it has more bits or not.
func TestValuesAtTheTop(t *testing.T) {
	for _, top := range []int{1, 2, 200, 255, 256, 1<<24 - 2, 1<<24 - 1} {
		client := Client{Sheet: sheetOf(t, UpTo(top)), Servers: 2}
		for _, value := range []uint32{0, uint32(top - 1), uint32(top)} {
			if _, err := client.Make(1, []uint32{value}); err != nil {
				t.Errorf("%d of %d: %v", value, top, err)
			}
		}
		for _, value := range []uint32{uint32(top + 1), uint32(top + 256), 1 << 24, 1<<32 - 1} {
			_, err := client.Make(1, []uint32{value})
			refused(t, err, ErrValue)
		}
	}
}

// A workshop makes its return with a higher top of as many bits: the shares have the form that the servers expect, and all
// bits are bits. The servers hold it to their own top.
func TestPastTheTop(t *testing.T) {
	sheet := sheetOf(t, UpTo(200), YesNo())
	all := openAll(t, 3, sheet, 10)
	for id, test := range []struct {
		top   int
		value uint32
		want  bool
	}{{200, 200, true}, {201, 201, false}, {255, 255, false}, {255, 201, false}, {255, 40, false}, {200, 0, true}} {
		client := Client{Sheet: sheetOf(t, UpTo(test.top), YesNo()), Servers: 3}
		shares, err := client.Make(uint32(id), []uint32{test.value, 1})
		if err != nil {
			t.Fatal(err)
		}
		if got := all.judge(t, sheet, shares); got != test.want {
			t.Errorf("%d of %d: accepted %v", test.value, test.top, got)
		}
	}
	totals := all.closeAndJoin(t, sheet, 10)
	if want := (Totals{2, []Line{{1, 0, 200}, {2, 0, 2}}}); !reflect.DeepEqual(totals, want) {
		t.Errorf("totals %v, want %v", totals, want)
	}
}
