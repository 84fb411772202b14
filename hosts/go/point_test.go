package pool

import (
	"bytes"
	"encoding/binary"
	"math"
	"math/rand"
	"reflect"
	"testing"
)

func TestPointInSheet(t *testing.T) {
	sheet := sheetOf(t, Point(12), YesNo(), Point(1))
	if want := []byte{21, 12, 17, 21, 1}; !bytes.Equal(sheet.Bytes(), want) {
		t.Errorf("bytes %v, want %v", sheet.Bytes(), want)
	}
	read, err := ReadSheet(sheet.Bytes())
	if want := []Column{Point(12), YesNo(), Point(1)}; err != nil || !reflect.DeepEqual(read.Columns(), want) {
		t.Errorf("columns %v, %v", read.Columns(), err)
	}
	if got := read.Columns()[0]; !got.IsPoint() || got.String() != "point of 12 bits" || read.Columns()[1].IsPoint() {
		t.Errorf("column %v", got)
	}
	for _, bits := range []int{-1, 0, 13, 24, 255, 256 + 6, 1<<32 + 6, math.MinInt, math.MaxInt} {
		_, err := NewSheet(Point(bits))
		refused(t, err, ErrLimit)
	}
	// Nine columns of 28 entries, and four of 1.
	most := make([]Column, 9, 14)
	for k := range most {
		most[k] = Point(12)
	}
	most = append(most, YesNo(), YesNo(), YesNo(), YesNo())
	full := sheetOf(t, most...)
	if sizes := full.Sizes(); sizes.Entries != 256 || sizes.Published != 40 || sizes.GreatestReturns != 128 {
		t.Errorf("%+v", sizes)
	}
	testMade(t, full)
	_, err = NewSheet(append(most, YesNo())...)
	refused(t, err, ErrLimit)
}

// A value holds x in its lowest bits and y above them. What does not fit is refused.
func TestPointValue(t *testing.T) {
	for bits := 1; bits <= 12; bits++ {
		column, top := Point(bits), uint32(1)<<bits-1
		client := Client{Sheet: sheetOf(t, column), Servers: 2}
		for _, point := range [][2]uint32{{0, 0}, {top, 0}, {0, top}, {1, top}, {top, top}, {top / 2, 1}} {
			value, err := column.PointValue(point[0], point[1])
			if want := point[0] + (top+1)*point[1]; err != nil || value != want {
				t.Errorf("%d bits, %v: %d, %v, want %d", bits, point, value, err, want)
			}
			if x, y, err := column.PointXY(value); err != nil || x != point[0] || y != point[1] {
				t.Errorf("%d bits, %v: back %d, %d, %v", bits, point, x, y, err)
			}
			if _, err := client.Make(1, []uint32{value}); err != nil {
				t.Errorf("%d bits, %v: %v", bits, point, err)
			}
		}
		for _, point := range [][2]uint32{{top + 1, 0}, {0, top + 1}, {1<<32 - 1, 0}, {0, 1 << 31}, {1 << 16, 1 << 16}} {
			_, err := column.PointValue(point[0], point[1])
			refused(t, err, ErrValue)
		}
		for _, value := range []uint32{1 << (2 * bits), 1 << 31, 1<<32 - 1} {
			_, _, err := column.PointXY(value)
			refused(t, err, ErrValue)
			_, err = client.Make(1, []uint32{value})
			refused(t, err, ErrValue)
		}
	}
	for _, column := range []Column{YesNo(), Choice(4), Number(12), UpTo(200), Point(13), Point(255), Point(0), Point(-1)} {
		_, err := column.PointValue(0, 1)
		refused(t, err, ErrValue)
		_, _, err = column.PointXY(1)
		refused(t, err, ErrValue)
	}
}

// shareEntry is where an entry of a share message stands.
func shareEntry(share []byte, entry int) []byte { return share[6+elementBytes*entry:] }

// A share in which one entry is another, that of x, of a product, of y or of a bit: the servers reject the return.
func TestForgedPoints(t *testing.T) {
	sheet := sheetOf(t, YesNo(), Point(3))
	client := Client{Sheet: sheet, Servers: 3}
	all := openAll(t, 3, sheet, 40)
	random := rand.New(rand.NewSource(1))
	for id := uint32(0); id < uint32(2*sheet.Sizes().Entries); id++ {
		shares, err := client.Make(id, []uint32{1, uint32(random.Intn(64))})
		if err != nil {
			t.Fatal(err)
		}
		forged := id%2 == 1
		if forged {
			at := shareEntry(shares[random.Intn(3)], int(id/2))
			binary.LittleEndian.PutUint32(at, (binary.LittleEndian.Uint32(at)+1+uint32(random.Intn(60)))%prime)
		}
		if got := all.judge(t, sheet, shares); got == forged {
			t.Errorf("entry %d, forged %v: accepted %v", id/2, forged, got)
		}
	}
}

// Two numbers of a bit more have shares of the same length and as many multiplications: a return on them is no point.
func TestNumbersForAPoint(t *testing.T) {
	sheet, other := sheetOf(t, Point(3)), sheetOf(t, Number(4), Number(4))
	if a, b := sheet.Sizes(), other.Sizes(); a.ShareBytes != b.ShareBytes || a.Multiplications != b.Multiplications {
		t.Fatalf("%+v, %+v", a, b)
	}
	all := openAll(t, 2, sheet, 10)
	client := Client{Sheet: other, Servers: 2}
	for id, values := range [][]uint32{{0, 1}, {1, 1}, {6, 9}, {15, 15}} {
		shares, err := client.Make(uint32(id), values)
		if err != nil {
			t.Fatal(err)
		}
		if all.judge(t, sheet, shares) {
			t.Errorf("%v is accepted", values)
		}
	}
}
