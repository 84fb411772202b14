package pool

import "testing"

// The sizes of a sheet: known ones, and those of what is made of it.
func TestSizes(t *testing.T) {
	for _, test := range []struct {
		sheet *Sheet
		want  Sizes
	}{
		{sheetOf(t, YesNo()), Sizes{1, 1, 1, 4, 1, 1, 21, 42, 1024}},
		{sheetOf(t, YesNo(), Choice(3), Number(4)), Sizes{3, 9, 5, 38, 8, 10, 212, 130, 1024}},
		{sheetOf(t, Number(24)), Sizes{1, 25, 1, 123, 24, 25, 690, 322, 128}},
		{sheetOf(t, Number(22), Number(1)), Sizes{2, 25, 2, 120, 23, 25, 675, 314, 512}},
		{sheetOf(t, UpTo(1)), Sizes{1, 3, 1, 15, 2, 4, 87, 58, 1024}},
		{sheetOf(t, UpTo(200)), Sizes{1, 17, 1, 85, 16, 18, 479, 226, 1024}},
		{sheetOf(t, UpTo(1<<24-1)), Sizes{1, 49, 1, 245, 48, 50, 1375, 610, 128}},
		{sheetOf(t, UpTo(1<<23), UpTo(1<<23), UpTo(1<<23), UpTo(1<<23), UpTo(1<<23), UpTo(16)),
			Sizes{6, 256, 6, 1275, 250, 262, 7161, 3054, 255}},
		{sheetOf(t, Point(1)), Sizes{1, 6, 4, 23, 4, 6, 133, 86, 1024}},
		{sheetOf(t, Point(6), YesNo()), Sizes{2, 17, 5, 76, 15, 17, 429, 218, 1024}},
		{sheetOf(t, Point(10)), Sizes{1, 24, 4, 113, 22, 24, 637, 302, 1024}},
		{sheetOf(t, Point(11)), Sizes{1, 26, 4, 123, 24, 26, 693, 326, 512}},
		{sheetOf(t, Number(4), Point(12)), Sizes{2, 33, 5, 155, 30, 33, 874, 402, 128}},
		{sheetOf(t, Choice(64), Choice(64), Choice(64), Choice(64)), Sizes{4, 256, 256, 1025, 256, 260, 5393, 3102, 1024}},
	} {
		if got := test.sheet.Sizes(); got != test.want {
			t.Errorf("%v: sizes %+v, want %+v", test.sheet.Columns(), got, test.want)
		}
		testMade(t, test.sheet)
	}
}

// testMade holds a sheet's sizes to its circuit, its shares, its table and the greatest number of returns.
func testMade(t *testing.T, sheet *Sheet) {
	t.Helper()
	sizes := sheet.Sizes()
	circuit, err := sheet.Circuit()
	if err != nil || len(circuit) != sizes.CircuitBytes {
		t.Errorf("a circuit of %d bytes, %v: %+v", len(circuit), err, sizes)
	}
	counts, err := ReadCircuit(uint32(sizes.Entries), circuit)
	if want := (CircuitCounts{sizes.Wires, sizes.Multiplications, sizes.Tests}); err != nil || counts != want {
		t.Errorf("counts %+v, %v: %+v", counts, err, sizes)
	}
	client := Client{Sheet: sheet, Servers: 3}
	shares, err := client.Make(1, make([]uint32, sizes.Columns))
	if err != nil || len(shares) != 3 || len(shares[2]) != sizes.ShareBytes {
		t.Errorf("%d shares, %v: %+v", len(shares), err, sizes)
	}
	most := uint32(sizes.GreatestReturns)
	table, err := Open(2, 0, sheet, most, most)
	if err != nil || len(table.bytes) != sheet.tableBytes(most) || len(table.bytes) > maxTable ||
		len(table.elements) != Slots*((sizes.ShareBytes-6)/4+2) || len(table.elements) > maxElements {
		t.Errorf("a table for %d returns: %v", most, err)
	}
	want := ErrWrap
	if most == maxReturns {
		want = ErrLimit
	}
	_, err = Open(2, 0, sheet, most+1, 1)
	refused(t, err, want)
}
