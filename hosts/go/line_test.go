package pool

import (
	"bytes"
	"encoding/binary"
	"errors"
	"math/big"
	"math/rand"
	"testing"
)

// totalsMessages makes the totals messages of servers that have entered so many returns. The first one has the totals, the others 0.
func totalsMessages(servers byte, count uint32, totals ...uint32) [][]byte {
	var messages [][]byte
	for own := byte(0); own < servers; own++ {
		message := binary.LittleEndian.AppendUint32([]byte{36, own}, count)
		message = append(message, elements(totals)...)
		messages = append(messages, message)
		totals = make([]uint32, len(totals))
	}
	return messages
}

// difference is a * b - c * d.
func difference(a, b, c, d uint32) *big.Int {
	product := func(x, y uint32) *big.Int { return new(big.Int).Mul(big.NewInt(int64(x)), big.NewInt(int64(y))) }
	return new(big.Int).Sub(product(a, b), product(c, d))
}

// checkFit holds a line to the count and the sums, in numbers that are never cut.
func checkFit(t *testing.T, fit Fit, n uint32, sums PointSums) {
	t.Helper()
	for _, test := range []struct {
		got  int64
		want *big.Int
	}{
		{fit.Determinant, difference(n, sums.XX, sums.X, sums.X)},
		{fit.Slope, difference(n, sums.XY, sums.X, sums.Y)},
		{fit.Intercept, difference(sums.XX, sums.Y, sums.X, sums.XY)},
	} {
		if big.NewInt(test.got).Cmp(test.want) != 0 {
			t.Errorf("%d returns, %+v: %+v has %d for %v", n, sums, fit, test.got, test.want)
		}
	}
}

// checkBest checks that neither a higher nor a lower line, nor a steeper nor a flatter one, is nearer to the points.
func checkBest(t *testing.T, fit Fit, points [][2]uint32) {
	t.Helper()
	slope, intercept := fit.Fractions()
	squares := func(slope, intercept *big.Rat) *big.Rat {
		sum := new(big.Rat)
		for _, point := range points {
			x, y := big.NewRat(int64(point[0]), 1), big.NewRat(int64(point[1]), 1)
			off := y.Sub(y, x.Add(x.Mul(x, slope), intercept))
			sum.Add(sum, off.Mul(off, off))
		}
		return sum
	}
	best := squares(slope, intercept)
	for _, by := range []*big.Rat{big.NewRat(1, 1000), big.NewRat(-1, 1000)} {
		if squares(new(big.Rat).Add(slope, by), intercept).Cmp(best) <= 0 || squares(slope, new(big.Rat).Add(intercept, by)).Cmp(best) <= 0 {
			t.Errorf("%v: another line is nearer than %v", points, fit)
		}
	}
}

// enterPoints enters six returns with random points in the columns 1 and 3 of the sheet of TestLines. Gives these and their sums.
func (all servers) enterPoints(t *testing.T, sheet *Sheet, random *rand.Rand) (points [2][][2]uint32, plain [2]PointSums) {
	t.Helper()
	client := Client{Sheet: sheet, Servers: uint32(len(all))}
	for id := uint32(0); id < 6; id++ {
		values := []uint32{0, 1, 0, 200}
		for k, top := range []int{16, 4096} {
			x, y := uint32(random.Intn(top)), uint32(random.Intn(top))
			if id < 2 {
				x = id * uint32(top-1) // so that the x differ
			}
			values[2*k] = x + uint32(top)*y
			plain[k] = PointSums{plain[k].X + x, plain[k].XX + x*x, plain[k].Y + y, plain[k].XY + x*y}
			points[k] = append(points[k], [2]uint32{x, y})
		}
		shares, err := client.Make(id, values)
		if err != nil || !all.judge(t, sheet, shares) {
			t.Fatalf("%d servers, %v: %v", len(all), values, err)
		}
	}
	return points, plain
}

// Random pools of every number of servers, with two columns of points among others: sums and lines are the plain ones.
func TestLines(t *testing.T) {
	random := rand.New(rand.NewSource(2))
	for n := uint32(2); n <= 8; n++ {
		sheet := sheetOf(t, Point(4), Choice(4), Point(12), UpTo(200))
		all := openAll(t, n, sheet, 6)
		points, plain := all.enterPoints(t, sheet, random)
		messages := all.each(t, func(_ int, table *Table) ([]byte, error) { return table.Close() })
		totals, err := Join(n, sheet, 6, messages)
		if err != nil {
			t.Fatal(err)
		}
		for k, column := range []uint32{1, 3} {
			sums, err := totals.PointSums(sheet, column)
			if err != nil || sums != plain[k] {
				t.Errorf("%d servers: sums %+v, %v, want %+v", n, sums, err, plain[k])
			}
			fit, err := FitLine(n, sheet, 6, messages, column)
			if err != nil || fit.Determinant <= 0 {
				t.Fatalf("%d servers: %+v, %v", n, fit, err)
			}
			checkFit(t, fit, 6, plain[k])
			checkBest(t, fit, points[k])
		}
	}
}

// Totals that keep no form: the core's numbers are exact to the limits, and a determinant below 0 is no refusal of its own.
func TestLineOfAnyTotals(t *testing.T) {
	sheet := sheetOf(t, Number(3), Point(2))
	negative := 0
	for _, n := range []uint32{0, 1, 2, 1024} {
		for _, sums := range []PointSums{{1, 0, 0, 0}, {0, 1, 0, 0}, {2, 1, 5, 7}, {prime - 1, 0, prime - 1, prime - 1},
			{prime - 1, prime - 1, 0, prime - 1}, {prime - 1, prime - 1, prime - 1, 0}, {0, prime - 1, prime - 1, prime - 1}, {3, 9, 4, 4}} {
			messages := totalsMessages(3, n, 7, sums.X, sums.XX, sums.Y, sums.XY)
			fit, number := coreLine(3, sheet.bytes, 1024, bytes.Join(messages, nil), 2)
			if difference(n, sums.XX, sums.X, sums.X).Sign() == 0 {
				refused(t, answer("line", number), ErrNoLine)
				continue
			}
			if _, err := FitLine(3, sheet, 1024, messages, 2); number != 0 || fit.Determinant < 0 && !errors.Is(err, ErrApart) {
				t.Fatalf("%d returns, %+v: %d, %v", n, sums, number, err)
			}
			checkFit(t, fit, n, sums)
			if fit.Determinant < 0 {
				negative++
			}
		}
	}
	if negative < 10 {
		t.Errorf("%d determinants below 0", negative)
	}
}

// Without returns, and where all x are equal, no one line fits best.
func TestNoLine(t *testing.T) {
	sheet := sheetOf(t, YesNo(), Point(5))
	for count := 1; count <= 3; count++ {
		all := openAll(t, 2, sheet, 4)
		client := Client{Sheet: sheet, Servers: 2}
		for id := 0; id < count; id++ {
			value, err := sheet.Columns()[1].PointValue(21, uint32(7*id))
			if err != nil {
				t.Fatal(err)
			}
			shares, err := client.Make(uint32(id), []uint32{0, value})
			if err != nil || !all.judge(t, sheet, shares) {
				t.Fatalf("return %d: %v", id, err)
			}
		}
		messages := all.each(t, func(_ int, table *Table) ([]byte, error) { return table.Close() })
		fit, err := FitLine(2, sheet, 4, messages, 2)
		refused(t, err, ErrNoLine)
		if _, err := Join(2, sheet, 4, messages); err != nil || fit != (Fit{}) {
			t.Errorf("the totals: %v; the line is %+v", err, fit)
		}
	}
	_, err := FitLine(2, sheet, 4, totalsMessages(2, 0, 0, 0, 0, 0, 0), 2)
	refused(t, err, ErrNoLine)
}

// The first refusal in the order S, N, 4, column, joined totals, no line counts.
func TestLineRefusals(t *testing.T) {
	sheet := sheetOf(t, Choice(4), Point(12), Number(2), Point(1))
	sound := totalsMessages(2, 2, 1, 0, 1, 0, 3, 5, 7, 9, 1, 1, 1, 1, 1)
	none := totalsMessages(2, 2, 1, 0, 1, 0, 2, 2, 7, 7, 1, 1, 1, 1, 1) // in column 2
	swapped := [][]byte{sound[1], sound[0]}
	for _, test := range []struct {
		servers, returns, column uint32
		messages                 [][]byte
		want                     Refusal
	}{
		{1, 0, 0, nil, ErrLimit}, {9, 129, 2, nil, ErrLimit}, {2, 0, 2, sound, ErrLimit}, {2, 1025, 2, sound, ErrLimit},
		{2, 129, 0, nil, ErrWrap}, {2, 129, 2, sound, ErrWrap},
		{2, 128, 0, nil, ErrLimit}, {2, 128, 1, nil, ErrLimit}, {2, 128, 3, swapped, ErrLimit}, {2, 128, 5, sound, ErrLimit},
		{2, 128, 1<<32 - 1, sound, ErrLimit}, {2, 128, 1<<31 + 2, sound, ErrLimit}, {2, 128, 258, sound, ErrLimit},
		{2, 128, 2, nil, ErrJoined}, {2, 128, 2, sound[:1], ErrJoined}, {2, 128, 4, swapped, ErrJoined}, {3, 128, 2, sound, ErrJoined},
		{2, 1, 2, sound, ErrJoined}, {2, 1, 2, none, ErrJoined}, {2, 128, 2, none, ErrNoLine},
	} {
		fit, err := FitLine(test.servers, sheet, test.returns, test.messages, test.column)
		refused(t, err, test.want)
		if fit != (Fit{}) {
			t.Errorf("%+v: refused, and the line %+v", test, fit)
		}
	}
	for column, want := range map[uint32]Fit{2: {2*5 - 3*3, 2*9 - 3*7, 5*7 - 3*9}, 4: {2*1 - 1*1, 2*1 - 1*1, 1*1 - 1*1}} {
		if fit, err := FitLine(2, sheet, 128, sound, column); err != nil || fit != want {
			t.Errorf("column %d: %+v, %v, want %+v", column, fit, err, want)
		}
	}
}

func TestPointSumsOfColumns(t *testing.T) {
	sheet := sheetOf(t, Choice(4), Point(2), YesNo())
	totals, err := Join(2, sheet, 9, totalsMessages(2, 3, 1, 0, 2, 0, 4, 6, 6, 7, 1))
	if err != nil {
		t.Fatal(err)
	}
	if sums, err := totals.PointSums(sheet, 2); err != nil || sums != (PointSums{4, 6, 6, 7}) {
		t.Errorf("%+v, %v", sums, err)
	}
	for _, column := range []uint32{0, 1, 3, 4, 1<<32 - 1} {
		_, err := totals.PointSums(sheet, column)
		refused(t, err, ErrLimit)
	}
	_, err = Totals{}.PointSums(sheet, 2)
	refused(t, err, ErrLimit)
}

func TestFit(t *testing.T) {
	for _, test := range []struct {
		fit              Fit
		slope, intercept string
		text, atTwo      string
	}{
		{Fit{1104, 516, -12288}, "43/92", "-256/23", "y = -11.13 +0.4674 x", "-469/46"},
		{Fit{4, -8, 4}, "-2/1", "1/1", "y = 1 -2 x", "-3/1"},
		{Fit{-3, 6, 1}, "-2/1", "-1/3", "y = -0.3333 -2 x", "-13/3"},
		{Fit{7, 0, 0}, "0/1", "0/1", "y = 0 +0 x", "0/1"},
	} {
		slope, intercept := test.fit.Fractions()
		if slope.String() != test.slope || intercept.String() != test.intercept {
			t.Errorf("%v: %v and %v", test.fit, slope, intercept)
		}
		near, other := test.fit.Floats()
		if want, _ := slope.Float64(); near != want {
			t.Errorf("%v: slope %v, want %v", test.fit, near, want)
		}
		if want, _ := intercept.Float64(); other != want {
			t.Errorf("%v: intercept %v, want %v", test.fit, other, want)
		}
		if got := test.fit.String(); got != test.text {
			t.Errorf("%q, want %q", got, test.text)
		}
		if got := test.fit.At(big.NewRat(2, 1)).String(); got != test.atTwo {
			t.Errorf("%v at 2: %s, want %s", test.fit, got, test.atTwo)
		}
	}
}
