package pool

import "fmt"

// apart is an error where no so many returns on the sheet give these totals.
func (t Totals) apart(sheet *Sheet) error {
	lines := t.Lines
	for k, column := range sheet.columns {
		sums := make([]uint64, column.published())
		for option := range sums {
			sums[option] = uint64(lines[option].Total)
		}
		lines = lines[len(sums):]
		if broken := column.broken(uint64(t.Accepted), sums); broken != "" {
			return fmt.Errorf("column %d, %v, %d returns: %s: %w", k+1, column, t.Accepted, broken, ErrApart)
		}
	}
	return nil
}

// broken names what the totals of n returns in a column would keep to and these do not; nothing where they keep to all.
func (c Column) broken(n uint64, sums []uint64) string {
	switch c.kind {
	case KindChoice:
		var all uint64
		for _, sum := range sums {
			all += sum
		}
		if all != n {
			return fmt.Sprintf("the options add up to %d", all)
		}
	case KindPoint:
		return brokenPoint(n, uint64(c.largestNumber()), sums[0], sums[1], sums[2], sums[3])
	default:
		if most := n * uint64(c.largestNumber()); sums[0] > most {
			return fmt.Sprintf("the total is %d, and %d at most", sums[0], most)
		}
	}
	return ""
}

// brokenPoint does so for n points whose x and y are at most top: each of these holds for one point, or, the last, for any n by the
// inequality of Cauchy and Schwarz.
func brokenPoint(n, top, x, xx, y, xy uint64) string {
	for _, law := range []struct {
		less, more uint64
		words      string
	}{
		{x, n * top, "x is above its bits"},
		{y, n * top, "y is above its bits"},
		{x, xx, "x * x is below x"},
		{xx, top * x, "x * x is above x times its top"},
		{xy, top * x, "x * y is above x times the top of y"},
		{xy, top * y, "x * y is above y times the top of x"},
		{top * (x + y), xy + n*top*top, "x * y is below what x and y near their tops have"},
		{x * x, n * xx, "x squared is above the number of returns times x * x"},
	} {
		if law.less > law.more {
			return fmt.Sprintf("the totals of x, x * x, y and x * y are %d, %d, %d and %d: %s", x, xx, y, xy, law.words)
		}
	}
	return ""
}
