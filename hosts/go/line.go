package pool

import (
	"bytes"
	"fmt"
	"math"
	"math/big"
)

// PointSums are the four totals of a column of points: the sums of x, x * x, y and x * y over the entered returns.
type PointSums struct {
	X, XX, Y, XY uint32
}

// pointTotals is how many there are.
const pointTotals = 4

// PointSums gives the four totals of a column of points, by its number from 1 on the sheet on which the totals were joined. A number
// that names no such column is refused (ErrLimit).
func (t Totals) PointSums(sheet *Sheet, column uint32) (PointSums, error) {
	if sheet.isNone() {
		return PointSums{}, missing("point sums", "the sheet")
	}
	var sums []uint32
	if 1 <= column && uint64(column) <= uint64(len(sheet.columns)) && sheet.columns[column-1].IsPoint() {
		for _, line := range t.Lines {
			if line.Column == int(column) {
				sums = append(sums, line.Total)
			}
		}
	}
	if len(sums) != pointTotals {
		return PointSums{}, refuse("point sums", ErrLimit)
	}
	return PointSums{sums[0], sums[1], sums[2], sums[3]}, nil
}

// Fit is the line that fits the points of a column best, by least squares:
//
//	y = Intercept/Determinant + Slope/Determinant * x
//
// With n entered returns and the sums of PointSums its numbers, which are exact, are
//
//	Determinant = n * XX - X * X
//	Slope       = n * XY - X * Y
//	Intercept   = XX * Y - X * XY
//
// The Determinant that FitLine gives is above 0.
type Fit struct {
	Determinant, Slope, Intercept int64
}

// FitLine fits a line to the points of a column, by its number from 1. The rest is what Join takes. A number that names no column of
// points is refused (ErrLimit). Where all x are equal, as that of a single return is, or no return is entered, many lines fit equally
// well, and it is refused (ErrNoLine): the totals are published without a line. Totals that no returns give have no line (ErrApart).
func FitLine(servers uint32, sheet *Sheet, returns uint32, messages [][]byte, column uint32) (Fit, error) {
	if sheet.isNone() {
		return Fit{}, missing("fit line", "the sheet")
	}
	fit, number := coreLine(servers, sheet.bytes, returns, bytes.Join(messages, nil), column)
	if number != 0 && Refusal(number) != ErrNoLine {
		return Fit{}, answer("fit line", number)
	}
	if _, err := Join(servers, sheet, returns, messages); err != nil {
		return Fit{}, err
	}
	if number != 0 {
		return Fit{}, answer("fit line", number)
	}
	return fit, nil
}

// Fractions gives the slope and the intercept of the line, exactly; nil where there is no line, with a Determinant of 0.
func (f Fit) Fractions() (slope, intercept *big.Rat) {
	if f.Determinant == 0 {
		return nil, nil
	}
	return big.NewRat(f.Slope, f.Determinant), big.NewRat(f.Intercept, f.Determinant)
}

// Floats gives the slope and the intercept of the line as the nearest floating-point numbers; no numbers (NaN) where there is no line.
func (f Fit) Floats() (slope, intercept float64) {
	if f.Determinant == 0 {
		return math.NaN(), math.NaN()
	}
	exactSlope, exactIntercept := f.Fractions()
	slope, _ = exactSlope.Float64()
	intercept, _ = exactIntercept.Float64()
	return slope, intercept
}

// At gives the y of the line at an x, exactly; nil where there is no line or no x.
func (f Fit) At(x *big.Rat) *big.Rat {
	if f.Determinant == 0 || x == nil {
		return nil
	}
	slope, intercept := f.Fractions()
	return intercept.Add(intercept, slope.Mul(slope, x))
}

// String shows the line with four digits.
func (f Fit) String() string {
	if f.Determinant == 0 {
		return "no line"
	}
	slope, intercept := f.Floats()
	return fmt.Sprintf("y = %.4g %+.4g x", intercept, slope)
}
