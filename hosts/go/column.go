package pool

import (
	"encoding/binary"
	"fmt"
	"math"
)

// Kind is what a column asks for; it is the column's kind byte.
type Kind byte

// String names the kind in words.
func (k Kind) String() string {
	switch k {
	case KindYesNo:
		return "yes/no"
	case KindChoice:
		return "choice"
	case KindNumber:
		return "number"
	case KindTop:
		return "number up to a top"
	case KindPoint:
		return "point"
	default:
		return fmt.Sprintf("unknown kind %d", byte(k))
	}
}

// Column is one question of a sheet: its kind, and the options, the bits or the top. Columns are compared with ==.
type Column struct {
	kind Kind
	size int
}

// YesNo is a question with the values 0 (no) and 1 (yes).
func YesNo() Column { return Column{kind: KindYesNo} }

// Choice is a question with 2 to 64 options; its value is the chosen option, from 0.
func Choice(options int) Column { return Column{KindChoice, options} }

// Number is a question with a number of 1 to 24 bits.
func Number(bits int) Column { return Column{KindNumber, bits} }

// UpTo is a question with a number from 0 to a top of its own, which is from 1 to 16,777,215. It takes about twice as much
// work as a number of as many bits; a value above the top is refused when a return is made (ErrValue), and rejected by the
// servers.
func UpTo(top int) Column { return Column{KindTop, top} }

// Point is a question with two numbers of 1 to 12 bits each, x and y, for the line of y on x (FitLine). Its value is the one
// number x + 2^bits * y (PointValue). Four totals are published: of x, x * x, y and x * y (Totals.PointSums). With 12 bits a pool takes
// at most 128 returns, with 11 bits 512.
func Point(bits int) Column { return Column{KindPoint, bits} }

// Kind gives the kind of the column.
func (c Column) Kind() Kind { return c.kind }

// Size gives what stands beside the kind: the options of a choice, the bits of a number or of each number of a point, the top of a number
// that has one; 0 for yes/no.
func (c Column) Size() int { return c.size }

// Largest gives the largest value of a column of a sheet.
func (c Column) Largest() uint32 {
	switch c.kind {
	case KindChoice:
		return uint32(c.size - 1)
	case KindPoint:
		return uint32(1)<<uint(2*c.size) - 1
	default:
		return c.largestNumber()
	}
}

// largestNumber gives the largest number in one place of a return of a column of a sheet: of an option or a yes/no 1, of a point that
// of x or y.
func (c Column) largestNumber() uint32 {
	switch c.kind {
	case KindNumber, KindPoint:
		return uint32(1)<<uint(c.size) - 1
	case KindTop:
		return uint32(c.size)
	default:
		return 1
	}
}

// maxPointBits is the most that x and y of a point can have.
const maxPointBits = 12

// IsPoint says whether the column is one of points.
func (c Column) IsPoint() bool { return c.kind == KindPoint }

// isSoundPoint says whether it can also stand on a sheet.
func (c Column) isSoundPoint() bool { return c.IsPoint() && 1 <= c.size && c.size <= maxPointBits }

// PointValue gives the value of a point, for Client.Make. An x or y that does not fit into the column's bits is refused (ErrValue), and so
// is a column that is not of points.
func (c Column) PointValue(x, y uint32) (uint32, error) {
	if !c.isSoundPoint() || x>>c.size != 0 || y>>c.size != 0 {
		return 0, refuse("point value", ErrValue)
	}
	return x | y<<c.size, nil
}

// PointXY gives the x and y of a value of a point, as EveryReturn has them. It refuses what PointValue gives for none (ErrValue).
func (c Column) PointXY(value uint32) (x, y uint32, err error) {
	if !c.isSoundPoint() || value>>(2*c.size) != 0 {
		return 0, 0, refuse("point", ErrValue)
	}
	return value & (1<<c.size - 1), value >> c.size, nil
}

// String names the column in words.
func (c Column) String() string {
	switch c.kind {
	case KindChoice:
		return fmt.Sprintf("choice of %d", c.size)
	case KindNumber, KindPoint:
		if c.size == 1 {
			return fmt.Sprintf("%v of 1 bit", c.kind)
		}
		return fmt.Sprintf("%v of %d bits", c.kind, c.size)
	case KindTop:
		return fmt.Sprintf("number up to %d", c.size)
	default:
		return c.kind.String()
	}
}

// bytes gives the column as it stands in a sheet; ok is false where its size does not fit there.
func (c Column) bytes() (b []byte, ok bool) {
	switch c.kind {
	case KindYesNo:
		return []byte{byte(c.kind)}, true
	case KindTop:
		return binary.LittleEndian.AppendUint32([]byte{byte(c.kind)}, uint32(c.size)), 0 <= c.size && c.size <= math.MaxUint32
	default:
		return []byte{byte(c.kind), byte(c.size)}, 0 <= c.size && c.size <= math.MaxUint8
	}
}

// firstColumn gives the first column of a sheet that is sound, and the bytes after it.
func firstColumn(sheet []byte) (Column, []byte) {
	switch kind := Kind(sheet[0]); kind {
	case KindYesNo:
		return YesNo(), sheet[1:]
	case KindTop:
		return UpTo(int(binary.LittleEndian.Uint32(sheet[1:]))), sheet[5:]
	default:
		return Column{kind, int(sheet[1])}, sheet[2:]
	}
}

// published says how many totals are published for the column.
func (c Column) published() int {
	switch c.kind {
	case KindChoice:
		return c.size
	case KindPoint:
		return pointTotals
	default:
		return 1
	}
}
