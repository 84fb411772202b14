package pool

import (
	"fmt"
	"strings"
)

// Sheet is a list of questions that was read and found sound. It does not change. NewSheet and ReadSheet give one: a Sheet that is nil or
// empty has no columns, and every call that can give an error gives one for it (ErrNil).
type Sheet struct {
	bytes   []byte
	columns []Column
	sizes   Sizes
}

// Sizes is what a sheet comes to. It is found from the sheet's bytes alone, without building its circuit.
type Sizes struct {
	Columns         int // questions: a return has one value for each
	Entries         int // L, the numbers that a return is encoded as
	Published       int // entries whose totals are published
	Wires           int // of the circuit
	Multiplications int // M, of the circuit
	Tests           int // K, of the circuit
	CircuitBytes    int // length of the circuit
	ShareBytes      int // length of one share message
	GreatestReturns int // the greatest N that Open takes with this sheet, at most 1,024
}

// NewSheet makes a sheet of columns. It refuses what ReadSheet refuses, and a number that does not fit into its column (ErrLimit).
func NewSheet(columns ...Column) (*Sheet, error) {
	var whole []byte
	for _, c := range columns {
		b, ok := c.bytes()
		if !ok {
			return nil, fmt.Errorf("%w (%v)", refuse("new sheet", ErrLimit), c)
		}
		whole = append(whole, b...)
	}
	return ReadSheet(whole)
}

// ReadSheet reads a sheet's bytes.
func ReadSheet(b []byte) (*Sheet, error) {
	sizes, number := coreSizes(b)
	if number != 0 {
		return nil, answer("read sheet", number)
	}
	s := &Sheet{append([]byte(nil), b...), make([]Column, sizes.Columns), sizes}
	rest := s.bytes
	for k := range s.columns {
		s.columns[k], rest = firstColumn(rest)
	}
	return s, nil
}

// isNone says whether the sheet is nil or empty.
func (s *Sheet) isNone() bool { return s == nil || len(s.bytes) == 0 }

// Bytes gives the sheet's bytes, to be sent to every workshop and server.
func (s *Sheet) Bytes() []byte {
	if s.isNone() {
		return nil
	}
	return append([]byte(nil), s.bytes...)
}

// Columns gives the questions in order: of each its kind, and its options, bits or top.
func (s *Sheet) Columns() []Column {
	if s.isNone() {
		return nil
	}
	return append([]Column(nil), s.columns...)
}

// String lists the columns, each with its number from 1.
func (s *Sheet) String() string {
	if s.isNone() {
		return "no sheet"
	}
	list := make([]string, len(s.columns))
	for k, c := range s.columns {
		list[k] = fmt.Sprintf("%d: %v", k+1, c)
	}
	return strings.Join(list, ", ")
}

// Sizes tells what the sheet comes to: an author looks at it before the sheet is printed.
func (s *Sheet) Sizes() Sizes {
	if s.isNone() {
		return Sizes{}
	}
	return s.sizes
}

// EveryReturn gives every legal return of a small sheet, each once: all fillings that an author reads the wording against.
// A return is one value for each column; they rise, the first column weighing most. A sheet with more than 4,096 of them
// is refused (ErrMany).
func (s *Sheet) EveryReturn() ([][]uint32, error) {
	if s.isNone() {
		return nil, missing("every return", "the sheet")
	}
	out := make([]byte, maxEvery)
	lists, n, number := coreEveryReturn(s.bytes, out)
	if number != 0 {
		return nil, answer("every return", number)
	}
	all := make([][]uint32, 0, lists)
	for _, list := range split(out[:n], elementBytes*s.sizes.Columns) {
		all = append(all, numbers(list))
	}
	return all, nil
}

// Circuit gives the sheet's circuit.
func (s *Sheet) Circuit() ([]byte, error) {
	if s.isNone() {
		return nil, missing("circuit", "the sheet")
	}
	out := make([]byte, s.sizes.CircuitBytes)
	n, number := coreCircuit(s.bytes, out)
	if number != 0 {
		return nil, answer("circuit", number)
	}
	return out[:n:n], nil
}

// CircuitCounts is what a circuit that was read comes to.
type CircuitCounts struct {
	Wires, Multiplications, Tests int
}

// ReadCircuit reads a circuit over so many entries.
func ReadCircuit(entries uint32, circuit []byte) (CircuitCounts, error) {
	wires, multiplications, tests, number := coreReadCircuit(entries, circuit)
	if number != 0 {
		return CircuitCounts{}, answer("read circuit", number)
	}
	return CircuitCounts{int(wires), int(multiplications), int(tests)}, nil
}
