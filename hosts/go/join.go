package pool

import (
	"bytes"
	"encoding/binary"
	"fmt"
)

// Line is one published total.
type Line struct {
	Column int // from 1
	Option int // from 0; always 0 for yes/no and numbers, with a top or without; for a point 0 x, 1 x * x, 2 y, 3 x * y
	Total  uint32
}

// Totals is what a pool publishes.
type Totals struct {
	Accepted uint32 // how many returns were accepted and entered
	Lines    []Line // in the order of the sheet
}

// Join joins the totals messages of all servers, in server order, of tables opened with this number of servers, sheet
// and number of returns; their least count is not asked for. Another order is refused (ErrJoined).
//
// Totals that no returns give are an error (ErrApart): the servers did not enter the same returns, or a message was altered. That makes
// them any numbers below p, and it shows where the returns can not come to such numbers: with a yes/no or a choice nearly always, with
// one number of 24 bits and 128 returns hardly ever. So totals that are joined are not proved right.
func Join(servers uint32, sheet *Sheet, returns uint32, messages [][]byte) (Totals, error) {
	if sheet.isNone() {
		return Totals{}, missing("join", "the sheet")
	}
	out := make([]byte, sheet.joinBytes())
	accepted, n, number := coreJoin(servers, sheet.bytes, returns, bytes.Join(messages, nil), out)
	if number != 0 {
		return Totals{}, answer("join", number)
	}
	totals := Totals{accepted, lines(sheet, out[:n])}
	if err := totals.apart(sheet); err != nil {
		return Totals{}, fmt.Errorf("pool: join: %w", err)
	}
	return totals, nil
}

// lines gives each total its place on the sheet.
func lines(sheet *Sheet, totals []byte) []Line {
	var list []Line
	for k, column := range sheet.columns {
		for option := 0; option < column.published(); option++ {
			at := elementBytes * len(list)
			list = append(list, Line{k + 1, option, binary.LittleEndian.Uint32(totals[at:])})
		}
	}
	return list
}
