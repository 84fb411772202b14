package pool

import "bytes"

// Table is the table of one server. Up to eight returns (Slots) are under way in it at a time, each in its own stage. The
// calls of one return are, in this order:
//
//	Share, RoundOne, RoundTwo, Enter    Drop in place of any but Share; a rejected return ends with RoundTwo
//
// Calls on other returns may come between them, and returns may be finished in any order; all calls after Share name an id.
// Close comes at the end, when none waits, not even for entry. With fewer returns entered than the least count it is refused (ErrFew),
// and the table takes more. The messages of a round are handed in as they arrived, in any order: one of each server, the own one
// among them as the table gave it. A server twice or missing is refused (ErrJoined).
//
// State tells how far the table is, and Waiting which returns wait in it and what for.
//
// MarshalBinary and UnmarshalBinary carry a table over a restart, all of it in one slice. Store it after each call, together
// with the message that the call gave, and before that message, or the verdict, is told to another server. Use a table from one
// goroutine at a time. Do not copy a Table: pass the pointer.
//
// A table holds the whole share of each return that waits, for entry too, and is as secret. When a return is decided (rejected,
// entered or dropped) it is erased, all but its id and, if it was entered, what it added to the server's shares of the totals.
// These stay, after Close too.
//
// A nil table gives errors (ErrNil), and so does one that was neither opened nor restored (ErrStage).
type Table struct {
	_        noCopy
	bytes    []byte
	slots    [Slots]slot
	elements []uint32
}

// noCopy makes go vet tell of a copy: it would share bytes and elements with the table, and have slots of its own.
type noCopy struct{}

func (*noCopy) Lock()   {}
func (*noCopy) Unlock() {}

// Open opens the table of server own (from 0) of so many servers, for at most so many returns, decided and waiting together:
// N, from 1 to the sheet's Sizes.GreatestReturns. Close gives no totals before least of them are entered: Q, from 1 to N. All
// servers of a pool open with the same number of servers, sheet, N and Q.
func Open(servers, own uint32, sheet *Sheet, returns, least uint32) (*Table, error) {
	if sheet.isNone() {
		return nil, missing("open", "the sheet")
	}
	t := &Table{elements: make([]uint32, sheet.tableElements())}
	// With more returns the core refuses before it looks at the room.
	if returns <= maxReturns {
		t.bytes = make([]byte, sheet.tableBytes(returns))
	}
	n, number := coreOpen(servers, own, sheet.bytes, returns, least, t)
	if number != 0 {
		return nil, answer("open", number)
	}
	t.bytes = t.bytes[:n:n]
	return t, nil
}

// Share takes the server's share of a return, or the seed message that stands for it, and gives its round-one message, which tells the
// pair: the same one at every server. What a table holds of a return does not show which of the two it was; no table holds a seed.
// A ninth return is refused (ErrStage): hand it in again, before any later share and with the same pair, once one of the eight is
// decided. The servers take the shares of returns in the same order.
func (t *Table) Share(message []byte, pair Pair) ([]byte, error) {
	if t == nil {
		return nil, missing("share", "the table")
	}
	out := make([]byte, oneBytes)
	n, number := coreShare(t, message, pair.R, pair.S, out)
	if number != 0 {
		return nil, answer("share", number)
	}
	return out[:n], nil
}

// RoundOne takes the round-one messages of all servers for a return, in any order, and gives the own round-two message.
//
// Where the servers took their shares with different pairs, each of them refuses (ErrUnequal) and is as it was: the return is
// accepted and rejected nowhere, and waits until it is dropped. RoundOnePair says which server had which pair. Drop the return at
// every server; its id stays used. The workshop makes it anew (Client.Make) under a new id.
func (t *Table) RoundOne(id uint32, messages [][]byte) ([]byte, error) {
	if t == nil {
		return nil, missing("round one", "the table")
	}
	out := make([]byte, twoBytes)
	n, number := coreRoundOne(t, id, bytes.Join(messages, nil), out)
	if number != 0 {
		return nil, answer("round one", number)
	}
	return out[:n], nil
}

// RoundTwo takes the round-two messages of all servers for a return, in any order, and gives the verdict, the same at every server
// where no message was altered. It adds nothing to the totals. A rejected return is decided, and its share is erased from the
// table; an accepted one awaits Enter. Store the table, then tell the other servers the verdict.
func (t *Table) RoundTwo(id uint32, messages [][]byte) (accepted bool, err error) {
	if t == nil {
		return false, missing("round two", "the table")
	}
	verdict, number := coreRoundTwo(t, id, bytes.Join(messages, nil))
	if number != 0 {
		return false, answer("round two", number)
	}
	return verdict == 1, nil
}

// Enter adds an accepted return to the totals, exactly once, and erases its share from the table. Call it when every server has told
// that its accepted verdict is stored: from then on no server drops the return.
//
// A server that stops between verdict and entry loses nothing: in its stored table the return awaits entry (Waiting), and it enters
// or drops it as the others do or did. Where it does not know whether it has entered a return, it calls Enter again: that is done, or
// refused (ErrStage) where the return no longer waits. The table knows which ids were decided, not how: note which were entered, for a
// server that asks.
func (t *Table) Enter(id uint32) error {
	if t == nil {
		return missing("enter", "the table")
	}
	return answer("enter", coreEnter(t, id))
}

// Drop drops a return that waits, for entry too, and erases its share from the table. It is in no total, and its id stays used.
//
// A return that is dropped at one server must not be entered at another. A server that has told an accepted verdict drops the return
// only where another one dropped or rejected it, or where all agree and none has entered it.
func (t *Table) Drop(id uint32) error {
	if t == nil {
		return missing("drop", "the table")
	}
	return answer("drop", coreDrop(t, id))
}

// Close closes a table in which no return waits, not even for entry, and gives the server's totals message. Store the closed table
// together with this message before the message is told: a server that went on from an older table, still open, could tell totals
// twice, and their difference shows the few returns between.
//
// With fewer returns entered than the least count of Open it is refused (ErrFew) and gives nothing; the table is as it was and
// takes more returns, up to N decided. With N decided it never closes: open a new pool, for which the workshops make their
// returns anew.
func (t *Table) Close() ([]byte, error) {
	if t == nil {
		return nil, missing("close", "the table")
	}
	out := make([]byte, maxTotals)
	n, number := coreClose(t, out)
	if number != 0 {
		return nil, answer("close", number)
	}
	return out[:n:n], nil
}
