package pool

import "fmt"

// State is what a table tells of itself: what it was opened with, and how far it is.
type State struct {
	Servers uint32 // S
	Own     uint32 // the server's own number
	Returns uint32 // N, the most returns that are decided
	Least   uint32 // Q, how many must be entered before there are totals
	Closed  bool   // its totals were given, and it takes no more calls
	Decided uint32 // returns decided: rejected, dropped or entered
	Entered uint32 // returns entered
	Waiting uint32 // returns that wait (Table.Waiting): Slots at most
}

// String says it in words.
func (s State) String() string {
	stage := "open"
	if s.Closed {
		stage = "closed"
	}
	return fmt.Sprintf("server %d of %d, %s: %d of at most %d returns decided, %d entered of at least %d, %d waiting", s.Own, s.Servers,
		stage, s.Decided, s.Returns, s.Entered, s.Least, s.Waiting)
}

// State tells what the table was opened with and how far it is. A table that no calls can have left is refused (ErrStage).
func (t *Table) State() (State, error) {
	if t == nil {
		return State{}, missing("state", "the table")
	}
	state, number := coreState(t, len(t.bytes), len(t.elements))
	if number != 0 {
		return State{}, answer("state", number)
	}
	return state, nil
}

// String says the table's state in words, so that no share is printed.
func (t *Table) String() string {
	state, err := t.State()
	if err != nil {
		return "no table: " + err.Error()
	}
	return state.String()
}

// Waiting is a return that is under way.
type Waiting struct {
	ID     uint32
	Awaits Awaits
}

// Awaits is what a return that is under way waits for.
type Awaits uint32

// What a return can wait for.
const (
	AwaitsOne   Awaits = slotOne   // the messages of round one
	AwaitsTwo   Awaits = slotTwo   // the messages of round two
	AwaitsEntry Awaits = slotEntry // Enter, after an accepted verdict: it is in no total yet
)

// String says it in words.
func (a Awaits) String() string {
	switch a {
	case AwaitsOne:
		return "awaits round one"
	case AwaitsTwo:
		return "awaits round two"
	case AwaitsEntry:
		return "awaits entry"
	default:
		return fmt.Sprintf("unknown stage %d", uint32(a))
	}
}

// Waiting gives the returns that wait, at most Slots of them: after a restart the server goes on with these.
func (t *Table) Waiting() []Waiting {
	if t == nil {
		return nil
	}
	var list []Waiting
	for _, x := range t.slots {
		if id, stage, _, _, _, _ := slotNumbers(x); stage != slotFree {
			list = append(list, Waiting{id, Awaits(stage)})
		}
	}
	return list
}
