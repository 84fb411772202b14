package pool

import (
	"errors"
	"fmt"
)

// Refusal is the number of a refused call. A refused call has changed nothing.
//
// The errors of this package that come from the core wrap a Refusal, and say what to do about it:
//
//	if errors.Is(err, pool.ErrDecided) { ... }
//
//	var refusal pool.Refusal
//	if errors.As(err, &refusal) { ... uint32(refusal) ... }
type Refusal uint32

// Errors that the package gives by itself, beside the refusals. An error wraps them, with what was called.
var (
	// ErrNil: an argument is nil or empty that must be there.
	ErrNil = errors.New("nil or empty; a sheet comes from NewSheet or ReadSheet, a table from Open or UnmarshalBinary")

	// ErrStored: UnmarshalBinary was given no table that was stored.
	ErrStored = errors.New("not a table as MarshalBinary gives it")

	// ErrApart: the totals messages fit together, but no returns give such totals.
	ErrApart = errors.New("no returns give such totals: the servers went apart; publish none of them, and compare which returns " +
		"each server entered, and each totals message with the one that its server sent")
)

// refusalWords are a refusal's sentence and what to do about it.
type refusalWords struct{ sentence, advice string }

// Error says the refusal by its number and in words, and what to do.
func (r Refusal) Error() string {
	if uint64(r) >= uint64(len(words)) || words[r].sentence == "" {
		return fmt.Sprintf("refused %d: unknown refusal", uint32(r))
	}
	return fmt.Sprintf("refused %d: %s; %s", uint32(r), words[r].sentence, words[r].advice)
}

// stageAdvice says what to do where a table's stage does not allow a call.
var stageAdvice = map[string]string{
	"share":     "where eight wait, hand the share in again once one is decided",
	"round one": "a return takes round one once, after its share",
	"round two": "a return takes round two once, after round one",
	"enter":     "a return is entered once, after an accepted verdict: where it no longer waits it was entered or dropped before",
	"drop":      "a return can be dropped while it waits for a round or for entry",
	"close":     "where returns wait, finish, enter or drop them first",
}

// answer makes an error of a call's answer, nil where the call was done.
func answer(call string, number uint32) error {
	if number == 0 {
		return nil
	}
	return refuse(call, Refusal(number))
}

// refuse makes the error of a refused call.
func refuse(call string, refusal Refusal) error {
	if advice := stageAdvice[call]; refusal == ErrStage && advice != "" {
		return fmt.Errorf("pool: %s: %w; %s", call, refusal, advice)
	}
	return fmt.Errorf("pool: %s: %w", call, refusal)
}

// missing makes the error of a call without something that it needs.
func missing(call, what string) error { return fmt.Errorf("pool: %s: %s: %w", call, what, ErrNil) }
