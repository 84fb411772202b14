package pool

import (
	"bytes"
	"encoding/binary"
	"errors"
	"fmt"
	"reflect"
	"testing"
)

// startWith takes the shares of a return, each server with its own pair, and gives the round-one messages.
func (all servers) startWith(t *testing.T, shares [][]byte, pairs []Pair) [][]byte {
	t.Helper()
	return all.each(t, func(own int, table *Table) ([]byte, error) { return table.Share(shares[own], pairs[own]) })
}

// alike gives every server this pair.
func alike(servers int, pair Pair) []Pair {
	pairs := make([]Pair, servers)
	for k := range pairs {
		pairs[k] = pair
	}
	return pairs
}

// A round-one message is byte 34, id, server, d, e, r, s; a round-two message has no pair.
func TestRoundMessages(t *testing.T) {
	sheet := sheetOf(t, YesNo())
	client := Client{Sheet: sheet, Servers: 3}
	for id, pair := range []Pair{{2, 0}, {0x01020304, 0x05060708}, {uint64(prime) - 1, uint64(prime) - 1}} {
		all := openAll(t, 3, sheet, 1)
		shares, _ := client.Make(uint32(id), []uint32{1})
		ones := all.startWith(t, shares, alike(3, pair))
		for own, message := range ones {
			want := append([]byte{34, byte(id), 0, 0, 0, byte(own)}, message[6:14]...)
			want = append(want, elements([]uint32{uint32(pair.R), uint32(pair.S)})...)
			if len(message) != 22 || !bytes.Equal(message, want) {
				t.Errorf("server %d: %v, want %v", own, message, want)
			}
			if server, got, ok := RoundOnePair(message); !ok || int(server) != own || got != pair {
				t.Errorf("server %d: read %v, %v, %v", own, server, got, ok)
			}
		}
		for own, message := range all.roundOne(t, uint32(id), ones) {
			if len(message) != 14 || message[0] != 35 {
				t.Errorf("server %d: round two %v", own, message)
			}
		}
	}
	for _, b := range [][]byte{nil, make([]byte, 22), append([]byte{34}, make([]byte, 13)...), append([]byte{34}, make([]byte, 22)...)} {
		if _, _, ok := RoundOnePair(b); ok {
			t.Errorf("read from %v", b)
		}
	}
}

// mustRefuseUnequal checks that every server refuses round one of a return with 16, in any order and any room, and is left as it
// was: the return awaits round one.
func (all servers) mustRefuseUnequal(t *testing.T, when string, id uint32, ones [][]byte) {
	t.Helper()
	for own, table := range all {
		before := stored(t, table)
		for _, messages := range [][][]byte{ones, reversed(ones), arrived(ones)} {
			message, err := table.RoundOne(id, messages)
			if message != nil || !errors.Is(err, ErrUnequal) {
				t.Errorf("%s, server %d: %v, %v", when, own, message, err)
			}
			for _, room := range []int{0, 13, 14, 30} {
				out := bytes.Repeat([]byte{7}, room)
				written, number := coreRoundOne(table, id, bytes.Join(messages, nil), out)
				if written != 0 || Refusal(number) != ErrUnequal || !bytes.Equal(out, bytes.Repeat([]byte{7}, room)) {
					t.Errorf("%s, server %d, room %d: %d, %d, %v", when, own, room, written, number, out)
				}
			}
		}
		if !bytes.Equal(before, stored(t, table)) || waiting(table)[id] != AwaitsOne {
			t.Errorf("%s, server %d: the table is changed", when, own)
		}
	}
}

// slips are wrong pairs that a keeper could type for the right one.
func slips(right Pair) map[string]Pair {
	return map[string]Pair{
		"r":           {right.R + 1, right.S},
		"s":           {right.R, right.S ^ 1},
		"r by 2^24":   {right.R ^ 1<<24, right.S},
		"s by 2^24":   {right.R, right.S ^ 1<<24},
		"r for s":     {right.S, right.R},
		"all, least":  {18, 0},
		"all, utmost": {uint64(prime) - 1, uint64(prime) - 1},
	}
}

// One server takes its share with a wrong pair: all refuse, the return is dropped and filed anew, and the totals hold it once.
func TestSlip(t *testing.T) {
	sheet := sheetOf(t, YesNo(), UpTo(200))
	right := Pair{123456789, 987654321}
	for n := 2; n <= 8; n += 3 {
		client := Client{Sheet: sheet, Servers: uint32(n)}
		for name, wrong := range slips(right) {
			for own := 0; own < n; own++ {
				when := fmt.Sprintf("%d servers, %s wrong at server %d", n, name, own)
				all := openLeast(t, uint32(n), sheet, 3, 2)
				first, _ := client.Make(1, []uint32{1, 100})
				slipped, _ := client.Make(2, []uint32{1, 40})
				anew, _ := client.Make(3, []uint32{1, 40})
				if !all.judge(t, sheet, first) {
					t.Errorf("%s: the first return is rejected", when)
				}
				pairs := alike(n, right)
				pairs[own] = wrong
				ones := all.startWith(t, slipped, pairs)
				all.mustRefuseUnequal(t, when, 2, ones)
				all.mustRefuseClose(t, when, ErrStage)
				all.endSlip(t, when, slipped, right)
				if !all.judge(t, sheet, anew) {
					t.Errorf("%s: the return made anew is rejected", when)
				}
				want := Totals{2, []Line{{1, 0, 2}, {2, 0, 140}}}
				if got := all.closeAndJoin(t, sheet, 3); !reflect.DeepEqual(got, want) {
					t.Errorf("%s: totals %v, want %v", when, got, want)
				}
			}
		}
	}
}

// endSlip drops a return everywhere. Its id is used then, and too few are entered.
func (all servers) endSlip(t *testing.T, when string, shares [][]byte, pair Pair) {
	t.Helper()
	id := binary.LittleEndian.Uint32(shares[0][1:])
	for _, table := range all {
		_, err := table.RoundTwo(id, nil)
		refused(t, err, ErrStage)
	}
	all.drop(t, id)
	for own, table := range all {
		_, err := table.Share(shares[own], pair)
		refused(t, err, ErrDecided)
		if len(table.Waiting()) != 0 {
			t.Errorf("%s, server %d: %v wait", when, own, table.Waiting())
		}
	}
	all.mustRefuseClose(t, when, ErrFew)
}

// All servers have different pairs, or two have one and the others another: nobody's is taken as the right one.
func TestManySlips(t *testing.T) {
	sheet := sheetOf(t, YesNo())
	client := Client{Sheet: sheet, Servers: 4}
	for name, pairs := range map[string][]Pair{
		"each its own":        {{1000, 1}, {1001, 1}, {1002, 1}, {1003, 1}},
		"two and two":         {{1000, 1}, {1001, 1}, {1000, 1}, {1001, 1}},
		"r here, s there":     {{1000, 1}, {1000, 2}, {1001, 1}, {1000, 1}},
		"r and s the same":    {{1000, 1000}, {1001, 1001}, {1000, 1000}, {1000, 1000}},
		"equal sums":          {{1000, 5}, {1001, 4}, {1000, 5}, {1001, 4}},
		"the last one, its s": {{1000, 1}, {1000, 1}, {1000, 1}, {1000, 0}},
	} {
		all := openAll(t, 4, sheet, 2)
		shares, _ := client.Make(9, []uint32{1})
		all.mustRefuseUnequal(t, name, 9, all.startWith(t, shares, pairs))
	}
}

// Of eight returns that wait one has unequal pairs. The others are finished beside it, and it waits until it is dropped.
func TestSlipAmongEight(t *testing.T) {
	sheet := sheetOf(t, YesNo(), Number(8))
	all := openAll(t, 3, sheet, 20)
	courses := newCourses(t, sheet, 3, Slots)
	slipped := courses[3]
	for _, c := range courses {
		if c == slipped {
			c.messages, c.awaits = all.startWith(t, c.shares, []Pair{{1000, 5}, {1000, 5}, {1000, 50}}), AwaitsOne
		} else {
			c.step(t, all, sheet)
		}
	}
	for awaited := AwaitsOne; awaited <= AwaitsEntry; awaited++ {
		for _, c := range courses {
			all.mustRefuseUnequal(t, "eight wait", slipped.id, slipped.messages)
			if accepted := c != slipped && c.step(t, all, sheet); accepted != (c != slipped && awaited == AwaitsTwo) {
				t.Errorf("return %d: accepted %v", c.id, accepted)
			}
		}
	}
	all.drop(t, slipped.id)
	want := Totals{7, []Line{{1, 0, 3}, {2, 0, 10 * (0 + 1 + 2 + 4 + 5 + 6 + 7)}}}
	if got := all.closeAndJoin(t, sheet, 20); !reflect.DeepEqual(got, want) {
		t.Errorf("totals %v, want %v", got, want)
	}
}

// A refusal by unequal pairs is the same after a restart.
func TestSlipRestored(t *testing.T) {
	sheet := sheetOf(t, YesNo())
	client := Client{Sheet: sheet, Servers: 2}
	all := openAll(t, 2, sheet, 2)
	shares, _ := client.Make(4, []uint32{1})
	ones := all.startWith(t, shares, []Pair{{1000, 5}, {1000, 6}})
	all.mustRefuseUnequal(t, "before", 4, ones)
	for own, table := range all {
		all[own] = new(Table)
		if err := all[own].UnmarshalBinary(stored(t, table)); err != nil {
			t.Fatal(err)
		}
	}
	all.mustRefuseUnequal(t, "after", 4, ones)
	all.drop(t, 4)
}
