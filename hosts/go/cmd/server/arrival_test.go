package main

import (
	"io"
	"log"
	"os"
	"reflect"
	"testing"

	"yimakohe.example/pool"
)

// Messages stay in the order in which they came.
func TestArrival(t *testing.T) {
	var a arrival
	a.add(1, []byte{11})
	if a.whole() || a.has(0) || !a.has(1) || a.stops() {
		t.Errorf("after one message: %+v", a)
	}
	a.add(0, []byte{22})
	if !a.whole() || !a.has(0) || a.stops() || !reflect.DeepEqual(a.messages, [][]byte{{11}, {22}}) {
		t.Errorf("after both: %+v", a)
	}
	var b arrival
	b.add(0, nil)
	if !b.has(0) || !b.stops() || b.whole() {
		t.Errorf("after an empty message: %+v", b)
	}
}

// lone is a server whose peer is the test.
func lone(own uint, sheet *pool.Sheet, table *pool.Table) *server {
	return &server{own: own, sheet: sheet, table: table, peer: &peer{out: make(chan sent, 16)},
		courses: map[uint32]*course{}}
}

// A second message of the peer for a step is not counted as the own one.
func TestPeerTwice(t *testing.T) {
	s := lone(1, nil, nil)
	c := s.begin(0, 7)
	if err := s.hear(message{0, part, make([]byte, 16)}); err != nil {
		t.Fatal(err)
	}
	if err := s.hear(message{0, part, make([]byte, 16)}); err == nil || c.came[part].whole() || c.step != part {
		t.Errorf("taken twice (%v): %+v", err, c)
	}
}

// sharedByTwo has two tables take their shares of a return; it gives the round-one messages.
func sharedByTwo(t *testing.T, sheet *pool.Sheet, id uint32, values []uint32) (tables [servers]*pool.Table, ones [servers][]byte) {
	t.Helper()
	client := pool.Client{Sheet: sheet, Servers: servers}
	shares, err := client.Make(id, values)
	if err != nil {
		t.Fatal(err)
	}
	for own := range tables {
		if tables[own], err = pool.Open(servers, uint32(own), sheet, 1, 1); err != nil {
			t.Fatal(err)
		}
		if ones[own], err = tables[own].Share(shares[own], pool.Pair{R: 1000, S: 7}); err != nil {
			t.Fatal(err)
		}
	}
	return tables, ones
}

// joinBoth closes two tables and joins their totals.
func joinBoth(t *testing.T, sheet *pool.Sheet, tables [servers]*pool.Table) pool.Totals {
	t.Helper()
	var messages [servers][]byte
	for own, table := range tables {
		var err error
		if messages[own], err = table.Close(); err != nil {
			t.Fatal(err)
		}
	}
	joined, err := pool.Join(servers, sheet, 1, messages[:])
	if err != nil {
		t.Fatal(err)
	}
	return joined
}

// Server 0 has the other's message first in round one and its own first in round two, and hands them in so. Server 1 has both in
// server order. Server 0 enters the return once server 1 has told that it has accepted it, not before.
func TestHandedInAsTheyCame(t *testing.T) {
	log.SetOutput(io.Discard)
	defer log.SetOutput(os.Stderr)
	sheet, err := pool.NewSheet(pool.YesNo(), pool.Number(8))
	if err != nil {
		t.Fatal(err)
	}
	tables, ones := sharedByTwo(t, sheet, 7, []uint32{1, 40})
	s := lone(0, sheet, tables[0])
	c := s.begin(0, 7)
	c.step, c.waits = roundOne, true
	c.came[roundOne].add(1, ones[1])
	c.came[roundOne].add(0, ones[0])
	if err := s.advance(c); err != nil || !c.came[roundTwo].has(0) || c.came[roundTwo].stops() {
		t.Fatalf("round one: %v, %+v", err, c)
	}
	mine := c.came[roundTwo].messages[0]
	theirs, err := tables[1].RoundOne(7, ones[:])
	if err != nil {
		t.Fatal(err)
	}
	if err := s.hear(message{0, roundTwo, theirs}); err != nil || s.ended != 0 || len(s.entered) != 0 || !c.came[verdict].has(0) {
		t.Fatalf("round two: %v, %+v", err, c)
	}
	if good, err := tables[1].RoundTwo(7, [][]byte{mine, theirs}); err != nil || !good {
		t.Errorf("server 1: accepted %v, %v", good, err)
	}
	if err := s.hear(message{0, verdict, accepted}); err != nil || s.ended != 1 || !reflect.DeepEqual(s.entered, []uint32{7}) {
		t.Fatalf("the verdict of server 1: %v, %+v", err, c)
	}
	if err := tables[1].Enter(7); err != nil {
		t.Error(err)
	}
	want := pool.Totals{Accepted: 1, Lines: []pool.Line{{Column: 1, Total: 1}, {Column: 2, Total: 40}}}
	if got := joinBoth(t, sheet, tables); !reflect.DeepEqual(got, want) {
		t.Errorf("totals %v, want %v", got, want)
	}
}
