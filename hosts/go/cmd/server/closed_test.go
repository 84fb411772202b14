package main

import (
	"bytes"
	"context"
	"errors"
	"os"
	"path/filepath"
	"reflect"
	"strings"
	"testing"
	"time"

	"yimakohe.example/pool"
	"yimakohe.example/pool/internal/frame"
)

// toClose gives two servers that have entered the returns 3 to 5, none waiting, and a share of a sixth for each.
func toClose(t *testing.T) (both [servers]*server, o [servers]options, shares [][]byte) {
	t.Helper()
	logged(t)
	sheet, err := pool.NewSheet(pool.YesNo())
	if err != nil {
		t.Fatal(err)
	}
	client := pool.Client{Sheet: sheet, Servers: servers}
	if shares, err = client.Make(6, []uint32{1}); err != nil {
		t.Fatal(err)
	}
	for own, table := range staged(t, sheet) {
		o[own] = options{own: frame.Number(own), returns: 9, least: 1, table: filepath.Join(t.TempDir(), "table")}
		s := reopened(t, o[own])
		s.table = table
		for id := uint32(1); id <= 5; id++ {
			end := s.enterID
			if id < 3 {
				end = s.dropID
			}
			if err := end(id); err != nil {
				t.Fatal(err)
			}
		}
		both[own] = s
	}
	return both, o, shares
}

// reopened starts a server of one yes/no question, from its file where there is one.
func reopened(t *testing.T, o options) *server {
	t.Helper()
	sheet, err := pool.NewSheet(pool.YesNo())
	if err != nil {
		t.Fatal(err)
	}
	s, err := newServer(o, sheet, new(pool.Table))
	if err != nil {
		t.Fatal(err)
	}
	return s
}

// runAlone runs a server, with a share waiting, whose peer says these messages and leaves. It gives what the server told, and
// checks that the share was left.
func runAlone(t *testing.T, s *server, share []byte, heard ...message) (told []message, joined pool.Totals, err error) {
	t.Helper()
	s.peer = &peer{in: make(chan message, len(heard)), out: make(chan sent, 16), done: make(chan struct{})}
	for _, m := range heard {
		s.peer.in <- m
	}
	close(s.peer.in)
	close(s.peer.done)
	s.shares = newInbox()
	s.shares.arrived <- share
	joined, err = s.run()
	for n := len(s.peer.out); n > 0; n-- {
		told = append(told, (<-s.peer.out).message)
	}
	if len(s.shares.arrived) != 1 || s.begun != 0 {
		t.Error("a return is taken")
	}
	return told, joined, err
}

var entered345 = ids([]uint32{3, 4, 5})

// A server stops after the close and before its totals are told. However often it is started again, it tells the same totals and takes
// no more returns; its table is closed.
func TestStopsBeforeTotals(t *testing.T) {
	for own := 0; own < servers; own++ {
		both, o, shares := toClose(t)
		s := both[own]
		s.halts = true
		told, _, err := runAlone(t, s, shares[own], message{0, meeting, entered345})
		if err == nil || len(told) != 1 || told[0].step != meeting || len(s.totals) == 0 {
			t.Fatalf("server %d stops: %v, told %v", own, err, told)
		}
		theirs, err := both[1-own].table.Close()
		if err != nil {
			t.Fatal(err)
		}
		o[own].handle = 1
		for _, heard := range [][]message{{{0, meeting, entered345}}, {{0, closed, entered345}, {0, totals, theirs}}} {
			again := reopened(t, o[own])
			if _, err := again.table.Share(shares[own], pool.Pair{R: 1000, S: 7}); !errors.Is(err, pool.ErrStage) {
				t.Errorf("server %d: its stored table takes a share (%v)", own, err)
			}
			told, joined, err := runAlone(t, again, shares[own], heard...)
			if want := []message{{0, closed, entered345}, {0, totals, s.totals}}; !reflect.DeepEqual(told, want) {
				t.Errorf("server %d tells %v, want %v", own, told, want)
			}
			if good := len(heard) == 2; (err == nil) != good || good && (joined.Accepted != 3 || joined.Lines[0].Total != 3) {
				t.Errorf("server %d joins %v, %v", own, joined, err)
			}
		}
	}
}

// Totals that can not be stored are not told. Where the totals were told, they are in the file with the closed table.
func TestTotalsStoredFirst(t *testing.T) {
	both, o, shares := toClose(t)
	both[0].file = filepath.Join(t.TempDir(), "missing", "table")
	told, _, err := runAlone(t, both[0], shares[0], message{0, meeting, entered345})
	if !errors.Is(err, os.ErrNotExist) || len(told) != 1 || told[0].step != meeting {
		t.Errorf("not stored: %v, told %v", err, told)
	}
	told, _, err = runAlone(t, both[1], shares[1], message{0, meeting, entered345})
	if err == nil || len(told) != 2 || told[1].step != totals || !bytes.Equal(reopened(t, o[1]).totals, told[1].body) {
		t.Errorf("without the other's totals: %v, told %v", err, told)
	}
}

// A server whose peer has closed closes too, without a further return; but not where the peer has entered others.
func TestPeerHasClosed(t *testing.T) {
	for own := 0; own < servers; own++ {
		both, o, shares := toClose(t)
		theirs, err := both[1-own].table.Close()
		if err != nil {
			t.Fatal(err)
		}
		o[own].handle = 1
		for _, other := range [][]uint32{{3, 4}, {3, 4, 6}, {3, 4, 5, 6}, nil} {
			again := reopened(t, o[own])
			told, _, err := runAlone(t, again, shares[own], message{0, closed, ids(other)}, message{0, totals, theirs})
			if err == nil || len(told) != 1 || len(again.totals) != 0 {
				t.Errorf("server %d: the other has entered %v: %v, told %v", own, other, err, told)
			}
		}
		again := reopened(t, o[own])
		told, joined, err := runAlone(t, again, shares[own], message{0, closed, entered345}, message{0, totals, theirs})
		if err != nil || len(told) != 2 || joined.Accepted != 3 || joined.Lines[0].Total != 3 {
			t.Errorf("server %d joins %v, %v", own, joined, err)
		}
	}
}

// Two processes. One stops before it tells its totals, or before it enters the last return, when the other closes. Started again, both
// join the totals of the same returns, though they are to handle one more.
func TestStopsAtTheClose(t *testing.T) {
	ctx, cancel := context.WithTimeout(context.Background(), 20*time.Second)
	defer cancel()
	for _, stop := range []string{"-halt", "-stop=2"} {
		for own := 0; own < servers; own++ {
			var args [servers][]string
			for k := range args {
				args[k] = []string{"-least", "2", "-table", filepath.Join(t.TempDir(), "table"), "-handle", "2"}
			}
			first := args
			first[own] = append(args[own][:6:6], stop)
			both, deliver := startApart(ctx, t, []byte{17, 19, 8}, first)
			deliver(1, []uint32{1, 40}, honest)
			deliver(2, []uint32{1, 2}, honest)
			for k, p := range both {
				if log := p.fails(t); strings.Contains(log, "stops before") != (k == own) {
					t.Errorf("%s at server %d: server %d logs\n%s", stop, own, k, log)
				}
			}
			for k := range args {
				args[k][5] = "1"
			}
			both, _ = startApart(ctx, t, []byte{17, 19, 8}, args)
			for k, p := range both {
				if got, want := p.end(t), "accepted 2\n1 0 2\n2 0 42"; got != want {
					t.Errorf("%s at server %d: server %d printed\n%s\nits log is\n%s", stop, own, k, got, p.log)
				}
			}
		}
	}
}
