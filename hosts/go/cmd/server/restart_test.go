package main

import (
	"context"
	"os"
	"path/filepath"
	"reflect"
	"strings"
	"testing"
	"time"

	"yimakohe.example/pool"
)

// One server stops between its verdict on return 2 and the entry; the other has entered it, and stops too. Both go on from their
// stored tables, and the totals hold each return once.
func TestStopsBetweenVerdictAndEntry(t *testing.T) {
	ctx, cancel := context.WithTimeout(context.Background(), 20*time.Second)
	defer cancel()
	for own := 0; own < servers; own++ {
		var files [servers]string
		var args [servers][]string
		for k := range files {
			files[k] = filepath.Join(t.TempDir(), "table")
			args[k] = []string{"-least", "3", "-handle", "3", "-table", files[k]}
		}
		first := args
		first[own] = append(args[own][:6:6], "-stop", "2")
		both, deliver := startApart(ctx, t, []byte{17, 19, 8}, first)
		deliver(1, []uint32{1, 40}, honest)
		deliver(2, []uint32{1, 2}, honest)
		for k, p := range both {
			log := p.fails(t)
			if strings.Contains(log, "return 2: entered") != (k != own) || strings.Contains(log, "stops before it enters return 2") != (k == own) {
				t.Errorf("server %d stops: server %d logs\n%s", own, k, log)
			}
		}

		for k := range args {
			args[k][3] = "1" // -handle
		}
		both, deliver = startApart(ctx, t, []byte{17, 19, 8}, args)
		deliver(3, []uint32{0, 100}, honest)
		for k, p := range both {
			if got, want := p.end(t), "accepted 3\n1 0 2\n2 0 142"; got != want {
				t.Errorf("server %d stops: server %d printed\n%s\nits log is\n%s", own, k, got, p.log)
			}
			if strings.Contains(p.log.String(), "return 2: entered after a restart") != (k == own) {
				t.Errorf("server %d stops: server %d logs\n%s", own, k, p.log)
			}
			if _, err := os.Stat(files[k]); !os.IsNotExist(err) {
				t.Errorf("server %d: its stored table is still there (%v)", k, err)
			}
		}
	}
}

// staged opens two tables and has both take the returns 1 to 5: 1 awaits round one, 2 awaits round two, the others await entry.
func staged(t *testing.T, sheet *pool.Sheet) (tables [servers]*pool.Table) {
	t.Helper()
	client := pool.Client{Sheet: sheet, Servers: servers}
	var err error
	must := func(b []byte, e error) []byte {
		if e != nil {
			t.Fatal(e)
		}
		return b
	}
	for own := range tables {
		if tables[own], err = pool.Open(servers, uint32(own), sheet, 9, 1); err != nil {
			t.Fatal(err)
		}
	}
	for id := uint32(1); id <= 5; id++ {
		var ones, twos [][]byte
		shares, err := client.Make(id, []uint32{1})
		for own, table := range tables {
			must(nil, err)
			ones = append(ones, must(table.Share(shares[own], pool.Pair{R: 1000, S: 7})))
		}
		for _, table := range tables {
			if id > 1 {
				twos = append(twos, must(table.RoundOne(id, ones)))
			}
		}
		for _, table := range tables {
			if id > 2 {
				_, err := table.RoundTwo(id, twos)
				must(nil, err)
			}
		}
	}
	return tables
}

// After a restart a return that awaits entry is entered where the other server has accepted it, and everything else that waits is
// dropped.
func TestSettle(t *testing.T) {
	logged(t)
	sheet, err := pool.NewSheet(pool.YesNo())
	if err != nil {
		t.Fatal(err)
	}
	for _, test := range []struct{ theirs, entered []uint32 }{
		{nil, []uint32{5}}, {[]uint32{3, 4}, []uint32{5, 3, 4}}, {[]uint32{9, 4, 2, 1, 5}, []uint32{5, 4}}, {[]uint32{3}, []uint32{5, 3}},
	} {
		s := lone(0, sheet, staged(t, sheet)[0])
		if err := s.enterID(5); err != nil {
			t.Fatal(err)
		}
		s.peer.in = make(chan message, 1)
		s.peer.in <- message{0, meeting, ids(test.theirs)}
		if err := s.settle(); err != nil {
			t.Errorf("%v: %v", test.theirs, err)
		}
		if told := (<-s.peer.out).message; !reflect.DeepEqual(told, message{0, meeting, ids([]uint32{5, 3, 4})}) {
			t.Errorf("told %v", told)
		}
		if !reflect.DeepEqual(s.entered, test.entered) || decided(t, s) != 5 || len(s.table.Waiting()) != 0 {
			t.Errorf("%v: %v entered, %d decided, %v wait", test.theirs, s.entered, decided(t, s), s.table.Waiting())
		}
	}
	s := lone(0, sheet, staged(t, sheet)[0])
	s.peer.in = make(chan message, 1)
	s.peer.in <- message{0, begin, nil}
	if err := s.settle(); err == nil || len(s.table.Waiting()) != 5 {
		t.Errorf("without the other's word: %v, %v wait", err, s.table.Waiting())
	}
}

// decided gives how many returns are decided at a server.
func decided(t *testing.T, s *server) uint32 {
	t.Helper()
	state, err := s.table.State()
	if err != nil {
		t.Fatal(err)
	}
	return state.Decided
}

// What was stored comes back, of this pool only and only whole.
func TestStoredServer(t *testing.T) {
	sheet, err := pool.NewSheet(pool.YesNo())
	if err != nil {
		t.Fatal(err)
	}
	file := filepath.Join(t.TempDir(), "table")
	o := options{returns: 9, least: 1, table: file}
	open := func(o options) (*server, error) { return newServer(o, sheet, new(pool.Table)) }
	s, err := open(o)
	if err != nil {
		t.Fatal(err)
	}
	s.table = staged(t, sheet)[0]
	if err := s.enterID(4); err != nil {
		t.Fatal(err)
	}
	again, err := open(o)
	if err != nil || !reflect.DeepEqual(again.table, s.table) || !reflect.DeepEqual(again.entered, []uint32{4}) || decided(t, again) != 1 {
		t.Errorf("restored %+v, %v", again, err)
	}
	for _, other := range []options{{own: 1, returns: 9, least: 1, table: file}, {returns: 9, least: 2, table: file}} {
		if _, err := open(other); err == nil || !strings.Contains(err.Error(), "another pool") {
			t.Errorf("the table of another pool: %v", err)
		}
	}
	b, _ := os.ReadFile(file)
	for _, wrong := range [][]byte{nil, b[:len(b)/2], b[1:]} {
		if err := replaceFile(file, wrong); err != nil {
			t.Fatal(err)
		}
		if _, err := open(o); err == nil {
			t.Errorf("%d bytes of %d are restored", len(wrong), len(b))
		}
	}
	if left, _ := filepath.Glob(file + "*"); len(left) != 1 {
		t.Errorf("files that are left: %v", left)
	}
}

// What stands beside a stored table must be of it.
func TestStoredBeside(t *testing.T) {
	sheet, err := pool.NewSheet(pool.YesNo())
	if err != nil {
		t.Fatal(err)
	}
	o := options{returns: 9, least: 1, table: filepath.Join(t.TempDir(), "table")}
	s, err := newServer(o, sheet, staged(t, sheet)[0])
	if err != nil {
		t.Fatal(err)
	}
	if err := s.enterID(4); err != nil {
		t.Fatal(err)
	}
	for _, kept := range []saved{{}, {Entered: []uint32{4, 3}}, {Entered: []uint32{4}, Totals: []byte{36}}, {Entered: []uint32{4}}} {
		s.entered, s.totals = kept.Entered, kept.Totals
		if err := s.store(); err != nil {
			t.Fatal(err)
		}
		_, err := newServer(o, sheet, new(pool.Table))
		if sound := len(kept.Entered) == 1 && kept.Totals == nil; (err == nil) != sound || !sound && !strings.Contains(err.Error(), "beside") {
			t.Errorf("%+v beside a table with one entered: %v", kept, err)
		}
	}
}
