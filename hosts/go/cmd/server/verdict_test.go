package main

import (
	"bytes"
	"errors"
	"log"
	"os"
	"path/filepath"
	"strings"
	"testing"

	"yimakohe.example/pool"
)

// logged gives a buffer with all that is logged until the test ends.
func logged(t *testing.T) *bytes.Buffer {
	t.Helper()
	b := new(bytes.Buffer)
	log.SetOutput(b)
	t.Cleanup(func() { log.SetOutput(os.Stderr) })
	return b
}

// upToRoundTwo brings return 7 at server 0, whose peer is the test, up to round two. It gives the round-two message of server 1.
func upToRoundTwo(t *testing.T) (s *server, c *course, two []byte) {
	t.Helper()
	sheet, err := pool.NewSheet(pool.YesNo(), pool.Number(8))
	if err != nil {
		t.Fatal(err)
	}
	tables, ones := sharedByTwo(t, sheet, 7, []uint32{1, 40})
	s = lone(0, sheet, tables[0])
	c = s.begin(0, 7)
	c.step, c.waits = roundOne, true
	c.came[roundOne].add(0, ones[0])
	if err := s.hear(message{0, roundOne, ones[1]}); err != nil {
		t.Fatal(err)
	}
	if two, err = tables[1].RoundOne(7, ones[:]); err != nil {
		t.Fatal(err)
	}
	return s, c, two
}

func unaltered(two []byte) []byte { return two }

func alteredSigma(two []byte) []byte {
	two[6] ^= 1
	return two
}

// Only what both servers have accepted is entered. Where one rejects it, or can not judge it, it is entered nowhere.
func TestVerdictsThatDiffer(t *testing.T) {
	for _, test := range []struct {
		name       string
		alter      func(two []byte) []byte
		mine       []byte // what server 0 tells
		theirs     []byte
		ends, says string
	}{
		{"both accept", unaltered, accepted, accepted, "entered", ""},
		{"the other rejects", unaltered, accepted, nil, "dropped", ""},
		{"this one rejects", alteredSigma, nil, accepted, "rejected", ""},
		{"both reject", alteredSigma, nil, nil, "rejected", ""},
		{"this one can not judge", func(two []byte) []byte { return two[1:] }, nil, accepted, "dropped", "round two: refused 12"},
	} {
		said := logged(t)
		s, c, two := upToRoundTwo(t)
		if err := s.hear(message{0, roundTwo, test.alter(two)}); err != nil || c.step != verdict || !c.came[verdict].has(0) {
			t.Fatalf("%s: %v, %+v", test.name, err, c)
		}
		if got := c.came[verdict].messages[0]; !bytes.Equal(got, test.mine) || s.ended != 0 {
			t.Errorf("%s: told %v, want %v", test.name, got, test.mine)
		}
		if err := s.hear(message{0, verdict, test.theirs}); err != nil {
			t.Errorf("%s: %v", test.name, err)
		}
		for _, want := range []string{"return 7: " + test.ends + ", 0 others", test.says} {
			if !strings.Contains(said.String(), want) {
				t.Errorf("%s: logged %s, not %q", test.name, said, want)
			}
		}
		if s.ended != 1 || decided(t, s) != 1 || len(s.table.Waiting()) != 0 || (len(s.entered) == 1) != (test.ends == "entered") {
			t.Errorf("%s: %d ended, %d decided, %v entered, %v wait", test.name, s.ended, decided(t, s), s.entered, s.table.Waiting())
		}
		if _, err := s.table.Close(); errors.Is(err, pool.ErrFew) != (test.ends != "entered") {
			t.Errorf("%s: close %v", test.name, err)
		}
	}
}

// A verdict that can not be stored is not told, and the server does not go on.
func TestVerdictNotStored(t *testing.T) {
	s, c, two := upToRoundTwo(t)
	sent := len(s.peer.out)
	s.file = filepath.Join(t.TempDir(), "missing", "table")
	if err := s.hear(message{0, roundTwo, two}); !errors.Is(err, os.ErrNotExist) {
		t.Errorf("got %v", err)
	}
	if len(s.peer.out) != sent || c.came[verdict].has(0) || s.table.Waiting()[0].Awaits != pool.AwaitsEntry {
		t.Errorf("the verdict is told: %+v", c)
	}
}
