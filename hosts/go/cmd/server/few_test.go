package main

import (
	"context"
	"encoding/binary"
	"os"
	"os/exec"
	"strings"
	"testing"
	"time"
)

// falsify alters an entry in the share of server 0.
func falsify(shares [][]byte) { binary.LittleEndian.PutUint32(shares[0][6:], 12345) }

// With too few entered both servers say so and take as many returns more as are missing; with enough they close.
func TestTooFewGoOn(t *testing.T) {
	ctx, cancel := context.WithTimeout(context.Background(), 20*time.Second)
	defer cancel()
	both, deliver := startTwo(ctx, t, []byte{17, 19, 8}, "-returns", "7", "-least", "4", "-handle", "2")
	for id := uint32(1); id <= 6; id++ {
		alter := honest
		if id == 2 || id == 4 {
			alter = falsify
		}
		deliver(id, []uint32{1, 10 * id}, alter)
	}
	for k, p := range both {
		if got, want := p.end(t), "accepted 4\n1 0 4\n2 0 150"; got != want {
			t.Errorf("server %d printed\n%s\nits log is\n%s", k, got, p.log)
		}
		var refusals []string
		for _, line := range strings.Split(p.log.String(), "\n") {
			if strings.Contains(line, "refused 15: ") {
				refusals = append(refusals, line[strings.LastIndex(line, "("):])
			}
		}
		if got, want := strings.Join(refusals, " "), "(1 of 4 entered) (3 of 4 entered)"; got != want {
			t.Errorf("server %d: closes refused %s, want %s", k, got, want)
		}
	}
}

// fails waits until a server has ended badly and gives its log. It prints no totals.
func (p *process) fails(t *testing.T) string {
	t.Helper()
	for p.out.Scan() {
		t.Errorf("printed %q", p.out.Text())
	}
	if err := p.cmd.Wait(); err == nil {
		t.Error("it ended well")
	}
	return p.log.String()
}

// Once the least count can not be reached both servers end without totals and say what to do: with all returns decided, and as
// soon as too many are rejected.
func TestNeverCloses(t *testing.T) {
	ctx, cancel := context.WithTimeout(context.Background(), 20*time.Second)
	defer cancel()
	for _, test := range []struct{ returns, least, handle, says string }{
		{"2", "2", "1", "1 are missing and 0 can still be decided"},
		{"3", "3", "2", "2 are missing and 1 can still be decided"},
	} {
		both, deliver := startTwo(ctx, t, []byte{17}, "-returns", test.returns, "-least", test.least, "-handle", test.handle)
		deliver(1, []uint32{1}, honest)
		deliver(2, []uint32{1}, falsify)
		for k, p := range both {
			log := p.fails(t)
			if !strings.Contains(log, "refused 15") || !strings.Contains(log, test.says+": this pool never closes, open a new one") {
				t.Errorf("server %d logs\n%s", k, log)
			}
		}
	}
}

// A server whose peer has closed before it, by another least count, does not wait for more.
func TestPeerClosedBefore(t *testing.T) {
	s := lone(1, nil, nil)
	if err := s.hear(message{0, totals, make([]byte, 10)}); err == nil || !strings.Contains(err.Error(), "-least") {
		t.Errorf("got %v", err)
	}
}

// Numbers that do not fit are refused, never cut, and the least count must be given.
func TestNumbersOfFlags(t *testing.T) {
	ctx, cancel := context.WithTimeout(context.Background(), 20*time.Second)
	defer cancel()
	for _, test := range []struct{ args, says string }{
		{"-least 4294967297", "out of range"},
		{"-least 1 -returns 4294967396", "out of range"},
		{"-least 1 -own 4294967296", "out of range"},
		{"-least -1", "invalid"},
		{"-least 65537", "refused 2"},
		{"-least 101", "refused 2"},
		{"-least 0", "refused 2"},
		{"-least 1 -slip 4294967296", "out of range"},
		{"-least 1 -slip 1,2", "invalid"},
		{"", "refused 2"},
	} {
		cmd := exec.CommandContext(ctx, os.Args[0], append([]string{"-sheet", "17"}, strings.Fields(test.args)...)...)
		cmd.Env = append(os.Environ(), "POOL_SERVER=1")
		if out, err := cmd.CombinedOutput(); err == nil || !strings.Contains(string(out), test.says) {
			t.Errorf("%q: %v, %s", test.args, err, out)
		}
	}
}
