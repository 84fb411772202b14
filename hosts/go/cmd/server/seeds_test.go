package main

import (
	"context"
	"strings"
	"testing"
	"time"

	"yimakohe.example/pool"
)

// seeding delivers the messages of returns made from seeds, as deliver does those of shares.
func seeding(t *testing.T, sheet []byte, deliver deliverer) deliverer {
	t.Helper()
	read, err := pool.ReadSheet(sheet)
	if err != nil {
		t.Fatal(err)
	}
	client := pool.Client{Sheet: read, Servers: servers}
	return func(id uint32, values []uint32, alter func(messages [][]byte)) {
		t.Helper()
		messages, err := client.MakeSeeded(id, values)
		if err != nil {
			t.Fatal(err)
		}
		alter(messages)
		deliver(id, values, func(shares [][]byte) { copy(shares, messages) })
	}
}

// Two servers in two processes: returns with a seed for server 1 beside one without, one whose seed is altered, one whose seed comes
// to server 0 and one whose seed is cut.
func TestSeedsAtTwoProcesses(t *testing.T) {
	ctx, cancel := context.WithTimeout(context.Background(), 20*time.Second)
	defer cancel()
	sheet := []byte{17, 18, 3, 19, 8}
	both, deliver := startTwo(ctx, t, sheet, "-least", "3", "-handle", "6", "-wait", "200ms")
	seeds := seeding(t, sheet, deliver)
	seeds(1, []uint32{1, 0, 200}, honest)
	deliver(2, []uint32{0, 2, 100}, honest)
	seeds(3, []uint32{1, 1, 50}, func(messages [][]byte) { messages[1][20] ^= 1 })
	seeds(4, []uint32{1, 1, 50}, func(messages [][]byte) { messages[0] = messages[1] })
	seeds(5, []uint32{1, 1, 50}, func(messages [][]byte) { messages[1] = messages[1][:37] })
	seeds(6, []uint32{1, 2, 255}, honest)

	want := "accepted 3\n1 0 2\n2 0 1\n2 1 0\n2 2 2\n3 0 555"
	for k, p := range both {
		if got := p.end(t); got != want {
			t.Errorf("server %d printed\n%s\nits log is\n%s", k, got, p.log)
		}
	}
	for _, test := range []struct {
		server int
		line   string
	}{
		{0, "return 3: rejected"}, {1, "return 3: rejected"}, {0, "return 4: pool: share: refused 7"}, {1, "return 4: dropped"},
		{1, "return 5: pool: share: refused 7"}, {0, "return 5: dropped"},
	} {
		if log := both[test.server].log.String(); !strings.Contains(log, test.line) {
			t.Errorf("server %d does not log %q but\n%s", test.server, test.line, log)
		}
	}
}
