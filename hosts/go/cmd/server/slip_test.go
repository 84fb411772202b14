package main

import (
	"context"
	"fmt"
	"strings"
	"testing"
	"time"

	"yimakohe.example/pool"
)

// A keeper types r wrongly for two of three returns. Both servers refuse round one, say which pairs they have, and drop the two;
// the workshops file them anew under new ids. The totals hold each return once, and none is rejected.
func TestSlip(t *testing.T) {
	ctx, cancel := context.WithTimeout(context.Background(), 20*time.Second)
	defer cancel()
	for own := 0; own < servers; own++ {
		args := [servers][]string{{"-least", "3", "-handle", "3"}, {"-least", "3", "-handle", "3"}}
		args[own] = append(args[own], "-slip", "1 3")
		both, deliver := startApart(ctx, t, []byte{17, 19, 8}, args)
		for id, hours := range []uint32{40, 2, 100} {
			deliver(uint32(id)+1, []uint32{1, hours}, honest)
		}
		deliver(11, []uint32{1, 40}, honest)
		deliver(13, []uint32{1, 100}, honest)
		for k, p := range both {
			if got, want := p.end(t), "accepted 3\n1 0 3\n2 0 142"; got != want {
				t.Errorf("a slip at server %d: server %d printed\n%s\nits log is\n%s", own, k, got, p.log)
			}
			checkSlipLog(t, p.log.String(), own)
		}
	}
}

// checkSlipLog looks at what a server says where r of the returns 1 and 3 was one too high at server `slips`.
func checkSlipLog(t *testing.T, log string, slips int) {
	t.Helper()
	for _, id := range []int{1, 3} {
		var pairs [servers]pool.Pair
		for server := range pairs {
			says := fmt.Sprintf("return %d: server %d has ", id, server)
			at := strings.Index(log, says)
			if at < 0 {
				t.Fatalf("the log does not say %q:\n%s", says, log)
			}
			fmt.Sscanf(log[at+len(says):], "r %d and s %d", &pairs[server].R, &pairs[server].S)
		}
		if right, wrong := pairs[1-slips], pairs[slips]; right.R < 10 || wrong.R != right.R+1 || wrong.S != right.S {
			t.Errorf("return %d: pairs %v, the slip at server %d", id, pairs, slips)
		}
		for _, says := range []string{"return %d: pool: round one: refused 16: ", "return %d: dropped"} {
			if says = fmt.Sprintf(says, id); strings.Count(log, says) != 1 {
				t.Errorf("the log does not say %q once:\n%s", says, log)
			}
		}
	}
	for _, says := range []string{"return 2: entered", "return 11: entered", "return 13: entered", "(1 of 3 entered)"} {
		if !strings.Contains(log, says) {
			t.Errorf("the log does not say %q:\n%s", says, log)
		}
	}
	if strings.Contains(log, "rejected") {
		t.Errorf("a return is rejected:\n%s", log)
	}
}

// What is typed wrongly is still a pair that a share is taken with, for the least r and the greatest too.
func TestTyped(t *testing.T) {
	sheet, err := pool.NewSheet(pool.YesNo())
	if err != nil {
		t.Fatal(err)
	}
	s := &server{sheet: sheet, slips: []uint32{0, 7}}
	const most = 1<<31 - 2
	for _, test := range []struct {
		id          uint32
		pair, typed pool.Pair
	}{
		{7, pool.Pair{R: 2, S: 5}, pool.Pair{R: 3, S: 5}}, {0, pool.Pair{R: 1000}, pool.Pair{R: 1001}},
		{7, pool.Pair{R: most, S: most}, pool.Pair{R: 2, S: most}}, {8, pool.Pair{R: 1000, S: 5}, pool.Pair{R: 1000, S: 5}},
	} {
		if got, err := s.typed(test.id, test.pair); err != nil || got != test.typed {
			t.Errorf("return %d: typed %v, %v for %v, want %v", test.id, got, err, test.pair, test.typed)
		}
	}
}
