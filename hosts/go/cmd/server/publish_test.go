package main

import (
	"context"
	"testing"
	"time"

	"yimakohe.example/pool"
)

// Two servers in two processes print the line of each column of points, and where there is none that.
func TestLinesPrinted(t *testing.T) {
	ctx, cancel := context.WithTimeout(context.Background(), 20*time.Second)
	defer cancel()
	both, deliver := startTwo(ctx, t, []byte{21, 6, 17, 21, 2}, "-least", "3", "-handle", "3")
	for id, point := range [][2]uint32{{28, 9}, {34, 5}, {30, 3}} {
		value, err := pool.Point(6).PointValue(point[0], point[1])
		if err != nil {
			t.Fatal(err)
		}
		deliver(uint32(id), []uint32{value, 1, 3 + 4*uint32(id)}, honest)
	}
	// n = 3, x 92, xx 2840, y 17, xy 512; in the last column all x are 3.
	want := "accepted 3\n1 0 92\n1 1 2840\n1 2 17\n1 3 512\n2 0 3\n3 0 9\n3 1 27\n3 2 3\n3 3 9\nline 1 56 -28 1176\nline 3 none"
	for k, p := range both {
		if got := p.end(t); got != want {
			t.Errorf("server %d printed\n%s\nits log is\n%s", k, got, p.log)
		}
	}
}
