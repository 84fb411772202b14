package main

import (
	"bufio"
	"context"
	"encoding/binary"
	"fmt"
	"net"
	"os"
	"os/exec"
	"strings"
	"testing"
	"time"

	"yimakohe.example/pool"
	"yimakohe.example/pool/internal/frame"
)

// With POOL_SERVER set this test program is the server, so that the tests can start servers as processes.
func TestMain(m *testing.M) {
	if os.Getenv("POOL_SERVER") != "" {
		main()
		os.Exit(0)
	}
	os.Exit(m.Run())
}

// process is a server that runs.
type process struct {
	cmd       *exec.Cmd
	out       *bufio.Scanner
	log       *strings.Builder
	workshops string // where it takes shares
}

func start(ctx context.Context, t *testing.T, args ...string) *process {
	t.Helper()
	cmd := exec.CommandContext(ctx, os.Args[0], args...)
	cmd.Env = append(os.Environ(), "POOL_SERVER=1")
	pipe, err := cmd.StdoutPipe()
	if err != nil {
		t.Fatal(err)
	}
	p := &process{cmd: cmd, out: bufio.NewScanner(pipe), log: new(strings.Builder)}
	cmd.Stderr = p.log
	if err := cmd.Start(); err != nil {
		t.Fatal(err)
	}
	p.workshops = p.line(t, "workshops")
	return p
}

// line gives the next line, without the word that it begins with.
func (p *process) line(t *testing.T, word string) string {
	t.Helper()
	if !p.out.Scan() || !strings.HasPrefix(p.out.Text(), word+" ") {
		t.Fatalf("no line %q but %q", word, p.out.Text())
	}
	return strings.TrimPrefix(p.out.Text(), word+" ")
}

// end gives all that is still printed, once the process has ended well.
func (p *process) end(t *testing.T) string {
	t.Helper()
	var lines []string
	for p.out.Scan() {
		lines = append(lines, p.out.Text())
	}
	if err := p.cmd.Wait(); err != nil {
		t.Fatalf("%v\n%s", err, p.log)
	}
	return strings.Join(lines, "\n")
}

// send hands a server a share and waits until the server has it.
func send(t *testing.T, address string, share []byte) {
	t.Helper()
	conn, err := net.Dial("tcp", address)
	if err != nil {
		t.Fatal(err)
	}
	defer conn.Close()
	if err := frame.Write(conn, share); err != nil {
		t.Fatal(err)
	}
	if _, err := frame.Read(conn); err != nil {
		t.Fatal(err)
	}
}

// startTwo starts two servers with the same arguments.
func startTwo(ctx context.Context, t *testing.T, sheet []byte, args ...string) (both []*process, deliver deliverer) {
	t.Helper()
	return startApart(ctx, t, sheet, [servers][]string{args, args})
}

// startApart starts two servers, each with its arguments, and gives what a workshop needs to deliver returns to them.
func startApart(ctx context.Context, t *testing.T, sheet []byte, args [servers][]string) (both []*process, deliver deliverer) {
	t.Helper()
	common := []string{"-sheet", strings.Trim(fmt.Sprint(sheet), "[]"), "-own"}
	zero := start(ctx, t, append(append(common, "0"), args[0]...)...)
	one := start(ctx, t, append(append(common, "1", "-peer", zero.line(t, "peer")), args[1]...)...)
	read, err := pool.ReadSheet(sheet)
	if err != nil {
		t.Fatal(err)
	}
	client := pool.Client{Sheet: read, Servers: servers}
	both = []*process{zero, one}
	return both, func(id uint32, values []uint32, alter func(shares [][]byte)) {
		t.Helper()
		shares, err := client.Make(id, values)
		if err != nil {
			t.Fatal(err)
		}
		alter(shares)
		for k, share := range shares {
			if share != nil {
				send(t, both[k].workshops, share)
			}
		}
	}
}

// deliverer makes a return, lets it be altered and sends each server its share, but none that is nil.
type deliverer func(id uint32, values []uint32, alter func(shares [][]byte))

func honest([][]byte) {}

// Two servers in two processes: honest returns, a false one, an id that comes twice, a share that is refused by one
// server and one that reaches only one.
func TestTwoProcesses(t *testing.T) {
	ctx, cancel := context.WithTimeout(context.Background(), 20*time.Second)
	defer cancel()
	both, deliver := startTwo(ctx, t, []byte{17, 18, 3, 19, 8}, "-least", "3", "-handle", "7", "-wait", "200ms")
	deliver(1, []uint32{1, 0, 200}, honest)
	deliver(2, []uint32{0, 2, 100}, honest)
	deliver(3, []uint32{1, 1, 50}, func(shares [][]byte) { binary.LittleEndian.PutUint32(shares[0][6:], 12345) })
	deliver(2, []uint32{1, 1, 50}, honest)
	deliver(4, []uint32{1, 1, 50}, func(shares [][]byte) { binary.LittleEndian.PutUint32(shares[1][6:], 1<<31-1) })
	deliver(5, []uint32{1, 1, 50}, func(shares [][]byte) { shares[1] = nil })
	deliver(6, []uint32{1, 2, 255}, honest)

	want := "accepted 3\n1 0 2\n2 0 1\n2 1 0\n2 2 2\n3 0 555"
	for k, p := range both {
		if got := p.end(t); got != want {
			t.Errorf("server %d printed\n%s\nits log is\n%s", k, got, p.log)
		}
	}
	for _, test := range []struct {
		server int
		line   string
	}{
		{0, "return 3: rejected"}, {1, "return 3: rejected"}, {0, "return 2: pool: share: refused 10"},
		{1, "return 4: pool: share: refused 8"}, {0, "return 4: dropped"}, {0, "return 5: left"}, {1, "return 5: left"},
	} {
		if log := both[test.server].log.String(); !strings.Contains(log, test.line) {
			t.Errorf("server %d does not log %q but\n%s", test.server, test.line, log)
		}
	}
}

// With the servers far apart eight returns are under way at once. One whose share reaches server 1 late is finished last and
// holds up no other.
func TestFarApart(t *testing.T) {
	ctx, cancel := context.WithTimeout(context.Background(), 20*time.Second)
	defer cancel()
	both, deliver := startTwo(ctx, t, []byte{17, 19, 8}, "-least", "13", "-handle", "13", "-wait", "10s", "-distance", "150ms")
	var late []byte
	deliver(0, []uint32{1, 100}, func(shares [][]byte) { late, shares[1] = shares[1], nil })
	for id := uint32(1); id < 13; id++ {
		deliver(id, []uint32{1, id}, honest)
	}
	time.Sleep(3 * time.Second) // the others take five times the distance, seven of them at a time
	send(t, both[1].workshops, late)
	for k, p := range both {
		if got, want := p.end(t), "accepted 13\n1 0 13\n2 0 178"; got != want {
			t.Errorf("server %d printed\n%s\nits log is\n%s", k, got, p.log)
		}
		lines := strings.Split(strings.TrimSpace(p.log.String()), "\n")
		if last := lines[len(lines)-1]; !strings.Contains(last, "return 0: entered, 0 others") {
			t.Errorf("server %d: the last line is %q", k, last)
		}
		if !strings.Contains(p.log.String(), "entered, 7 others under way") {
			t.Errorf("server %d: never eight returns under way\n%s", k, p.log)
		}
	}
}
