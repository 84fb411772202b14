package main

import (
	"fmt"
	"net"
	"strings"
	"testing"

	"yimakohe.example/pool"
	"yimakohe.example/pool/internal/frame"
)

// listen takes one message at an address of its own and gives it.
func listen(t *testing.T) (address string, message <-chan []byte) {
	t.Helper()
	listener, err := net.Listen("tcp", "127.0.0.1:0")
	if err != nil {
		t.Fatal(err)
	}
	got := make(chan []byte, 1)
	go func() {
		defer listener.Close()
		defer close(got)
		conn, err := listener.Accept()
		if err != nil {
			return
		}
		defer conn.Close()
		if m, err := frame.Read(conn); err == nil && frame.Write(conn, nil) == nil {
			got <- m
		}
	}()
	return listener.Addr().String(), got
}

// Each server gets a share, or, with seeds, all but the first get a seed message with their number.
func TestRun(t *testing.T) {
	for _, seeds := range []bool{false, true} {
		var addresses []string
		var came []<-chan []byte
		for k := 0; k < 3; k++ {
			address, message := listen(t)
			addresses, came = append(addresses, address), append(came, message)
		}
		if err := run("17 19 8", 7, "1 40", seeds, addresses); err != nil {
			t.Fatal(err)
		}
		for k, message := range came {
			m, seed := <-message, seeds && k > 0
			length := 6 + 4*(10+2*9+6)
			if seed {
				length = pool.SeedMessageBytes
			}
			if want := fmt.Sprint([]byte{7, 0, 0, 0, byte(k)}); len(m) != length || fmt.Sprint(m[1:6]) != want || pool.IsSeedMessage(m) != seed {
				t.Errorf("seeds %v: server %d got %v", seeds, k, m)
			}
		}
	}
	if err := run("17", 7, "2", true, []string{"", ""}); err == nil || !strings.Contains(err.Error(), "refused 5") {
		t.Errorf("got %v", err)
	}
}
