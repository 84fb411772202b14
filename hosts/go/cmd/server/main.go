// Server is one of two servers of a pool, as an example of a keeper's program.
//
//	server -own 0 -sheet '17 19 8' -least 3 -handle 3 -workshops 127.0.0.1:7000 -peer 127.0.0.1:7010
//	server -own 1 -sheet '17 19 8' -least 3 -handle 3 -workshops 127.0.0.1:7001 -peer 127.0.0.1:7010
//
// Server 0 awaits server 1 at the address -peer. Both take shares of workshops at -workshops; server 0 says which
// return is next. Up to eight returns are under way at a time. Each tells the other its verdict on a return, and both enter what
// both have accepted. After -handle returns they close, exchange totals messages and print the joined totals, each line with
// column, option and total; after them for each column of points the line that fits best, with column, determinant, slope and
// intercept, or that there is none. With fewer than -least entered they say so and take more returns; once so many can not be
// entered any more, they end without totals.
//
// With -table FILE a server stores its table there after each call, before it tells the other anything. Where one stops, the other
// does too; started again with the same file, they agree on what waits: what both have accepted is entered, the rest is dropped. The
// file is erased with the totals printed. With -stop 3 a server stops between its verdict on return 3 and the entry. The closed table
// is stored with its totals message, before this is told; a server that starts from it takes no more returns, and the other closes
// too. With -halt a server stops between the two.
//
// With -distance 100ms each message to the other server takes so long, as between two countries. With -slip 3 at one of them return
// 3 is taken there with a wrong r, as by a keeper who types it wrongly: both refuse round one, say which pair each has, and drop
// it, to be filed anew under a new id.
//
// The example sends in the clear, on one machine, and does not store the messages of rounds: a pool encrypts, knows who calls, and
// stores each message with the table before it is sent, so that returns that await a round go on after a restart too.
package main

import (
	"flag"
	"fmt"
	"log"
	"net"
	"os"
	"time"

	"yimakohe.example/pool"
	"yimakohe.example/pool/internal/frame"
)

const servers = 2

type options struct {
	own       frame.Number
	sheet     string
	returns   frame.Number
	least     frame.Number
	handle    frame.Number
	workshops string
	peer      string
	wait      time.Duration
	distance  time.Duration
	slip      string
	table     string
	stop      string
	halts     bool
}

func main() {
	log.SetFlags(0)
	o := options{returns: 100, handle: 1}
	flag.Var(&o.own, "own", "the server's own number, 0 or 1")
	flag.StringVar(&o.sheet, "sheet", "", "the sheet's bytes, in decimal")
	flag.Var(&o.returns, "returns", "N, the most returns to decide")
	flag.Var(&o.least, "least", "Q, how many returns must be entered before there are totals, 1 to N; must be given")
	flag.Var(&o.handle, "handle", "how many returns to handle before closing")
	flag.StringVar(&o.workshops, "workshops", "127.0.0.1:0", "where to take shares")
	flag.StringVar(&o.peer, "peer", "127.0.0.1:0", "where server 0 awaits server 1")
	flag.DurationVar(&o.wait, "wait", 5*time.Second, "how long to wait for the own share of a return")
	flag.DurationVar(&o.distance, "distance", 0, "how long a message to the other server takes")
	flag.StringVar(&o.slip, "slip", "", "ids of returns to take with a wrong r here, in decimal")
	flag.StringVar(&o.table, "table", "", "a file to store the table in, and to go on from where it is there")
	flag.StringVar(&o.stop, "stop", "", "ids of returns between whose verdict and entry to stop, in decimal")
	flag.BoolVar(&o.halts, "halt", false, "stop once the table is closed, before the totals are told")
	flag.Parse()
	log.SetPrefix(fmt.Sprintf("server %d: ", o.own))
	if err := run(o); err != nil {
		log.Fatal(err)
	}
}

func run(o options) error {
	sheet, err := readSheet(o.sheet)
	if err != nil {
		return err
	}
	table, err := pool.Open(servers, uint32(o.own), sheet, uint32(o.returns), uint32(o.least))
	if err != nil {
		return err
	}
	s, err := newServer(o, sheet, table)
	if err != nil {
		return err
	}
	listener, err := net.Listen("tcp", o.workshops)
	if err != nil {
		return err
	}
	defer listener.Close()
	fmt.Println("workshops", listener.Addr())
	shares := newInbox()
	go shares.serve(listener)

	conn, err := meet(uint(o.own), o.peer)
	if err != nil {
		return err
	}
	defer conn.Close()
	s.peer, s.shares = newPeer(conn, o.distance), shares
	totals, err := s.run()
	if err == nil {
		err = s.publish(os.Stdout, totals)
	}
	if err != nil || o.table == "" {
		return err
	}
	return os.Remove(o.table)
}

// readSheet reads a sheet whose bytes stand in a text.
func readSheet(text string) (*pool.Sheet, error) {
	b, err := frame.Bytes(text)
	if err != nil {
		return nil, err
	}
	return pool.ReadSheet(b)
}

// meet connects the two servers: server 0 listens, server 1 calls.
func meet(own uint, address string) (net.Conn, error) {
	if own != 0 {
		return net.Dial("tcp", address)
	}
	listener, err := net.Listen("tcp", address)
	if err != nil {
		return nil, err
	}
	defer listener.Close()
	fmt.Println("peer", listener.Addr())
	return listener.Accept()
}
