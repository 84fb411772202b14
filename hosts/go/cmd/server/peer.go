package main

import (
	"encoding/binary"
	"fmt"
	"net"
	"time"

	"yimakohe.example/pool/internal/frame"
)

// Messages between the servers name the return by its number: 0 for the first that server 0 began, and so on. So two returns
// that were given the same id by mistake are told apart.
type message struct {
	number uint32
	step   step
	body   []byte
}

// step is what a message is for.
type step byte

const (
	begin    step = iota // server 0 names the next return: its id
	part                 // a part of the pair
	roundOne             // a round-one message
	roundTwo             // a round-two message
	verdict              // accepted, and stored; empty where it is rejected
	totals               // the totals message, when all returns are decided
	meeting              // the first message: the ids of returns that were accepted before
	closed               // the first message of a server that has closed: the ids of those that it has entered
)

// peer is the other server. Messages reach it in the order in which they were sent.
type peer struct {
	conn net.Conn
	in   chan message // closed when no more can come
	err  error        // why
	out  chan sent
	done chan struct{} // closed when all that was sent has left
}

type sent struct {
	due time.Time
	message
}

// newPeer exchanges messages over a connection. Each is sent so much later than it was ready: the distance to servers far
// away, to try on one machine.
func newPeer(conn net.Conn, distance time.Duration) *peer {
	p := &peer{conn: conn, in: make(chan message, 64), out: make(chan sent, 256), done: make(chan struct{})}
	go p.receive(conn)
	go p.deliver(conn, distance)
	return p
}

func (p *peer) send(number uint32, step step, body []byte) {
	p.out <- sent{time.Now(), message{number, step, body}}
}

// flush waits until all messages have left. Nothing can be sent after it.
func (p *peer) flush() {
	close(p.out)
	<-p.done
}

// leave ends the exchange. The other server gets all that was sent, and is waited for until it leaves too.
func (p *peer) leave() {
	p.flush()
	if conn, ok := p.conn.(*net.TCPConn); ok {
		conn.CloseWrite()
	}
	for range p.in {
	}
}

func (p *peer) deliver(conn net.Conn, distance time.Duration) {
	defer close(p.done)
	for s := range p.out {
		time.Sleep(time.Until(s.due.Add(distance)))
		b := binary.LittleEndian.AppendUint32(nil, s.number)
		b = append(append(b, byte(s.step)), s.body...)
		if err := frame.Write(conn, b); err != nil {
			conn.Close() // so that nothing is awaited any more
		}
	}
}

func (p *peer) receive(conn net.Conn) {
	defer close(p.in)
	for {
		b, err := frame.Read(conn)
		if err == nil && len(b) < 5 {
			err = fmt.Errorf("a message of %d bytes", len(b))
		}
		if err != nil {
			p.err = err
			return
		}
		p.in <- message{binary.LittleEndian.Uint32(b), step(b[4]), b[5:]}
	}
}
