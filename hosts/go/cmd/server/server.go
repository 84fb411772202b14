package main

import (
	"encoding/binary"
	"errors"
	"fmt"
	"log"
	"time"

	"yimakohe.example/pool"
	"yimakohe.example/pool/internal/frame"
)

// server handles returns together with its peer, up to eight at a time. Server 0 begins them, in the order in which its shares
// arrive, and no ninth while eight are under way: so neither table is asked to hold a ninth, in whichever order shares are
// taken. All is done by one goroutine, in run: only it uses the table.
type server struct {
	own     uint
	sheet   *pool.Sheet
	table   *pool.Table
	peer    *peer
	shares  *inbox
	wait    time.Duration // for the own share of a return
	returns int           // N
	least   int           // Q
	handle  int           // returns to handle before the table is closed, whatever becomes of them
	slips   []uint32      // ids of returns whose r is typed wrongly here
	stops   []uint32      // ids of returns after whose verdict the server stops
	halts   bool          // stops once the closed table is stored, before the totals are told
	file    string        // where the table is stored; nowhere where it is empty
	pool    string        // what the pool was opened with

	begun, ended int
	entered      []uint32           // ids, in the own table
	totals       []byte             // the own totals message; empty until the table is closed
	joined       [][]byte           // both totals messages, in server order, once they are joined
	courses      map[uint32]*course // under way, by number
	late         chan uint32        // numbers of returns that have waited for their share
}

func newServer(o options, sheet *pool.Sheet, table *pool.Table) (*server, error) {
	slips, err := frame.Numbers(o.slip, 32)
	if err != nil {
		return nil, err
	}
	stops, err := frame.Numbers(o.stop, 32)
	if err != nil {
		return nil, err
	}
	s := &server{own: uint(o.own), sheet: sheet, table: table, wait: o.wait, returns: int(o.returns), least: int(o.least),
		handle: int(o.handle), slips: slips, stops: stops, halts: o.halts, file: o.table, courses: map[uint32]*course{},
		late: make(chan uint32)}
	s.pool = fmt.Sprintf("server %d, sheet %v, N %d, Q %d", s.own, sheet.Bytes(), s.returns, s.least)
	return s, s.restore()
}

// run handles returns, closes the table and joins both servers' totals. Where too few are entered to close, it handles more.
// Both enter the same returns, and server 1 hears of a further one after the messages that end those before: so both close
// after the same one. A server that was closed before a restart only joins.
func (s *server) run() (pool.Totals, error) {
	if err := s.settle(); err != nil {
		return pool.Totals{}, err
	}
	for len(s.totals) == 0 {
		if err := s.handleAll(); err != nil {
			return pool.Totals{}, err
		}
		err := s.closeTable()
		if errors.Is(err, pool.ErrFew) {
			err = s.more(err)
		}
		if err != nil {
			return pool.Totals{}, err
		}
	}
	return s.join()
}

// closeTable closes the table and stores it with its totals message. The message is told only after that: a server that went on
// from an open table could take a few returns more and tell totals again, and the difference would show those few.
func (s *server) closeTable() error {
	mine, err := s.table.Close()
	if err != nil {
		return err
	}
	s.totals = mine
	if err := s.store(); err != nil {
		return err
	}
	if s.halts {
		s.peer.leave()
		return errors.New("stops before it tells its totals")
	}
	return nil
}

// more has the server handle as many returns more as are missing. Where the table can not take so many, it never closes.
func (s *server) more(few error) error {
	state, err := s.table.State()
	if err != nil {
		return err
	}
	log.Printf("%v (%d of %d entered)", few, state.Entered, state.Least)
	missing, left := int(state.Least-state.Entered), int(state.Returns-state.Decided)
	if missing > left {
		s.peer.leave() // the other server may still need the last message to decide
		return fmt.Errorf("%d are missing and %d can still be decided: this pool never closes, open a new one", missing, left)
	}
	s.handle = s.ended + missing
	return nil
}

// handleAll handles returns. An error means that the servers are apart and must not go on.
func (s *server) handleAll() error {
	for s.ended < s.handle {
		arrived := s.shares.arrived
		if s.own == 0 && (len(s.courses) == pool.Slots || s.begun == s.handle) {
			arrived = nil // shares wait in the inbox
		}
		var err error
		select {
		case share := <-arrived:
			err = s.arrive(share)
		case m, more := <-s.peer.in:
			if !more {
				return fmt.Errorf("the other server: %w", s.peer.err)
			}
			err = s.hear(m)
		case number := <-s.late:
			if c := s.courses[number]; c != nil && c.share == nil {
				s.say(c, part, nil)
				err = s.advance(c)
			}
		}
		if err != nil {
			return err
		}
	}
	return nil
}

// arrive takes a share of a workshop: server 0 begins its return, server 1 gives it to the return that awaits it.
func (s *server) arrive(share []byte) error {
	if s.own == 0 {
		c := s.begin(uint32(s.begun), idOf(share))
		s.peer.send(c.number, begin, share[1:5])
		return s.give(c, share)
	}
	var first *course
	for _, c := range s.courses {
		if c.id == idOf(share) && !c.came[part].has(s.own) && (first == nil || c.number < first.number) {
			first = c
		}
	}
	if first == nil {
		s.shares.hold(share)
		return nil
	}
	return s.give(first, share)
}

// hear takes a message of the peer.
func (s *server) hear(m message) error {
	if m.step == begin {
		if s.own == 0 || len(m.body) != 4 || m.number != uint32(s.begun) {
			return fmt.Errorf("return %d is begun out of turn", m.number)
		}
		c := s.begin(m.number, binary.LittleEndian.Uint32(m.body))
		if share := s.shares.of(c.id); share != nil {
			return s.give(c, share)
		}
		time.AfterFunc(s.wait, func() { s.late <- c.number })
		return nil
	}
	if m.step == totals {
		return errors.New("the other server has closed before this one: -least or -handle is not the same at both")
	}
	c, other := s.courses[m.number], 1-s.own
	if c == nil || m.step >= totals || c.came[m.step].has(other) {
		return fmt.Errorf("a message out of turn for return %d", m.number)
	}
	c.came[m.step].add(other, m.body)
	return s.advance(c)
}

func (s *server) begin(number, id uint32) *course {
	c := &course{number: number, id: id, step: part}
	s.courses[number] = c
	s.begun++
	return c
}

// give gives a return its share. Only now a part of the pair is drawn and sent.
func (s *server) give(c *course, share []byte) error {
	c.share = share
	mine, err := s.drawPart()
	if err != nil {
		return err
	}
	s.say(c, part, mine)
	return s.advance(c)
}

// end ends a return.
func (s *server) end(c *course, how string) {
	delete(s.courses, c.number)
	s.ended++
	log.Printf("return %d: %s, %d others under way", c.id, how, len(s.courses))
}

// join exchanges totals messages and joins them in server order.
func (s *server) join() (pool.Totals, error) {
	s.peer.send(uint32(s.ended), totals, s.totals)
	s.peer.flush()
	theirs, more := <-s.peer.in
	if !more || theirs.step != totals {
		return pool.Totals{}, fmt.Errorf("no totals of the other server (%v)", s.peer.err)
	}
	s.joined = [][]byte{s.totals, theirs.body}
	if s.own == 1 {
		s.joined = [][]byte{theirs.body, s.totals}
	}
	return pool.Join(servers, s.sheet, uint32(s.returns), s.joined)
}
