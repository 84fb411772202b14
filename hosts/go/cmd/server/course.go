package main

import (
	"encoding/binary"
	"errors"
	"fmt"
	"log"

	"yimakohe.example/pool"
)

// course is a return that is under way.
type course struct {
	number uint32
	id     uint32
	share  []byte
	step   step            // whose messages it awaits: part, roundOne, roundTwo or verdict
	waits  bool            // in the own table
	came   [totals]arrival // of each step
}

// say sends the peer the own message of a step, once for each step.
func (s *server) say(c *course, step step, body []byte) {
	c.came[step].add(s.own, body)
	s.peer.send(c.number, step, body)
}

// advance takes a return on as long as the messages of both servers are there. The table gets them in the order in which they
// came. An error means that the servers are apart and must not go on.
func (s *server) advance(c *course) error {
	for {
		came := &c.came[c.step]
		if !came.whole() {
			return nil
		}
		if came.stops() {
			return s.abandon(c)
		}
		if c.step == verdict {
			return s.enter(c)
		}
		c.step++
		if err := s.take(c, came.messages); err != nil {
			return err
		}
	}
}

// take takes the share once both parts of the pair are there, then the messages of each round. What the table gives is told once
// the table is stored; nothing is told where a call is refused or the return rejected.
func (s *server) take(c *course, messages [][]byte) error {
	var told []byte
	var refused error
	switch c.step {
	case roundOne:
		pair, err := s.addParts(messages)
		if err == nil {
			pair, err = s.typed(c.id, pair)
		}
		if err != nil {
			return err
		}
		told, refused = s.table.Share(c.share, pair)
		c.waits = refused == nil
	case roundTwo:
		told, refused = s.table.RoundOne(c.id, messages)
	default:
		told, refused = s.judge(c, messages)
	}
	if refused != nil {
		log.Printf("return %d: %v", c.id, refused)
	}
	if errors.Is(refused, pool.ErrUnequal) {
		logPairs(c.id, messages)
	}
	if err := s.store(); err != nil {
		return err
	}
	s.say(c, c.step, told)
	if c.step == verdict && told != nil {
		return s.stopAfter(c.id)
	}
	return nil
}

// accepted is what a server tells of a return that it has accepted.
var accepted = []byte{1}

// judge takes the messages of round two. A rejected return is decided; an accepted one awaits entry.
func (s *server) judge(c *course, messages [][]byte) (told []byte, refused error) {
	good, refused := s.table.RoundTwo(c.id, messages)
	if good {
		return accepted, nil
	}
	if refused == nil {
		c.waits = false
	}
	return nil, refused
}

// enter ends a return that both servers have accepted. Both have that stored, so that both enter it, now or after a restart.
func (s *server) enter(c *course) error {
	if err := s.enterID(c.id); err != nil {
		return err
	}
	s.end(c, "entered")
	return nil
}

// abandon ends a return that a server can not go on with, or has rejected. No server has entered it: that takes the word of both.
// Where it waits in the own table it is dropped.
func (s *server) abandon(c *course) error {
	switch {
	case c.waits:
		if err := s.dropID(c.id); err != nil {
			return err
		}
		s.end(c, "dropped")
	case c.step == part:
		s.end(c, "left, a share did not arrive")
	case c.step == verdict:
		s.end(c, "rejected")
	default:
		s.end(c, "left, its share was refused")
	}
	return nil
}

// enterID and dropID end a return in the own table, and store it.
func (s *server) enterID(id uint32) error {
	if err := s.table.Enter(id); err != nil {
		return err
	}
	s.entered = append(s.entered, id)
	return s.store()
}

func (s *server) dropID(id uint32) error {
	if err := s.table.Drop(id); err != nil {
		return err
	}
	return s.store()
}

// drawPart draws the own part of a pair, once the own share is there: so no pair is known before both servers have theirs.
func (s *server) drawPart() ([]byte, error) {
	p, err := s.sheet.DrawPair(nil)
	if err != nil {
		return nil, err
	}
	return binary.LittleEndian.AppendUint64(binary.LittleEndian.AppendUint64(nil, p.R), p.S), nil
}

// addParts gives the pair, of the parts of both servers.
func (s *server) addParts(messages [][]byte) (pool.Pair, error) {
	var parts []pool.Pair
	for _, b := range messages {
		if len(b) != 16 {
			return pool.Pair{}, fmt.Errorf("a part of a pair of %d bytes", len(b))
		}
		parts = append(parts, pool.Pair{R: binary.LittleEndian.Uint64(b), S: binary.LittleEndian.Uint64(b[8:])})
	}
	return s.sheet.AddPairs(parts...)
}
