package main

import (
	"bytes"
	"encoding/binary"
	"encoding/gob"
	"errors"
	"fmt"
	"log"
	"os"
	"path/filepath"

	"yimakohe.example/pool"
)

// saved is what a server keeps over a restart. It is as secret as the shares that wait in the table.
type saved struct {
	Pool    string   // which pool it is of
	Table   []byte   // as pool.Table.MarshalBinary gives it
	Entered []uint32 // ids: the table tells which returns were decided, not how
	Totals  []byte   // the totals message of a closed table
}

// store stores the table, with what was entered and the totals message, before anything is told to the other server.
func (s *server) store() error {
	if s.file == "" {
		return nil
	}
	table, err := s.table.MarshalBinary()
	if err != nil {
		return err
	}
	var b bytes.Buffer
	if err := gob.NewEncoder(&b).Encode(saved{s.pool, table, s.entered, s.totals}); err != nil {
		return err
	}
	return replaceFile(s.file, b.Bytes())
}

// restore takes the server back to what it has stored; where there is nothing, it begins with the table that it has.
func (s *server) restore() error {
	if s.file == "" {
		return nil
	}
	b, err := os.ReadFile(s.file)
	if errors.Is(err, os.ErrNotExist) {
		return nil
	}
	if err != nil {
		return err
	}
	var kept saved
	if err := gob.NewDecoder(bytes.NewReader(b)).Decode(&kept); err != nil {
		return fmt.Errorf("%s: %w", s.file, err)
	}
	if kept.Pool != s.pool {
		return fmt.Errorf("%s is of another pool, %s, not %s", s.file, kept.Pool, s.pool)
	}
	if err := s.table.UnmarshalBinary(kept.Table); err != nil {
		return fmt.Errorf("%s: %w", s.file, err)
	}
	state, err := s.table.State()
	if err != nil {
		return err
	}
	if int(state.Entered) != len(kept.Entered) || state.Closed != (len(kept.Totals) > 0) {
		return fmt.Errorf("%s: what stands beside the table is not of it: %v", s.file, state)
	}
	s.entered, s.totals = kept.Entered, kept.Totals
	return nil
}

// replaceFile puts a file in place of another: whenever the machine stops, one of them is there and whole, and the new one once this
// has returned.
func replaceFile(name string, b []byte) error {
	f, err := os.CreateTemp(filepath.Dir(name), filepath.Base(name)+".*")
	if err != nil {
		return err
	}
	defer os.Remove(f.Name()) // where it could not take its place
	if _, err = f.Write(b); err == nil {
		err = f.Sync()
	}
	if e := f.Close(); err == nil {
		err = e
	}
	if err == nil {
		err = os.Rename(f.Name(), name)
	}
	if err != nil {
		return err
	}
	folder, err := os.Open(filepath.Dir(name))
	if err != nil {
		return err
	}
	defer folder.Close()
	return folder.Sync() // so that the new name stays too
}

// stopAfter stops the server, where it was asked to, once its accepted verdict on a return is stored and told: between verdict and
// entry.
func (s *server) stopAfter(id uint32) error {
	for _, stop := range s.stops {
		if stop == id {
			s.peer.leave()
			return fmt.Errorf("stops before it enters return %d", id)
		}
	}
	return nil
}

// ids writes ids in 4 bytes each.
func ids(list []uint32) []byte {
	b := make([]byte, 0, 4*len(list))
	for _, id := range list {
		b = binary.LittleEndian.AppendUint32(b, id)
	}
	return b
}

// settle agrees with the other server on the returns that wait in the stored tables; in new ones there are none. Each tells which
// it has accepted, those that it has entered among them. What awaits entry here and was accepted there is entered, for it can be
// entered there. All else is dropped at both: no server has entered it, and the messages of its rounds are not stored. Where the
// other has closed, this one closes too.
func (s *server) settle() error {
	first := meeting
	if len(s.totals) > 0 {
		first = closed
	}
	mine := append([]uint32(nil), s.entered...)
	for _, w := range s.table.Waiting() {
		if w.Awaits == pool.AwaitsEntry {
			mine = append(mine, w.ID)
		}
	}
	s.peer.send(0, first, ids(mine))
	m, more := <-s.peer.in
	if !more || m.step != meeting && m.step != closed || len(m.body)%4 != 0 {
		return fmt.Errorf("the other server does not say what it has accepted (%v)", s.peer.err)
	}
	theirs := map[uint32]bool{}
	for b := m.body; len(b) > 0; b = b[4:] {
		theirs[binary.LittleEndian.Uint32(b)] = true
	}
	for _, w := range s.table.Waiting() {
		end, how := s.dropID, "dropped"
		if w.Awaits == pool.AwaitsEntry && theirs[w.ID] {
			end, how = s.enterID, "entered"
		}
		if err := end(w.ID); err != nil {
			return err
		}
		log.Printf("return %d: %s after a restart", w.ID, how)
	}
	if m.step == closed {
		return s.follow(theirs)
	}
	return nil
}

// follow has the server handle no more returns, since the other has closed. Both must have entered the same.
func (s *server) follow(theirs map[uint32]bool) error {
	same := len(s.entered) == len(theirs)
	for _, id := range s.entered {
		same = same && theirs[id]
	}
	if !same {
		return errors.New("the other server has closed with other returns than are entered here")
	}
	s.handle = s.ended
	return nil
}
