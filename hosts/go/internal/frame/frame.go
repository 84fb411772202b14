// Package frame sends messages over a connection, each with its length before it.
package frame

import (
	"encoding/binary"
	"fmt"
	"io"
	"math"
)

// Write sends a message, which may be empty.
func Write(w io.Writer, message []byte) error {
	if len(message) > math.MaxUint16 {
		return fmt.Errorf("frame: a message of %d bytes is too long", len(message))
	}
	b := make([]byte, 2, 2+len(message))
	binary.LittleEndian.PutUint16(b, uint16(len(message)))
	_, err := w.Write(append(b, message...))
	return err
}

// Read receives a message.
func Read(r io.Reader) ([]byte, error) {
	var length [2]byte
	if _, err := io.ReadFull(r, length[:]); err != nil {
		return nil, err
	}
	message := make([]byte, binary.LittleEndian.Uint16(length[:]))
	_, err := io.ReadFull(r, message)
	return message, err
}
