package pool

import (
	"encoding/binary"
	"io"
)

// Client makes the returns of a workshop. Without a sheet it makes none (ErrNil).
type Client struct {
	Sheet   *Sheet
	Servers uint32    // 2 to 8
	Random  io.Reader // where random bytes come from; nil stands for crypto/rand
}

// Make splits a return into one share message for each server, in server order. Values are one for each column of the
// sheet. An id is for one return only, whatever becomes of it. MakeSeeded makes shorter messages.
func (c *Client) Make(id uint32, values []uint32) ([][]byte, error) {
	if c == nil || c.Sheet.isNone() {
		return nil, missing("make", "the client's sheet")
	}
	var random, out []byte
	// Outside these limits nothing is drawn: the core refuses before it looks at random elements.
	if minServers <= c.Servers && c.Servers <= maxServers {
		random = make([]byte, c.Sheet.randomBytes(c.Servers))
		out = make([]byte, c.Sheet.makeBytes(c.Servers))
	}
	defer wipe(random)
	if err := drawElements(c.Random, random); err != nil {
		return nil, err
	}
	n, number := coreMake(c.Sheet.bytes, c.Servers, id, elements(values), random, out)
	if number != 0 {
		return nil, answer("make", number)
	}
	return split(out[:n], c.Sheet.sizes.ShareBytes), nil
}

// elements writes numbers in 4 bytes each, lowest byte first.
func elements(numbers []uint32) []byte {
	b := make([]byte, elementBytes*len(numbers))
	for k, x := range numbers {
		binary.LittleEndian.PutUint32(b[elementBytes*k:], x)
	}
	return b
}

// numbers reads what elements writes.
func numbers(b []byte) []uint32 {
	list := make([]uint32, len(b)/elementBytes)
	for k := range list {
		list[k] = binary.LittleEndian.Uint32(b[elementBytes*k:])
	}
	return list
}

// split cuts a run into parts of one length.
func split(run []byte, length int) [][]byte {
	var parts [][]byte
	for ; len(run) > 0; run = run[length:] {
		parts = append(parts, run[:length:length])
	}
	return parts
}

// drawElements fills a run with random elements.
func drawElements(random io.Reader, run []byte) error {
	for at := 0; at < len(run); at += elementBytes {
		x, err := drawBelow(random, prime)
		if err != nil {
			return err
		}
		binary.LittleEndian.PutUint32(run[at:], x)
	}
	return nil
}

// drawBelow draws a number below a limit of at most 2^31, each as likely as any: 31 random bits, drawn again where they
// come to the limit or more.
func drawBelow(random io.Reader, limit uint32) (uint32, error) {
	var b [elementBytes]byte
	for {
		if err := drawBytes(random, b[:]); err != nil {
			return 0, err
		}
		if x := binary.LittleEndian.Uint32(b[:]) & (1<<31 - 1); x < limit {
			return x, nil
		}
	}
}
