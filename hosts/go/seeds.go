package pool

import (
	"crypto/rand"
	"fmt"
	"io"
	"runtime"
)

// SeedMessageBytes is the length of a seed message.
const SeedMessageBytes = seedMessageBytes

// MakeSeeded splits a return as Make does, but gives all servers except server 0 a seed of 32 bytes in place of their shares, from which
// each works out its share by itself. So less is sent: Sizes.ShareBytes for server 0 and SeedMessageBytes for each other, where Make has
// Sizes.ShareBytes for each. The messages stand in server order, and Table.Share takes either kind.
//
// The seeds are drawn from Random like the elements, each by itself. A seed message is as secret as a share: it goes to its server only,
// is sent once and then wiped. Seeds hide a return as well as ChaCha20 hides its key; the shares of Make hide it whatever the servers
// can compute.
func (c *Client) MakeSeeded(id uint32, values []uint32) ([][]byte, error) {
	if c == nil || c.Sheet.isNone() {
		return nil, missing("make from seeds", "the client's sheet")
	}
	var random, seeds, out []byte
	// Outside these limits nothing is drawn: the core refuses before it looks at random elements and seeds.
	if minServers <= c.Servers && c.Servers <= maxServers {
		random = make([]byte, seededRandomBytes)
		seeds = make([]byte, seedsBytes(c.Servers))
		out = make([]byte, c.Sheet.makeSeededBytes(c.Servers))
	}
	defer wipe(random)
	defer wipe(seeds)
	if err := drawElements(c.Random, random); err != nil {
		return nil, err
	}
	if err := drawBytes(c.Random, seeds); err != nil {
		return nil, err
	}
	n, number := coreMakeSeeded(c.Sheet.bytes, c.Servers, id, elements(values), random, seeds, out)
	if number != 0 {
		return nil, answer("make from seeds", number)
	}
	first := c.Sheet.sizes.ShareBytes
	return append([][]byte{out[:first:first]}, split(out[first:n], seedMessageBytes)...), nil
}

// IsSeedMessage says whether a message of a workshop has the kind byte of a seed message; Table.Share judges the rest of it.
func IsSeedMessage(message []byte) bool { return len(message) > 0 && message[0] == kindSeed }

// drawBytes fills a run with random bytes.
func drawBytes(random io.Reader, run []byte) error {
	if random == nil {
		random = rand.Reader
	}
	if _, err := io.ReadFull(random, run); err != nil {
		return fmt.Errorf("pool: random bytes: %w", err)
	}
	return nil
}

// wipe overwrites what is secret and no longer needed.
func wipe(run []byte) {
	for k := range run {
		run[k] = 0
	}
	runtime.KeepAlive(run)
}
