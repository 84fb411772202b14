package pool

import (
	"encoding/binary"
	"io"
)

// Pair is the challenge of one return: r from M + 1 to p - 1 and s from 0 to p - 1.
//
// Every server must judge a return with the same pair, and no workshop may foretell it. So each server draws a part
// once it has received its share, the servers exchange their parts, and each adds them up. Where a server slips and takes its
// share with another pair, round one is refused at all servers (ErrUnequal).
type Pair struct {
	R, S uint64
}

// The kind byte of a round-one message, and where it has its server, and its r and s, which follow the elements d and e.
const (
	kindOne  = 34
	serverAt = 5
	rAt      = serverAt + 1 + 2*elementBytes
	sAt      = rAt + elementBytes
)

// RoundOnePair reads in a round-one message which server wrote it, and with which pair that server took its share. With these
// keepers see who slipped. What has another kind or length is not read (ok is false).
func RoundOnePair(message []byte) (server uint32, pair Pair, ok bool) {
	if len(message) != oneBytes || message[0] != kindOne {
		return 0, Pair{}, false
	}
	order := binary.LittleEndian
	return uint32(message[serverAt]), Pair{uint64(order.Uint32(message[rAt:])), uint64(order.Uint32(message[sAt:]))}, true
}

// DrawPair draws a server's part of a pair, itself a pair; nil stands for crypto/rand.
func (s *Sheet) DrawPair(random io.Reader) (Pair, error) {
	if s.isNone() {
		return Pair{}, missing("draw pair", "the sheet")
	}
	low := uint32(s.sizes.Multiplications) + 1
	r, err := drawBelow(random, prime-low)
	if err != nil {
		return Pair{}, err
	}
	t, err := drawBelow(random, prime)
	if err != nil {
		return Pair{}, err
	}
	return Pair{uint64(low + r), uint64(t)}, nil
}

// AddPairs adds the servers' parts, each a pair, to one pair. As soon as one part is drawn evenly and without knowledge
// of the others, each pair is as likely as any. A part outside the range of a pair is refused (ErrPair); without parts there is no
// pair (ErrNil).
func (s *Sheet) AddPairs(parts ...Pair) (Pair, error) {
	if s.isNone() {
		return Pair{}, missing("add pairs", "the sheet")
	}
	if len(parts) == 0 {
		return Pair{}, missing("add pairs", "the parts")
	}
	low := uint64(s.sizes.Multiplications) + 1
	span := uint64(prime) - low
	var sum Pair
	for _, part := range parts {
		if part.R < low || part.R >= uint64(prime) || part.S >= uint64(prime) {
			return Pair{}, refuse("add pairs", ErrPair)
		}
		sum.R = (sum.R + part.R - low) % span
		sum.S = (sum.S + part.S) % uint64(prime)
	}
	return Pair{low + sum.R, sum.S}, nil
}
