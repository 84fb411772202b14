package main

import (
	"log"

	"yimakohe.example/pool"
)

// typed gives the pair of a return as the keeper types it: r is one more where he slips, and the least where there is no more.
func (s *server) typed(id uint32, pair pool.Pair) (pool.Pair, error) {
	for _, slip := range s.slips {
		if slip == id {
			one := pool.Pair{R: uint64(s.sheet.Sizes().Multiplications) + 2}
			return s.sheet.AddPairs(pair, one)
		}
	}
	return pair, nil
}

// logPairs says which server took a return with which pair, so that the keepers see who slipped.
func logPairs(id uint32, ones [][]byte) {
	for _, message := range ones {
		if server, pair, ok := pool.RoundOnePair(message); ok {
			log.Printf("return %d: server %d has r %d and s %d", id, server, pair.R, pair.S)
		}
	}
}
