package pool

import (
	"encoding/binary"
	"encoding/hex"
	"math/bits"
	"testing"
)

// A second way from a seed to its elements, for the tests: ChaCha20 of RFC 8439, by the text of the RFC.

func quarterRound(x *[16]uint32, a, b, c, d int) {
	for k, turn := range [4]int{16, 12, 8, 7} {
		if k%2 == 0 {
			x[a] += x[b]
			x[d] = bits.RotateLeft32(x[d]^x[a], turn)
		} else {
			x[c] += x[d]
			x[b] = bits.RotateLeft32(x[b]^x[c], turn)
		}
	}
}

// streamBlock gives one block of the key stream.
func streamBlock(key []byte, counter uint32, nonce []byte) []byte {
	var state [16]uint32
	for k := range state {
		switch {
		case k < 4:
			state[k] = binary.LittleEndian.Uint32([]byte("expand 32-byte k")[4*k:])
		case k < 12:
			state[k] = binary.LittleEndian.Uint32(key[4*(k-4):])
		case k == 12:
			state[k] = counter
		default:
			state[k] = binary.LittleEndian.Uint32(nonce[4*(k-13):])
		}
	}
	x := state
	for round := 0; round < 10; round++ {
		for k := 0; k < 4; k++ {
			quarterRound(&x, k, 4+k, 8+k, 12+k)
		}
		for k := 0; k < 4; k++ {
			quarterRound(&x, k, 4+(k+1)%4, 8+(k+2)%4, 12+(k+3)%4)
		}
	}
	for k := range x {
		x[k] += state[k]
	}
	return elements(x[:])
}

// elementOf gives the element of a word of the stream.
func elementOf(word uint32) uint32 { return word & (1<<31 - 1) % prime }

// expand gives so many elements of a seed under an id.
func expand(seed []byte, id uint32, count int) []uint32 {
	nonce := binary.LittleEndian.AppendUint32(nil, id)
	nonce = append(nonce, make([]byte, 8)...)
	var list []uint32
	for counter := uint32(0); len(list) < count; counter++ {
		for _, word := range numbers(streamBlock(seed, counter, nonce)) {
			list = append(list, elementOf(word))
		}
	}
	return list[:count]
}

// longOf gives the share message that a seed message stands for.
func longOf(sheet *Sheet, message []byte) []byte {
	id := binary.LittleEndian.Uint32(message[1:])
	long := append([]byte{kindShare}, message[1:6]...)
	return append(long, elements(expand(message[6:], id, (sheet.Sizes().ShareBytes-6)/4))...)
}

// The tests' own stream is that of the RFC: its sections 2.3.2 and A.1.
func TestStream(t *testing.T) {
	key := make([]byte, seedBytes)
	zero := hex.EncodeToString(streamBlock(key, 0, make([]byte, 12)))
	if want := "76b8e0ada0f13d90405d6ae55386bd28bdd219b8a08ded1aa836efcc8b770dc7" +
		"da41597c5157488d7724e03fb8d84a376a43b8f41518a11cc387b669b2ee6586"; zero != want {
		t.Errorf("got %s", zero)
	}
	for k := range key {
		key[k] = byte(k)
	}
	block := hex.EncodeToString(streamBlock(key, 1, []byte{0, 0, 0, 9, 0, 0, 0, 0x4a, 0, 0, 0, 0}))
	if want := "10f1e7e4d13b5915500fdd1fa32071c4c7d1f4c733c068030422aa9ac3d46c4e" +
		"d2826446079faa0914c2d705d98b02a2b5129cd1de164eb9cbd083e8a2503c4e"; block != want {
		t.Errorf("got %s", block)
	}
	for word, want := range map[uint32]uint32{0: 0, 1 << 31: 0, 1<<31 - 1: 0, 1<<32 - 1: 0, 1<<31 - 2: prime - 1, 1<<32 - 2: prime - 1} {
		if got := elementOf(word); got != want {
			t.Errorf("%x gives %d, want %d", word, got, want)
		}
	}
}

// Seeds under the id 7 whose streams have a word of 0x7fffffff or 0xffffffff: its element is 0, and a table takes it.
func TestWordsOfPrime(t *testing.T) {
	sheet := sheetOf(t, YesNo(), Number(8))
	for _, test := range []struct {
		start uint32 // the seed's first four bytes; the others are 0
		at    int
		word  uint32
	}{{320841668, 0, 1<<31 - 1}, {428002492, 9, 1<<32 - 1}, {258751536, 15, 1<<31 - 1}} {
		seed := append(elements([]uint32{test.start}), make([]byte, 28)...)
		nonce := append(elements([]uint32{7}), make([]byte, 8)...)
		if got := numbers(streamBlock(seed, 0, nonce))[test.at]; got != test.word {
			t.Errorf("word %d is %x, want %x", test.at, got, test.word)
		}
		table := openAll(t, 2, sheet, 1)[1]
		if _, err := table.Share(append([]byte{kindSeed, 7, 0, 0, 0, 1}, seed...), Pair{R: 1000, S: 5}); err != nil {
			t.Fatal(err)
		}
		for k, want := range expand(seed, 7, (sheet.Sizes().ShareBytes-6)/4) {
			if table.elements[k] != want || (k == test.at && want != 0) {
				t.Errorf("element %d is %d, want %d", k, table.elements[k], want)
			}
		}
	}
}
