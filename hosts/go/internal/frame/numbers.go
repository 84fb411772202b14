package frame

import (
	"fmt"
	"strconv"
	"strings"
)

// Numbers reads whole numbers that stand in a text, as "17 18 4", each below 2^bits.
func Numbers(text string, bits int) ([]uint32, error) {
	var numbers []uint32
	for _, word := range strings.Fields(text) {
		x, err := strconv.ParseUint(word, 10, bits)
		if err != nil {
			return nil, fmt.Errorf("%q: %w", text, err)
		}
		numbers = append(numbers, uint32(x))
	}
	return numbers, nil
}

// Number is the value of a flag: a number that a call takes in 32 bits. A larger one is refused, not cut.
type Number uint32

func (n *Number) String() string { return strconv.FormatUint(uint64(*n), 10) }

// Set reads the number from a text, in decimal.
func (n *Number) Set(text string) error {
	x, err := strconv.ParseUint(text, 10, 32)
	if err == nil {
		*n = Number(x)
	}
	return err
}

// Bytes reads bytes that stand in a text.
func Bytes(text string) ([]byte, error) {
	numbers, err := Numbers(text, 8)
	b := make([]byte, len(numbers))
	for k, x := range numbers {
		b[k] = byte(x)
	}
	return b, err
}
