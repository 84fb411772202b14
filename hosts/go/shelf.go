package pool

import (
	"bytes"
	"math"
)

// Shelve stores messages by place: the first byte of each, then the second of each, and so on. So equal places of a
// season's shares stand together. It takes 1 to 64 messages of one length, 1 to 4,096 bytes: the share messages that one
// server gets on one sheet are all Sizes.ShareBytes long, its seed messages SeedMessageBytes. Note their number and length beside the
// run: Unshelve needs both.
//
// The run is as secret as the messages in it.
func Shelve(messages [][]byte) ([]byte, error) {
	run, width := bytes.Join(messages, nil), 0
	if len(messages) > 0 {
		width = len(messages[0])
	}
	for _, message := range messages {
		if len(message) != width {
			run = nil // which is no run of so many messages
		}
	}
	out := make([]byte, len(run))
	n, number := coreShelve(number32(len(messages)), number32(width), run, out)
	if number != 0 {
		return nil, answer("shelve", number)
	}
	return out[:n], nil
}

// Unshelve brings back the messages that Shelve stored: so many, each of this length.
func Unshelve(messages, width uint32, run []byte) ([][]byte, error) {
	out := make([]byte, len(run))
	n, number := coreUnshelve(messages, width, run, out)
	if number != 0 {
		return nil, answer("unshelve", number)
	}
	return split(out[:n], int(width)), nil
}

// number32 gives a length as a number of the core. What is too large stays too large.
func number32(n int) uint32 {
	if n > math.MaxUint32 {
		return math.MaxUint32
	}
	return uint32(n)
}
