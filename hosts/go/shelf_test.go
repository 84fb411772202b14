package pool

import (
	"bytes"
	"reflect"
	"testing"
)

// The shares of several returns at one server, stored by place and brought back.
func TestShelf(t *testing.T) {
	client := Client{Sheet: sheetOf(t, YesNo(), Number(8)), Servers: 2}
	width := client.Sheet.Sizes().ShareBytes
	var messages [][]byte
	for id := uint32(0); id < 5; id++ {
		shares, err := client.Make(id, []uint32{id % 2, 10 * id})
		if err != nil {
			t.Fatal(err)
		}
		messages = append(messages, shares[1])
	}
	run, err := Shelve(messages)
	if err != nil {
		t.Fatal(err)
	}
	if want := []byte{33, 33, 33, 33, 33, 0, 1, 2, 3, 4}; !bytes.HasPrefix(run, want) {
		t.Errorf("kind bytes and ids %v, want %v", run[:10], want)
	}
	for at, b := range run {
		if b != messages[at%5][at/5] {
			t.Fatalf("byte %d is %d", at, b)
		}
	}
	back, err := Unshelve(5, uint32(width), run)
	if err != nil || !reflect.DeepEqual(back, messages) {
		t.Errorf("brought back %d messages, %v", len(back), err)
	}
	_, err = Unshelve(5, uint32(width), run[:len(run)-5])
	refused(t, err, ErrRun)
	_, err = Unshelve(5, uint32(width)+1, run)
	refused(t, err, ErrRun)
}

func TestShelfLimits(t *testing.T) {
	alike := func(messages, width int) [][]byte { return split(make([]byte, messages*width), width) }
	for _, messages := range [][][]byte{alike(1, 1), alike(maxShelf, 1), alike(1, maxWidth), alike(maxShelf, maxWidth)} {
		if run, err := Shelve(messages); err != nil || len(run) != len(messages)*len(messages[0]) {
			t.Errorf("%d messages of %d bytes: %v", len(messages), len(messages[0]), err)
		}
	}
	for _, messages := range [][][]byte{nil, {{}, {}}, alike(maxShelf+1, 1), alike(1, maxWidth+1)} {
		_, err := Shelve(messages)
		refused(t, err, ErrLimit)
	}
	for _, lengths := range [][]int{{3, 4}, {4, 3}, {4, 3, 5}, {1, 0}} {
		var messages [][]byte
		for _, n := range lengths {
			messages = append(messages, make([]byte, n))
		}
		_, err := Shelve(messages)
		refused(t, err, ErrRun)
	}
	for _, test := range []struct{ messages, width uint32 }{{0, 4}, {4, 0}, {maxShelf + 1, 1}, {1, maxWidth + 1},
		{1<<32 - 1, 1<<32 - 1}} {
		_, err := Unshelve(test.messages, test.width, []byte{1, 2, 3, 4})
		refused(t, err, ErrLimit)
	}
	if got := number32(1<<32 + 4); got != 1<<32-1 {
		t.Errorf("a length is cut to %d", got)
	}
}
