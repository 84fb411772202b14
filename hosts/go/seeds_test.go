package pool

import (
	"bytes"
	"encoding/binary"
	"errors"
	"math/rand"
	"reflect"
	"testing"
)

// seeded makes a return from seeds.
func seeded(t *testing.T, sheet *Sheet, servers, id uint32, values ...uint32) [][]byte {
	t.Helper()
	client := Client{Sheet: sheet, Servers: servers}
	messages, err := client.MakeSeeded(id, values)
	if err != nil {
		t.Fatal(err)
	}
	return messages
}

// The messages of a return made from seeds: their form, and server 0's share is the one of the same return made from the elements of the
// seeds.
func TestMakeSeeded(t *testing.T) {
	for _, sheet := range []*Sheet{sheetOf(t, YesNo()), sheetOf(t, Choice(3), Point(7), UpTo(200)),
		sheetOf(t, Choice(64), Choice(64), Choice(64), Choice(64))} {
		each, values := sheet.Sizes().ShareBytes, make([]byte, elementBytes*sheet.Sizes().Columns)
		for n := uint32(2); n <= 8; n++ {
			id := 0xfedcba90 + n
			random := elements([]uint32{n, prime - 1, 77, 2147480000})
			seeds := make([]byte, seedsBytes(n))
			rand.New(rand.NewSource(int64(n))).Read(seeds)
			out := make([]byte, each+38*int(n-1))
			w, answer := coreMakeSeeded(sheet.bytes, n, id, values, random, seeds, out)
			if answer != 0 || w != len(out) || w != sheet.makeSeededBytes(n) {
				t.Fatalf("%d servers: answer %d, %d bytes of %d", n, answer, w, len(out))
			}
			messages := append([][]byte{out[:each]}, split(out[each:], 38)...)
			for i, m := range messages[1:] {
				head := append(binary.LittleEndian.AppendUint32([]byte{38}, id), byte(i+1))
				if want := append(head, seeds[32*i:32*i+32]...); !bytes.Equal(m, want) {
					t.Errorf("%d servers: message %d is %x, want %x", n, i+1, m, want)
				}
				messages[i+1] = longOf(sheet, m)
				random = append(random, messages[i+1][6:]...)
			}
			long := make([]byte, sheet.makeBytes(n))
			if _, answer := coreMake(sheet.bytes, n, id, values, random, long); answer != 0 || !bytes.Equal(bytes.Join(messages, nil), long) {
				t.Errorf("%d servers: answer %d, or other shares than those of the elements", n, answer)
			}
		}
	}
}

// Random pools of every number of servers, with share messages and seed messages mixed: the totals are the plain sums.
func TestMixedPools(t *testing.T) {
	random := rand.New(rand.NewSource(2))
	for n := uint32(2); n <= 8; n++ {
		sheet := sheetOf(t, Number(10), Choice(4))
		all := openAll(t, n, sheet, 8)
		plain := make([]uint32, sheet.Sizes().Published)
		for id := uint32(0); id < 8; id++ {
			values := []uint32{uint32(random.Intn(1024)), uint32(random.Intn(4))}
			messages := seeded(t, sheet, n, id, values...)
			if id == 0 {
				client := Client{Sheet: sheet, Servers: n}
				var err error
				if messages, err = client.Make(id, values); err != nil {
					t.Fatal(err)
				}
			}
			for i, m := range messages {
				if IsSeedMessage(m) && random.Intn(3) == 0 {
					messages[i] = longOf(sheet, m)
				}
			}
			if !all.judge(t, sheet, messages) {
				t.Fatalf("%d servers, return %d: an honest return is rejected", n, id)
			}
			plain[0] += values[0]
			plain[1+values[1]]++
		}
		totals := all.closeAndJoin(t, sheet, 8)
		for k, line := range totals.Lines {
			if line.Total != plain[k] || totals.Accepted != 8 {
				t.Errorf("%d servers: %+v, want %d; accepted %d", n, line, plain[k], totals.Accepted)
			}
		}
	}
}

// A table takes a seed message as the share message that it stands for: the answer and what is stored are the same, and no seed is in it.
func TestSeedAndShareAlike(t *testing.T) {
	sheet := sheetOf(t, Choice(64), Choice(64), Choice(64), Choice(64))
	pair := Pair{R: 123456789, S: 987654321}
	for own, m := range seeded(t, sheet, 4, 1<<31+5, 1, 2, 3, 4) {
		if own == 0 {
			continue
		}
		var stored, ones [2][]byte
		for k, message := range [][]byte{m, longOf(sheet, m)} {
			table, err := Open(4, uint32(own), sheet, 10, 1)
			if err != nil {
				t.Fatal(err)
			}
			if ones[k], err = table.Share(message, pair); err != nil {
				t.Fatal(err)
			}
			if stored[k], err = table.MarshalBinary(); err != nil {
				t.Fatal(err)
			}
		}
		if !bytes.Equal(ones[0], ones[1]) || !bytes.Equal(stored[0], stored[1]) {
			t.Errorf("server %d: a seed message and the share message that it stands for differ in what comes of them", own)
		}
		if bytes.Contains(stored[0], m[6:14]) {
			t.Errorf("server %d: the table holds the seed", own)
		}
	}
}

// tellApart is what may be wrong with a message for server 1 of three.
func tellApart(sheet *Sheet, messages [][]byte) map[string][]byte {
	with := func(at int, b byte) []byte {
		m := append([]byte(nil), messages[1]...)
		m[at] = b
		return m
	}
	long := longOf(sheet, messages[1])
	seedKind := append([]byte{kindSeed}, long[1:]...)
	return map[string][]byte{
		"no message": {}, "a kind byte only": {kindSeed}, "no seed": messages[1][:6], "one byte short": messages[1][:37],
		"one byte long": append(with(0, kindSeed), 0), "the kind byte of a share": with(0, kindShare), "kind 37": with(0, 37),
		"kind 39": with(0, 39), "another's seed": messages[2], "server 0's number": with(5, 0), "a server past S": with(5, 3),
		"elements under the kind byte of a seed": seedKind, "a share cut to 38 bytes": long[:38], "server 0's share": messages[0],
	}
}

func TestMessagesToldApart(t *testing.T) {
	sheet := sheetOf(t, YesNo(), Number(8))
	messages := seeded(t, sheet, 3, 9, 1, 200)
	table := openAll(t, 3, sheet, 2)[1]
	pair := Pair{R: 1000, S: 5}
	for name, m := range tellApart(sheet, messages) {
		if _, err := table.Share(m, pair); !errors.Is(err, ErrShare) {
			t.Errorf("%s: %v", name, err)
		}
	}
	for k, m := range messages {
		if IsSeedMessage(m) != (k > 0) {
			t.Errorf("message %d is told wrongly", k)
		}
	}
	if IsSeedMessage(nil) {
		t.Error("no message is told as a seed message")
	}
	_, err := table.Share(messages[1], Pair{R: 1, S: 5})
	refused(t, err, ErrPair)
	if _, err = table.Share(messages[1], pair); err != nil {
		t.Error(err)
	}
	_, err = table.Share(messages[1], Pair{R: 1, S: 5})
	refused(t, err, ErrDecided)
	_, err = table.Share(messages[1][:37], pair)
	refused(t, err, ErrShare)
	// At server 0 a seed message is refused, with its number too.
	zero := append([]byte(nil), messages[1]...)
	for _, number := range []byte{0, 1} {
		zero[5] = number
		_, err = openAll(t, 3, sheet, 2)[0].Share(zero, pair)
		refused(t, err, ErrShare)
	}
}

// Any 32 bytes are a seed. One that was altered is taken, and the return is rejected.
func TestAlteredSeed(t *testing.T) {
	sheet := sheetOf(t, YesNo(), Number(8))
	all := openAll(t, 3, sheet, 40)
	for k := 0; k < 32; k += 4 {
		messages := seeded(t, sheet, 3, uint32(k), 1, 200)
		messages[1+k/4%2][6+k] ^= 1 << (k % 8)
		if all.judge(t, sheet, messages) {
			t.Errorf("accepted, with byte %d of a seed altered", k)
		}
	}
	messages := seeded(t, sheet, 3, 99, 1, 200)
	for k := range messages[2][6:] {
		messages[2][6+k] = 0xff
	}
	if all.judge(t, sheet, messages) {
		t.Error("accepted, with another seed")
	}
}

// wrongSeed is a call that the core refuses.
type wrongSeed struct {
	name                  string
	sheet                 []byte
	servers               uint32
	values, random, seeds []byte
	room                  int
	want                  Refusal
}

// wrongSeeds are faults in random elements and seeds, and what comes before and after them.
func wrongSeeds() []wrongSeed {
	sheet := []byte{17, 19, 8}
	values, four := elements([]uint32{1, 200}), elements([]uint32{1, 2, 3, 4})
	seeds := func(n int) []byte { return make([]byte, n) }
	return []wrongSeed{
		{"no seeds", sheet, 3, values, four, nil, 1000, ErrRandom},
		{"one seed for two servers", sheet, 3, values, four, seeds(32), 1000, ErrRandom},
		{"a byte short", sheet, 3, values, four, seeds(63), 1000, ErrRandom},
		{"a byte long", sheet, 3, values, four, seeds(65), 1000, ErrRandom},
		{"a seed for server 0 too", sheet, 3, values, four, seeds(96), 1000, ErrRandom},
		{"no elements", sheet, 3, values, nil, seeds(64), 1000, ErrRandom},
		{"three elements", sheet, 3, values, four[:12], seeds(64), 1000, ErrRandom},
		{"five elements", sheet, 3, values, elements([]uint32{1, 2, 3, 4, 5}), seeds(64), 1000, ErrRandom},
		{"an element of p", sheet, 3, values, elements([]uint32{1, 2, 3, prime}), seeds(64), 1000, ErrRandom},
		{"a sheet before all", []byte{22}, 9, nil, nil, nil, 0, ErrKind},
		{"one server", sheet, 1, nil, nil, nil, 0, ErrLimit},
		{"nine servers", sheet, 9, values, four, seeds(256), 1000, ErrLimit},
		{"a value before seeds", sheet, 3, elements([]uint32{2, 200}), nil, nil, 0, ErrValue},
		{"seeds before room", sheet, 3, values, four, nil, 0, ErrRandom},
		{"no room", sheet, 3, values, four, seeds(64), 6 + 4*(10+18+6) + 2*38 - 1, ErrRoom},
	}
}

func TestWrongSeeds(t *testing.T) {
	for _, c := range wrongSeeds() {
		out := make([]byte, c.room)
		w, number := coreMakeSeeded(c.sheet, c.servers, 5, c.values, c.random, c.seeds, out)
		if Refusal(number) != c.want || w != 0 || !bytes.Equal(out, make([]byte, c.room)) {
			t.Errorf("%s: %d, want %d; %d bytes written", c.name, number, c.want, w)
		}
	}
	for _, n := range []uint32{0, 1, 9, 1<<32 - 1} {
		client := Client{Sheet: sheetOf(t, YesNo()), Servers: n}
		_, err := client.MakeSeeded(1, []uint32{1})
		refused(t, err, ErrLimit)
	}
	client := Client{Sheet: sheetOf(t, YesNo()), Servers: 2}
	_, err := client.MakeSeeded(1, []uint32{2})
	refused(t, err, ErrValue)
}

// Seeds come from the reader that the client was given, four elements first, and from the system without one: never one twice.
func TestSeedsDrawn(t *testing.T) {
	source := make([]byte, 16+3*32)
	rand.New(rand.NewSource(3)).Read(source)
	client := Client{Sheet: sheetOf(t, YesNo()), Servers: 4, Random: bytes.NewReader(source)}
	messages, err := client.MakeSeeded(1, []uint32{1})
	if err != nil {
		t.Fatal(err)
	}
	for k, m := range messages[1:] {
		if want := source[16+32*k : 48+32*k]; !bytes.Equal(m[6:], want) || len(m) != SeedMessageBytes {
			t.Errorf("the seed of server %d is %x, want %x", k+1, m[6:], want)
		}
	}
	client.Random = bytes.NewReader(source[:len(source)-1])
	if messages, err := client.MakeSeeded(1, []uint32{1}); err == nil || messages != nil {
		t.Errorf("with a byte too few: %v, %v", messages, err)
	}
	client.Random = nil
	seen := map[string]bool{}
	for id := uint32(0); id < 4; id++ {
		messages, err := client.MakeSeeded(7, []uint32{1})
		if err != nil || len(messages) != 4 {
			t.Fatalf("%d messages, %v", len(messages), err)
		}
		for _, m := range messages[1:] {
			seen[string(m[6:])] = true
		}
	}
	if len(seen) != 12 {
		t.Errorf("%d different seeds, want 12", len(seen))
	}
}

// Seed messages are stored by place like shares; with a share among them the lengths differ.
func TestShelvedSeeds(t *testing.T) {
	sheet := sheetOf(t, YesNo())
	var list [][]byte
	for id := uint32(0); id < 3; id++ {
		list = append(list, seeded(t, sheet, 2, id, 1)[1])
	}
	run, err := Shelve(list)
	if err != nil {
		t.Fatal(err)
	}
	if back, err := Unshelve(3, SeedMessageBytes, run); err != nil || !reflect.DeepEqual(back, list) {
		t.Errorf("brought back %d messages, %v", len(back), err)
	}
	_, err = Shelve(append(list, seeded(t, sheet, 2, 9, 1)[0]))
	refused(t, err, ErrRun)
}
