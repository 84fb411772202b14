package main

import (
	"reflect"
	"testing"

	"yimakohe.example/pool"
)

func TestReadValues(t *testing.T) {
	columns := []pool.Column{pool.YesNo(), pool.Point(6), pool.Number(8), pool.Point(1)}
	for text, want := range map[string][]uint32{
		"1 34:5 40 1:1": {1, 34 + 64*5, 40, 3},
		"0 63:0 0 0:1":  {0, 63, 0, 2},
		"0 4095 7 2":    {0, 4095, 7, 2},
		"1":             {1},
		"":              nil,
	} {
		if got, err := readValues(columns, text); err != nil || !reflect.DeepEqual(got, want) {
			t.Errorf("%q: %v, %v, want %v", text, got, err, want)
		}
	}
	for _, text := range []string{"1:1", "1 64:0", "1 0:64", "1 34:", "1 :5", "1 3:4:5", "1 4294967296:0", "1 34:5 1:1", "1 34:5 40 2:0",
		"1 34:5 40 1:1 0:0", "1 -1:0", ":", "x"} {
		if got, err := readValues(columns, text); err == nil {
			t.Errorf("%q: %v", text, got)
		}
	}
}
