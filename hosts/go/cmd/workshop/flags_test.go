package main

import (
	"os"
	"os/exec"
	"strings"
	"testing"
)

func TestMain(m *testing.M) {
	if os.Getenv("POOL_WORKSHOP") != "" {
		main()
		os.Exit(0)
	}
	os.Exit(m.Run())
}

// Numbers that do not fit are refused, and not cut to others that would do. Nothing is sent: no server is there.
func TestFlags(t *testing.T) {
	for _, test := range []struct{ sheet, id, values, servers, says string }{
		{"17 19 8", "4294967303", "1 40", "a b", "out of range"},
		{"17 19 8", "-7", "1 40", "a b", "invalid syntax"},
		{"17 19 264", "7", "1 40", "a b", "out of range"},
		{"17 19 8", "7", "1 4294967336", "a b", "out of range"},
		{"17 19 8", "7", "1 256", "a b", "refused 5"},
		{"17 19 8", "7", "", "a b", "refused 5"},
		{"17 21 6", "7", "1 64:0", "a b", "refused 5"},
		{"", "7", "1 40", "a b", "refused 2"},
		{"17 19 8", "7", "1 40", "", "refused 2"},
		{"17 19 8", "7", "1 40", "a b c d e f g h i", "refused 2"},
	} {
		args := append([]string{"-sheet", test.sheet, "-id", test.id, "-values", test.values}, strings.Fields(test.servers)...)
		cmd := exec.Command(os.Args[0], args...)
		cmd.Env = append(os.Environ(), "POOL_WORKSHOP=1")
		if out, err := cmd.CombinedOutput(); err == nil || !strings.Contains(string(out), test.says) {
			t.Errorf("%+v: %v, %s", test, err, out)
		}
	}
}
