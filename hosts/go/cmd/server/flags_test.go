package main

import (
	"os"
	"os/exec"
	"strings"
	"testing"
)

// Numbers that do not fit are refused, and not cut to others that would do.
func TestFlags(t *testing.T) {
	sound := []string{"-sheet", "17 19 8", "-least", "3", "-own", "1", "-peer", "127.0.0.1:1"}
	for _, test := range []struct{ flag, value, says string }{
		{"-own", "4294967297", "out of range"}, {"-own", "-1", "invalid syntax"}, {"-own", "2", "refused 2"}, {"-own", "", "invalid syntax"},
		{"-returns", "4294967396", "out of range"}, {"-returns", "1124", "refused 2"}, {"-returns", "0", "refused 2"},
		{"-least", "4294967299", "out of range"}, {"-least", "0", "refused 2"}, {"-least", "101", "refused 2"},
		{"-handle", "-1", "invalid syntax"}, {"-handle", "4294967297", "out of range"}, {"-handle", "1.5", "invalid syntax"},
		{"-sheet", "273 19 8", "out of range"}, {"-sheet", "17 19 264", "out of range"}, {"-sheet", "", "refused 2"},
		{"-slip", "4294967303", "out of range"}, {"-stop", "4294967303", "out of range"}, {"-wait", "5", "parse error"},
	} {
		cmd := exec.Command(os.Args[0], append(append([]string(nil), sound...), test.flag, test.value)...)
		cmd.Env = append(os.Environ(), "POOL_SERVER=1")
		if out, err := cmd.CombinedOutput(); err == nil || !strings.Contains(string(out), test.says) {
			t.Errorf("%s %q: %v, %s", test.flag, test.value, err, out)
		}
	}
}
