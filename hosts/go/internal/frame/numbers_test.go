package frame

import "testing"

// A number that does not fit is refused and changes nothing.
func TestNumber(t *testing.T) {
	for text, want := range map[string]Number{"0": 0, "100": 100, "4294967295": 1<<32 - 1} {
		n := Number(7)
		if err := n.Set(text); err != nil || n != want || n.String() != text {
			t.Errorf("%q: %v, %v", text, n, err)
		}
	}
	for _, text := range []string{"", "-1", "4294967296", "4294967297", "18446744073709551617", "1.5", "x", "0x10", "+1", " 1"} {
		n := Number(7)
		if err := n.Set(text); err == nil || n != 7 {
			t.Errorf("%q: %v, %v", text, n, err)
		}
	}
}
