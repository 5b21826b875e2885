package mark

import (
	"fmt"
	"testing"
)

// The bodies to try of document 01, with the codes of their sheets and their verdicts.
func TestBodiesToTry(t *testing.T) {
	cases := []struct {
		text    string
		codes   []uint32
		verdict bool
	}{
		{"L: for { break L }", nil, false},
		{"L: for {}; for { break L }", []uint32{4, 9}, true},
		{"L: for { M: for { break L } }", []uint32{9}, false},
		{"L: for { for { break } }", []uint32{9}, true},
		{"for { M: for { break M } }", nil, true},
		{"goto L; x := 1; L: return", []uint32{3}, true},
		{"goto L; { L: return }", []uint32{7}, true},
		{"goto _; _: return", []uint32{8}, true},
		{"{ L: return }; goto L; L: return", []uint32{1, 2, 9}, true},
		{"", nil, false},
		{"select {}", nil, true},
		{"switch {}", nil, false},
		{"switch { default: fallthrough }", nil, true},
	}
	for _, c := range cases {
		r := marked(c.text)
		if len(r.Bodies) != 1 || !r.Bodies[0].Marked() {
			t.Errorf("%s: %v", c.text, r.Findings)
			continue
		}
		b := r.Bodies[0]
		var codes []uint32
		for _, f := range b.Marks.Sheet {
			codes = append(codes, f.Code)
		}
		if fmt.Sprint(codes) != fmt.Sprint(c.codes) || b.Marks.Terminating != c.verdict {
			t.Errorf("%s: %d %v, not %d %v", c.text, codes, b.Marks.Terminating, c.codes, c.verdict)
		}
		// the last of them alone has a row badly placed, and that is its last
		last := c.text == "switch { default: fallthrough }"
		if placed := len(b.Misplaced) == 0; placed == last || last && b.Misplaced[0] != len(b.Rows)-1 {
			t.Errorf("%s: misplaced %d", c.text, b.Misplaced)
		}
	}
}

// Document 01 prints the answers for this body.
func TestDocumentBody(t *testing.T) {
	b := marked("{goto M;L:for{}}").Bodies[0]
	if got := fmt.Sprint(b.Marks); got != "{[{8 7 1 0} {9 9 2 0}] [0 0 3 0 0] -1 true}" {
		t.Error(got)
	}
}
