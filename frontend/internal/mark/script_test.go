package mark

import (
	"strings"
	"testing"
)

// A function with a syntax error has no marks; the others have.
func TestSyntaxErrors(t *testing.T) {
	r := marked("package p\n\nfunc f() int {}\n\nfunc g() { return return }\n\nfunc h() { break }\n")
	var kinds []Kind
	for _, f := range r.Findings {
		if len(kinds) == 0 || kinds[len(kinds)-1] != f.Kind {
			kinds = append(kinds, f.Kind)
		}
	}
	if len(kinds) != 3 || kinds[0] != MissingReturn || kinds[1] != Syntax || kinds[2] != Misplaced {
		t.Errorf("%v", r.Findings)
	}
	for _, b := range r.Bodies {
		if broken := b.Function.Name == "g"; b.Marked() == broken || b.Refusal != nil || broken && len(b.Rows) > 0 {
			t.Errorf("%s: marked %v", b.Function.Name, b.Marked())
		}
	}
}

// A body with a syntax error has no other findings.
func TestSyntaxErrorsAlone(t *testing.T) {
	for _, text := range []string{"package p; func f() int { goto }", "package p\n\nfunc f() int { L: break; x y }\n", "L: break; goto"} {
		for _, f := range marked(text).Findings {
			if f.Kind != Syntax {
				t.Errorf("%s: %s", text, f.Message)
			}
		}
	}
}

// The message is go/parser's, letter by letter.
func TestSyntaxMessages(t *testing.T) {
	cases := []struct{ text, message string }{
		{"x = )", "expected operand, found ')'"},
		{"foo bar", "expected ';', found bar"},
		{"goto", "goto needs a label"},
	}
	for _, c := range cases {
		checkFirst(t, c.text, c.message)
	}
}

func checkFirst(t *testing.T, text, message string) {
	t.Helper()
	r := marked(text)
	if len(r.Findings) == 0 || r.Findings[0].Message != message || r.Findings[0].Kind != Syntax {
		t.Errorf("%s: %v, not %q", text, r.Findings, message)
	}
}

func TestSyntaxMessageWithPercent(t *testing.T) {
	checkFirst(t, "x = %", "expected operand, found '%'")
	checkFirst(t, "x = y %% z", "expected operand, found '%'")
}

func TestCounts(t *testing.T) {
	long := strings.Repeat("x++\n", 2000)
	cases := []struct {
		text   string
		counts Counts
	}{
		{"", Counts{Bodies: 1}},
		{"package p", Counts{}},
		{"package p; func f()", Counts{}},
		{"package p; func f() {}; var x = func() { func() {}() }", Counts{Bodies: 3}},
		{"L: for {}", Counts{Bodies: 1, Faults: 1}},
		// the other declaration is no fault of its own
		{"L: goto L; L: goto L", Counts{Bodies: 1, Faults: 1}},
		{"L: for {}; for { break L }; goto M", Counts{Bodies: 1, Faults: 3}},
		{"break; continue; fallthrough", Counts{Bodies: 1, Misplaced: 3}},
		{"package p; func f() int {}", Counts{Bodies: 1, Faults: 1}},
		{"package p; func f() int { break; L: func() { goto M; continue }() }", Counts{Bodies: 2, Faults: 3, Misplaced: 2}},
		// a body with multiple defaults has no marks, and each but the first is a fault
		{"switch { default: default: }", Counts{Bodies: 1, Faults: 1, Refused: 1}},
		{"switch { default: default: default: }; select { default: default: }; L: break", Counts{Bodies: 1, Faults: 3, Refused: 1}},
		{"package p; func f() int { switch { default: default: }; func() { L: break }() }; func g() int {}",
			Counts{Bodies: 3, Faults: 3, Misplaced: 1, Refused: 1}},
		{long, Counts{Bodies: 1, Refused: 1}},
		{"package p; func f() {" + long + "}; func g() int { continue }", Counts{Bodies: 2, Faults: 1, Misplaced: 1, Refused: 1}},
		// a body with a syntax error has no marks either
		{"foo bar", Counts{Bodies: 1, Refused: 1}},
		{"package p\n\nfunc f() { x y }\n\nfunc g() { break }\n", Counts{Bodies: 2, Misplaced: 1, Refused: 1}},
	}
	for _, c := range cases {
		if got := marked(c.text).Counts(); got != c.counts {
			t.Errorf("%.60q: %+v, not %+v", c.text, got, c.counts)
		}
	}
}

func TestTitles(t *testing.T) {
	cases := []struct{ text, title string }{
		{"return", "statements"},
		{"package p; func f() {}", "func f"},
		{"package p; func (t *T) m() {}", "func T.m"},
		{"package p; var x = func() {}", "func glob..func1"},
	}
	for _, c := range cases {
		if got := marked(c.text).Bodies[0].Title(); got != c.title {
			t.Errorf("%s: %s, not %s", c.text, got, c.title)
		}
	}
}

// The bodies are those of the script's functions, in their order.
func TestBodies(t *testing.T) {
	r := marked("package p; func f() { func() {}() }; var x = func() {}; func g()")
	var names []string
	for i, b := range r.Bodies {
		names = append(names, b.Function.Name)
		if b.Function.Body != r.Functions[i].Body {
			t.Errorf("body %d is of another function", i)
		}
	}
	if got := strings.Join(names, " "); got != "f f.func1 glob..func1" {
		t.Error(got)
	}
}
