package mark

import (
	"strings"
	"testing"
)

// Bodies that end in a terminating statement of the specification, and so may be those of a function with results.
var terminating = []string{
	"return 1", "return", "goto L; L: return 1", "L: goto L", "panic(1)", "(panic(1))", "x++; return 1", "return 1;;", "{ return 1 }", "{ { panic(1) } }",
	"if a { return 1 } else { return 2 }", "if a { return 1 } else if b { return 2 } else { panic(3) }",
	"for {}", "for ;; {}", "for i := 0;; i++ {}", "for { for { break } }", "for { switch { case a: break } }", "for { select { default: break } }",
	"for { func() { for { break } }() }", "L: for { continue L }", "for { L: for { break L } }",
	"switch { default: return 1 }", "switch x { case 1: return 1; default: panic(1) }", "switch { case a: fallthrough; default: return 1 }",
	"switch x.(type) { case int: return 1; default: return 2 }", "switch { default: for { break }; return 1 }",
	"select {}", "select { case <-c: return 1 }", "select { case <-c: return 1; default: panic(1) }", "L: return 1", "L: M: for { continue M }; goto L",
	"return a &&\nb", "/* done */ return",
}

// Bodies that don't.
var going = []string{
	"", "x++", ";", "return 1; x++", "if a { return 1 }", "if a { return 1 } else { x++ }", "if a { return 1 } else if b { return 2 }",
	"for a {}", "for ; a; {}", "for range x {}", "for { break }", "for { if a { break } }", "L: for { break L }", "L: for { for { break L } }",
	"L: for { switch { case a: break L } }", "switch {}", "switch { case a: return 1 }", "switch { default: return 1; case a: }",
	"switch { default: break; return 1 }", "switch { default: if a { break }; return 1 }", "L: switch { default: for { break L } }",
	"switch x.(type) { case int: return 1 }", "select { case <-c: }", "select { case <-c: break }", "L: select { case <-c: for { break L } }",
	"os.Exit(1)", "func() { panic(1) }()", "go panic(1)", "defer panic(1)", "panic.x()", "panic := f; panic(1)", "var x = 1", "L: goto L; x++", "{ return 1 }; {}",
}

func TestMissingReturns(t *testing.T) {
	for _, text := range terminating {
		tryReturns(t, text, true)
	}
	for _, text := range going {
		tryReturns(t, text, false)
	}
}

// tryReturns: with results a body that goes on gets its finding, at its closing brace; without results none does.
func tryReturns(t *testing.T, text string, terminating bool) {
	t.Helper()
	checkReturns(t, "package p; func f() int { "+text+" @}", !terminating)
	checkReturns(t, "package p; func (t T) f() (x int, err error) {\n\t"+text+"\n@}", !terminating)
	checkReturns(t, "package p; var f = func() int { "+text+" @}", !terminating)
	checkReturns(t, "package p; func f() { "+text+" @}", false)
	checkReturns(t, "package p; var f = func() { "+text+" @}", false)
	checkReturns(t, text+"@", false)
}

func checkReturns(t *testing.T, text string, missing bool) {
	t.Helper()
	text, places := unmarked(text)
	r := marked(text)
	found := 0
	for _, f := range r.Findings {
		if f.Kind == MissingReturn || strings.Contains(f.Message, "missing return") {
			found++
			if f.Position != places[0] || f.Message != "missing return" || f.Kind != MissingReturn {
				t.Errorf("%s: %q at %d", text, f.Message, f.Position)
			}
		}
		if f.Kind == Syntax || f.Kind == Refused {
			t.Errorf("%s: %s", text, f.Message)
		}
	}
	if missing && found != 1 || !missing && found > 0 {
		t.Errorf("%s: %d missing returns", text, found)
	}
}

// Each function and each literal has its own closing brace.
func TestMissingReturnsOfSeveral(t *testing.T) {
	tryAll(t, MissingReturn, []findingCase{
		{"package p; func f() int { func() int { @}(); @}; func g() int {@}", "missing return\nmissing return\nmissing return"},
		{"package p; func f() int { return func() int { @}() }", "missing return"},
		{"package p; func f() int { func() int { return 1 }(); @}", "missing return"},
		{"package p; var x, y = func() int { @}, func() {}", "missing return"},
	})
}
