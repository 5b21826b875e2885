package mark

import (
	"strings"
	"testing"

	"zesthull/internal/script"
)

// Every code of the sheet with its message. 6 comes from no source: go/parser takes no label after fallthrough.
func TestLabelFaults(t *testing.T) {
	tryAll(t, Label, []findingCase{
		{"L: for { break L }", ""},
		{"L: for { continue L }", ""},
		{"L: goto L", ""},
		{"goto L; L: return", ""},
		{"L: switch { case a: break L }", ""},
		{"L: switch x.(type) { case a: break L }", ""},
		{"L: select { default: break L }", ""},
		{"L: for range x { break L; continue L }", ""},
		// 1 and 2
		{"L: goto L; @L: goto L", "label L already defined (other declaration of L at 1)"},
		{"L: goto L; @L: x++; { @L: x++ }",
			"label L already defined (other declaration of L at 1)\nlabel L already defined (other declaration of L at 1)"},
		{"A: goto A; B: goto B; @A: @B: x++",
			"label A already defined (other declaration of A at 1)\nlabel B already defined (other declaration of B at 12)"},
		// 3, with the line of the latest declaration
		{"goto @L; x := 1; L: return", "goto L jumps over variable declaration at line 1"},
		{"goto @L\nx := 1\nvar y int\nL: return", "goto L jumps over variable declaration at line 3"},
		{"goto @L\nx++\n{ var z int }\nvar y int\nx = 1\nL: return", "goto L jumps over variable declaration at line 4"},
		{"if a {\n\tgoto @L\n}\nx := 1\nL:\nreturn", "goto L jumps over variable declaration at line 4"},
		{"goto @L; M: var x int; goto M; L: return", "goto L jumps over variable declaration at line 1"},
		{"goto L; const c = 1; type T int; L: return", ""},
		{"goto L; { x := 1 }; L: return", ""},
		// 4
		{"break @L", "invalid break label L"},
		{"for { break @L }", "invalid break label L"},
		{"@L: { break @L }", "label L defined and not used\ninvalid break label L"},
		{"@L: if a { break @L }", "label L defined and not used\ninvalid break label L"},
		{"@L: for {}; for { break @L }", "label L defined and not used\ninvalid break label L"},
		// 5
		{"for { continue @L }", "invalid continue label L"},
		{"@L: switch { case a: continue @L }", "label L defined and not used\ninvalid continue label L"},
		{"@L: select { default: for { continue @L } }", "label L defined and not used\ninvalid continue label L"},
		// 7, which counts as use
		{"goto @L; { L: return }", "goto L jumps into block"},
		{"if a { goto @L } else { L: x++ }", "goto L jumps into block"},
		{"{ L: x++ }; goto @L", "goto L jumps into block"},
		// 8
		{"goto @M", "label M not defined"},
		{"goto @M; @m: return", "label M not defined\nlabel m defined and not used"},
		{"goto @_; _: return", "label _ not defined"},
		{"goto @größe", "label größe not defined"},
		// 9
		{"@L: for {}", "label L defined and not used"},
		{"@L: @M: for { break @L }", "label L defined and not used\nlabel M defined and not used\ninvalid break label L"},
		{"_: for {}", ""},
		{"@L:", "label L defined and not used"},
	})
}

// A literal's labels are its own.
func TestLabelsOfLiterals(t *testing.T) {
	tryAll(t, Label, []findingCase{
		{"@L: for { func() { break @L }() }", "label L defined and not used\ninvalid break label L"},
		{"goto @L; func() { @L: x++ }()", "label L not defined\nlabel L defined and not used"},
		{"L: goto L; func() { L: goto L }()", ""},
		{"package p; func f() { L: goto L }; func g() { L: goto L }", ""},
		{"package p; func f() { goto @L }; func g() { @L: return }", "label L not defined\nlabel L defined and not used"},
		{"package p; var x = func() { @L: }", "label L defined and not used"},
	})
}

// The findings of a script are in the order of their places, whichever body they are of, and whatever they are about.
func TestOrder(t *testing.T) {
	c := findingCase{"package p\nfunc f() int {\n\tgoto @M\n\tfunc() int {\n\t\t@break\n\t\tgoto @N\n\t\tx++\n\t@}()\n\t@L:\n\t@continue\n@}\n" +
		"var x = func() { @B: @A: @C: }\n",
		"label M not defined\nbreak is not in a loop, switch, or select\nlabel N not defined\nmissing return\nlabel L defined and not used\n" +
			"continue is not in a loop\nmissing return\nlabel B defined and not used\nlabel A defined and not used\nlabel C defined and not used"}
	c.try(t)
}

// Faults are those of one body: label faults and misplaced branches, in the order of their places, and no missing return.
func TestFaultsOfBody(t *testing.T) {
	const text = "package p; func f() int { break; func() { goto M }(); for {}; L: continue }; func g() int {}"
	r := Script(script.ReadFile("", []byte(text)))
	wanted := [][]string{{noBreak, "label L defined and not used", noContinue}, {"label M not defined"}, {}}
	for i := range r.Bodies {
		var got []string
		for _, f := range r.Faults(&r.Bodies[i]) {
			got = append(got, f.Message)
		}
		if strings.Join(got, "\n") != strings.Join(wanted[i], "\n") {
			t.Errorf("%s: %q, not %q", r.Bodies[i].Title(), got, wanted[i])
		}
	}
	if len(r.Findings) != 6 {
		t.Errorf("%d findings of the script", len(r.Findings))
	}
}
