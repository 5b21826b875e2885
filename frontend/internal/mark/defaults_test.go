package mark

import (
	"fmt"
	"strings"
	"testing"
)

// firstAt are the messages for second defaults in x.go, of which the first ones are at these places.
func firstAt(places ...string) string {
	var messages []string
	for _, place := range places {
		messages = append(messages, "multiple defaults (first at x.go:"+place+")")
	}
	return strings.Join(messages, "\n")
}

func TestMultipleDefaults(t *testing.T) {
	tryAll(t, MultipleDefaults, []findingCase{
		// one, or none
		{"switch {}", ""},
		{"switch { default: }", ""},
		{"switch { case a: case b: }", ""},
		{"switch { case a: default: case b: }", ""},
		{"switch x.(type) { case a: default: }", ""},
		{"select { default: case <-c: }", ""},
		// two
		{"switch { default: @default: }", firstAt("1:10")},
		{"switch { default: case a: @default: }", firstAt("1:10")},
		{"switch { case a: default: @default: case b: }", firstAt("1:18")},
		{"switch { case a: default: case b: @default: case c: }", firstAt("1:18")},
		{"switch x { default: x++; y++; @default: x++ }", firstAt("1:12")},
		{"switch x.(type) { default: @default: }", firstAt("1:19")},
		{"switch y := x.(type) { case a: default: case b: @default: }", firstAt("1:32")},
		{"select { default: @default: }", firstAt("1:10")},
		{"select { case <-c: default: case c <- 1: @default: }", firstAt("1:20")},
		{"L: switch { default: break L; @default: }", firstAt("1:13")},
		{"if a { switch { default: @default: } }", firstAt("1:17")},
		{"switch x {\n\tdefault:\n\t\tx++\n\tcase 1:\n\t@default:\n}", firstAt("2:2")},
	})
}

// All of them are told, each with the first of its own switch.
func TestAllMultipleDefaults(t *testing.T) {
	tryAll(t, MultipleDefaults, []findingCase{
		{"switch { default: @default: @default: }", firstAt("1:10", "1:10")},
		{"select { default: case <-c: @default: case <-c: @default: @default: }", firstAt("1:10", "1:10", "1:10")},
		{"switch {\ndefault:\n@default:\n}\nselect {\ndefault:\n@default:\n}\nswitch x.(type) {\ndefault:\n@default:\n}", firstAt("2:1", "6:1", "10:1")},
		{"switch {\ndefault:\n@default:\n}\nswitch { default: }\nswitch {\ncase a:\ndefault:\n@default:\n}", firstAt("2:1", "8:1")},
	})
}

// A default counts for its own switch alone.
func TestNestedDefaults(t *testing.T) {
	tryAll(t, MultipleDefaults, []findingCase{
		{"switch { default: switch { default: } }", ""},
		{"switch { default: switch { default: }; case a: switch { default: } }", ""},
		{"switch { case a: switch { default: }; default: select { default: switch x.(type) { default: } } }", ""},
		{"switch { default: }; switch { default: }", ""},
		{"for { switch { default: } }; switch { default: }", ""},
		{"switch { default: switch { default: }; @default: }", firstAt("1:10")},
		{"switch { case a: switch { default: }; default: @default: }", firstAt("1:39")},
		{"switch { default: switch { default: @default: } }", firstAt("1:28")},
		{"switch { case a: switch { default: @default: }; default: }", firstAt("1:27")},
		// the inner one is told before the outer, whose first is before both
		{"switch { default: switch { default: @default: }; @default: }", firstAt("1:28", "1:10")},
		{"switch { default: @default: switch { default: @default: }; @default: }", firstAt("1:10", "1:37", "1:10")},
		{"select { default: switch { default: select { default: @default: }; @default: }; @default: }", firstAt("1:46", "1:28", "1:10")},
	})
}

// A literal is a body of its own: neither takes the other with it.
func TestDefaultsOfLiterals(t *testing.T) {
	tryAll(t, MultipleDefaults, []findingCase{
		{"switch { default: func() { switch { default: } }() }", ""},
		{"switch { default: func() { switch { default: @default: } }() }", firstAt("1:37")},
		{"switch { default: func() { switch { default: @default: } }(); @default: }", firstAt("1:37", "1:10")},
		{"package p; func f() { switch { default: } }; func g() { switch { default: } }", ""},
		{"package p; var x = func() { select { default: @default: } }", firstAt("1:38")},
	})
	findingCase{"switch { default: func() { @break }(); @default: }", noBreak + "\n" + firstAt("1:10")}.try(t)
	findingCase{"@L: for { func() { switch { default: @default: } }() }", "label L defined and not used\n" + firstAt("1:28")}.try(t)
}

// The body itself is turned away, so that nothing else is told of it.
func TestMultipleDefaultsAlone(t *testing.T) {
	tryAll(t, MultipleDefaults, []findingCase{
		{"L: for {}; goto M; switch { default: @default: }", firstAt("1:29")},
		{"break; switch { default: continue; @default: fallthrough }", firstAt("1:17")},
		{"package p; func f() int { switch { default: @default: } }", firstAt("1:36")},
		{"package p; func f() int { switch { default: break L; @default: break M; @default: continue }; fallthrough }", firstAt("1:36", "1:36")},
		// refused for its depth too
		{"switch { default: @default: }; " + deep(100), firstAt("1:10")},
	})
}

// A body over a limit that is tried before has only that refusal.
func TestMultipleDefaultsPastLimits(t *testing.T) {
	for number, text := range map[uint32]string{1: increments(2001), 2: gotos(501)} {
		r := marked("switch { default: default: }; " + text)
		checkRefusal(t, fmt.Sprint(number), r, &r.Bodies[0], number)
		if len(r.Findings) != 1 || r.Findings[0].Kind != Refused || r.Bodies[0].SecondDefaults != nil {
			t.Errorf("%d: %v", number, r.Findings)
		}
	}
}

// The other functions of the file are marked.
func TestOthersOfMultipleDefaults(t *testing.T) {
	const text = "package p\n\nfunc f() int {\n\tswitch {\n\tdefault:\n\t@default:\n\t}\n}\n\nfunc g() int {\n\t@break\n@}\n\nfunc h() {\n@L:\n}\n"
	r := findingCase{text, firstAt("5:2") + "\n" + noBreak + "\nmissing return\nlabel L defined and not used"}.try(t)
	for i := range r.Bodies {
		if b := &r.Bodies[i]; b.Marked() != (i > 0) {
			t.Errorf("%s: marked %v", b.Title(), b.Marked())
		}
	}
}

// The refusal is that of the first, the rows are those of the clauses, ascending, and the rows of the body stay as they are.
func TestSecondDefaultRows(t *testing.T) {
	cases := []struct {
		text string
		rows []int
	}{
		{"switch { default: default: }", []int{4}},
		{"switch { case a: default: x++; case b: default: default: }", []int{7, 8}},
		{"switch { default: switch { default: default: }; default: }", []int{7, 8}},
		{"select { default: default: }; select { default: }; select { default: default: }", []int{4, 11}},
	}
	for _, c := range cases {
		b := &marked(c.text).Bodies[0]
		if b.Marked() || b.Refusal == nil || b.Refusal.Number != 10 || b.Refusal.Index != c.rows[0] || fmt.Sprint(b.SecondDefaults) != fmt.Sprint(c.rows) {
			t.Errorf("%s: %v, %d, not %d", c.text, b.Refusal, b.SecondDefaults, c.rows)
		}
		if b.Marks.Sheet != nil || b.Marks.Bindings != nil || b.Misplaced != nil {
			t.Errorf("%s: %v", c.text, b.Marks)
		}
		for _, row := range b.SecondDefaults {
			if kind := b.Rows[row].Kind; kind != 14 && kind != 17 || b.Rows[row].Detail != 1 {
				t.Errorf("%s: row %d: %v", c.text, row, b.Rows[row])
			}
		}
	}
}

// As many as there can be.
func TestManyMultipleDefaults(t *testing.T) {
	plain, places := unmarked("switch {\ndefault:\n" + strings.Repeat("@default:\n", 1996) + "}")
	r := marked(plain)
	if wanted := (Counts{Bodies: 1, Faults: 1996, Refused: 1}); len(r.Findings) != 1996 || r.Counts() != wanted {
		t.Fatalf("%d findings, %+v", len(r.Findings), r.Counts())
	}
	for i, f := range r.Findings {
		if f.Position != places[i] || f.Message != firstAt("2:1") {
			t.Fatalf("%v, not at %d", f, places[i])
		}
	}
}

// The place of the first has the script's name as it is.
func TestNameInMultipleDefaults(t *testing.T) {
	for _, name := range []string{"a.go", "some/folder/b.go", "100%d.go", "<standard input>"} {
		r := markedAs(name, "package p; func f() { switch { default: default: } }")
		if wanted := "multiple defaults (first at " + name + ":1:32)"; len(r.Findings) != 1 || r.Findings[0].Message != wanted {
			t.Errorf("%s: %v", name, r.Findings)
		}
	}
}

// A function with a syntax error has only that told.
func TestMultipleDefaultsOfBroken(t *testing.T) {
	r := marked("package p\n\nfunc f() { switch { default: default: }; x y }\n\nfunc g() { switch { default: default: } }\n")
	if len(r.Findings) != 2 || r.Findings[0].Kind != Syntax || r.Findings[1].Message != firstAt("5:21") {
		t.Errorf("%v", r.Findings)
	}
}

// The faults that stand in the way of a walk of the body are its multiple defaults, and not those of another body.
func TestFaultsOfMultipleDefaults(t *testing.T) {
	r := marked("package p; func f() { break; switch { default: func() { switch { default: default: } }(); default: default: } }")
	for i, wanted := range []string{firstAt("1:39", "1:39"), firstAt("1:66")} {
		var got []string
		for _, f := range r.Faults(&r.Bodies[i]) {
			got = append(got, f.Message)
		}
		if strings.Join(got, "\n") != wanted {
			t.Errorf("%s: %q, not %q", r.Bodies[i].Title(), got, wanted)
		}
	}
}
