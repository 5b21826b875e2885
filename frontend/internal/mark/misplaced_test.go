package mark

import "testing"

const (
	noBreak       = "break is not in a loop, switch, or select"
	noContinue    = "continue is not in a loop"
	noFallthrough = "fallthrough statement out of place"
	finalCase     = "cannot fallthrough final case in switch"
	inTypes       = "cannot fallthrough in type switch"
)

func TestMisplaced(t *testing.T) {
	tryAll(t, Misplaced, []findingCase{
		{"@break", noBreak},
		{"@continue", noContinue},
		{"@fallthrough", noFallthrough},
		// where they may stand
		{"for { break; continue }", ""},
		{"for range x { if a { break } else { continue } }", ""},
		{"switch { case a: break }", ""},
		{"switch x.(type) { default: { break } }", ""},
		{"select { default: break }", ""},
		{"for { switch { case a: continue } }", ""},
		{"for { select { default: continue } }", ""},
		{"switch { case a: fallthrough; default: }", ""},
		{"switch { case a: x++; fallthrough; case b: }", ""},
		{"switch { case a: fallthrough;;; case b: }", ""},
		{"switch { default: fallthrough; case b: }", ""},
		{"switch { case a: _: fallthrough; case b: }", ""},
		// where not
		{"if a { @break }", noBreak},
		{"{ @continue }", noContinue},
		{"_: @break", noBreak},
		{"switch { case a: @continue }", noContinue},
		{"select { default: @continue }", noContinue},
		{"for {}; @break", noBreak},
		{"for { func() { @break }() }", noBreak},
		{"for { func() { @continue }() }", noContinue},
		{"switch { case a: func() { @fallthrough }(); case b: }", noFallthrough},
		// fallthrough at the end of the last case
		{"switch { case a: @fallthrough }", finalCase},
		{"switch { default: @fallthrough }", finalCase},
		{"switch { case a: x++; @fallthrough;; }", finalCase},
		{"switch { case a: case b: _: @fallthrough }", finalCase},
		{"switch { case a: switch { case b: @fallthrough }; case c: }", finalCase},
		// and elsewhere
		{"switch { case a: @fallthrough; x++; case b: }", noFallthrough},
		{"switch { case a: @fallthrough; x++ }", noFallthrough},
		{"switch { case a: { @fallthrough }; case b: }", noFallthrough},
		{"switch { case a: { @fallthrough } }", noFallthrough},
		{"switch { case a: if b { @fallthrough }; case b: }", noFallthrough},
		{"switch { case a: for { @fallthrough } }", noFallthrough},
		{"switch { case a: select { default: @fallthrough }; case b: }", noFallthrough},
		{"select { case <-c: @fallthrough; default: }", noFallthrough},
		{"for { @fallthrough }", noFallthrough},
		{"_: @fallthrough", noFallthrough},
	})
}

// No fallthrough may stand in a type switch.
func TestFallthroughInTypeSwitch(t *testing.T) {
	tryAll(t, Misplaced, []findingCase{
		{"switch x.(type) { case int: @fallthrough; case string: }", inTypes},
		{"switch x.(type) { case int: @fallthrough }", inTypes},
		{"switch x.(type) { case int: case string: @fallthrough }", inTypes},
		{"switch x.(type) { default: @fallthrough; case int: }", inTypes},
		{"switch x.(type) { case int: default: @fallthrough }", inTypes},
		{"switch y := x.(type) { case int: y++; @fallthrough; default: }", inTypes},
		{"switch x.(type) { case int: @fallthrough; y++; default: }", inTypes},
		{"switch x.(type) { case int: @fallthrough; y++ }", inTypes},
		{"switch x.(type) { case int: @fallthrough;;; default: }", inTypes},
		{"switch x.(type) { case int: default: @fallthrough;; }", inTypes},
		{"switch x.(type) { case int: _: @fallthrough; default: }", inTypes},
		{"switch x.(type) { case int: default: _: _: @fallthrough;; }", inTypes},
		// in a block or an if of its clause
		{"switch x.(type) { case int: { @fallthrough }; default: }", inTypes},
		{"switch x.(type) { case int: { _: { @fallthrough } } }", inTypes},
		{"switch x.(type) { case int: if a { @fallthrough }; default: }", inTypes},
		{"switch x.(type) { case int: if a {} else if b {} else { @fallthrough } }", inTypes},
	})
}

// Which message a fallthrough has hangs on the innermost loop, switch or select around it.
func TestFallthroughInInnermost(t *testing.T) {
	tryAll(t, Misplaced, []findingCase{
		// inside a type switch
		{"switch x.(type) { case int: switch { case a: fallthrough; case b: }; default: }", ""},
		{"switch x.(type) { case int: switch { case a: @fallthrough }; default: }", finalCase},
		{"switch x.(type) { case int: switch { case a: @fallthrough; y++; case b: } }", noFallthrough},
		{"switch x.(type) { case int: switch { case a: { @fallthrough }; case b: } }", noFallthrough},
		{"switch x.(type) { case int: select { case <-c: @fallthrough; default: }; default: }", noFallthrough},
		{"switch x.(type) { case int: for { @fallthrough }; default: }", noFallthrough},
		{"switch x.(type) { case int: for range y { if a { @fallthrough } } }", noFallthrough},
		{"switch x.(type) { case int: func() { @fallthrough }(); default: }", noFallthrough},
		{"switch x.(type) { case int: switch y.(type) { case int: @fallthrough } }", inTypes},
		// a type switch inside
		{"switch { case a: switch x.(type) { case int: @fallthrough; default: }; fallthrough; case b: }", inTypes},
		{"select { default: switch x.(type) { case int: @fallthrough } }", inTypes},
		{"for { switch x.(type) { case int: @fallthrough; default: } }", inTypes},
		{"func() { switch x.(type) { case int: @fallthrough; default: } }()", inTypes},
		// after the inner one
		{"switch x.(type) { case int: switch { case a: }; @fallthrough; default: }", inTypes},
		{"switch x.(type) { case int: for {}; select {}; @fallthrough }", inTypes},
		{"switch { case a: switch x.(type) { case int: }; fallthrough; case b: }", ""},
		{"switch { case a: switch x.(type) { case int: }; @fallthrough }", finalCase},
		{"switch x.(type) { case int: }; @fallthrough", noFallthrough},
	})
}

// All of them are told, and not only the first.
func TestAllMisplaced(t *testing.T) {
	tryAll(t, Misplaced, []findingCase{
		{"@break; @continue; @fallthrough", noBreak + "\n" + noContinue + "\n" + noFallthrough},
		{"@break; @break; for { break }; @break; { @break }", noBreak + "\n" + noBreak + "\n" + noBreak + "\n" + noBreak},
		{"switch { case a: @fallthrough; @fallthrough; @fallthrough }", noFallthrough + "\n" + noFallthrough + "\n" + finalCase},
		{"switch { case a: @fallthrough; fallthrough; case b: }", noFallthrough},
		{"switch { case a: @fallthrough; @continue; case b: @fallthrough }", noFallthrough + "\n" + noContinue + "\n" + finalCase},
		{"@break; switch { case a: fallthrough; case b: @continue; fallthrough; case c: @fallthrough }; @fallthrough",
			noBreak + "\n" + noContinue + "\n" + finalCase + "\n" + noFallthrough},
		{"switch x.(type) { case int: @fallthrough; case string: { @fallthrough }; @fallthrough; @continue; default: break; @fallthrough }",
			inTypes + "\n" + inTypes + "\n" + inTypes + "\n" + noContinue + "\n" + inTypes},
		{"switch x.(type) { case int: @fallthrough; switch { case a: fallthrough; case b: @fallthrough }; @fallthrough }; @fallthrough",
			inTypes + "\n" + finalCase + "\n" + inTypes + "\n" + noFallthrough},
		{"@continue; func() { @continue; for { continue }; @break }(); @continue",
			noContinue + "\n" + noContinue + "\n" + noBreak + "\n" + noContinue},
	})
}

// The rows are those of the branches, ascending, and the rows of the body stay as they are.
func TestMisplacedRows(t *testing.T) {
	b := marked("break; for { continue }; if a { continue }; fallthrough").Bodies[0]
	wanted := []int{1, 7, 8}
	if len(b.Misplaced) != 3 || b.Marks.Misplaced != wanted[0] {
		t.Fatalf("%d, the first %d", b.Misplaced, b.Marks.Misplaced)
	}
	for i, row := range b.Misplaced {
		if row != wanted[i] || b.Rows[row].Kind != 11 || b.Rows[row].Detail != [...]int{0, 1, 3}[i] {
			t.Errorf("row %d: %v", row, b.Rows[row])
		}
	}
}

// As many as there can be.
func TestManyMisplaced(t *testing.T) {
	text := ""
	for i := 1; i < 2000; i++ {
		text += "@break\n"
	}
	plain, places := unmarked(text)
	r := marked(plain)
	if len(r.Findings) != 1999 || r.Counts().Misplaced != 1999 {
		t.Fatalf("%d findings", len(r.Findings))
	}
	for i, f := range r.Findings {
		if f.Position != places[i] || f.Message != noBreak {
			t.Fatalf("%v, not at %d", f, places[i])
		}
	}
}
