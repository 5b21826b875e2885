package walk

import (
	"errors"
	"fmt"
	"strings"
	"testing"

	"zesthull/internal/calls"
	"zesthull/internal/mark"
	"zesthull/internal/rows"
	"zesthull/internal/script"
)

// statements has the rows of a list of statements.
func statements(text string) rows.Body {
	return mark.Script(script.ReadStatements("", []byte(text))).Bodies[0].Body
}

func placeWords(w *Walk, p calls.Place) string {
	if row, ok := p.Row(); ok {
		return RowWords(w.Body, row)
	}
	return [...]string{"stopped", "brace"}[p]
}

// trace is a walk on one line: each state in words, with the choice taken there.
func trace(w *Walk) string {
	var list []string
	for n, state := range w.States {
		words := placeWords(w, state.Place)
		if c, ok := w.Taken(n); ok {
			words += fmt.Sprintf(" %d %s", c.Number, c.Word)
		}
		list = append(list, words)
	}
	return strings.Join(list, "; ")
}

// A walkCase is a list of statements, the choices, and the trace and the end of the walk.
type walkCase struct {
	text    string
	choices []uint32
	limit   uint
	trace   string
	end     End
}

func (c walkCase) try(t *testing.T) {
	t.Helper()
	w, err := By(statements(c.text), c.choices, c.limit)
	if err != nil {
		t.Errorf("%s by %d: %v", c.text, c.choices, err)
	} else if got := trace(w); got != c.trace || w.End != c.end {
		t.Errorf("%s by %d, limit %d:\n    %s, end %d\nnot %s, end %d", c.text, c.choices, c.limit, got, w.End, c.trace, c.end)
	}
}

func tryAll(t *testing.T, cases []walkCase) {
	t.Helper()
	for _, c := range cases {
		c.try(t)
	}
}

func by(choices ...uint32) []uint32 { return choices }

func TestStraight(t *testing.T) {
	tryAll(t, []walkCase{
		{"", nil, 9, "block; brace", Brace},
		{"return; x()", nil, 9, "block; return; stopped", Stopped},
		{"x(); y++; a = 1; b := 2; var c int; const d = 1; go f(); defer f(); ch <- 1; ; {}; panic(1)", nil, 99,
			"block; expression; ++ or --; assignment; :=; var; declaration; go; defer; send; empty statement; block; panic; stopped", Stopped},
		{"goto L; L: return", nil, 9, "block; goto L; label L; return; stopped", Stopped},
		{"L: x(); goto L", nil, 5, "block; label L; expression; goto L; label L; expression", Limit},
		{"select {}", by(5), 9, "block; select; stopped", Stopped},
		{"for { break }", by(5), 9, "block; for; block; break; brace", Brace},
	})
}

func TestForks(t *testing.T) {
	tryAll(t, []walkCase{
		{"if c { x() }", by(1), 9, "block; if 1 body; block; expression; brace", Brace},
		{"if c { x() }", by(0), 9, "block; if 0 on; brace", Brace},
		{"if c { x() } else { y++ }", by(1), 9, "block; if 1 body; block; expression; brace", Brace},
		{"if c { x() } else { y++ }", by(0), 9, "block; if 0 else; block; ++ or --; brace", Brace},
		{"if a {} else if b { return }", by(0, 1), 9, "block; if 0 else; if 1 body; block; return; stopped", Stopped},
		{"for c { x() }", by(1, 0), 9, "block; for 1 body; block; expression; for 0 on; brace", Brace},
		{"for range a { continue }", by(1, 0), 9, "block; range 1 body; block; continue; range 0 on; brace", Brace},
		{"L: for a { for range b { continue L } }", by(1, 1, 0), 99,
			"block; label L; for 1 body; block; range 1 body; block; continue L; for 0 on; brace", Brace},
		{"L: for a { for range b { break L } }", by(1, 1, 0), 99,
			"block; label L; for 1 body; block; range 1 body; block; break L; brace", Brace},
	})
}

func TestClauses(t *testing.T) {
	const three = "switch { case a: x(); fallthrough; case b: y++; default: return }"
	const selecting = "select { case <-a: x(); case b <- 1: y++; default: return }"
	tryAll(t, []walkCase{
		{three, by(0), 9, "block; switch 0 case; case; expression; fallthrough; case; ++ or --; brace", Brace},
		{three, by(1), 9, "block; switch 1 case; case; ++ or --; brace", Brace},
		{three, by(2), 9, "block; switch 2 default; default; return; stopped", Stopped},
		{"switch { case a: }", by(0), 9, "block; switch 0 case; case; brace", Brace},
		{"switch { case a: }", by(1), 9, "block; switch 1 on; brace", Brace},
		{"switch {}", by(0), 9, "block; switch 0 on; brace", Brace},
		{"for { switch { case a: } }", by(1), 5, "block; for; block; switch 1 on; for; block", Limit},
		{"switch x.(type) { case int: return; default: }", by(1), 9, "block; type switch 1 default; default; brace", Brace},
		{"switch x.(type) { case int: return }", by(1), 9, "block; type switch 1 on; brace", Brace},
		{selecting, by(0), 9, "block; select 0 case; case; expression; brace", Brace},
		{selecting, by(1), 9, "block; select 1 case; case; ++ or --; brace", Brace},
		{selecting, by(2), 9, "block; select 2 default; default; return; stopped", Stopped},
		// a switch in a clause, whose other clause comes next in the text
		{"switch { case a: switch { case b: }; case c: return }; x()", by(0, 1), 9,
			"block; switch 0 case; case; switch 1 on; expression; brace", Brace},
	})
}

// The limit is looked at first; a stop or the brace reached with the last step is told as such.
func TestLimits(t *testing.T) {
	tryAll(t, []walkCase{
		{"return", nil, 0, "block", Limit},
		{"return", nil, 1, "block; return", Limit},
		{"return", nil, 2, "block; return; stopped", Stopped},
		{"x()", nil, 1, "block; expression", Limit},
		{"x()", nil, 2, "block; expression; brace", Brace},
		{"if c {}", nil, 1, "block; if", Limit},
		{"if c {}", nil, 2, "block; if", NoChoice},
		{"if c {}", by(7), 1, "block; if", Limit},
		{"if c {}", by(7), 2, "block; if", OutOfRange},
		{"for c {}", by(1, 7), 3, "block; for 1 body; block; for", Limit},
		{"for c {}", by(1, 7), 4, "block; for 1 body; block; for", OutOfRange},
	})
}

// The choices open where there is none left, and the same where the next is the first that isn't open.
func TestOpen(t *testing.T) {
	cases := []struct {
		text string
		open []string
	}{
		{"if c {}", []string{"on to brace", "body to block"}},
		{"if c {} else { return }; x()", []string{"else to block", "body to block"}},
		{"if c {} else if d {}", []string{"else to if", "body to block"}},
		{"for c {}; return", []string{"on to return", "body to block"}},
		{"for range c {}", []string{"on to brace", "body to block"}},
		{"switch {}; x()", []string{"on to expression"}},
		{"switch { default: }", []string{"default to default"}},
		{"switch { case a: case b: }", []string{"case to case", "case to case", "on to brace"}},
		{"switch { default: case b: }", []string{"default to default", "case to case"}},
		{"for { switch x.(type) { case a: } }", []string{"case to case", "on to for"}},
		{"select { case <-a: }", []string{"case to case"}},
		{"select { case <-a: default: }", []string{"case to case", "default to default"}},
	}
	for _, c := range cases {
		checkOpen(t, c.text, nil, NoChoice, c.open)
		checkOpen(t, c.text, by(uint32(len(c.open))), OutOfRange, c.open)
	}
}

func checkOpen(t *testing.T, text string, choices []uint32, end End, wanted []string) {
	t.Helper()
	w, err := By(statements(text), choices, 9)
	if err != nil || w.End != end {
		t.Errorf("%s by %d: %v %v", text, choices, w, err)
		return
	}
	var open []string
	for i, c := range w.Open() {
		if c.Number != i {
			t.Errorf("%s: choice %d at %d", text, c.Number, i)
		}
		open = append(open, c.Word+" to "+placeWords(w, c.To))
	}
	if strings.Join(open, ", ") != strings.Join(wanted, ", ") {
		t.Errorf("%s by %d: %q, not %q", text, choices, open, wanted)
	}
}

// Open counts from the choices used, and changes none of those given.
func TestOpenLater(t *testing.T) {
	choices := by(1, 0, 2, 1)
	w, err := By(statements("for a { if b { x() } }"), choices, 99)
	if err != nil || w.End != OutOfRange || w.Last() != (calls.Walked{Place: calls.AtRow(1), Steps: 4, Used: 2}) {
		t.Fatalf("%+v %v", w, err)
	}
	if open := w.Open(); len(open) != 2 || fmt.Sprint(choices) != "[1 0 2 1]" {
		t.Errorf("%v, %d", open, choices)
	}
}

func TestNoWalk(t *testing.T) {
	for _, text := range []string{"break", "L: return", "goto M", "for { continue L }",
		"switch x.(type) { case int: fallthrough; default: }"} {
		_, err := By(statements(text), by(7), 9)
		var refusal *calls.Refusal
		if !errors.As(err, &refusal) || *refusal != (calls.Refusal{Number: calls.Faulty}) {
			t.Errorf("%s: %v", text, err)
		}
	}
}

func TestNoWalkOfMultipleDefaults(t *testing.T) {
	_, err := By(statements("break; switch { default: default: }"), by(7), 0)
	var refusal *calls.Refusal
	if !errors.As(err, &refusal) || *refusal != (calls.Refusal{Number: calls.MultipleDefaults, Index: 5}) {
		t.Error(err)
	}
}
