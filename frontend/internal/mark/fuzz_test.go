package mark

import (
	"sort"
	"testing"

	"zesthull/internal/script"
)

// Bodies with two defaults in a switch or select.
var twoDefaults = []string{
	"switch { default: default: }", "switch x.(type) { default: case a: default: default: }", "select { default: default: }; break",
	"switch { default: switch { default: default: }; default: }", "switch { default: func() { select { default: default: } }() }",
}

// Any text is marked without a crash, and what is found hangs together. `go test` tries the texts of the other tests;
// `go test -fuzz FuzzScript` makes more of them.
func FuzzScript(f *testing.F) {
	for _, text := range append(append(terminating, going...), twoDefaults...) {
		f.Add([]byte(text))
		f.Add([]byte("package p\n\nfunc f() int {\n" + text + "\n}\n"))
	}
	f.Fuzz(func(t *testing.T, text []byte) {
		checkResult(t, Script(script.Read("x.go", text)))
	})
}

func checkResult(t *testing.T, r *Result) {
	t.Helper()
	last := 1
	for _, f := range r.Findings {
		if f.Position < last || f.Position > len(r.Text)+1 || f.Message == "" {
			t.Errorf("%q at %d, after a finding at %d", f.Message, f.Position, last)
		}
		last = f.Position
		if line, column := r.Place(f.Position); line < 1 || column < 1 {
			t.Errorf("%q at %d:%d", f.Message, line, column)
		}
	}
	for i := range r.Bodies {
		checkBody(t, &r.Bodies[i])
	}
}

// checkBody: rows of a syntax tree are refused with 1, 2, 6 and 10 alone, and the first row badly placed heads the list.
func checkBody(t *testing.T, b *Body) {
	t.Helper()
	if b.Refusal != nil {
		if n := b.Refusal.Number; n != 1 && n != 2 && n != 6 && n != 10 {
			t.Errorf("%s: %v", b.Function.Name, b.Refusal)
		}
		checkSecondDefaults(t, b)
		return
	}
	if !b.Marked() {
		return
	}
	first := -1
	if len(b.Misplaced) > 0 {
		first = b.Misplaced[0]
	}
	if first != b.Marks.Misplaced || len(b.Marks.Bindings) != len(b.Rows) {
		t.Errorf("%s: misplaced %d, the first %d; %d bindings for %d rows", b.Function.Name, b.Misplaced, b.Marks.Misplaced,
			len(b.Marks.Bindings), len(b.Rows))
	}
}

// checkSecondDefaults: those of a refusal 10 ascend from its row on; another refusal has none.
func checkSecondDefaults(t *testing.T, b *Body) {
	t.Helper()
	list := b.SecondDefaults
	if (b.Refusal.Number == 10) != (len(list) > 0) || len(list) > 0 && list[0] != b.Refusal.Index || !sort.IntsAreSorted(list) {
		t.Errorf("%s: %v, second defaults %d", b.Function.Name, b.Refusal, list)
	}
}
