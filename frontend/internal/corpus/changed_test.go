package corpus

import (
	"go/token"
	"go/types"
	"testing"

	"zesthull/internal/calls"
	"zesthull/internal/mark"
)

// eachChanged changes the text of each file that has no syntax error, and does something with the file and its new tree. The
// change gives no text for a file that is left out.
func eachChanged(t *testing.T, change func(*tree, []byte) []byte, do func(file, *tree)) {
	if testing.Short() {
		t.Skip("takes too long for -short")
	}
	each(t, allFiles(t), func(f file) {
		before := parse(token.NewFileSet(), f)
		if len(before.errors) > 0 {
			return
		}
		if f.text = change(before, f.text); f.text == nil {
			return
		}
		after := parse(token.NewFileSet(), f)
		if len(after.errors) > 0 {
			t.Errorf("%s: the change makes a syntax error: %v", f.name, after.errors)
		}
		do(f, after)
	})
}

func (t *tree) offset(p token.Pos) int { return t.fset.PositionFor(p, false).Offset }

// compareAlone compares the findings of one kind with the errors of go/types that are of this kind, and counts these, but for
// bodies over a limit.
func (c *comparison) compareAlone(kind mark.Kind, is func(types.Error) bool) int {
	ours, theirs := faults{}, faults{}
	for _, f := range c.result.Findings {
		if f.Kind == kind {
			c.addFinding(ours, f)
		}
	}
	for _, e := range c.errors {
		if n := c.refusalAt(e.Pos); is(e) && (n == 0 || n == calls.MultipleDefaults) {
			c.addError(theirs, e)
		}
	}
	c.bothWays(ours, theirs)
	return len(theirs)
}
