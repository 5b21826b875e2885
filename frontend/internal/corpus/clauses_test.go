package corpus

import (
	"go/ast"
	"go/token"
	"sync/atomic"
	"testing"

	"zesthull/internal/mark"
)

// TestClausesMadeDefaults makes clauses of Go's source defaults, since it has few multiple defaults of its own. It compares those
// told with the errors of go/types, by line, column and message, but for bodies refused for their rows or names.
func TestClausesMadeDefaults(t *testing.T) {
	var found differences
	var files, errors atomic.Int64
	eachChanged(t, (*tree).makeDefaults, func(f file, changed *tree) {
		if changed.hasSecondDefaults() {
			files.Add(1)
			errors.Add(int64(newComparison(f, changed, true, &found).compareAlone(mark.MultipleDefaults, isOfDefaults)))
		}
	})
	found.compare(t, "")
	t.Logf("%d files, %d multiple defaults", files.Load(), errors.Load())
	if errors.Load() < 5000 {
		t.Error("too few defaults were made")
	}
}

// makeDefaults is the text with clauses made defaults: those that begin at an offset that 3 divides.
func (t *tree) makeDefaults(text []byte) (changed []byte) {
	last := 0
	ast.Inspect(t.file, func(n ast.Node) bool {
		word, colon := headOf(n)
		if at := t.offset(word); word.IsValid() && at >= last && at%3 == 0 {
			changed = append(append(changed, text[last:at]...), "default"...)
			last = t.offset(colon)
		}
		return true
	})
	return append(changed, text[last:]...)
}

// headOf is where a clause begins, and its colon.
func headOf(n ast.Node) (word, colon token.Pos) {
	switch c := n.(type) {
	case *ast.CaseClause:
		return c.Case, c.Colon
	case *ast.CommClause:
		return c.Case, c.Colon
	}
	return token.NoPos, token.NoPos
}

func (t *tree) hasSecondDefaults() bool {
	for _, f := range t.functions {
		if len(secondDefaults(statements(f.body))) > 0 {
			return true
		}
	}
	return false
}
