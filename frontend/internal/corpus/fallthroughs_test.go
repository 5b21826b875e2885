package corpus

import (
	"go/ast"
	"go/types"
	"regexp"
	"sort"
	"sync/atomic"
	"testing"

	"zesthull/internal/mark"
)

// TestFallthroughsPutIn puts fallthroughs into Go's source, since it has few misplaced ones of its own. It compares the misplaced
// branches with the errors of go/types, by line, column and message, but for refused bodies.
func TestFallthroughsPutIn(t *testing.T) {
	var found differences
	var files, all, inTypeSwitches, errors atomic.Int64
	eachChanged(t, func(before *tree, text []byte) []byte {
		ends, ofTypeSwitches := before.someEnds()
		all.Add(int64(len(ends)))
		inTypeSwitches.Add(int64(ofTypeSwitches))
		return putFallthroughs(text, ends)
	}, func(f file, changed *tree) {
		files.Add(1)
		errors.Add(int64(newComparison(f, changed, true, &found).compareAlone(mark.Misplaced, isOfPlacing)))
	})
	found.compare(t, acceptedPutIn)
	t.Logf("%d files, %d fallthroughs put in, %d of them in type switches, %d misplaced branches", files.Load(), all.Load(),
		inTypeSwitches.Load(), errors.Load())
	if inTypeSwitches.Load() < 1000 || errors.Load() < 3000 {
		t.Error("too few fallthroughs were put in")
	}
}

// TestFallthroughWords has where the message is the compiler's and not that of go/types: nested in a clause of a type switch, and
// not last in the last clause of another switch. Neither occurs in Go's source.
func TestFallthroughWords(t *testing.T) {
	needGo(t)
	compareText(t, "var x any; switch x.(type) { case int: { fallthrough } }", `
		text:2:42: cannot fallthrough in type switch, which go/types hasn't
		text:2:42: fallthrough statement out of place, which only go/types has`)
	compareText(t, "switch { case true: fallthrough; return }", `
		text:2:21: fallthrough statement out of place, which go/types hasn't
		text:2:21: cannot fallthrough final case in switch, which only go/types has`)
}

// someEnds are the offsets that 3 divides and at which a clause ends, ascending, and how many of these clauses are of a type
// switch.
func (t *tree) someEnds() (ends []int, ofTypeSwitches int) {
	ast.Inspect(t.file, func(n ast.Node) bool {
		s, _ := n.(ast.Stmt)
		_, isTypeSwitch := s.(*ast.TypeSwitchStmt)
		for _, clause := range clausesOf(s) {
			if at := t.offset(clause.End()); at%3 == 0 {
				ends = append(ends, at)
				if isTypeSwitch {
					ofTypeSwitches++
				}
			}
		}
		return true
	})
	sort.Ints(ends)
	return ends, ofTypeSwitches
}

// putIn has a fallthrough alone, with a label, and with empty statements after it. The first semicolon ends the statement before.
var putIn = [...]string{";fallthrough;", ";_: fallthrough;", ";fallthrough;;;"}

// putFallthroughs is the text with a fallthrough at each of these offsets, or nil where there are none.
func putFallthroughs(text []byte, ends []int) (changed []byte) {
	if len(ends) == 0 {
		return nil
	}
	last := 0
	for _, at := range ends {
		changed = append(append(changed, text[last:at]...), putIn[at/3%len(putIn)]...)
		last = at
	}
	return append(changed, text[last:]...)
}

var placingErrors = regexp.MustCompile(`^(break|continue) not in |fallthrough`)

func isOfPlacing(e types.Error) bool { return placingErrors.MatchString(e.Msg) }
