package corpus

import (
	"fmt"
	"go/token"
	"sync"
	"testing"

	"zesthull/internal/calls"
	"zesthull/internal/mark"
	"zesthull/internal/script"
)

// TestSource reads all of Go's source and tests. It requires of each file:
//   - the functions, their rows, names and positions are those of the syntax tree, which is read here in another way;
//   - a body is refused exactly where it is over a limit or has multiple defaults, with the number and the index of documents 01
//     and 02, and all its multiple defaults are told;
//   - the syntax errors are go/parser's own.
//
// In a file with syntax errors the front end parses each declaration by itself. There the rows are held to the text alone. No
// body may be over a limit, and multiple defaults are told where the file asks for them.
func TestSource(t *testing.T) {
	var found differences
	var all counts
	each(t, allFiles(t), func(f file) {
		s := newSource(f, parse(token.NewFileSet(), f), &found)
		s.compareSyntaxErrors()
		if len(s.tree.errors) == 0 {
			s.compareFunctions()
		} else {
			s.isWithinLimits()
			s.compareAskedDefaults()
		}
		s.compareTexts()
		all.add(&s)
	})
	found.compare(t, acceptedSyntaxErrors)
	t.Logf("%+v", all.figures)
	if all.Refused == 0 || all.WithErrors == 0 || all.Label == 0 || all.Misplaced == 0 || all.MissingReturn == 0 || all.MultipleDefaults == 0 {
		t.Error("a kind of finding doesn't occur")
	}
}

// A source is a file with what the front end found in it.
type source struct {
	file
	tree   *tree
	result *mark.Result
	found  *differences
}

func newSource(f file, t *tree, found *differences) source {
	return source{f, t, mark.Script(script.ReadFile(f.name, f.text)), found}
}

func (s *source) differs(format string, values ...any) {
	s.found.add("%s: %s", s.name, fmt.Sprintf(format, values...))
}

func (s *source) differsAt(line, column int, format string, values ...any) {
	s.found.add("%s:%d:%d: %s", s.name, line, column, fmt.Sprintf(format, values...))
}

// compareFunctions holds the bodies of a file without a syntax error to its tree.
func (s *source) compareFunctions() {
	if !s.tree.matches(s.result) {
		s.differs("the bodies are not those of the tree")
		return
	}
	second := faults{}
	for i, f := range s.tree.functions {
		b := &s.result.Bodies[i]
		s.comparePlace(s.result.Position(b.Function.At), f.at)
		if b.Function.HasResults != f.hasResults || b.Function.Broken {
			s.differs("func %s: results %v, broken %v", b.Function.Name, b.Function.HasResults, b.Function.Broken)
		}
		list := statements(f.body)
		s.compareRows(b.Body, list)
		refusal := refusalOf(list)
		s.compareRefusal(b, refusal)
		if refusal.Number == calls.MultipleDefaults {
			s.addDefaults(second, list)
		}
	}
	s.compareDefaults(second)
}

func (s *source) isWithinLimits() {
	for i := range s.result.Bodies {
		if b := &s.result.Bodies[i]; b.Refusal != nil && b.Refusal.Number != calls.MultipleDefaults {
			s.differs("func %s: %v", b.Function.Name, b.Refusal)
		}
	}
}

// figures are what was read and found.
type figures struct {
	Files, WithErrors, Bodies, Broken, Rows, Refused, Label, Misplaced, MissingReturn, MultipleDefaults int
}

type counts struct {
	sync.Mutex
	figures
}

func (c *counts) add(s *source) {
	c.Lock()
	defer c.Unlock()
	c.Files++
	if len(s.tree.errors) > 0 {
		c.WithErrors++
	}
	for i := range s.result.Bodies {
		c.Bodies++
		c.Rows += len(s.result.Bodies[i].Rows)
		if s.result.Bodies[i].Function.Broken {
			c.Broken++
		}
	}
	kinds := map[mark.Kind]*int{mark.Syntax: new(int), mark.Label: &c.Label, mark.Misplaced: &c.Misplaced,
		mark.MissingReturn: &c.MissingReturn, mark.MultipleDefaults: &c.MultipleDefaults, mark.Refused: &c.Refused}
	for _, f := range s.result.Findings {
		*kinds[f.Kind]++
	}
}
