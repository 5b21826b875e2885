package corpus

import (
	"fmt"
	"go/ast"
	"go/token"
	"go/types"
	"reflect"
	"regexp"
	"runtime"
	"strings"
	"testing"

	"zesthull/internal/mark"
)

// secondDefaults are the defaults of a body that have another before them in the same switch or select, each with the first.
func secondDefaults(list []statement) map[ast.Stmt]ast.Stmt {
	second := map[ast.Stmt]ast.Stmt{}
	for _, s := range list {
		var first ast.Stmt
		for _, clause := range clausesOf(s.Stmt) {
			switch {
			case !isDefault(clause):
			case first == nil:
				first = clause
			default:
				second[clause] = first
			}
		}
	}
	return second
}

func clausesOf(s ast.Stmt) []ast.Stmt {
	switch s := s.(type) {
	case *ast.SwitchStmt:
		return s.Body.List
	case *ast.TypeSwitchStmt:
		return s.Body.List
	case *ast.SelectStmt:
		return s.Body.List
	}
	return nil
}

func isDefault(s ast.Stmt) bool {
	if c, ok := s.(*ast.CommClause); ok {
		return c.Comm == nil
	}
	return len(s.(*ast.CaseClause).List) == 0
}

// addDefaults adds what is to be told of a body's multiple defaults.
func (s *source) addDefaults(expected faults, list []statement) {
	for clause, first := range secondDefaults(list) {
		line, column := s.tree.place(clause.Pos())
		firstLine, firstColumn := s.tree.place(first.Pos())
		expected[fault{line, column, fmt.Sprintf("multiple defaults (first at %s:%d:%d)", s.name, firstLine, firstColumn)}] = true
	}
}

// compareDefaults requires the multiple defaults that are told to be these.
func (s *source) compareDefaults(expected faults) {
	told := faults{}
	for _, f := range s.result.Findings {
		if f.Kind == mark.MultipleDefaults {
			line, column := s.result.Place(f.Position)
			told[fault{line, column, f.Message}] = true
		}
	}
	if !reflect.DeepEqual(told, expected) {
		s.differs("multiple defaults %v, and in the tree %v", told, expected)
	}
}

// askedDefault is how a test of go/types asks for an error at this default.
var askedDefault = regexp.MustCompile(`default /\* ERROR "multiple defaults" \*/`)

// compareAskedDefaults requires the multiple defaults that are told to be those that the file asks for, but for functions with a
// syntax error.
func (s *source) compareAskedDefaults() {
	var told, expected []int
	for _, f := range s.result.Findings {
		if f.Kind == mark.MultipleDefaults {
			told = append(told, f.Position)
		}
	}
	for _, at := range askedDefault.FindAllIndex(s.text, -1) {
		if position := at[0] + 1; !s.isBroken(position) {
			expected = append(expected, position)
		}
	}
	if fmt.Sprint(told) != fmt.Sprint(expected) {
		s.differs("multiple defaults at %d, and asked for at %d", told, expected)
	}
}

// isBroken tells whether a position is in a function with a syntax error.
func (s *source) isBroken(position int) bool {
	for i := range s.result.Bodies {
		f := &s.result.Bodies[i].Function
		if f.Broken && s.result.Position(f.Body.Lbrace) < position && position < s.result.Position(f.Body.Rbrace) {
			return true
		}
	}
	return false
}

// refusalAt is the number of the refusal of the innermost body around a place; 0 is none.
func (c *comparison) refusalAt(p token.Pos) (number uint32) {
	for i, f := range c.tree.functions {
		if f.body.Pos() <= p && p < f.body.End() {
			number = 0
			if r := c.result.Bodies[i].Refusal; r != nil {
				number = r.Number
			}
		}
	}
	return number
}

func isOfDefaults(e types.Error) bool { return strings.HasPrefix(e.Msg, "multiple defaults ") }

// belowRoot has the place in a message of go/types as we tell it: the name of the file is its path below GOROOT.
func belowRoot(message string) string {
	return strings.Replace(message, runtime.GOROOT()+"/", "", 1)
}

// TestMultipleDefaults has those that Go's source has none of: nested ones, and other errors beside them.
func TestMultipleDefaults(t *testing.T) {
	needGo(t)
	compareText(t, "switch { default: switch { default: default: }; default: }", "")
	compareText(t, "select { default: default: default: }; var x any; switch x.(type) { default: case int: default: }", "")
	compareText(t, "L: for {}; goto M; break; switch { default: default: continue }", "")
	compareText(t, "switch { default: default: func() { L: goto M }() }; break", "")
	compareText(t, "L: func() { switch { default: default: goto M } }()", "")
}
