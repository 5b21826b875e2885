package corpus

import (
	"sort"

	"zesthull/internal/script"
)

// compareSyntaxErrors requires the errors to be go/parser's own: none where it has none; else its first one, and no other than
// its own. After the first error the front end parses each declaration by itself. So some that follow from the first are not
// told, and some are told that go/parser has for the declaration alone: these are the accepted ones.
func (s *source) compareSyntaxErrors() {
	own := s.ownErrors()
	if len(own) == 0 || len(s.result.Errors) == 0 {
		if len(own) != len(s.result.Errors) {
			s.differs("syntax errors %v, and go/parser has %v", s.result.Errors, own)
		}
		return
	}
	if s.result.Errors[0] != own[0] {
		s.differs("first error %v, and go/parser has %v", s.result.Errors[0], own[0])
	}
	left := map[script.SyntaxError]int{}
	for _, e := range own {
		left[e]++
	}
	for _, e := range s.result.Errors {
		if left[e]--; left[e] < 0 {
			line, column := s.result.Place(e.Position)
			s.differsAt(line, column, "%s", e.Message)
		}
	}
}

// ownErrors are go/parser's, in the order of their places in the text, whatever line comments say.
func (s *source) ownErrors() (list []script.SyntaxError) {
	for _, e := range s.tree.errors {
		list = append(list, script.SyntaxError{Position: e.Pos.Offset + 1, Message: e.Msg})
	}
	sort.SliceStable(list, func(i, j int) bool { return list[i].Position < list[j].Position })
	return list
}
