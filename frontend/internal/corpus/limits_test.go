package corpus

import (
	"zesthull/internal/calls"
	"zesthull/internal/mark"
)

// The limits of document 01.
const (
	mostRows  = 2000
	mostNames = 500
	mostBytes = 8000
	mostDepth = 100
)

// compareRefusal requires a body to have that refusal, and a limit that it is over to be told.
func (s *source) compareRefusal(b *mark.Body, expected calls.Refusal) {
	got := calls.Refusal{}
	if b.Refusal != nil {
		got = *b.Refusal
	}
	if got != expected {
		s.differs("func %s: refused %+v, and by its statements %+v", b.Function.Name, got, expected)
	}
	told := false
	for _, f := range s.result.Findings {
		told = told || f.Kind == mark.Refused && f.Position == s.result.Position(b.Function.At)
	}
	if told != (expected.Number > 0 && expected.Number != calls.MultipleDefaults) {
		s.differs("func %s: a limit is told: %v, and by its statements it has %+v", b.Function.Name, told, expected)
	}
}

// refusalOf is the refusal of a body by its statements; number 0 is none.
func refusalOf(list []statement) calls.Refusal {
	names, size := map[string]bool{}, 0
	for _, s := range list {
		if name := nameOf(s); name != "" && !names[name] {
			names[name] = true
			size += len(name)
		}
	}
	switch {
	case len(list) > mostRows:
		return calls.Refusal{Number: 1}
	case len(names) > mostNames || size > mostBytes:
		return calls.Refusal{Number: 2}
	}
	second := secondDefaults(list)
	for i, s := range list {
		if second[s.Stmt] != nil {
			return calls.Refusal{Number: calls.MultipleDefaults, Index: i}
		}
	}
	for i, s := range list {
		if s.depth > mostDepth {
			return calls.Refusal{Number: 6, Index: i}
		}
	}
	return calls.Refusal{}
}
