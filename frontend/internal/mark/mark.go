// Package mark marks the bodies of a script by the proved calls, and says what was found at which place.
package mark

import (
	"errors"
	"sort"

	"zesthull/internal/calls"
	"zesthull/internal/rows"
	"zesthull/internal/script"
)

// A Body is a function body with its marks.
type Body struct {
	Function script.Function
	rows.Body
	// Marks are there where Refusal is nil and the function has no syntax error.
	Marks calls.Marks
	// Misplaced are all rows badly placed, ascending.
	Misplaced []int
	// SecondDefaults are all clauses with a default before them in the same switch or select, ascending. Refusal has the first.
	SecondDefaults []int
	Refusal        *calls.Refusal
}

// Marked tells whether the body has marks.
func (b *Body) Marked() bool { return b.Refusal == nil && !b.Function.Broken }

// A Result is a script with its bodies' marks and all findings, in the order of their places.
type Result struct {
	*script.Script
	Bodies   []Body
	Findings []Finding
}

// Script marks every body of the script.
func Script(s *script.Script) *Result {
	r := &Result{Script: s}
	for _, e := range s.Errors {
		r.find(Syntax, e.Position, "%s", e.Message)
	}
	for _, f := range s.Functions {
		b := body(s, f)
		r.Bodies = append(r.Bodies, b)
		r.tell(&b)
	}
	r.sort()
	return r
}

// tell adds the findings of a body. One that is refused has no others.
func (r *Result) tell(b *Body) {
	switch {
	case len(b.SecondDefaults) > 0:
		r.multipleDefaults(b)
	case b.Refusal != nil:
		r.refused(b)
	case b.Marked():
		r.label(b)
		r.misplaced(b)
		r.missingReturn(b)
	}
}

func (r *Result) sort() {
	sort.SliceStable(r.Findings, func(i, j int) bool { return r.Findings[i].Position < r.Findings[j].Position })
}

// Faults are those of one body that stand in the way of a walk, in the order of their places: its multiple defaults, or its
// label faults and misplaced branches.
func (r *Result) Faults(b *Body) []Finding {
	one := Result{Script: r.Script}
	one.multipleDefaults(b)
	one.label(b)
	one.misplaced(b)
	one.sort()
	return one.Findings
}

func body(s *script.Script, f script.Function) Body {
	b := Body{Function: f}
	if f.Broken {
		return b
	}
	b.Body = rows.Of(f.Body, s.IsPanic, s.Position)
	words := b.Words()
	marks, err := calls.Mark(words)
	if errors.As(err, &b.Refusal) {
		b.SecondDefaults = allSecondDefaults(words, b.Refusal)
		return b
	}
	b.Marks = marks
	b.Misplaced = allMisplaced(words, marks.Misplaced)
	return b
}

// allMisplaced are the rows badly placed, from the first on. The placing call tells the first; with that row made a plain
// one it tells the next. Whether a row is well placed hangs on the rows around it and after it, and never on a plain row
// before it, so what was told is taken from no other row.
func allMisplaced(words calls.Body, first int) (misplaced []int) {
	for first >= 0 {
		misplaced = append(misplaced, first)
		words.Rows[first*5] = rows.Expr
		words.Rows[first*5+1] = 0
		next, err := calls.FirstMisplaced(words)
		if err != nil {
			return misplaced
		}
		first = next
	}
	return misplaced
}

// allSecondDefaults are the clauses that are a second default. The refusal tells the first; with that clause made no default
// another refusal tells the next. The first default of a switch is never told, so the others stay second defaults.
func allSecondDefaults(words calls.Body, refusal *calls.Refusal) (clauses []int) {
	for refusal != nil && refusal.Number == calls.MultipleDefaults {
		clauses = append(clauses, refusal.Index)
		words.Rows[refusal.Index*5+1] = 0
		refusal = refusalOf(words)
	}
	return clauses
}

// refusalOf is the refusal that every call has for the words, or nil.
func refusalOf(words calls.Body) (refusal *calls.Refusal) {
	_, err := calls.FirstMisplaced(words)
	errors.As(err, &refusal)
	return refusal
}

// Counts are the figures of a script for its log line.
type Counts struct {
	Bodies, Faults, Misplaced, Refused int
}

// Counts adds up the findings: faults are label faults, missing returns and multiple defaults, refused the bodies without marks.
func (r *Result) Counts() Counts {
	c := Counts{Bodies: len(r.Bodies)}
	for _, f := range r.Findings {
		switch f.Kind {
		case Label, MissingReturn, MultipleDefaults:
			c.Faults++
		case Misplaced:
			c.Misplaced++
		}
	}
	for i := range r.Bodies {
		if !r.Bodies[i].Marked() {
			c.Refused++
		}
	}
	return c
}
