package mark

import (
	"fmt"

	"zesthull/internal/calls"
	"zesthull/internal/rows"
)

// Kind is what a finding is about.
type Kind int

const (
	// Syntax: go/parser's own error.
	Syntax Kind = iota
	// Label: a row of the sheet.
	Label
	// Misplaced: a break, continue or fallthrough where none may stand.
	Misplaced
	// MissingReturn: a function with results whose verdict is no.
	MissingReturn
	// MultipleDefaults: a second default of a switch, type switch or select.
	MultipleDefaults
	// Refused: a body that is over a limit.
	Refused
)

// A Finding is something to tell at a place.
type Finding struct {
	Kind     Kind
	Position int
	Message  string
	// Other is a second place that belongs to the finding, or nil.
	Other *Finding
}

func (r *Result) find(kind Kind, position int, format string, values ...any) {
	r.Findings = append(r.Findings, Finding{Kind: kind, Position: position, Message: fmt.Sprintf(format, values...)})
}

// label tells the sheet: a 2 belongs to the 1 before it.
func (r *Result) label(b *Body) {
	for _, f := range b.Marks.Sheet {
		message := r.faultMessage(b, f)
		if last := len(r.Findings) - 1; f.Code == otherDeclaration && last >= 0 {
			r.Findings[last].Other = &Finding{Kind: Label, Position: int(f.Position), Message: message}
			continue
		}
		r.find(Label, int(f.Position), "%s", message)
	}
}

const otherDeclaration = 2

// faultMessage says a fault in the words of Go's tools.
func (r *Result) faultMessage(b *Body, f calls.Fault) string {
	label := b.Names[f.Name-1]
	switch f.Code {
	case 1:
		return fmt.Sprintf("label %s already defined", label)
	case otherDeclaration:
		return fmt.Sprintf("other declaration of %s", label)
	case 3:
		line, _ := r.Place(int(f.Other))
		return fmt.Sprintf("goto %s jumps over variable declaration at line %d", label, line)
	case 4:
		return fmt.Sprintf("invalid break label %s", label)
	case 5:
		return fmt.Sprintf("invalid continue label %s", label)
	case 6:
		return fmt.Sprintf("fallthrough with a label, %s", label)
	case 7:
		return fmt.Sprintf("goto %s jumps into block", label)
	case 8:
		return fmt.Sprintf("label %s not defined", label)
	}
	return fmt.Sprintf("label %s defined and not used", label)
}

func (r *Result) misplaced(b *Body) {
	for _, row := range b.Misplaced {
		r.find(Misplaced, b.Rows[row].Position, "%s", misplacedMessage(b.Rows, row))
	}
}

func misplacedMessage(list []rows.Row, row int) string {
	switch list[row].Detail {
	case rows.Break:
		return "break is not in a loop, switch, or select"
	case rows.Continue:
		return "continue is not in a loop"
	}
	return fallthroughMessage(list, row)
}

// fallthroughMessage tells the cases apart as Go's compiler does.
func fallthroughMessage(list []rows.Row, row int) string {
	switch {
	case inTypeSwitch(list, row):
		return "cannot fallthrough in type switch"
	case endsSwitch(list, row):
		return "cannot fallthrough final case in switch"
	}
	return "fallthrough statement out of place"
}

// inTypeSwitch tells whether the innermost loop, switch or select around the row is a type switch.
func inTypeSwitch(list []rows.Row, row int) bool {
	for above := parent(list, row); above >= 0; above = parent(list, above) {
		switch list[above].Kind {
		case rows.Switch, rows.Select, rows.For, rows.Range:
			return false
		case rows.TypeSwitch:
			return true
		}
	}
	return false
}

// endsSwitch tells whether the row is the last item but for Empties, its labels included, of the last Case of its switch.
func endsSwitch(list []rows.Row, row int) bool {
	item := row
	for item > 0 && list[item-1].Kind == rows.Labeled {
		item--
	}
	c := parent(list, item)
	if c < 0 || list[c].Kind != rows.Case {
		return false
	}
	end := c + list[c].Size
	for next := row + 1; next < end; next++ {
		if list[next].Kind != rows.Empty {
			return false
		}
	}
	block := parent(list, c)
	return block+list[block].Size == end
}

// parent is the row that the row is a child of, or -1.
func parent(list []rows.Row, row int) int {
	above := row - 1
	for above >= 0 && above+list[above].Size <= row {
		above--
	}
	return above
}

func (r *Result) missingReturn(b *Body) {
	if b.Function.HasResults && !b.Marks.Terminating {
		r.find(MissingReturn, r.Position(b.Function.Body.Rbrace), "missing return")
	}
}

// multipleDefaults tells each default but the first of its switch or select, and where that one is.
func (r *Result) multipleDefaults(b *Body) {
	for _, clause := range b.SecondDefaults {
		line, column := r.Place(b.Rows[firstDefault(b.Rows, clause)].Position)
		r.find(MultipleDefaults, b.Rows[clause].Position, "multiple defaults (first at %s:%d:%d)", r.Name, line, column)
	}
}

// firstDefault is the first default among the clauses that this default stands in one Block with.
func firstDefault(list []rows.Row, clause int) int {
	first := parent(list, clause) + 1
	for list[first].Detail == 0 {
		first += list[first].Size
	}
	return first
}

func (r *Result) refused(b *Body) {
	r.find(Refused, r.Position(b.Function.At), "%s: not marked: %s", b.Title(), refusalMessage(b))
}

// refusalMessage says a refusal in words. Rows made from Go's syntax tree get 1, 2, 6 and 10 alone, and 10 is told as
// multiple defaults.
func refusalMessage(b *Body) string {
	switch b.Refusal.Number {
	case 1:
		return fmt.Sprintf("%d statements, blocks and clauses, and 2,000 are the most", len(b.Rows))
	case 2:
		return fmt.Sprintf("%d labels of %d bytes in all, and 500 of 8,000 bytes are the most", len(b.Names), len(b.Words().Bytes))
	case 6:
		return "statements nested over 100 deep"
	}
	return fmt.Sprintf("refused %d %d, which is a fault of this program", b.Refusal.Number, b.Refusal.Index)
}

// Title names the function, as in func f.
func (b *Body) Title() string {
	if b.Function.Statements {
		return "statements"
	}
	return "func " + b.Function.Name
}
