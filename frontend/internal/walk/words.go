package walk

import (
	"zesthull/internal/calls"
	"zesthull/internal/rows"
)

// kindWords are what a row is by its kind and detail.
var kindWords = [...][]string{
	rows.Bad:        {"bad statement"},
	rows.Decl:       {"declaration", "var"},
	rows.Empty:      {"empty statement"},
	rows.Labeled:    {"label"},
	rows.Expr:       {"expression", "panic"},
	rows.Send:       {"send"},
	rows.IncDec:     {"++ or --"},
	rows.Assign:     {"assignment", ":="},
	rows.Go:         {"go"},
	rows.Defer:      {"defer"},
	rows.Return:     {"return"},
	rows.Branch:     {"break", "continue", "goto", "fallthrough"},
	rows.Block:      {"block"},
	rows.If:         {"if", "if"},
	rows.Case:       {"case", "default"},
	rows.Switch:     {"switch"},
	rows.TypeSwitch: {"type switch"},
	rows.Comm:       {"case", "default"},
	rows.Select:     {"select"},
	rows.For:        {"for", "for"},
	rows.Range:      {"range"},
}

// RowWords say what a row is in a word or two, as in goto L.
func RowWords(b rows.Body, row int) string {
	r := b.Rows[row]
	words := kindWords[r.Kind][r.Detail]
	if r.Name > 0 {
		words += " " + b.Names[r.Name-1]
	}
	return words
}

// choiceWord says what a choice at a fork is: the body, the else, the clause, or to go on after the statement.
func (w *Walk) choiceWord(fork, number int, to calls.Place) string {
	r := w.Rows[fork]
	switch r.Kind {
	case rows.If, rows.For, rows.Range:
		switch {
		case number == 1:
			return "body"
		case r.Kind == rows.If && r.Detail == 1:
			return "else"
		}
		return "on"
	}
	// going on never leads into the statement itself
	if row, ok := to.Row(); ok && fork < row && row < fork+r.Size {
		return RowWords(w.Body, row)
	}
	return "on"
}
