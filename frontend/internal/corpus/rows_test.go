package corpus

import (
	"bytes"
	"fmt"
	"go/ast"
	"go/token"
	"strings"

	"zesthull/internal/rows"
)

// compareRows holds the rows of a body to its statements.
func (s *source) compareRows(b rows.Body, list []statement) {
	for i, row := range b.Rows {
		statement := list[i]
		line, column := s.tree.place(statement.position())
		if kind := rows.Kinds[row.Kind]; kind != kindOf(statement) || row.Size != statement.size {
			s.differsAt(line, column, "%s of size %d, and in the tree %s of size %d", kind, row.Size, kindOf(statement), statement.size)
		}
		if detail, ok := detailOf(statement); ok && row.Detail != detail {
			s.differsAt(line, column, "%s with detail %d, and in the tree %d", kindOf(statement), row.Detail, detail)
		}
		if got, expected := rowName(b, row), nameOf(statement); got != expected {
			s.differsAt(line, column, "%s with the name %q, and in the tree %q", kindOf(statement), got, expected)
		}
		s.comparePlace(row.Position, statement.position())
	}
}

// kindOf is the kind by the name of the statement's type, as in *ast.IfStmt.
func kindOf(s statement) string {
	name := strings.TrimPrefix(fmt.Sprintf("%T", s.Stmt), "*ast.")
	return strings.TrimSuffix(strings.TrimSuffix(name, "Stmt"), "Clause")
}

// detailOf is the detail of kinds whose first word doesn't tell it, but for calls.
func detailOf(s statement) (detail int, ok bool) {
	set := false
	switch s := s.Stmt.(type) {
	case *ast.AssignStmt:
		set = s.Tok == token.DEFINE
	case *ast.IfStmt:
		set = s.Else != nil
	case *ast.ForStmt:
		set = s.Cond != nil
	default:
		return 0, false
	}
	if set {
		detail = 1
	}
	return detail, true
}

func rowName(b rows.Body, row rows.Row) string {
	if row.Name == 0 {
		return ""
	}
	return b.Names[row.Name-1]
}

func nameOf(s statement) string {
	if l := s.label(); l != nil {
		return l.Name
	}
	return ""
}

// comparePlace requires a position to lead back to the line and the column of the tree.
func (s *source) comparePlace(position int, p token.Pos) {
	line, column := s.result.Place(position)
	if treeLine, treeColumn := s.tree.place(p); line != treeLine || column != treeColumn {
		s.differsAt(treeLine, treeColumn, "said to be at %d:%d", line, column)
	}
}

// words has what stands at the position of a row without a name, by kind and detail.
var words = map[int][]string{
	rows.Go: {"go"}, rows.Defer: {"defer"}, rows.Return: {"return"}, rows.Branch: {"break", "continue", "goto", "fallthrough"},
	rows.Block: {"{"}, rows.If: {"if", "if"}, rows.Case: {"case", "default"}, rows.Comm: {"case", "default"},
	rows.Switch: {"switch"}, rows.TypeSwitch: {"switch"}, rows.Select: {"select"}, rows.For: {"for", "for"}, rows.Range: {"for"},
}

// compareTexts holds the rows of each body to the text at their positions, in files with syntax errors too.
func (s *source) compareTexts() {
	for i := range s.result.Bodies {
		b := &s.result.Bodies[i]
		for _, row := range b.Rows {
			if !s.standsThere(b.Body, row) {
				s.differs("func %s: no %s with detail %d stands at %d", b.Function.Name, rows.Kinds[row.Kind], row.Detail, row.Position)
			}
		}
	}
}

func (s *source) standsThere(b rows.Body, row rows.Row) bool {
	begins := func(word string) bool { return bytes.HasPrefix(s.text[row.Position-1:], []byte(word)) }
	switch {
	case row.Name > 0:
		return begins(b.Names[row.Name-1])
	case row.Kind == rows.Decl:
		return begins("var") == (row.Detail == 1)
	case words[row.Kind] != nil:
		return begins(words[row.Kind][row.Detail])
	}
	return row.Kind != rows.Bad && (row.Detail == 0 || row.Kind == rows.Assign || row.Kind == rows.Expr)
}
