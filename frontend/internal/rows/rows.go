// Package rows turns a function body of Go's syntax tree into the rows that the proved calls read.
package rows

import (
	"go/ast"
	"go/token"

	"zesthull/internal/calls"
)

// The kinds of rows, numbered as in document 01.
const (
	Bad = iota
	Decl
	Empty
	Labeled
	Expr
	Send
	IncDec
	Assign
	Go
	Defer
	Return
	Branch
	Block
	If
	Case
	Switch
	TypeSwitch
	Comm
	Select
	For
	Range
)

// Kinds are their names.
var Kinds = [...]string{"Bad", "Decl", "Empty", "Labeled", "Expr", "Send", "IncDec", "Assign", "Go", "Defer", "Return",
	"Branch", "Block", "If", "Case", "Switch", "TypeSwitch", "Comm", "Select", "For", "Range"}

// The details of a Branch.
const (
	Break = iota
	Continue
	Goto
	Fallthrough
)

var branches = map[token.Token]int{token.BREAK: Break, token.CONTINUE: Continue, token.GOTO: Goto, token.FALLTHROUGH: Fallthrough}

// A Row is the five words of a row.
type Row struct {
	Kind, Detail, Position, Name, Size int
}

// A Body is a function body as rows. A position is 1 + the byte's place in the text; Names[n-1] is the name of number n.
type Body struct {
	Rows  []Row
	Names []string
}

// Of makes the rows of a body. isPanic tells the calls of the built-in panic; position gives the number for a place.
func Of(body *ast.BlockStmt, isPanic func(*ast.CallExpr) bool, position func(token.Pos) int) Body {
	w := writer{isPanic: isPanic, position: position, numbers: map[string]int{}}
	w.statement(body)
	return w.body
}

// Words are the words lent to the calls.
func (b Body) Words() calls.Body {
	var words calls.Body
	for _, r := range b.Rows {
		words.Rows = append(words.Rows, uint32(r.Kind), uint32(r.Detail), uint32(r.Position), uint32(r.Name), uint32(r.Size))
	}
	for _, name := range b.Names {
		words.Pairs = append(words.Pairs, uint32(len(words.Bytes)), uint32(len(name)))
		words.Bytes = append(words.Bytes, name...)
	}
	return words
}

type writer struct {
	body     Body
	numbers  map[string]int
	isPanic  func(*ast.CallExpr) bool
	position func(token.Pos) int
}

// row writes a row and what stands below it.
func (w *writer) row(kind, detail int, at token.Pos, name int, below func()) {
	r := len(w.body.Rows)
	w.body.Rows = append(w.body.Rows, Row{kind, detail, w.position(at), name, 1})
	if below != nil {
		below()
	}
	w.body.Rows[r].Size = len(w.body.Rows) - r
}

func (w *writer) leaf(kind, detail int, at token.Pos) { w.row(kind, detail, at, 0, nil) }

// name is the number of a label's name: each name has one, in the order in which they are met.
func (w *writer) name(label *ast.Ident) int {
	n, ok := w.numbers[label.Name]
	if !ok {
		w.body.Names = append(w.body.Names, label.Name)
		n = len(w.body.Names)
		w.numbers[label.Name] = n
	}
	return n
}

func (w *writer) list(items []ast.Stmt) func() {
	return func() {
		for _, s := range items {
			w.statement(s)
		}
	}
}

func (w *writer) statement(s ast.Stmt) {
	switch s := s.(type) {
	case *ast.LabeledStmt:
		w.row(Labeled, 0, s.Label.Pos(), w.name(s.Label), func() { w.statement(s.Stmt) })
	case *ast.BranchStmt:
		w.branch(s)
	case *ast.BlockStmt:
		w.row(Block, 0, s.Pos(), 0, w.list(s.List))
	case *ast.IfStmt:
		w.ifStatement(s)
	case *ast.CaseClause:
		w.row(Case, number(s.List == nil), s.Pos(), 0, w.list(s.Body))
	case *ast.CommClause:
		w.row(Comm, number(s.Comm == nil), s.Pos(), 0, w.list(s.Body))
	case *ast.SwitchStmt:
		w.row(Switch, 0, s.Pos(), 0, func() { w.statement(s.Body) })
	case *ast.TypeSwitchStmt:
		w.row(TypeSwitch, 0, s.Pos(), 0, func() { w.statement(s.Body) })
	case *ast.SelectStmt:
		w.row(Select, 0, s.Pos(), 0, func() { w.statement(s.Body) })
	case *ast.ForStmt:
		w.row(For, number(s.Cond != nil), s.Pos(), 0, func() { w.statement(s.Body) })
	case *ast.RangeStmt:
		w.row(Range, 0, s.Pos(), 0, func() { w.statement(s.Body) })
	default:
		kind, detail := w.plain(s)
		w.leaf(kind, detail, s.Pos())
	}
}

// plain is the kind and the detail of a statement with nothing below it.
func (w *writer) plain(s ast.Stmt) (kind, detail int) {
	switch s := s.(type) {
	case *ast.DeclStmt:
		decl, ok := s.Decl.(*ast.GenDecl)
		return Decl, number(ok && decl.Tok == token.VAR)
	case *ast.EmptyStmt:
		return Empty, 0
	case *ast.ExprStmt:
		call, ok := Unparen(s.X).(*ast.CallExpr)
		return Expr, number(ok && w.isPanic(call))
	case *ast.SendStmt:
		return Send, 0
	case *ast.IncDecStmt:
		return IncDec, 0
	case *ast.AssignStmt:
		return Assign, number(s.Tok == token.DEFINE)
	case *ast.GoStmt:
		return Go, 0
	case *ast.DeferStmt:
		return Defer, 0
	case *ast.ReturnStmt:
		return Return, 0
	}
	return Bad, 0
}

func (w *writer) branch(s *ast.BranchStmt) {
	detail := branches[s.Tok]
	if s.Label == nil {
		w.leaf(Branch, detail, s.TokPos)
		return
	}
	at := s.Label.Pos()
	if detail == Fallthrough {
		at = s.TokPos
	}
	w.row(Branch, detail, at, w.name(s.Label), nil)
}

func (w *writer) ifStatement(s *ast.IfStmt) {
	w.row(If, number(s.Else != nil), s.Pos(), 0, func() {
		w.statement(s.Body)
		if s.Else != nil {
			w.statement(s.Else)
		}
	})
}

func number(b bool) int {
	if b {
		return 1
	}
	return 0
}

// Unparen takes the parentheses off.
func Unparen(e ast.Expr) ast.Expr {
	for {
		p, ok := e.(*ast.ParenExpr)
		if !ok {
			return e
		}
		e = p.X
	}
}
