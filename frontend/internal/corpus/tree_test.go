package corpus

import (
	"go/ast"
	"go/parser"
	"go/scanner"
	"go/token"
	"path/filepath"
	"runtime"
	"sort"

	"zesthull/internal/mark"
)

// A tree is a file as go/parser reads it, parsed here once more.
type tree struct {
	fset      *token.FileSet
	file      *ast.File
	errors    scanner.ErrorList
	functions []function
}

// A function is a declared one or a literal, with its body.
type function struct {
	// at is the place of its name, or of the word func.
	at         token.Pos
	signature  *ast.FuncType
	body       *ast.BlockStmt
	hasResults bool
}

func parse(fset *token.FileSet, f file) *tree {
	// the whole path is what vendored imports are found by
	parsed, err := parser.ParseFile(fset, filepath.Join(runtime.GOROOT(), f.name), f.text, parser.AllErrors)
	t := &tree{fset: fset, file: parsed}
	t.errors, _ = err.(scanner.ErrorList)
	ast.Inspect(parsed, func(n ast.Node) bool {
		switch f := n.(type) {
		case *ast.FuncDecl:
			t.addFunction(f.Name.Pos(), f.Type, f.Body)
		case *ast.FuncLit:
			t.addFunction(f.Pos(), f.Type, f.Body)
		}
		return true
	})
	sort.Slice(t.functions, func(i, j int) bool { return t.functions[i].at < t.functions[j].at })
	return t
}

func (t *tree) addFunction(at token.Pos, signature *ast.FuncType, body *ast.BlockStmt) {
	if body != nil {
		t.functions = append(t.functions, function{at, signature, body, signature.Results.NumFields() > 0})
	}
}

// place is the line and the column of a place, whatever line comments say.
func (t *tree) place(p token.Pos) (line, column int) {
	at := t.fset.PositionFor(p, false)
	return at.Line, at.Column
}

// A statement is one that has a row.
type statement struct {
	ast.Stmt
	// size counts it and all inside it; the body itself is 1 deep.
	size, depth int
}

// statements lists those of a body in the order in which they begin. What stands in the head of an if, a for, a switch or a
// select's clause has no row, and what stands in a literal belongs to the literal's body.
func statements(body *ast.BlockStmt) []statement {
	l := lister{heads: map[ast.Stmt]bool{}}
	ast.Inspect(body, l.visit)
	return l.list
}

type lister struct {
	list  []statement
	open  []int
	heads map[ast.Stmt]bool
}

func (l *lister) visit(n ast.Node) bool {
	if n == nil {
		last := l.open[len(l.open)-1]
		l.open = l.open[:len(l.open)-1]
		l.list[last].size = len(l.list) - last
		return false
	}
	s, ok := n.(ast.Stmt)
	if !ok || l.heads[s] {
		return false
	}
	for _, head := range heads(s) {
		l.heads[head] = true
	}
	l.open = append(l.open, len(l.list))
	l.list = append(l.list, statement{Stmt: s, depth: len(l.open)})
	return true
}

func heads(s ast.Stmt) []ast.Stmt {
	switch s := s.(type) {
	case *ast.IfStmt:
		return []ast.Stmt{s.Init}
	case *ast.ForStmt:
		return []ast.Stmt{s.Init, s.Post}
	case *ast.SwitchStmt:
		return []ast.Stmt{s.Init}
	case *ast.TypeSwitchStmt:
		return []ast.Stmt{s.Init, s.Assign}
	case *ast.CommClause:
		return []ast.Stmt{s.Comm}
	}
	return nil
}

// label is the name that the statement declares or refers to, or nil.
func (s statement) label() *ast.Ident {
	switch s := s.Stmt.(type) {
	case *ast.LabeledStmt:
		return s.Label
	case *ast.BranchStmt:
		return s.Label
	}
	return nil
}

// position is where its row stands.
func (s statement) position() token.Pos {
	if l := s.label(); l != nil {
		return l.Pos()
	}
	return s.Pos()
}

// matches tells whether the front end found the same functions with the same number of statements, so that they can be compared
// one by one.
func (t *tree) matches(r *mark.Result) bool {
	if len(r.Bodies) != len(t.functions) {
		return false
	}
	for i, f := range t.functions {
		if len(r.Bodies[i].Rows) != len(statements(f.body)) {
			return false
		}
	}
	return true
}
