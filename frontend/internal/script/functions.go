package script

import (
	"go/ast"
	"go/token"
	"sort"
	"strconv"
)

// A Function is a function or a function literal with a body.
type Function struct {
	// Name is that of the function, with its receiver's type before it; a literal is named as Go's tools name it, f.func1.
	Name string
	// Statements: the body is a list of statements and no function's.
	Statements bool
	// At is the place of the function's name, or of the word func.
	At         token.Pos
	Body       *ast.BlockStmt
	HasResults bool
	// Broken: there is a syntax error in its declaration, so that its statements can't be trusted.
	Broken bool
}

// findFunctions lists the functions and literals in the order of their places.
func (s *Script) findFunctions() {
	globals := 0
	for _, p := range s.pieces {
		for _, decl := range declarations(p.file) {
			s.findIn(decl, len(p.errors) > 0, &globals)
		}
	}
	sort.SliceStable(s.Functions, func(i, j int) bool { return s.Functions[i].At < s.Functions[j].At })
}

func declarations(file *ast.File) []ast.Decl {
	if file == nil {
		return nil
	}
	return file.Decls
}

// findIn lists the function that is declared, and the literals in the declaration; those of no function are numbered through
// the script.
func (s *Script) findIn(decl ast.Decl, broken bool, globals *int) {
	f, ok := decl.(*ast.FuncDecl)
	if !ok {
		s.findLiterals(decl, "glob..func", broken, globals)
		return
	}
	name := functionName(f)
	if f.Body != nil {
		s.Functions = append(s.Functions, Function{Name: name, At: f.Name.Pos(), Body: f.Body, HasResults: hasResults(f.Type), Broken: broken})
	}
	s.findLiterals(f, name+".func", broken, new(int))
}

// findLiterals lists the literals in the node, numbered after the prefix; those inside a literal have a number after a dot.
func (s *Script) findLiterals(node ast.Node, prefix string, broken bool, count *int) {
	ast.Inspect(node, func(n ast.Node) bool {
		f, ok := n.(*ast.FuncLit)
		if !ok {
			return true
		}
		*count++
		name := prefix + strconv.Itoa(*count)
		s.Functions = append(s.Functions, Function{Name: name, At: f.Pos(), Body: f.Body, HasResults: hasResults(f.Type), Broken: broken})
		s.findLiterals(f.Body, name+".", broken, new(int))
		s.findLiterals(f.Type, prefix, broken, count)
		return false
	})
}

func hasResults(t *ast.FuncType) bool { return t.Results != nil && len(t.Results.List) > 0 }

func functionName(f *ast.FuncDecl) string {
	if f.Recv == nil || len(f.Recv.List) == 0 {
		return f.Name.Name
	}
	return receiverName(f.Recv.List[0].Type) + "." + f.Name.Name
}

func receiverName(t ast.Expr) string {
	switch t := t.(type) {
	case *ast.Ident:
		return t.Name
	case *ast.StarExpr:
		return receiverName(t.X)
	case *ast.ParenExpr:
		return receiverName(t.X)
	case *ast.IndexExpr:
		return receiverName(t.X)
	case *ast.IndexListExpr:
		return receiverName(t.X)
	}
	return "_"
}
