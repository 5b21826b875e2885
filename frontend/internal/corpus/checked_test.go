package corpus

import (
	"errors"
	"go/ast"
	"go/token"
	"go/types"
)

// A checked file is one that go/types went through by itself, with no import resolved.
//
// What go/types 1.19 does with code that it can't type, as read in its stmt.go, labels.go and builtins.go:
//   - Statements are gone through list by list, whether their expressions have types or not. Left out are the clauses of a
//     type switch whose operand has no type, and a clause of a select that neither sends nor receives.
//   - A literal is gone through where its expression is, which may be left out after an error in it.
//   - Branches without a label are checked on that way. A second way through the body checks the labels. It looks at the
//     syntax alone and leaves nothing out, but is made only if a label or a labelled branch was met on the first.
//   - A missing return is looked for in every body that was begun, by the syntax and by the calls of panic. A call of panic
//     with an argument that has no type doesn't count.
type checked struct {
	info   types.Info
	errors []types.Error
}

func check(t *tree) *checked {
	c := &checked{info: types.Info{
		Scopes: map[ast.Node]*types.Scope{},
		Types:  map[ast.Expr]types.TypeAndValue{},
		Uses:   map[*ast.Ident]types.Object{},
	}}
	config := types.Config{
		Error:                    func(err error) { c.errors = append(c.errors, err.(types.Error)) },
		Importer:                 noImports{},
		DisableUnusedImportCheck: true,
		FakeImportC:              true,
	}
	config.Check(t.file.Name.Name, t.fset, []*ast.File{t.file}, &c.info)
	return c
}

type noImports struct{}

func (noImports) Import(string) (*types.Package, error) {
	return nil, errors.New("imports are not read")
}

// begun tells whether go/types went through a function's body: only then it sets where the function's scope begins.
func (c *checked) begun(f function) bool {
	scope := c.info.Scopes[f.signature]
	return scope != nil && scope.Pos() == f.body.Pos()
}

// unmet counts the statements of a body that go/types left out. A clause that it went through has a scope.
func (c *checked) unmet(f function, list []statement) (count int) {
	if !c.begun(f) {
		return len(list)
	}
	for end, i := 0, 0; i < len(list); i++ {
		switch list[i].Stmt.(type) {
		case *ast.CaseClause, *ast.CommClause:
			if c.info.Scopes[list[i].Stmt] == nil && i >= end {
				end = i + list[i].size
				count += list[i].size
			}
		}
	}
	return count
}

// openUp changes a tree so that go/types judges all of it: every function gets a result, so that each body is looked through for
// a missing return, and the operand of each type switch a type: it is interface{}(0).
func (t *tree) openUp() {
	for _, f := range t.functions {
		if !f.hasResults {
			f.signature.Results = &ast.FieldList{List: []*ast.Field{{Names: []*ast.Ident{ast.NewIdent("_")}, Type: ast.NewIdent("int")}}}
		}
	}
	ast.Inspect(t.file, func(n ast.Node) bool {
		if s, ok := n.(*ast.TypeSwitchStmt); ok {
			zero := &ast.BasicLit{Kind: token.INT, Value: "0"}
			guard(s).X = &ast.CallExpr{Fun: &ast.InterfaceType{Methods: &ast.FieldList{}}, Args: []ast.Expr{zero}}
		}
		return true
	})
}

func guard(s *ast.TypeSwitchStmt) *ast.TypeAssertExpr {
	switch a := s.Assign.(type) {
	case *ast.AssignStmt:
		return a.Rhs[0].(*ast.TypeAssertExpr)
	default:
		return a.(*ast.ExprStmt).X.(*ast.TypeAssertExpr)
	}
}
