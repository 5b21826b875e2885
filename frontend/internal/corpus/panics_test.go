package corpus

import (
	"go/ast"
	"go/types"

	"zesthull/internal/mark"
)

// comparePanics requires the calls of a body whose names go/types resolves to be taken for the built-in panic exactly if they
// are. It counts these.
func (s *source) comparePanics(b *mark.Body, list []statement, uses map[*ast.Ident]types.Object) (panics int) {
	for i, statement := range list {
		_, name := callOf(statement)
		object, ok := uses[name]
		if !ok {
			continue
		}
		is := isBuiltinPanic(object)
		if is {
			panics++
		}
		if is != (b.Rows[i].Detail == 1) {
			line, column := s.tree.place(name.Pos())
			s.differsAt(line, column, "whether this call of %s is one of the built-in panic: in go/types %v", name.Name, is)
		}
	}
	return panics
}

// isPanic tells whether the statement is a call of the built-in panic that has a type, as go/types asks for.
func (c *checked) isPanic(s statement) bool {
	call, name := callOf(s)
	return name != nil && isBuiltinPanic(c.info.Uses[name]) && c.info.Types[call].IsVoid()
}

func isBuiltinPanic(object types.Object) bool {
	builtin, ok := object.(*types.Builtin)
	return ok && builtin.Name() == "panic"
}

// callOf is the call that a statement consists of, and the name called, or nil.
func callOf(s statement) (*ast.CallExpr, *ast.Ident) {
	e, ok := s.Stmt.(*ast.ExprStmt)
	if !ok {
		return nil, nil
	}
	call, ok := unparen(e.X).(*ast.CallExpr)
	if !ok {
		return nil, nil
	}
	name, _ := unparen(call.Fun).(*ast.Ident)
	return call, name
}

func unparen(e ast.Expr) ast.Expr {
	if p, ok := e.(*ast.ParenExpr); ok {
		return unparen(p.X)
	}
	return e
}
