package script

import (
	"go/ast"
	"go/types"

	"zesthull/internal/rows"
)

// IsPanic tells whether the call, as a statement, is one of the built-in panic.
func (s *Script) IsPanic(call *ast.CallExpr) bool { return s.panics[call] }

// findPanics tells by go/types which calls named panic are the built-in one. Imports stay unresolved, and errors are passed
// over; go/types leaves out code that it can't make sense of, and there the parser's scopes decide. The script stands alone:
// what another file of its package declares isn't seen.
func (s *Script) findPanics() {
	named := s.callsNamedPanic()
	if len(named) == 0 {
		return
	}
	uses, declared := s.resolve()
	s.panics = map[*ast.CallExpr]bool{}
	for call, ident := range named {
		if object, ok := uses[ident]; ok {
			_, builtin := object.(*types.Builtin)
			s.panics[call] = builtin
		} else {
			s.panics[call] = ident.Obj == nil && !declared
		}
	}
}

// callsNamedPanic are the statements that call something named panic.
func (s *Script) callsNamedPanic() map[*ast.CallExpr]*ast.Ident {
	named := map[*ast.CallExpr]*ast.Ident{}
	for _, f := range s.Functions {
		ast.Inspect(f.Body, func(n ast.Node) bool {
			if statement, ok := n.(*ast.ExprStmt); ok {
				if call, ok := rows.Unparen(statement.X).(*ast.CallExpr); ok {
					if ident, ok := rows.Unparen(call.Fun).(*ast.Ident); ok && ident.Name == "panic" {
						named[call] = ident
					}
				}
			}
			return true
		})
	}
	return named
}

// resolve is what go/types finds each name to be, and whether the file itself declares panic.
func (s *Script) resolve() (uses map[*ast.Ident]types.Object, declared bool) {
	uses = map[*ast.Ident]types.Object{}
	config := types.Config{Error: func(error) {}, Importer: noImports{}, DisableUnusedImportCheck: true, FakeImportC: true}
	defer func() {
		// a fault of go/types itself leaves what it found so far
		_ = recover()
	}()
	var files []*ast.File
	for _, p := range s.pieces {
		if p.file != nil {
			files = append(files, p.file)
		}
	}
	p, _ := config.Check("p", s.fset, files, &types.Info{Uses: uses})
	return uses, p != nil && p.Scope().Lookup("panic") != nil
}

// noImports resolves no import.
type noImports struct{}

func (noImports) Import(path string) (*types.Package, error) { return nil, errNoImports }

type importError string

func (e importError) Error() string { return string(e) }

const errNoImports = importError("imports are not read")
