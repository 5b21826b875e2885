package script

import (
	"go/ast"
	"testing"
)

// Any text is read without a crash, and what is told of it hangs together. `go test` tries the texts of the other tests;
// `go test -fuzz FuzzRead` makes more of them.
func FuzzRead(f *testing.F) {
	for _, c := range brokenFiles {
		f.Add([]byte(c.text))
	}
	for _, statement := range inStatements {
		text, _ := unmarked(statement)
		f.Add([]byte(text))
		f.Add([]byte("package p\nfunc f() {\n" + text + "\n}\n"))
	}
	f.Fuzz(func(t *testing.T, text []byte) {
		checkScript(t, Read("x.go", text))
		checkScript(t, ReadFile("x.go", text))
		checkScript(t, ReadStatements("x.go", text))
	})
}

func checkScript(t *testing.T, s *Script) {
	t.Helper()
	checkErrors(t, s)
	last := 0
	for _, f := range s.Functions {
		at := s.Position(f.At)
		if at < last || at > len(s.Text)+1 {
			t.Errorf("%s at %d, after one at %d", f.Name, at, last)
		}
		last = at
		if !f.Broken {
			checkFunction(t, s, f)
		}
	}
}

func checkErrors(t *testing.T, s *Script) {
	t.Helper()
	for _, e := range s.Errors {
		if e.Position < 1 || e.Position > len(s.Text)+1 || e.Message == "" {
			t.Errorf("an error %q at %d", e.Message, e.Position)
		}
	}
	if len(s.Errors) == 0 {
		for _, f := range s.Functions {
			if f.Broken {
				t.Errorf("%s is broken, and there is no error", f.Name)
			}
		}
	}
}

// checkFunction: nothing bad is in a body that isn't broken, its braces stand in the text, its rows' places are in it, and the
// body by itself has the same rows.
func checkFunction(t *testing.T, s *Script, f Function) {
	t.Helper()
	ast.Inspect(f.Body, func(n ast.Node) bool {
		switch n.(type) {
		case *ast.BadStmt, *ast.BadExpr, *ast.BadDecl:
			t.Errorf("%s isn't broken and has a %T", f.Name, n)
		}
		return true
	})
	from, to := s.Position(f.Body.Lbrace), s.Position(f.Body.Rbrace)
	b := body(s, f)
	for _, r := range b.Rows {
		if r.Position < from || r.Position > to {
			t.Errorf("%s: a row at %d, outside its braces at %d and %d", f.Name, r.Position, from, to)
		}
	}
	if f.Statements {
		return
	}
	if s.Text[from-1] != '{' || s.Text[to-1] != '}' {
		t.Fatalf("%s: %q and %q for its braces", f.Name, s.Text[from-1], s.Text[to-1])
	}
	alone := ReadStatements("", s.Text[from-1:to])
	if len(alone.Errors) > 0 {
		t.Errorf("%s by itself: %v", f.Name, alone.Errors)
	} else if got, wanted := listing(body(alone, alone.Functions[0]), false), listing(b, false); got != wanted {
		t.Errorf("%s by itself has %s, not %s", f.Name, got, wanted)
	}
}
