package script

import "testing"

func TestFunctions(t *testing.T) {
	readAll(t, [][2]string{
		{"package p", ""},
		{"package p; func @f() {}", "f"},
		{"package p\n\nfunc @f() {}\n\nfunc @g() int { return 1 }\n", "f g"},
		{"// of p\npackage p\n// of f\nfunc /* this */ @f() {}", "f"},
		{"package p; func @f[T any, U int | string](x T) {}", "f"},
		{"package p; func @_() {}; func @init() {}; func @init() {}", "_ init init"},
		{"package p; func @größe() {}", "größe"},
		// without a body
		{"package p; func f()", ""},
		{"package p; func f() int; func @g() {}; func h(x func())", "g"},
		// what only looks like a function
		{"package p; type F func(); var f func(int) int; type I interface{ m() }", ""},
		{"package p; func @f() { var g func(); _ = g; h(\"func() {}\") /* func() {} */ }", "f"},
	})
}

func TestMethods(t *testing.T) {
	readAll(t, [][2]string{
		{"package p; func (T) @m() {}", "T.m"},
		{"package p; func (t T) @m() {}", "T.m"},
		{"package p; func (t *T) @m() {}", "T.m"},
		{"package p; func (*T) @m() {}", "T.m"},
		{"package p; func (t (T)) @m() {}", "T.m"},
		{"package p; func (t *(T)) @m() {}", "T.m"},
		{"package p; func (t (*T)) @m() {}", "T.m"},
		{"package p; func (t L[E]) @m() {}", "L.m"},
		{"package p; func (t *L[E]) @m() {}", "L.m"},
		{"package p; func (t *M[K, V]) @m() {}", "M.m"},
		{"package p; func (t *(M[K, V])) @m() {}", "M.m"},
		{"package p; func (a T) @m() {}; func (a U) @m() {}", "T.m U.m"},
		{"package p; func (t *T) @m() { @func() {}() }", "T.m T.m.func1"},
	})
}

func TestResults(t *testing.T) {
	cases := []struct {
		head    string
		results bool
	}{
		{"func f()", false},
		{"func f() ()", false},
		{"func f() int", true},
		{"func f() (int)", true},
		{"func f() (int, error)", true},
		{"func f() (a, b int)", true},
		{"func f() (_ int)", true},
		{"func f() func()", true},
		{"func f(x func() int)", false},
		{"func f[T any]() T", true},
		{"func (t T) m()", false},
		{"func (t T) m() error", true},
		{"var f = func()", false},
		{"var f = func() int", true},
		{"var f = func() (err error)", true},
	}
	for _, c := range cases {
		s := ReadFile("x.go", []byte("package p; "+c.head+" {}"))
		if len(s.Errors) > 0 || len(s.Functions) != 1 || s.Functions[0].HasResults != c.results {
			t.Errorf("%s: %+v %v", c.head, s.Functions, s.Errors)
		}
	}
}

// Nothing of a file is a list of statements.
func TestFileHasNoStatements(t *testing.T) {
	s := read(t, "package p; func @f() {}", "f")
	if s.HasStatements() || s.Functions[0].Statements || s.Functions[0].Broken {
		t.Errorf("%+v", s.Functions[0])
	}
}
