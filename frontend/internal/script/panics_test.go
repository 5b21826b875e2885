package script

import (
	"fmt"
	"testing"

	"zesthull/internal/rows"
)

// panicPlaces are the places of the statements that are panics, in all bodies, in the order of the functions.
func panicPlaces(s *Script) (places []int) {
	for _, f := range s.Functions {
		if f.Broken {
			continue
		}
		for _, r := range body(s, f).Rows {
			if r.Kind == rows.Expr && r.Detail == 1 {
				places = append(places, r.Position)
			}
		}
	}
	return places
}

// tryPanics reads texts in which @ stands before each statement that is a panic, and before no other.
func tryPanics(t *testing.T, texts []string) {
	t.Helper()
	for _, marked := range texts {
		text, places := unmarked(marked)
		s := Read("x.go", []byte(text))
		if len(s.Errors) > 0 {
			t.Errorf("%s: %v", text, s.Errors)
		}
		if got := panicPlaces(s); fmt.Sprint(got) != fmt.Sprint(places) {
			t.Errorf("%s: panics at %d, not %d", text, got, places)
		}
	}
}

func TestPanics(t *testing.T) {
	tryPanics(t, []string{
		"package p; func f() { @panic(1) }",
		"package p; func f() { @panic(1); x++; @panic(2) }",
		"package p; func f() int { @(panic(1)) }",
		"package p; func f() { @(panic)(1) }",
		"package p; func f() { @(((panic))(1)) }",
		"package p; func f() { if x { @panic(1) } else { @panic(2) }; for { switch { default: select { default: L: @panic(3) } } } }",
		"package p; func f() { return; @panic(1) }",
		// not a statement, or not the call
		"package p; func f() { go panic(1) }",
		"package p; func f() { defer panic(1) }",
		"package p; func f() { _ = panic }",
		"package p; func f() int { return panic(1) }",
		"package p; func f() { g(panic) }",
		"package p; func f() { panic }",
		"package p; func f() { panic(1)() }",
		"package p; func f() { if panic(1) {} }",
		"package p; func f() { recover(); print(1); Panic(1) }",
		// another's method
		"package p; func f() { panic.x() }",
		"package p; func f() { x.panic(1) }",
		"package p; type T struct{}; func (t T) panic(int) {}; func f() { @panic(1); T{}.panic(1) }",
		// a label of that name
		"package p; func f() { panic: @panic(1); goto panic }",
	})
}

// A panic of the script's own isn't the built-in one.
func TestShadowedPanics(t *testing.T) {
	tryPanics(t, []string{
		// of the package
		"package p; func panic(int) {}; func f() { panic(1) }",
		"package p; func f() { panic(1) }; func panic(int) {}",
		"package p; var panic = func(int) {}; func f() { panic(1) }",
		"package p; type panic int; func f() { panic(1) }",
		"package p; type panic = int; func f() { func() { panic(1) }() }",
		"package p; import panic \"x\"; func f() { panic(1) }",
		// of the function
		"package p; func f(panic func(int)) { panic(1) }",
		"package p; func f() (panic func(int)) { panic(1) }",
		"package p; type T func(int); func (panic T) f() { panic(1) }",
		"package p; func f[panic any](x int) { panic(x) }",
		"package p; type L[E any] struct{}; func (l L[panic]) f() { panic(1) }",
		// of a block, from its declaration on
		"package p; func f() { panic := g; panic(1); (panic(1)) }",
		"package p; func f() { var panic func(int); panic(1) }",
		"package p; func f() { type panic int; panic(1) }",
		"package p; func f() { @panic(1); panic := g; panic(1) }",
		"package p; func f() { { panic := g; panic(1) }; @panic(2) }",
		"package p; func f() { if panic := g; true { panic(1) } else { panic(2) }; @panic(3) }",
		"package p; func f() { for panic := range g { panic(1) }; @panic(2) }",
		"package p; func f() { for panic := g; ; { panic(1) } }",
		"package p; func f() { switch panic := g; { case true: panic(1) } }",
		"package p; func f() { switch { case true: panic := g; panic(1); default: @panic(2) } }",
		"package p; func f(x any) { switch panic := x.(type) { case func(int): panic(1) }; @panic(2) }",
		"package p; func f(c chan func(int)) { select { case panic := <-c: panic(1); default: @panic(2) } }",
		// of the function around a literal, and of the literal
		"package p; func f() { panic := g; func() { panic(1) }() }",
		"package p; func f() { func(panic func(int)) { panic(1) }(g); @panic(2) }",
		"package p; var x = func() { @panic(1) }; func f() { panic := g; panic(1) }",
	})
}

// Imports are unresolved and errors tolerated, also where go/types passes over the code.
func TestPanicsAmongUnknowns(t *testing.T) {
	tryPanics(t, []string{
		"package p; import \"x\"; func f() { x.F(); @panic(x.G()) }",
		"package p; import \"x\"; func f() { switch x.F().(type) { case int: @panic(1); default: @panic(2) } }",
		"package p; import \"x\"; func f() { switch v := x.F().(type) { case x.T: @panic(v) } }",
		"package p; import \"x\"; func f() { switch panic := x.F().(type) { case int: panic(1) } }",
		"package p; import \"x\"; func f(panic func(int)) { switch x.F().(type) { case int: panic(1) } }",
		"package p; import \"x\"; func f() { switch x.F().(type) { case int: panic := g; panic(1) } }",
		"package p; import \"x\"; func panic(int) {}; func f() { switch x.F().(type) { case int: panic(1) } }",
		"package p; import \"x\"; func f() { switch x.F() { case x.A: @panic(1) } }",
		"package p; import \"x\"; func f() { if x.F() { @panic(1) } }",
		"package p; import \"x\"; func f() { for x.F() { @panic(1) } }",
		"package p; import \"x\"; func f() { for _, v := range x.F() { @panic(v) } }",
		"package p; import \"x\"; func f() { for _, panic := range x.F() { panic(1) } }",
		"package p; import \"x\"; func f() { select { case v := <-x.C: @panic(v); case x.D <- 1: @panic(2) } }",
		"package p; import \"x\"; func f() { x.F(1, func() int { @panic(1) }) }",
		"package p; import \"x\"; func f() { v.F(func() { @panic(1) }).G(func() { @panic(2) }) }",
		"package p; import \"x\"; var _ = x.T{F: func() { @panic(1) }}",
		"package p; import \"x\"; var _ = []x.T{{func() { @panic(1) }}}",
		"package p; import . \"x\"; func f() { @panic(F()) }",
		"package p; func f() { x.y.z(func() { a.b(func() { @panic(1) }) }) }",
		"package p; func f() int { undeclared := 1; @panic(unknown) }",
		"package p; func f(x Unknown) Unknown { @panic(x) }",
		"package p; func (t Unknown) f() { @panic(1) }",
		"package p; func (t *unknown.T) f() { @panic(1) }",
		"package p; func f() { @panic(1) }; func f() { @panic(2) }",
		"package p; func _() { @panic(1) }; func _() { @panic(2) }; func init() { @panic(3) }; func main(x int) { @panic(4) }",
		"package p; func f() { var x [unknown]int; @panic(x) }",
		"package p; func f() { const c = func() { @panic(1) } }",
		"package p; func f() { goto nowhere; @panic(1); break; @panic(2) }",
		"package p; import \"C\"; func f() { C.f(); @panic(C.x) }",
	})
}

func TestPanicsInGenerics(t *testing.T) {
	tryPanics(t, []string{
		"package p; func f[T any](x T) T { @panic(x) }",
		"package p; func f[T interface{ m() }](x T) { x.m(); @panic(x) }",
		"package p; type L[E any] struct{ e E }; func (l *L[E]) get() E { @panic(l.e) }",
		"package p; func f[K comparable, V any](m map[K]V) { g[K, V](func() V { @panic(m) }) }",
		"package p; func f[T Unknown](x T) { switch any(x).(type) { case T: @panic(x) } }",
	})
}

func TestPanicsInLiterals(t *testing.T) {
	tryPanics(t, []string{
		"package p; func f() { func() { @panic(1) }() }",
		"package p; var x = func() int { @panic(1) }",
		"package p; var x = T{func() { func() { @panic(1) }() }}",
		"package p; func f() { defer func() { @panic(1) }(); go func() { @panic(2) }() }",
		"package p; func f(x [unsafe.Sizeof(func() { @panic(1) })]int) {}",
	})
}

func TestPanicsInStatements(t *testing.T) {
	tryPanics(t, []string{
		"@panic(1)",
		"{@panic(1)}",
		"@(panic(1))",
		"panic.x()",
		"x.panic(1)",
		"panic := f; panic(1)",
		"panic: @panic(1); goto panic",
		"if x { @panic(y) }; return func() { @panic(z) }",
		"type p int; var _ p; @panic(1)",
	})
}

// Where a file has a syntax error its other functions have their panics, and what any of them declares counts.
func TestPanicsInBrokenFiles(t *testing.T) {
	for _, marked := range []string{
		"package p\n\nfunc f() int { @panic(1) }\n\nfunc broken() { x y }\n\nfunc g() { @panic(1) }\n",
		"package p\n\nfunc f() int { panic(1) }\n\nfunc broken() { x y }\n\nfunc panic(int) {}\n",
		"package p\n\nfunc f() int { panic(1) }\n\nfunc panic(int) { x y }\n",
		"package p\n\nimport \"x\"\n\nfunc f() { switch x.F().(type) { case int: panic(1) } }\n\nfunc panic(int) {}\n\nfunc broken() { x y }\n",
	} {
		text, places := unmarked(marked)
		s := ReadFile("x.go", []byte(text))
		if got := panicPlaces(s); len(s.Errors) == 0 || fmt.Sprint(got) != fmt.Sprint(places) {
			t.Errorf("%s: panics at %d, not %d; %v", text, got, places, s.Errors)
		}
	}
}
