package script

import (
	"strings"
	"testing"
)

// inStatements has literals in every kind of statement, and in every part of its head.
var inStatements = []string{
	// declarations
	"var x = @func() {}",
	"var x, y = @func() {}, @func() {}",
	"var (\n x = @func() {}\n y = 1\n z = @func() {}\n)",
	"const x = len(@func() string { return \"\" }())",
	"type T [unsafe.Sizeof(@func() {})]int",
	"var x [unsafe.Sizeof(@func() {})]int",
	// expressions
	"@func() {}()",
	"(@func() {})()",
	"f(@func() {})",
	"f(1, g(@func() {}), @func(x int) int { return x })",
	"<-@func() chan int { return nil }()",
	"f(@func() {}).g(@func() {})",
	"panic(@func() {})",
	// sends
	"@func() chan int { return nil }() <- 1",
	"c <- @func() {}",
	// increments
	"a[@func() int { return 0 }()]++",
	"(*@func() *int { return nil }())--",
	// assignments
	"x = @func() {}",
	"x := @func() {}",
	"x, y := @func() {}, @func() {}",
	"x += @func() int { return 1 }()",
	"a[@func() int { return 1 }()] = @func() {}",
	// go, defer, return
	"go @func() {}()",
	"go f(@func() {})",
	"defer @func() {}()",
	"defer f(@func() {})",
	"return @func() {}",
	"return 1, @func() {}, x",
	// labels and blocks
	"L: @func() {}()",
	"L: M: x = @func() {}",
	"{ @func() {}() }",
	"{{ @func() {}() }; @func() {}() }",
	// if
	"if @func() bool { return true }() {}",
	"if x := @func() int { return 1 }(); x > 0 {}",
	"if f(@func() {}); g(@func() {}) { @func() {}() } else { @func() {}() }",
	"if a {} else if x := @func() int { return 1 }(); f(@func() {}, x) { @func() {}() }",
	// for
	"for @func() bool { return true }() {}",
	"for i := @func() int { return 0 }(); i < @func() int { return 9 }(); i += @func() int { return 1 }() { @func() {}() }",
	"for { @func() {}() }",
	"for range @func() []int { return nil }() { @func() {}() }",
	"for a[@func() int { return 0 }()] = range f(@func() {}) {}",
	// switches
	"switch @func() int { return 1 }() {}",
	"switch x := @func() int { return 1 }(); f(@func() {}, x) { case 1, @func() int { return 2 }(): @func() {}(); default: @func() {}() }",
	"switch f(@func() {}); x := g(@func() {}).(type) { case [unsafe.Sizeof(@func() {})]int: @func() {}(); default: @func() { _ = x }() }",
	"switch { case @func() bool { return true }(): }",
	// select
	"select { case c <- @func() int { return 1 }(): case @func() chan int { return nil }() <- 1: }",
	"select { case a[@func() int { return 0 }()] = <-@func() chan int { return nil }(): @func() {}(); default: @func() {}() }",
	"select { case x := <-f(@func() {}): _ = x; case <-f(@func() {}): }",
	// expressions of each kind
	"x = []func(){@func() {}, 5: @func() {}}",
	"x = map[string]func(){\"a\": @func() {}}",
	"x = map[any]int{@func() {}: 1}",
	"x = &T{f: @func() {}, g: []T{{f: @func() {}}}}",
	"x = a[@func() int { return 0 }():@func() int { return 1 }()]",
	"x = any(@func() {}).(func())",
	"x = !@func() bool { return true }() && @func() bool { return false }()",
	"x = (((@func() {})))",
	"x = f[int](@func() {})",
	"x = append(x, @func() {}, y...)",
	"x = T[[unsafe.Sizeof(@func() {})]int]{}",
}

// literalNames are f and as many literals of f as there are marks in the statement.
func literalNames(statement string) string {
	names := []string{"f"}
	for n := strings.Count(statement, "@"); n > 0; n-- {
		names = append(names, "f.func"+string(rune('0'+len(names))))
	}
	return strings.Join(names, " ")
}

func TestLiteralsInStatements(t *testing.T) {
	for _, statement := range inStatements {
		read(t, "package p\n\nfunc @f() {\n\t"+statement+"\n}\n", literalNames(statement))
	}
}

// As a list of statements they are found too, beside the list itself.
func TestLiteralsInLists(t *testing.T) {
	for _, statement := range inStatements {
		text, places := unmarked(statement)
		s := ReadStatements("", []byte(text))
		if len(s.Errors) > 0 || len(s.Functions) != 1+len(places) || !s.HasStatements() {
			t.Errorf("%s: %v %v", text, s.Functions, s.Errors)
			continue
		}
		for i, f := range s.Functions[1:] {
			if s.Position(f.At) != places[i] || f.Statements {
				t.Errorf("%s: a literal at %d, not %d", text, s.Position(f.At), places[i])
			}
		}
	}
}

func TestLiteralNames(t *testing.T) {
	readAll(t, [][2]string{
		// in functions: f.func1, and f.func1.1 inside that
		{"package p; func @f() { @func() {}(); @func() {}() }; func @g() { @func() {}() }", "f f.func1 f.func2 g g.func1"},
		{"package p; func @f() { h(@func() { h(@func() { h(@func() {}) }, @func() {}) }, @func() {}) }",
			"f f.func1 f.func1.1 f.func1.1.1 f.func1.2 f.func2"},
		{"package p; func @f() { go @func() { defer @func() {}() }() }", "f f.func1 f.func1.1"},
		// outside functions: glob..func1, numbered through the file
		{"package p; var x = @func() {}", "glob..func1"},
		{"package p; var x = @func() {}; var y, z = @func() {}, @func() {}", "glob..func1 glob..func2 glob..func3"},
		{"package p; var x = @func() { @func() { @func() {}() }(); @func() {}() }; var y = @func() {}",
			"glob..func1 glob..func1.1 glob..func1.1.1 glob..func1.2 glob..func2"},
		{"package p; var (\n x = @func() {}\n y = T{@func() {}}\n)\nfunc @f() { @func() {}() }\nvar z = @func() {}",
			"glob..func1 glob..func2 f f.func1 glob..func3"},
		{"package p; type T [unsafe.Sizeof(@func() {})]int; const c = len(@func() string { return \"\" }())", "glob..func1 glob..func2"},
	})
}

// A literal may stand in the type of a function, and in that of another literal.
func TestLiteralsInTypes(t *testing.T) {
	read(t, "package p; func @f(x [unsafe.Sizeof(@func() {})]int) {}", "f f.func1")
	read(t, "package p; func f(x [unsafe.Sizeof(@func() {})]int)", "f.func1")
	read(t, "package p; func (t T[[unsafe.Sizeof(@func() {})]int]) @m() {}", "T.m.func1 T.m")
}

func TestLiteralsInTypesOfLiterals(t *testing.T) {
	text := "package p; var x = func(a [unsafe.Sizeof(func() {})]int) {}"
	if s := ReadFile("x.go", []byte(text)); len(s.Functions) != 2 {
		t.Errorf("%s: %d functions, not 2", text, len(s.Functions))
	}
}
