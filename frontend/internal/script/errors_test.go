package script

import (
	"errors"
	"go/parser"
	"go/scanner"
	"go/token"
	"strings"
	"testing"
)

// Files with a syntax error. The function broken has it, where one has; the functions kept are there and not broken. The
// function either may be taken for broken or not.
var brokenFiles = []struct{ name, text, kept string }{
	{"a word too many", `package p

func a() int { return 1 }

func broken() { foo bar }

func c() { f(func() {}) }
`, "a c c.func1"},
	{"a word missing", `package p

func a() {}

func broken() int {
	return 1 +
}

func c() int { return 1 }
`, "a c"},
	{"a brace missing at the end", `package p

func a() {}

func broken() {
	if x {
`, "a"},
	{"a brace missing", `package p

func a() {}

func broken() {
	if x {
}

func c() {}

func d() int { for {} }
`, "a c d"},
	{"a brace missing before a type", `package p

func broken() {
	x++

type T int

var x = 1

func c() {}
`, "c"},
	{"a brace missing before a method", `package p

func broken() {
	x++

func (t T) c() {}
`, "T.c"},
	{"a brace missing, and an error in a variable", `package p

func broken() {
	x++

func c() {}

var y = = 1

func d() {}
`, "c d"},
	{"a function in a function", `package p

func broken() {
	func inner() {
	}
	x++
}

func c() {}
`, "c"},
	{"a brace too many", `package p

func a() {}

func either() {}
}

func c() {}

func d() int { for {} }
`, "a c d"},
	{"a brace too many on the line", `package p

func either() { } }

func c() {}
`, "c"},
	{"a brace too many inside", `package p

func broken() {
	if x {
	}}
	return
}

func c() {}
`, "c"},
	{"a parenthesis missing", `package p

func broken() { f(1 }

func c() {}

var x = func() {}
`, "c glob..func1"},
	{"in a head", `package p

func a() {}

func broken(x int { return }

func c() {}
`, "a c"},
	{"no name", `package p

func broken {}

func c() {}
`, "c"},
	{"in a method's receiver", `package p

func (t *) broken() {}

func (t *T) c() { func() {}() }
`, "T.c T.c.func1"},
	{"in a declaration before", `package p

var x int = = 1

func a() {}

type T struct { x int y int }

func c() {}
`, "a c"},
	{"in an import", `package p

import "fmt

func a() {}

func c() {}
`, "a c"},
	{"a string that isn't ended", `package p

func a() {}

func broken() { f("abc) }

func c() {}
`, "a c"},
	{"a letter that isn't one", "package p\n\nfunc a() {}\n\nfunc broken() { x = # }\n\nfunc c() {}\n", "a c"},
	{"a goto without a label", `package p

func a() { L: goto L }

func broken() {
	goto
}

func c() {}
`, "a c"},
	{"in a literal", `package p

func a() {}

func broken() {
	f(func() { x y })
	g(func() {})
}

var x = func() {}

func c() {}
`, "a glob..func1 c"},
	{"two of them", `package p

func broken() { x y }

func b() {}

func broken2() { return return }

func d() {}
`, "b d"},
	{"a comment that looks like a function", `package p

/*
func x() {
*/
func broken() { x y }

func c() { _ = ` + "`\nfunc y() {\n`" + ` }
`, "c"},
	{"line ends of two bytes", "package p\r\n\r\nfunc a() {}\r\n\r\nfunc broken() { x y }\r\n\r\nfunc c() {}\r\n", "a c"},
	{"no package clause", "func a() {}\n\nfunc c() {}\n", "a c"},
	{"a bad package clause", "package 1\n\nfunc a() {}\n", "a"},
}

// kept are the names of the functions that aren't broken.
func kept(s *Script) string {
	var names []string
	for _, f := range s.Functions {
		if !f.Broken && f.Name != "either" {
			names = append(names, f.Name)
		}
	}
	return strings.Join(names, " ")
}

func TestBrokenFiles(t *testing.T) {
	for _, c := range brokenFiles {
		s := ReadFile("x.go", []byte(c.text))
		if got := kept(s); got != c.kept {
			t.Errorf("%s: kept %s, not %s: %v", c.name, got, c.kept, s.Errors)
		}
		if len(s.Errors) == 0 {
			t.Errorf("%s: no error", c.name)
		}
	}
}

// The functions that are kept stand at their own places.
func TestPlacesInBrokenFiles(t *testing.T) {
	for _, c := range brokenFiles {
		s := ReadFile("x.go", []byte(c.text))
		for _, f := range s.Functions {
			at := c.text[s.Position(f.At)-1:]
			brace := c.text[s.Position(f.Body.Lbrace)-1]
			name := f.Name[strings.LastIndex(f.Name, ".")+1:]
			if !f.Broken && (brace != '{' || !strings.HasPrefix(at, name) && !strings.HasPrefix(at, "func")) {
				t.Errorf("%s: %s at %.20q, its body at %c", c.name, f.Name, at, brace)
			}
		}
	}
}

// parserErrors are those of go/parser for the whole text.
func parserErrors(text string) (list scanner.ErrorList) {
	_, err := parser.ParseFile(token.NewFileSet(), "x.go", text, parser.AllErrors)
	errors.As(err, &list)
	return list
}

// go/parser's first error is among the errors, at its own place.
func TestFirstError(t *testing.T) {
	for _, c := range brokenFiles {
		s := ReadFile("x.go", []byte(c.text))
		if list := parserErrors(c.text); len(list) > 0 && !hasError(s, list[0]) {
			t.Errorf("%s: %v, go/parser has %v", c.name, s.Errors, list[0])
		}
	}
}

func hasError(s *Script, wanted *scanner.Error) bool {
	for _, e := range s.Errors {
		line, column := s.Place(e.Position)
		if e.Message == wanted.Msg && line == wanted.Pos.Line && column == wanted.Pos.Column {
			return true
		}
	}
	return false
}

func checkOrder(t *testing.T, s *Script) {
	t.Helper()
	for i := 1; i < len(s.Errors); i++ {
		if s.Errors[i].Position < s.Errors[i-1].Position {
			t.Errorf("%s: %v", s.Text, s.Errors)
		}
	}
}

// Each function that is broken has an error, before the next function or at it.
func TestErrorsOfBroken(t *testing.T) {
	for _, c := range brokenFiles {
		s := ReadFile("x.go", []byte(c.text))
		from := 1
		for _, part := range strings.SplitAfter(c.text, "\n\nfunc") {
			if strings.Contains(part, "broken") && errorsIn(s, from, from+len(part)) == 0 {
				t.Errorf("%s: no error in %q: %v", c.name, part, s.Errors)
			}
			from += len(part)
		}
	}
}

func errorsIn(s *Script, from, to int) (n int) {
	for _, e := range s.Errors {
		if from <= e.Position && e.Position <= to {
			n++
		}
	}
	return n
}

// What go/parser lets through: a goto without a label has its own error, at the keyword, in the order of places.
func TestBareGotos(t *testing.T) {
	text, places := unmarked("package p\n\nfunc a() { @goto }\n\nfunc b() { x @y }\n\nfunc c() { L: goto L; @goto; func() { @goto }() }\n")
	s := ReadFile("x.go", []byte(text))
	var at []int
	gotos := 0
	for _, e := range s.Errors {
		if e.Message == "goto needs a label" {
			gotos++
		}
		at = append(at, e.Position)
	}
	if len(at) < 4 || gotos != 3 || at[0] != places[0] || at[1] != places[1] {
		t.Errorf("%v, and the places are %d", s.Errors, places)
	}
	if kept(s) != "" {
		t.Errorf("kept %s", kept(s))
	}
}

// An error takes no other function with it, nor does it make errors elsewhere, however the others are laid out.
func TestErrorsElsewhere(t *testing.T) {
	for _, function := range []string{
		"func a() {\n\tvar x int\n\t_ = x\n}\n",
		"func a() { var x int; _ = x }\n",
		"type T struct {\n\tf func()\n}\n\nfunc a() {}\n",
	} {
		text := "package p\n\n" + function + "\nfunc broken() { x y }\n"
		checkElsewhere(t, text)
	}
}

func checkElsewhere(t *testing.T, text string) {
	t.Helper()
	s := ReadFile("x.go", []byte(text))
	if names := strings.Fields(kept(s)); len(names) == 0 || names[0] != "a" || strings.Contains(kept(s), "broken") {
		t.Errorf("%s\nkept %q", text, kept(s))
	}
	for _, e := range s.Errors {
		if e.Position < strings.Index(text, "func broken") {
			t.Errorf("%s\nan error at %d: %s", text, e.Position, e.Message)
		}
	}
}

func TestErrorsElsewhereWithoutIndents(t *testing.T) {
	for _, function := range []string{
		"func a() {\nvar x int\n_ = x\n}\n",
		"func a() {\nconst x = 1\n_ = x\n}\n",
		"func a() {\ntype T int\n}\n",
		"func a() {\nx := []func(){\nfunc() {},\n}\n_ = x\n}\n",
		"func a(\nx int,\n) {\nif x > 0 {\nvar y int\n_ = y\n}\n}\n",
	} {
		checkElsewhere(t, "package p\n\n"+function+"\nfunc broken() { x y }\n")
	}
}

func TestErrorsElsewhereWithLiterals(t *testing.T) {
	checkElsewhere(t, "package p\n\nfunc a() {\nx := []func() T{\nfunc() T { return 1 },\n}\n_ = x\n}\n\nfunc broken() { x y }\n")
}

func TestErrorsElsewhereWithIndents(t *testing.T) {
	for _, file := range []string{
		"package p\n\n\tfunc a() {}\n\n\tfunc broken() { x y }\n",
		"package p; func a() {}\nfunc broken() { x y }\n",
		"package p\n/* of a */ func a() {}\nfunc broken() { x y }\n",
	} {
		checkElsewhere(t, file)
	}
}

func TestOrderOfErrors(t *testing.T) {
	for _, text := range []string{"package p\nfunc f(\nfunc", "package p\n\nfunc f() {\n\tx++\n\nfunc (t T) g() {}\n"} {
		checkOrder(t, ReadFile("x.go", []byte(text)))
	}
}
