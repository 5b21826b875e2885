package script

import (
	"go/ast"
	"strings"
	"testing"
)

// The place of each byte, line ends included, and of the text's end.
func TestPlace(t *testing.T) {
	s := Read("", []byte("ab\n\ncd\r\n\tß x"))
	wanted := [][2]int{{1, 1}, {1, 2}, {1, 3}, {2, 1}, {3, 1}, {3, 2}, {3, 3}, {3, 4}, {4, 1}, {4, 2}, {4, 3}, {4, 4}, {4, 5}, {4, 6}}
	for i, w := range wanted {
		if line, column := s.Place(i + 1); line != w[0] || column != w[1] {
			t.Errorf("position %d is at %d:%d, not %d:%d", i+1, line, column, w[0], w[1])
		}
	}
}

func TestPlaceOfNothing(t *testing.T) {
	if line, column := Read("", nil).Place(1); line != 1 || column != 1 {
		t.Errorf("%d:%d", line, column)
	}
}

// A position leads back to the word at it, in files and in lists of statements.
func TestPositionOfWords(t *testing.T) {
	const list = "x := 1\r\n\tif x > 0 { // größer\n\t\tgoto ende\n\t}\nende:\n\treturn\n"
	for _, text := range []string{list, "{" + list + "}", "package p\n\nfunc f() {\n" + list + "}\n"} {
		s := Read("", []byte(text))
		if len(s.Errors) > 0 {
			t.Fatal(s.Errors)
		}
		words := 0
		ast.Inspect(s.Functions[0].Body, func(n ast.Node) bool {
			if name, ok := n.(*ast.Ident); ok {
				words++
				p := s.Position(name.Pos())
				line, column := s.Place(p)
				if !strings.HasPrefix(text[p-1:], name.Name) || !strings.HasPrefix(strings.Split(text, "\n")[line-1][column-1:], name.Name) {
					t.Errorf("%q: %s at position %d, %d:%d", text, name.Name, p, line, column)
				}
			}
			return true
		})
		if words != 4 {
			t.Errorf("%q: %d words", text, words)
		}
	}
}

// A line directive, which Go's compiler follows, changes no place.
func TestLineDirective(t *testing.T) {
	s := ReadFile("x.go", []byte("package p\n//line y.go:100\nfunc f() {\n/*line z.go:7:9*/ x y\n}\n"))
	if len(s.Functions) != 1 || place(s, s.Functions[0].At) != "3:6" {
		t.Errorf("%v", s.Functions)
	}
	if line, column := s.Place(s.Errors[0].Position); line != 4 || column != 21 {
		t.Errorf("the error at %d:%d", line, column)
	}
}
