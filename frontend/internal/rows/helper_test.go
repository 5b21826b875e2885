package rows

import (
	"fmt"
	"go/ast"
	"go/parser"
	"go/token"
	"strings"
	"testing"
)

// before makes a body in braces a file.
const before = "package p; func _() "

// unmarked takes the marks @ out of a text, and gives the place of each, from 1 on.
func unmarked(marked string) (text string, places []int) {
	parts := strings.Split(marked, "@")
	for _, part := range parts[:len(parts)-1] {
		text += part
		places = append(places, len(text)+1)
	}
	return text + parts[len(parts)-1], places
}

// parsed has the rows of a body in braces; every call of something named panic is taken for a panic.
func parsed(t *testing.T, text string) Body {
	t.Helper()
	fset := token.NewFileSet()
	file, err := parser.ParseFile(fset, "", before+text, 0)
	if err != nil {
		t.Fatalf("%s: %v", text, err)
	}
	body := file.Decls[0].(*ast.FuncDecl).Body
	return Of(body, isPanic, func(p token.Pos) int { return fset.Position(p).Offset - len(before) + 1 })
}

func isPanic(call *ast.CallExpr) bool {
	name, ok := Unparen(call.Fun).(*ast.Ident)
	return ok && name.Name == "panic"
}

// listing is a body on one line, a word for each row: the kind, a dot and the detail if it isn't 0, the name in parentheses
// if there is one, a colon and the size if it isn't 1.
func listing(b Body) string {
	var words []string
	for _, r := range b.Rows {
		word := Kinds[r.Kind]
		if r.Detail != 0 {
			word += fmt.Sprintf(".%d", r.Detail)
		}
		if r.Name != 0 {
			word += "(" + b.Names[r.Name-1] + ")"
		}
		if r.Size != 1 {
			word += fmt.Sprintf(":%d", r.Size)
		}
		words = append(words, word)
	}
	return strings.Join(words, " ")
}

// A bodyCase is a body, with @ before the place of each row, and its listing.
type bodyCase struct{ body, rows string }

func (c bodyCase) try(t *testing.T) {
	t.Helper()
	text, places := unmarked(c.body)
	b := parsed(t, text)
	if got := listing(b); got != c.rows {
		t.Errorf("%s\n has %s\nnot %s", text, got, c.rows)
		return
	}
	if len(places) != len(b.Rows) {
		t.Fatalf("%s: %d marks for %d rows", c.body, len(places), len(b.Rows))
	}
	for i, r := range b.Rows {
		if r.Position != places[i] {
			t.Errorf("%s: row %d at %d, not %d", text, i, r.Position, places[i])
		}
	}
}

func tryAll(t *testing.T, cases []bodyCase) {
	t.Helper()
	for _, c := range cases {
		c.try(t)
	}
}
