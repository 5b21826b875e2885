package script

import (
	"fmt"
	"go/token"
	"strings"
	"testing"

	"zesthull/internal/rows"
)

// unmarked takes the marks @ out of a text, and gives the place of each, from 1 on.
func unmarked(marked string) (text string, places []int) {
	parts := strings.Split(marked, "@")
	for _, part := range parts[:len(parts)-1] {
		text += part
		places = append(places, len(text)+1)
	}
	return text + parts[len(parts)-1], places
}

// read parses a file in which @ stands before the place of each function, and holds the functions to these names.
func read(t *testing.T, marked, names string) *Script {
	t.Helper()
	text, places := unmarked(marked)
	s := ReadFile("x.go", []byte(text))
	if len(s.Errors) > 0 {
		t.Fatalf("%s: %v", text, s.Errors)
	}
	var found []string
	var at []int
	for _, f := range s.Functions {
		found = append(found, f.Name)
		at = append(at, s.Position(f.At))
	}
	if got := strings.Join(found, " "); got != names || fmt.Sprint(at) != fmt.Sprint(places) {
		t.Errorf("%s\n has %s at %d,\nnot %s at %d", text, got, at, names, places)
	}
	return s
}

// readAll tries a table of files and names.
func readAll(t *testing.T, cases [][2]string) {
	t.Helper()
	for _, c := range cases {
		read(t, c[0], c[1])
	}
}

// body has the rows of a function.
func body(s *Script, f Function) rows.Body { return rows.Of(f.Body, s.IsPanic, s.Position) }

// listing has a word for each row: kind, name, size, and the position if that is wanted.
func listing(b rows.Body, positions bool) string {
	var words []string
	for _, r := range b.Rows {
		word := rows.Kinds[r.Kind]
		if r.Name > 0 {
			word += "(" + b.Names[r.Name-1] + ")"
		}
		word += fmt.Sprintf(":%d", r.Size)
		if positions {
			word += fmt.Sprintf("@%d", r.Position)
		}
		words = append(words, word)
	}
	return strings.Join(words, " ")
}

// place is a place as Go's tools write it.
func place(s *Script, p token.Pos) string {
	line, column := s.Place(s.Position(p))
	return fmt.Sprintf("%d:%d", line, column)
}
