// Package script reads a Go file, or a list of statements, with Go's own parser, and finds its function bodies.
package script

import (
	"bytes"
	"go/ast"
	"go/scanner"
	"go/token"
	"sort"
)

// A Script is a file, or the text of some statements, as Go's parser reads it.
type Script struct {
	Name string
	Text []byte
	// Functions are in the order of their places.
	Functions []Function
	// Errors are the syntax errors, in the order of their places.
	Errors []SyntaxError

	fset   *token.FileSet
	pieces []piece
	lines  []int
	panics map[*ast.CallExpr]bool
}

// A SyntaxError is one of go/parser's, at a place of the text.
type SyntaxError struct {
	Position int
	Message  string
}

func newScript(name string, text []byte) *Script {
	return &Script{Name: name, Text: text, fset: token.NewFileSet(), lines: lineStarts(text)}
}

// Read parses the text: a file if it begins with a package clause, else a list of statements.
func Read(name string, text []byte) *Script {
	if isFile(text) {
		return ReadFile(name, text)
	}
	return ReadStatements(name, text)
}

// isFile tells whether the first word of the text is package.
func isFile(text []byte) bool {
	var s scanner.Scanner
	fset := token.NewFileSet()
	s.Init(fset.AddFile("", fset.Base(), len(text)), text, func(token.Position, string) {}, 0)
	_, first, _ := s.Scan()
	return first == token.PACKAGE
}

// ReadFile parses a Go file. Where it has a syntax error each declaration is parsed by itself too, so that the error takes
// no other function with it.
func ReadFile(name string, text []byte) *Script {
	s := newScript(name, text)
	whole := s.parse(0, len(text), "", "")
	if len(whole.errors) == 0 {
		s.pieces = []piece{whole}
	} else {
		s.parseDeclarations(whole.errors)
	}
	s.findFunctions()
	s.findPanics()
	return s
}

// What stands before and after a list of statements to make it a file.
const (
	header = "package p; func _() {"
	footer = "\n}"
)

// ReadStatements parses a list of statements, with or without braces around it, as one body.
func ReadStatements(name string, text []byte) *Script {
	s := newScript(name, text)
	s.pieces = []piece{s.parse(len(byteOrderMark(text)), len(text), header, footer)}
	s.Errors = s.pieces[0].errors
	s.findFunctions()
	s.keepStatements()
	s.findPanics()
	return s
}

// byteOrderMark is the mark at the start of the text, which go/parser passes over in a file; or nothing.
func byteOrderMark(text []byte) []byte {
	mark := []byte("\uFEFF")
	if bytes.HasPrefix(text, mark) {
		return mark
	}
	return nil
}

// keepStatements makes the statements the one body: the braces are those around the text, or none written. A brace that
// closes the body before the text ends is an error.
func (s *Script) keepStatements() {
	if len(s.Functions) == 0 {
		return
	}
	f := &s.Functions[0]
	if end := s.offset(f.Body.Rbrace); f.Body.Rbrace.IsValid() && end < len(s.Text) {
		before, _ := upTo(s.Errors, end)
		s.Errors = append(before, SyntaxError{s.position(end), "a '}' without its '{'"})
		for i := range s.Functions {
			s.Functions[i].Broken = true
		}
	}
	if f.Broken {
		return
	}
	f.Statements, f.At = true, f.Body.Lbrace
	if block, ok := onlyBlock(f.Body); ok {
		f.Body, f.At = block, block.Lbrace
	}
}

func onlyBlock(body *ast.BlockStmt) (*ast.BlockStmt, bool) {
	if len(body.List) != 1 {
		return nil, false
	}
	block, ok := body.List[0].(*ast.BlockStmt)
	return block, ok
}

// HasStatements tells whether the script is a list of statements and no file.
func (s *Script) HasStatements() bool { return len(s.Functions) > 0 && s.Functions[0].Statements }

// Position is the number of a place: 1 + the byte's place in the text. Row 0 of statements without braces has 1; what ends
// past the text, as a function cut off by a syntax error does, ends with it.
func (s *Script) Position(p token.Pos) int { return s.position(s.offset(p)) }

func (s *Script) position(offset int) int {
	switch {
	case offset < 0:
		return 1
	case offset > len(s.Text):
		return len(s.Text) + 1
	}
	return offset + 1
}

// offset is the byte's place in the text.
func (s *Script) offset(p token.Pos) int {
	i := sort.Search(len(s.pieces), func(i int) bool { return token.Pos(s.pieces[i].tokens.Base()) > p }) - 1
	if i < 0 {
		return 0
	}
	return s.pieces[i].offset(int(p) - s.pieces[i].tokens.Base())
}

// Place is the line and the column of a position, both from 1, the column in bytes.
func (s *Script) Place(position int) (line, column int) {
	offset := position - 1
	line = sort.Search(len(s.lines), func(i int) bool { return s.lines[i] > offset })
	return line, offset - s.lines[line-1] + 1
}

// lineStarts are the offsets at which the lines of the text begin. As for Go's tools, the end of the text begins none.
func lineStarts(text []byte) []int {
	starts := []int{0}
	for i, b := range text {
		if b == '\n' && i+1 < len(text) {
			starts = append(starts, i+1)
		}
	}
	return starts
}
