package script

import (
	"errors"
	"go/ast"
	"go/parser"
	"go/scanner"
	"go/token"
	"sort"
)

// A piece is a part of the text as it was parsed: all of it, or one declaration, with something before and after it that
// makes it a file.
type piece struct {
	file   *ast.File
	tokens *token.File
	// start is where the part begins in the text, before how many bytes stand before it in what was parsed.
	start, before int
	errors        []SyntaxError
}

// offset is the place in the text of an offset in what was parsed.
func (p piece) offset(parsed int) int { return parsed - p.before + p.start }

func (s *Script) parse(start, end int, before, after string) piece {
	text := append([]byte(before), s.Text[start:end]...)
	text = append(text, after...)
	p := piece{start: start, before: len(before)}
	base := s.fset.Base()
	file, err := parser.ParseFile(s.fset, s.Name, text, parser.AllErrors)
	p.file, p.tokens = file, s.fset.File(token.Pos(base))
	var list scanner.ErrorList
	if errors.As(err, &list) {
		for _, e := range list {
			p.errors = append(p.errors, SyntaxError{s.position(p.offset(e.Pos.Offset)), e.Msg})
		}
	}
	p.errors = inOrder(append(p.errors, s.bareGotos(p)...))
	return p
}

// inOrder sorts the errors by their places, and tells none twice.
func inOrder(list []SyntaxError) (sorted []SyntaxError) {
	sort.SliceStable(list, func(i, j int) bool { return list[i].Position < list[j].Position })
	told := map[SyntaxError]bool{}
	for _, e := range list {
		if !told[e] {
			sorted = append(sorted, e)
			told[e] = true
		}
	}
	return sorted
}

// bareGotos has an error for each goto without a label, which go/parser lets through.
func (s *Script) bareGotos(p piece) (list []SyntaxError) {
	if p.file == nil {
		return nil
	}
	ast.Inspect(p.file, func(n ast.Node) bool {
		if b, ok := n.(*ast.BranchStmt); ok && b.Tok == token.GOTO && b.Label == nil {
			list = append(list, SyntaxError{s.position(p.offset(int(b.TokPos) - p.tokens.Base())), "goto needs a label"})
		}
		return true
	})
	return list
}

// parseDeclarations parses each declaration by itself, after the errors of the whole were found. The first of these counts in
// any case, and so do all before the first declaration. Another counts if its declaration has an error by itself; else it
// only follows from an earlier one.
func (s *Script) parseDeclarations(whole []SyntaxError) {
	starts := append(s.declarationStarts(), len(s.Text)+1)
	first, rest := whole[0], whole[1:]
	here, rest := upTo(rest, starts[0])
	s.Errors = append([]SyntaxError{first}, here...)
	for i, start := range starts[:len(starts)-1] {
		end := starts[i+1]
		here, rest = upTo(rest, end)
		p := s.parse(start, min(end, len(s.Text)), "package p;", "")
		s.pieces = append(s.pieces, p)
		if len(p.errors) == 0 {
			continue
		}
		if len(here) == 0 && (first.Position <= start || end < first.Position) {
			here = p.errors
		}
		s.Errors = append(s.Errors, here...)
	}
	s.Errors = inOrder(s.Errors)
}

// upTo divides the errors, which are in the order of their places: those before the offset, and the others.
func upTo(list []SyntaxError, offset int) (before, rest []SyntaxError) {
	n := sort.Search(len(list), func(i int) bool { return list[i].Position > offset })
	return list[:n], list[n:]
}

func min(a, b int) int {
	if a < b {
		return a
	}
	return b
}

// A word is a token and its offset in the text.
type word struct {
	token  token.Token
	offset int
}

// words are the tokens of the text, and EOF.
func (s *Script) words() (list []word) {
	var scan scanner.Scanner
	file := token.NewFileSet().AddFile("", 1, len(s.Text))
	scan.Init(file, s.Text, func(token.Position, string) {}, 0)
	for {
		p, t, _ := scan.Scan()
		list = append(list, word{t, file.Offset(p)})
		if t == token.EOF {
			return list
		}
	}
}

// declarationStarts are the places where a declaration begins: a func with a name and parameters, which stands nowhere else;
// and another declaration's word at the beginning of a line where no bracket is open since the last start.
func (s *Script) declarationStarts() (starts []int) {
	list, open := s.words(), 0
	for i, w := range list {
		open += bracket(w.token)
		first := w.offset == 0 || s.Text[w.offset-1] == '\n'
		if namesFunction(list[i:]) || first && open <= 0 && declares(w.token) {
			starts = append(starts, w.offset)
			open = 0
		}
	}
	return starts
}

func bracket(t token.Token) int {
	switch t {
	case token.LBRACE, token.LPAREN, token.LBRACK:
		return 1
	case token.RBRACE, token.RPAREN, token.RBRACK:
		return -1
	}
	return 0
}

func declares(t token.Token) bool {
	return t == token.VAR || t == token.CONST || t == token.TYPE || t == token.IMPORT
}

// namesFunction tells whether the words begin with func, a receiver or none, a name, and a bracket.
func namesFunction(list []word) bool {
	if list[0].token != token.FUNC {
		return false
	}
	list = list[1:]
	if list[0].token == token.LPAREN {
		list = afterBrackets(list)
	}
	return len(list) > 1 && list[0].token == token.IDENT && (list[1].token == token.LPAREN || list[1].token == token.LBRACK)
}

// afterBrackets are the words after the bracket that closes the first.
func afterBrackets(list []word) []word {
	open := 0
	for i, w := range list {
		open += bracket(w.token)
		if open == 0 {
			return list[i+1:]
		}
	}
	return nil
}
