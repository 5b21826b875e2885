package rows

import (
	"bytes"
	"go/ast"
	"go/token"
	"reflect"
	"strings"
	"testing"
)

// Document 01 numbers the kinds from 0 on in this order.
const kindNames = "Bad Decl Empty Labeled Expr Send IncDec Assign Go Defer Return Branch Block If Case Switch TypeSwitch Comm Select For Range"

func TestKindNumbers(t *testing.T) {
	if got := strings.Join(Kinds[:], " "); got != kindNames {
		t.Errorf("kinds %s, not %s", got, kindNames)
	}
	numbers := []int{Bad, Decl, Empty, Labeled, Expr, Send, IncDec, Assign, Go, Defer, Return, Branch, Block, If, Case, Switch,
		TypeSwitch, Comm, Select, For, Range}
	for i, n := range numbers {
		if n != i {
			t.Errorf("%s is %d, not %d", Kinds[i], n, i)
		}
	}
	if Break != 0 || Continue != 1 || Goto != 2 || Fallthrough != 3 {
		t.Error("details of a Branch:", Break, Continue, Goto, Fallthrough)
	}
}

// Document 01 prints the words of this body.
func TestWordsOfDocument(t *testing.T) {
	words := parsed(t, "{goto M;L:for{}}").Words()
	wanted := []uint32{
		12, 0, 1, 0, 5,
		11, 2, 7, 1, 1,
		3, 0, 9, 2, 3,
		19, 0, 11, 0, 2,
		12, 0, 14, 0, 1,
	}
	if !reflect.DeepEqual(words.Rows, wanted) {
		t.Errorf("rows %d, not %d", words.Rows, wanted)
	}
	if pairs := []uint32{0, 1, 1, 1}; !reflect.DeepEqual(words.Pairs, pairs) {
		t.Errorf("pairs %d, not %d", words.Pairs, pairs)
	}
	if !bytes.Equal(words.Bytes, []byte{0x4d, 0x4c}) {
		t.Errorf("bytes %x", words.Bytes)
	}
	if words.RowCount() != 5 {
		t.Errorf("%d rows", words.RowCount())
	}
}

func TestWordsWithoutNames(t *testing.T) {
	words := parsed(t, "{}").Words()
	if !reflect.DeepEqual(words.Rows, []uint32{12, 0, 1, 0, 1}) || len(words.Pairs) != 0 || len(words.Bytes) != 0 {
		t.Errorf("words %v", words)
	}
}

// A name is numbered where it is first met, and has one number wherever it is met again. Its pair counts bytes.
func TestNames(t *testing.T) {
	cases := []struct {
		body    string
		names   []string
		numbers []int
		pairs   []uint32
	}{
		{"{return}", nil, []int{0, 0}, nil},
		{"{L:}", []string{"L"}, []int{0, 1, 0}, []uint32{0, 1}},
		{"{goto B; A: B: goto A; C: break A}", []string{"B", "A", "C"}, []int{0, 1, 2, 1, 2, 3, 2}, []uint32{0, 1, 1, 1, 2, 1}},
		{"{L: {L: goto L}}", []string{"L"}, []int{0, 1, 0, 1, 1}, []uint32{0, 1}},
		{"{goto l; goto L; goto _}", []string{"l", "L", "_"}, []int{0, 1, 2, 3}, []uint32{0, 1, 1, 1, 2, 1}},
		// 7 bytes: ö and ß have two each
		{"{goto größe; ende: goto _}", []string{"größe", "ende", "_"}, []int{0, 1, 2, 3}, []uint32{0, 7, 7, 4, 11, 1}},
		// the literal's labels are those of another body
		{"{A: f(func() { X: goto Y }); goto B}", []string{"A", "B"}, []int{0, 1, 0, 2}, []uint32{0, 1, 1, 1}},
	}
	for _, c := range cases {
		b := parsed(t, c.body)
		var numbers []int
		for _, r := range b.Rows {
			numbers = append(numbers, r.Name)
		}
		if !reflect.DeepEqual(b.Names, c.names) || !reflect.DeepEqual(numbers, c.numbers) {
			t.Errorf("%s: names %q, numbers %d, not %q, %d", c.body, b.Names, numbers, c.names, c.numbers)
		}
		words := b.Words()
		if !reflect.DeepEqual(words.Pairs, c.pairs) || string(words.Bytes) != strings.Join(c.names, "") {
			t.Errorf("%s: pairs %d, bytes %q", c.body, words.Pairs, words.Bytes)
		}
	}
}

// What go/parser never gives for a text without errors: bad statements, and a label on a fallthrough, whose place is the
// keyword's.
func TestBuiltTrees(t *testing.T) {
	at := func(p token.Pos) int { return int(p) }
	cases := []struct {
		statement ast.Stmt
		row       Row
	}{
		{&ast.BadStmt{From: 7, To: 9}, Row{Bad, 0, 7, 0, 1}},
		{&ast.DeclStmt{Decl: &ast.BadDecl{From: 7, To: 9}}, Row{Decl, 0, 7, 0, 1}},
		{&ast.BranchStmt{TokPos: 7, Tok: token.FALLTHROUGH, Label: &ast.Ident{NamePos: 19, Name: "L"}}, Row{Branch, 3, 7, 1, 1}},
		{&ast.BranchStmt{TokPos: 7, Tok: token.BREAK, Label: &ast.Ident{NamePos: 13, Name: "L"}}, Row{Branch, 0, 13, 1, 1}},
	}
	for _, c := range cases {
		b := Of(&ast.BlockStmt{Lbrace: 5, List: []ast.Stmt{c.statement}, Rbrace: 30}, isPanic, at)
		wanted := []Row{{Block, 0, 5, 0, 2}, c.row}
		if !reflect.DeepEqual(b.Rows, wanted) {
			t.Errorf("%T: %v, not %v", c.statement, b.Rows, wanted)
		}
	}
}

func TestUnparen(t *testing.T) {
	inner := &ast.Ident{Name: "x"}
	once := &ast.ParenExpr{X: inner}
	for _, e := range []ast.Expr{inner, once, &ast.ParenExpr{X: once}} {
		if Unparen(e) != inner {
			t.Errorf("%v keeps parentheses", e)
		}
	}
}
