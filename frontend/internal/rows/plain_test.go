package rows

import "testing"

// plain are statements with nothing below them.
var plain = []bodyCase{
	{"@{}", "Block"},
	{"@{@;}", "Block:2 Empty"},
	{"@{@;@;@x++}", "Block:4 Empty Empty IncDec"},
	{"@{\n\n}", "Block"},

	{"@{@var x int}", "Block:2 Decl.1"},
	{"@{@var x, y = 1, 2}", "Block:2 Decl.1"},
	{"@{@var (\n x int\n y = 1\n)}", "Block:2 Decl.1"},
	{"@{@var ()}", "Block:2 Decl.1"},
	{"@{@const x = 1}", "Block:2 Decl"},
	{"@{@const (\n a = iota\n b\n)}", "Block:2 Decl"},
	{"@{@type T int}", "Block:2 Decl"},
	{"@{@type T = struct{ x int }}", "Block:2 Decl"},

	{"@{@f()}", "Block:2 Expr"},
	{"@{@(f())}", "Block:2 Expr"},
	{"@{@a.b.c(1)}", "Block:2 Expr"},
	{"@{@<-c}", "Block:2 Expr"},
	{"@{@a + b}", "Block:2 Expr"},
	{"@{@*p}", "Block:2 Expr"},
	{"@{@[]int{1}[0]}", "Block:2 Expr"},
	{"@{@struct{}{}.f()}", "Block:2 Expr"},
	{"@{@func() { x++ }()}", "Block:2 Expr"},

	{"@{@c <- 1}", "Block:2 Send"},
	{"@{@(c) <- <-d}", "Block:2 Send"},

	{"@{@x++}", "Block:2 IncDec"},
	{"@{@a[i]--}", "Block:2 IncDec"},
	{"@{@(*p).x++}", "Block:2 IncDec"},

	{"@{@x = 1}", "Block:2 Assign"},
	{"@{@x := 1}", "Block:2 Assign.1"},
	{"@{@a, b = b, a}", "Block:2 Assign"},
	{"@{@a, b := 1, 2}", "Block:2 Assign.1"},
	{"@{@_ = x}", "Block:2 Assign"},
	{"@{@_, ok := m[1]}", "Block:2 Assign.1"},
	{"@{@x += 1}", "Block:2 Assign"},
	{"@{@x &^= 1}", "Block:2 Assign"},
	{"@{@*p = 1}", "Block:2 Assign"},
	{"@{@a[f()].b = 1}", "Block:2 Assign"},
	{"@{@f := func() {}}", "Block:2 Assign.1"},

	{"@{@go f()}", "Block:2 Go"},
	{"@{@defer f()}", "Block:2 Defer"},

	{"@{@return}", "Block:2 Return"},
	{"@{@return 1, 2}", "Block:2 Return"},
	// an expression goes on in the next line, and a comment is no statement
	{"@{@return a &&\n b}", "Block:2 Return"},
	{"@{/* done */ @return}", "Block:2 Return"},
	{"@{@x = y. // so far\n z\n@return}", "Block:3 Assign Return"},
	{"@{@return; @return}", "Block:3 Return Return"},
	// the place is a byte's, also after letters of several bytes
	{"@{@ä = \"ö\"; @β++}", "Block:3 Assign IncDec"},
}

func TestPlain(t *testing.T) { tryAll(t, plain) }

// panics: as an expression statement, parentheses taken off.
var panics = []bodyCase{
	{"@{@panic(1)}", "Block:2 Expr.1"},
	{"@{@(panic(1))}", "Block:2 Expr.1"},
	{"@{@(((panic))(1))}", "Block:2 Expr.1"},
	{"@{@panic()}", "Block:2 Expr.1"},
	{"@{@panic(\n1,\n)}", "Block:2 Expr.1"},
	{"@{@panic}", "Block:2 Expr"},
	{"@{@(panic)}", "Block:2 Expr"},
	{"@{@panic.x()}", "Block:2 Expr"},
	{"@{@x.panic(1)}", "Block:2 Expr"},
	{"@{@f(panic)}", "Block:2 Expr"},
	{"@{@-panic(1)}", "Block:2 Expr"},
	{"@{@panic(1)()}", "Block:2 Expr"},
	{"@{@go panic(1)}", "Block:2 Go"},
	{"@{@defer panic(1)}", "Block:2 Defer"},
	{"@{@_ = panic}", "Block:2 Assign"},
	{"@{@return panic(1)}", "Block:2 Return"},
	{"@{@func() { panic(1) }()}", "Block:2 Expr"},
}

func TestPanics(t *testing.T) { tryAll(t, panics) }
