package script

import (
	"strings"
	"testing"
)

// Lists of statements, with and without braces around them, and their rows. Row 0 has the brace's place, or 1 without one.
func TestStatements(t *testing.T) {
	cases := []struct{ text, rows string }{
		{"", "Block:1@1"},
		{"\n\n", "Block:1@1"},
		{"// nothing", "Block:1@1"},
		{"/* nothing */", "Block:1@1"},
		{"{}", "Block:1@1"},
		{"return", "Block:2@1 Return:1@1"},
		{"{return}", "Block:2@1 Return:1@2"},
		{"  {return}\n", "Block:2@3 Return:1@4"},
		{"/* all */ {\n\treturn\n} // of it", "Block:2@11 Return:1@14"},
		{"{return};", "Block:2@1 Return:1@2"},
		{"{{return}}", "Block:3@1 Block:2@2 Return:1@3"},
		{"return // the end", "Block:2@1 Return:1@1"},
		{"x++ /* and */; return /* so */", "Block:3@1 IncDec:1@1 Return:1@16"},
		{"L:", "Block:3@1 Labeled(L):2@1 Empty:1@3"},
		{"L: // here", "Block:3@1 Labeled(L):2@1 Empty:1@11"},
		// more than a block
		{"{}; {}", "Block:3@1 Block:1@1 Block:1@5"},
		{"{return}; x++", "Block:4@1 Block:2@1 Return:1@2 IncDec:1@11"},
		{"L: {return}", "Block:4@1 Labeled(L):3@1 Block:2@4 Return:1@5"},
		{"for {}", "Block:3@1 For:2@1 Block:1@5"},
		// line ends of two bytes, and letters of two
		{"x++\r\nreturn\r\n", "Block:3@1 IncDec:1@1 Return:1@6"},
		{"{\r\n\tx++\r\n}\r\n", "Block:2@1 IncDec:1@5"},
		{"ä = 1; goto ö", "Block:3@1 Assign:1@1 Branch(ö):1@14"},
		{"`a\nb`; return", "Block:3@1 Expr:1@1 Return:1@8"},
		// the text brings no words of its own to what is put around it
		{"var p, _ = 1, 2; p++", "Block:3@1 Decl:1@1 IncDec:1@18"},
	}
	for _, c := range cases {
		s := Read("", []byte(c.text))
		if len(s.Errors) > 0 || len(s.Functions) != 1 || !s.HasStatements() {
			t.Errorf("%q: %v %v", c.text, s.Functions, s.Errors)
			continue
		}
		f := s.Functions[0]
		if got := listing(body(s, f), true); got != c.rows || f.Broken || f.HasResults {
			t.Errorf("%q has %s,\nnot %s", c.text, got, c.rows)
		}
	}
}

// Texts that are no list of statements. The first error is at the place that is marked.
func TestNoStatements(t *testing.T) {
	for _, marked := range []string{
		// these passed the hand-written parser
		"@case 1:", "return @return", "foo @bar",
		// braces
		"{@", "if x {@", "for {{}@", "@} func g() {", "@}; func g() {", "@}\nfunc g() {", "@}; var x = func() {", "@}; type T struct {", "x++; @}; var x = T{",
		// not ended
		"@\"abc", "@`abc", "@'", "x = @'", "@/* so", "x := @", "return a &&@",
		// not statements
		"@func f() {}", "@import \"x\"", "@default:", "@else {}", "L: @case 1:", "@a, b", "break @1", "fallthrough @L", "@goto", "@goto; L:",
		"for i := range x { @goto }", "f(func() { @goto })", "var @x", "defer f@", "go x.y@", "x @y z", "@#", "@\x00", "x = @\xff",
	} {
		text, places := unmarked(marked)
		s := Read("", []byte(text))
		if len(s.Errors) == 0 {
			t.Errorf("%q: no error", text)
			continue
		}
		for _, f := range s.Functions {
			if !f.Broken {
				t.Errorf("%q: a body that isn't broken", text)
			}
		}
		if s.Errors[0].Position != places[0] {
			t.Errorf("%q: the first error at %d, not %d: %v", text, s.Errors[0].Position, places[0], s.Errors)
		}
	}
}

// A brace too many at the end has its error at the brace.
func TestStrayBrace(t *testing.T) {
	for _, marked := range []string{"@}", "x++\n@}\n", "{}@}", "if x { }; @} // end"} {
		text, places := unmarked(marked)
		s := Read("", []byte(text))
		if len(s.Errors) == 0 || s.Errors[0].Position != places[0] {
			t.Errorf("%q: %v, not at %d", text, s.Errors, places[0])
		}
	}
}

// Read takes for a file what begins with a package clause.
func TestFileOrStatements(t *testing.T) {
	cases := []struct {
		text       string
		statements bool
	}{
		{"package p", false},
		{"package p; func f() {}", false},
		{"\n// with words\n/* before it */ package p", false},
		{"\xef\xbb\xbfpackage p; func f() {}", false},
		{"", true},
		{"return", true},
		{"// package p", true},
		{"packages++", true},
		{"x = \"package p\"", true},
	}
	for _, c := range cases {
		s := Read("", []byte(c.text))
		if len(s.Errors) > 0 || s.HasStatements() != c.statements {
			t.Errorf("%q: statements %v, %v", c.text, s.HasStatements(), s.Errors)
		}
	}
}

// ReadFile takes nothing but a file. Without a package clause its functions are still found.
func TestFileOnly(t *testing.T) {
	functions := map[string]int{"": 0, "return": 0, "{}": 0, "// package p": 0, "func f() {}": 1}
	for text, n := range functions {
		if s := ReadFile("x.go", []byte(text)); len(s.Errors) == 0 || len(s.Functions) != n {
			t.Errorf("%q: %v %v", text, s.Functions, s.Errors)
		}
	}
}

// A byte order mark before the package clause is passed over, and its three bytes count.
func TestByteOrderMark(t *testing.T) {
	s := ReadFile("x.go", []byte("\xef\xbb\xbfpackage p; func f() {}"))
	if len(s.Errors) > 0 || len(s.Functions) != 1 || place(s, s.Functions[0].At) != "1:20" {
		t.Errorf("%v %v", s.Functions, s.Errors)
	}
}

func TestByteOrderMarkBeforeStatements(t *testing.T) {
	for text, wanted := range map[string]string{"\xef\xbb\xbfreturn": "Return:1@4", "\xef\xbb\xbf{return}": "Return:1@5"} {
		s := Read("", []byte(text))
		if len(s.Errors) > 0 || !strings.HasSuffix(listing(body(s, s.Functions[0]), true), wanted) {
			t.Errorf("%q: %v %v", text, s.Functions, s.Errors)
		}
	}
}
