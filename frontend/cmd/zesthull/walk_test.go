package main

import (
	"os"
	"strings"
	"testing"
)

// Walks of statements, and all that is printed: a line for each state, and why the walk ends.
var walks = []struct{ by, text, out string }{
	{"", "return", `   0 <text>:1:1: statements
   1 <text>:1:1: return
   2 stopped
stopped after 2 steps, 0 of 0 choices used
`},
	{"1,0", "for c {\n\tx()\n}", `   0 <text>:1:1: statements
   1 <text>:1:1: for, choice 1: body
   2 <text>:1:7: block
   3 <text>:2:2: expression
   4 <text>:1:1: for, choice 0: on
   5 <text>:3:2: the closing brace
fell off the closing brace after 5 steps, 2 of 2 choices used
`},
	{"1,5", "{\n\tswitch {\n\tcase a:\n\t\tx()\n\t}\n}", `   0 <text>:1:1: statements
   1 <text>:2:2: switch, choice 1: on
   2 <text>:6:1: the closing brace
fell off the closing brace after 2 steps, 1 of 2 choices used
`},
	{"1", "L: for range a { for b { continue L } }", `   0 <text>:1:1: statements
   1 <text>:1:1: label L
   2 <text>:1:4: range, choice 1: body
   3 <text>:1:16: block
   4 <text>:1:18: for
no choice left after 4 steps, 1 of 1 choice used; 2 choices are open, 0 to 1:
	0: on, <text>:1:4
	1: body, <text>:1:24
`},
	{"", "switch { default: }", `   0 <text>:1:1: statements
   1 <text>:1:1: switch
no choice left after 1 step, 0 of 0 choices used; 1 choice is open, 0:
	0: default, <text>:1:10
`},
	{"3", "select {}", `   0 <text>:1:1: statements
   1 <text>:1:1: select
   2 stopped
stopped after 2 steps, 0 of 1 choice used
`},
}

func TestWalks(t *testing.T) {
	for _, c := range walks {
		with("", "walk", "-by", c.by, "-e", c.text).expect(t, c.text, 0, c.out, false)
	}
}

func TestWalkLimit(t *testing.T) {
	const wanted = `   0 <text>:1:1: statements
   1 <text>:1:1: for
   2 <text>:1:5: block
   3 <text>:1:1: for
at the limit after 3 steps, 0 of 0 choices used
`
	with("", "walk", "-limit", "3", "-e", "for {}").expect(t, "3", 0, wanted, false)
	with("", "walk", "-limit", "0", "-e", "for {}").expect(t, "0", 0,
		"   0 <text>:1:1: statements\nat the limit after 0 steps, 0 of 0 choices used\n", false)
	for limit, args := range map[string][]string{"1000": {"walk", "-e", "for {}"}, "10000": {"walk", "-limit", "10000", "-e", "for {}"}} {
		if r := with("", args...); r.code != 0 || !strings.HasSuffix(r.out, "\nat the limit after "+limit+" steps, 0 of 0 choices used\n") {
			t.Errorf("%q: exit code %d, printed %d bytes", args, r.code, len(r.out))
		}
	}
}

const walkScript = `package p

func f(a []int) int {
	for range a {
		if b {
			return 1
		}
	}
}

func (t *T) g() {
	func() { x++ }()
}
`

// A body is chosen as for rows: by its name, or as the only one; of a file, or of standard input.
func TestWalkSources(t *testing.T) {
	const f = `   0 NAME:3:21: func f
   1 NAME:4:2: range, choice 1: body
   2 NAME:4:14: block
   3 NAME:5:3: if, choice 0: on
   4 NAME:4:2: range, choice 0: on
   5 NAME:9:1: the closing brace
fell off the closing brace after 5 steps, 3 of 3 choices used
`
	const literal = `   0 a.go:12:9: func T.g.func1
   1 a.go:12:11: ++ or --
   2 a.go:12:15: the closing brace
fell off the closing brace after 2 steps, 0 of 0 choices used
`
	inFolder(t, map[string]string{"a.go": walkScript, "1": "return"})
	with("", "walk", "-func", "f", "-by", "1,0,0", "a.go").expect(t, "f", 0, strings.ReplaceAll(f, "NAME", "a.go"), false)
	with(walkScript, "walk", "-by", "1,0,0", "-func", "f", "-").expect(t, "-", 0, strings.ReplaceAll(f, "NAME", "<standard input>"), false)
	with("", "walk", "-func", "T.g.func1", "a.go").expect(t, "a literal", 0, literal, false)
	with("", "walk", "1").expect(t, "a file named 1", 0,
		"   0 1:1:1: statements\n   1 1:1:1: return\n   2 stopped\nstopped after 2 steps, 0 of 0 choices used\n", false)
}

// A choice out of range: the walk up to it, and then what was wrong and which choices are open.
func TestChoiceOutOfRange(t *testing.T) {
	const out = `   0 <text>:1:1: statements
   1 <text>:1:1: for, choice 1: body
   2 <text>:1:7: block
   3 <text>:1:9: switch
`
	const complaint = `zesthull walk: <text>:1:9: choice 7, number 2 of 3 in -by, is out of range at this switch; 3 choices are open, 0 to 2:
	0: case, <text>:1:18
	1: case, <text>:1:26
	2: on, <text>:1:1
`
	r := with("", "walk", "-by", "1,7,0", "-e", "for c { switch { case a: case b: } }")
	if r != (ran{1, out, complaint}) {
		t.Errorf("%+v", r)
	}
	// never met: past the end, or past the limit
	if r := with("", "walk", "-by", "0,7", "-e", "for c {}"); r.code != 0 || r.err != "" {
		t.Errorf("past the end: %+v", r)
	}
	if r := with("", "walk", "-by", "7", "-limit", "1", "-e", "for c {}"); r.code != 0 || r.err != "" {
		t.Errorf("past the limit: %+v", r)
	}
}

// A body with faults has no walk: they are told, and those of no other body; a missing return is none of them.
func TestNoWalkOfFaults(t *testing.T) {
	const text = `package p

func f() int {
L:
	func() { break }()
	continue
L:
	goto M
}

func g() int { x() }
`
	const complaint = `zesthull walk: a.go:3:6: func f: no walk, since it has faults:
a.go:4:1: label L defined and not used
a.go:6:2: continue is not in a loop
a.go:7:1: label L already defined
	a.go:4:1: other declaration of L
a.go:8:7: label M not defined
`
	inFolder(t, map[string]string{"a.go": text})
	if r := with("", "walk", "-func", "f", "-by", "7", "a.go"); r != (ran{1, "", complaint}) {
		t.Errorf("%+v", r)
	}
	if r := with("", "walk", "-func", "g", "a.go"); r.code != 0 || r.err != "" || !strings.Contains(r.out, "fell off the closing brace") {
		t.Errorf("%+v", r)
	}
	with("break", "walk", "-").expect(t, "-", 1, "", true)
	const inTypeSwitch = `zesthull walk: <text>:1:1: statements: no walk, since it has faults:
<text>:1:29: cannot fallthrough in type switch
`
	if r := with("", "walk", "-e", "switch x.(type) { case int: fallthrough; default: }"); r != (ran{1, "", inTypeSwitch}) {
		t.Errorf("%+v", r)
	}
}

// What can't be read or is wrongly asked for.
func TestNoWalk(t *testing.T) {
	inFolder(t, map[string]string{"a.go": walkScript, "long.go": files["long.go"]})
	cases := []struct {
		name  string
		args  []string
		words []string
	}{
		{"several", []string{"a.go"}, []string{"a.go", "-func", "f", "T.g", "T.g.func1"}},
		{"no such function", []string{"-func", "h", "a.go"}, []string{"a.go", "h"}},
		{"missing", []string{"missing.go"}, []string{"missing.go"}},
		{"a syntax error", []string{"-e", "foo bar"}, []string{"1:5", "found bar"}},
		{"too many rows", []string{"long.go"}, []string{"long.go:1:17", "2,000"}},
		{"too deep", []string{"-e", strings.Repeat("{", 101) + strings.Repeat("}", 101)}, []string{"100 deep"}},
		{"flags after the file", []string{"-func", "f", "a.go", "-by", "1"}, []string{"after the flags"}},
		{"a choice that is no number", []string{"-by", "1,x", "-e", "return"}, []string{"-by", `"x"`, "1,0,2"}},
		{"a choice below 0", []string{"-by", "-1", "-e", "return"}, []string{"-by", `"-1"`}},
		{"no choice after a comma", []string{"-by", "1,", "-e", "return"}, []string{"-by", `""`}},
		{"a choice too great", []string{"-by", "4294967296", "-e", "return"}, []string{"-by", "4294967295"}},
		{"spaces for commas", []string{"-by", "1 0", "-e", "return"}, []string{"-by", `"1 0"`}},
		{"no limit", []string{"-limit", "", "-e", "return"}, []string{"-limit"}},
		{"a limit below 0", []string{"-limit", "-1", "-e", "return"}, []string{"-limit"}},
		{"a limit too great", []string{"-limit", "10001", "-e", "return"}, []string{"-limit", "10000"}},
	}
	for _, c := range cases {
		with("", append([]string{"walk"}, c.args...)...).complains(t, c.name, c.words...)
	}
}

func TestWalkOfStreamsThatFail(t *testing.T) {
	var out, err strings.Builder
	if code := run([]string{"walk", "-"}, failing{}, &out, &err); code != 2 || out.Len() > 0 || !strings.Contains(err.String(), "no reading") {
		t.Errorf("%d %q %q", code, &out, &err)
	}
	err.Reset()
	if code := run([]string{"walk", "-e", "return"}, nil, failing{}, &err); code != 2 || !strings.Contains(err.String(), "no writing") {
		t.Errorf("%d %q", code, &err)
	}
}

// The walk that the README shows.
func TestWalkOfExample(t *testing.T) {
	if err := os.Chdir("../../.."); err != nil {
		t.Fatal(err)
	}
	defer os.Chdir("frontend/cmd/zesthull")
	const wanted = `   0 examples/paper.go:7:59: func find
   1 examples/paper.go:8:1: label search
   2 examples/paper.go:9:2: range, choice 1: body
   3 examples/paper.go:9:23: block
   4 examples/paper.go:10:3: range, choice 1: body
   5 examples/paper.go:10:32: block
   6 examples/paper.go:11:4: if, choice 1: body
   7 examples/paper.go:11:33: block
   8 examples/paper.go:12:11: break search
   9 examples/paper.go:16:1: the closing brace
fell off the closing brace after 9 steps, 3 of 3 choices used
`
	with("", "walk", "-func", "find", "-by", "1,1,1", "examples/paper.go").expect(t, "find", 0, wanted, false)
}
