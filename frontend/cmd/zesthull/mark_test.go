package main

import (
	"errors"
	"fmt"
	"os"
	"strings"
	"testing"
)

const (
	faultyOut = "faulty.go:4:2: break is not in a loop, switch, or select\nfaulty.go:5:1: missing return\n"
	brokenOut = "broken.go:3:12: goto needs a label\n"
)

// files are one of each kind.
var files = map[string]string{
	"clean.go": cleanScript, "faulty.go": faultyScript, "broken.go": brokenScript,
	"long.go": "package p; func f() {" + strings.Repeat("x++;", 2000) + "}",
}

// 0 clean, 1 faults, 2 what couldn't be read or is over a limit; of several files the greatest.
func TestExitCodes(t *testing.T) {
	inFolder(t, files)
	cases := []struct {
		names     string
		code      int
		out       string
		complaint bool
	}{
		{"clean.go", 0, "", false},
		{"faulty.go", 1, faultyOut, false},
		{"broken.go", 2, brokenOut, false},
		{"missing.go", 2, "", true},
		{"clean.go clean.go", 0, "", false},
		{"clean.go faulty.go", 1, faultyOut, false},
		{"faulty.go clean.go", 1, faultyOut, false},
		{"faulty.go broken.go", 2, faultyOut + brokenOut, false},
		{"broken.go faulty.go clean.go", 2, brokenOut + faultyOut, false},
		{"faulty.go missing.go clean.go", 2, faultyOut, true},
		{"missing.go faulty.go", 2, faultyOut, true},
	}
	for _, c := range cases {
		with("", append([]string{"mark"}, strings.Fields(c.names)...)...).expect(t, c.names, c.code, c.out, c.complaint)
	}
}

// A refusal is told in words, at the function's name.
func TestRefused(t *testing.T) {
	inFolder(t, files)
	for _, args := range [][]string{{"mark", "long.go"}, {"mark", "-v", "long.go"}} {
		r := with("", args...)
		if r.code != 2 || r.err != "" || !strings.HasPrefix(r.out, "long.go:1:17: func f: not marked: ") || !strings.Contains(r.out, "2,000") || strings.Count(r.out, "\n") != 1 {
			t.Errorf("%q: %+v", args, r)
		}
	}
	if r := with("", "mark", "clean.go", "long.go", "faulty.go"); r.code != 2 || !strings.HasSuffix(r.out, faultyOut) {
		t.Errorf("%+v", r)
	}
}

// A complaint names the file.
func TestMissingFile(t *testing.T) {
	inFolder(t, nil)
	if r := with("", "mark", "no/such.go"); !strings.Contains(r.err, "no/such.go") {
		t.Errorf("%+v", r)
	}
}

// The other place has a line of its own, indented, after the line that it belongs to.
func TestOtherPlace(t *testing.T) {
	const text = "package p\n\nfunc f() {\nL:\n\tgoto L\n\n  L:\n\tgoto M\n}\n"
	const wanted = "<standard input>:7:3: label L already defined\n\t<standard input>:4:1: other declaration of L\n<standard input>:8:7: label M not defined\n"
	with(text, "mark", "-").expect(t, "two labels", 1, wanted, false)
}

func TestStandardInput(t *testing.T) {
	with(cleanScript, "mark", "-").expect(t, "clean", 0, "", false)
	with("return", "mark", "-").expect(t, "statements", 0, "", false)
	with("", "mark", "-").expect(t, "nothing", 0, "", false)
	with("x++\n\tbreak", "mark", "-").expect(t, "statements", 1, "<standard input>:2:2: break is not in a loop, switch, or select\n", false)
	with("goto", "mark", "-").expect(t, "a bare goto", 2, "<standard input>:1:1: goto needs a label\n", false)
}

func TestStandardInputAmongFiles(t *testing.T) {
	inFolder(t, files)
	r := with("continue", "mark", "faulty.go", "-", "broken.go")
	r.expect(t, "all", 2, faultyOut+"<standard input>:1:1: continue is not in a loop\n"+brokenOut, false)
}

// failing can't be read, nor written.
type failing struct{}

func (failing) Read([]byte) (int, error)  { return 0, errors.New("no reading") }
func (failing) Write([]byte) (int, error) { return 0, errors.New("no writing") }

func TestStreamsThatFail(t *testing.T) {
	var out, err strings.Builder
	if code := run([]string{"mark", "-"}, failing{}, &out, &err); code != 2 || out.Len() > 0 || !strings.Contains(err.String(), "no reading") {
		t.Errorf("%d %q %q", code, &out, &err)
	}
	err.Reset()
	if code := run([]string{"mark", "-"}, strings.NewReader("break"), failing{}, &err); code != 2 || !strings.Contains(err.String(), "no writing") {
		t.Errorf("%d %q", code, &err)
	}
}

// A file whose name ends in .go is a Go file; any other is one too, or a list of statements.
func TestKindsOfFiles(t *testing.T) {
	inFolder(t, map[string]string{"a.go": "break", "a.txt": "break", "b.txt": faultyScript, "c": "// only\n"})
	if r := with("", "mark", "a.go"); r.code != 2 || !strings.HasPrefix(r.out, "a.go:1:1: expected 'package'") {
		t.Errorf("a.go: %+v", r)
	}
	with("", "mark", "a.txt").expect(t, "a.txt", 1, "a.txt:1:1: break is not in a loop, switch, or select\n", false)
	with("", "mark", "b.txt").expect(t, "b.txt", 1, strings.ReplaceAll(faultyOut, "faulty.go", "b.txt"), false)
	with("", "mark", "c").expect(t, "c", 0, "", false)
}

// Every function and every literal has a line with its verdict, in the order of places among the findings.
func TestVerbose(t *testing.T) {
	const text = "package p\n\nfunc f() int {\n\tbreak\n\treturn func() int {}()\n}\n\nfunc (t *T) g() {}\n\nfunc h() { goto }\n\nvar x = func() { for {} }\n"
	const wanted = `a.go:3:6: func f: terminating
a.go:4:2: break is not in a loop, switch, or select
a.go:5:9: func f.func1: not terminating
a.go:5:21: missing return
a.go:8:13: func T.g: not terminating
a.go:10:12: goto needs a label
a.go:12:9: func glob..func1: terminating
`
	inFolder(t, map[string]string{"a.go": text, "clean.go": cleanScript})
	with("", "mark", "-v", "a.go").expect(t, "a.go", 2, wanted, false)
	with("", "mark", "-v", "clean.go").expect(t, "clean.go", 0, "clean.go:3:6: func f: terminating\n", false)
	with("return", "mark", "-v", "-").expect(t, "statements", 0, "<standard input>:1:1: statements: terminating\n", false)
	with(" {}", "mark", "-v", "-").expect(t, "a block", 0, "<standard input>:1:2: statements: not terminating\n", false)
}

// Many files are told in the order in which they are named, though several are marked at a time.
func TestManyFiles(t *testing.T) {
	scripts := map[string]string{}
	args := []string{"mark"}
	wanted := ""
	for i := 0; i < 200; i++ {
		name := fmt.Sprintf("%d.txt", (i*37)%200)
		scripts[name] = strings.Repeat("x++\n", i%50*(i%3)) + "break"
		args = append(args, name)
	}
	inFolder(t, scripts)
	for _, name := range args[1:] {
		text := scripts[name]
		wanted += fmt.Sprintf("%s:%d:1: break is not in a loop, switch, or select\n", name, strings.Count(text, "\n")+1)
	}
	with("", args...).expect(t, "all", 1, wanted, false)
}

// A device file is no terminal.
func TestProgressOnDevice(t *testing.T) {
	inFolder(t, files)
	device, err := os.OpenFile("/dev/zero", os.O_WRONLY, 0)
	if err != nil {
		t.Skip(err)
	}
	defer device.Close()
	var out strings.Builder
	if code := run([]string{"mark", "faulty.go"}, nil, &out, device); code != 1 || out.String() != faultyOut {
		t.Errorf("%d %q", code, &out)
	}
}
