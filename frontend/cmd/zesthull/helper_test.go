package main

import (
	"bytes"
	"os"
	"path/filepath"
	"strings"
	"testing"
)

// ran is what a run of the command gave.
type ran struct {
	code     int
	out, err string
}

// with runs the command with that standard input.
func with(in string, args ...string) ran {
	var out, err bytes.Buffer
	code := run(args, strings.NewReader(in), &out, &err)
	return ran{code, out.String(), err.String()}
}

// expect holds a run to its exit code and what it printed; where it is to complain, it has to.
func (r ran) expect(t *testing.T, what string, code int, out string, complaint bool) {
	t.Helper()
	if r.code != code || r.out != out || (r.err != "") != complaint {
		t.Errorf("%s: exit code %d, printed %q, complained %q; not exit code %d, %q, complaint %v", what, r.code, r.out, r.err, code, out, complaint)
	}
}

// The scripts that the tests mark.
const (
	cleanScript  = "package p\n\nfunc f() int { return 1 }\n"
	faultyScript = "package p\n\nfunc f() int {\n\tbreak\n}\n"
	brokenScript = "package p\n\nfunc f() { goto }\n"
)

// inFolder writes the files into a new folder, which is the working folder until the test ends.
func inFolder(t *testing.T, files map[string]string) {
	t.Helper()
	before, err := os.Getwd()
	if err != nil {
		t.Fatal(err)
	}
	folder := t.TempDir()
	for name, text := range files {
		path := filepath.Join(folder, name)
		if err := os.MkdirAll(filepath.Dir(path), 0o777); err != nil {
			t.Fatal(err)
		}
		if err := os.WriteFile(path, []byte(text), 0o666); err != nil {
			t.Fatal(err)
		}
	}
	if err := os.Chdir(folder); err != nil {
		t.Fatal(err)
	}
	t.Cleanup(func() { os.Chdir(before) })
}
