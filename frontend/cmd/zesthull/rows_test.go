package main

import (
	"bytes"
	"encoding/binary"
	"os"
	"strings"
	"testing"
)

const documentText = "{goto M;L:for{}}"

// The body file of document 01's body is the one that the program marks is tried on.
func TestRowsOfDocument(t *testing.T) {
	wanted, err := os.ReadFile("../../../crates/marks/stdin")
	if err != nil {
		t.Fatal(err)
	}
	with("", "rows", "-e", documentText).expect(t, "-e", 0, string(wanted), false)
	with(documentText, "rows", "-").expect(t, "-", 0, string(wanted), false)
	inFolder(t, map[string]string{"a.txt": documentText})
	with("", "rows", "a.txt").expect(t, "a.txt", 0, string(wanted), false)
}

// bodyWords is a body file: three counts and more words, little-endian, and the name bytes.
func bodyWords(names string, words ...uint32) string {
	var file bytes.Buffer
	binary.Write(&file, binary.LittleEndian, words)
	return file.String() + names
}

func TestBodyFiles(t *testing.T) {
	cases := []struct{ text, file string }{
		{"", bodyWords("", 1, 0, 0, 12, 0, 1, 0, 1)},
		{"return", bodyWords("", 2, 0, 0, 12, 0, 1, 0, 2, 10, 0, 1, 0, 1)},
		{"panic(1)", bodyWords("", 2, 0, 0, 12, 0, 1, 0, 2, 4, 1, 1, 0, 1)},
		{"break größe", bodyWords("größe", 2, 1, 7, 12, 0, 1, 0, 2, 11, 0, 7, 1, 1, 0, 7)},
		{"L:", bodyWords("L", 3, 1, 1, 12, 0, 1, 0, 3, 3, 0, 1, 1, 2, 2, 0, 3, 0, 1, 0, 1)},
	}
	for _, c := range cases {
		with("", "rows", "-e", c.text).expect(t, c.text, 0, c.file, false)
	}
}

func TestList(t *testing.T) {
	r := with("", "rows", "-list", "-e", "L: for x { continue L }")
	wanted := [][]string{
		{"0", "Block", "0", "1", "5"},
		{"1", "Labeled", "0", "1", "4", "L"},
		{"2", "For", "1", "4", "3"},
		{"3", "Block", "0", "10", "2"},
		{"4", "Branch", "1", "21", "1", "L"},
	}
	lines := strings.Split(strings.TrimSuffix(r.out, "\n"), "\n")
	if r.code != 0 || r.err != "" || len(lines) != len(wanted) {
		t.Fatalf("%+v", r)
	}
	for i, line := range lines {
		// row kind detail at position size size name
		words := strings.Fields(line)
		if len(words) < 7 || words[3] != "at" || words[5] != "size" {
			t.Fatalf("%q", line)
		}
		got := append([]string{words[0], words[1], words[2], words[4], words[6]}, words[7:]...)
		if strings.Join(got, " ") != strings.Join(wanted[i], " ") {
			t.Errorf("%q, not %q", got, wanted[i])
		}
	}
}

const severalScript = `package p

func f() { return }

func (t *T) g() int {
	return func() int { x++; return 1 }()
}

var x = func() {}

func broken() { goto }
`

// -func names the function; without it there has to be one.
func TestFunctions(t *testing.T) {
	inFolder(t, map[string]string{"a.go": severalScript, "one.go": "package p; func f() {}", "none.go": "package p", "clean.go": cleanScript})
	at := func(word string) uint32 { return uint32(strings.Index(severalScript, word) + 1) }
	cases := []struct{ name, args, file string }{
		{"f", "-func f a.go", bodyWords("", 2, 0, 0, 12, 0, at("{ return }"), 0, 2, 10, 0, at("return }"), 0, 1)},
		{"a method", "-func T.g a.go", bodyWords("", 2, 0, 0, 12, 0, at("{\n"), 0, 2, 10, 0, at("return func"), 0, 1)},
		{"a literal", "-func T.g.func1 a.go",
			bodyWords("", 3, 0, 0, 12, 0, at("{ x++"), 0, 3, 6, 0, at("x++"), 0, 1, 10, 0, at("return 1"), 0, 1)},
		{"a literal outside", "-func glob..func1 a.go", bodyWords("", 1, 0, 0, 12, 0, at("{}"), 0, 1)},
		{"the only one", "one.go", bodyWords("", 1, 0, 0, 12, 0, 21, 0, 1)},
		{"the only one by its name", "-func f one.go", bodyWords("", 1, 0, 0, 12, 0, 21, 0, 1)},
	}
	for _, c := range cases {
		with("", append([]string{"rows"}, strings.Fields(c.args)...)...).expect(t, c.name, 0, c.file, false)
	}
}

// What stands in the way of rows, and what the complaint says.
func TestNoRows(t *testing.T) {
	inFolder(t, map[string]string{"a.go": severalScript, "clean.go": cleanScript, "none.go": "package p", "twice.go": "package p; func f() {}; func f() {}"})
	cases := []struct {
		name  string
		args  []string
		words []string
	}{
		{"several", []string{"a.go"}, []string{"a.go", "-func", "f", "T.g", "T.g.func1", "glob..func1"}},
		{"broken", []string{"-func", "broken", "a.go"}, []string{"a.go:11:17", "goto needs a label"}},
		{"no such function", []string{"-func", "g", "clean.go"}, []string{"clean.go", "g"}},
		{"none", []string{"none.go"}, []string{"none.go"}},
		{"two of a name", []string{"-func", "f", "twice.go"}, []string{"twice.go", "2"}},
		{"missing", []string{"missing.go"}, []string{"missing.go"}},
		{"a folder", []string{"."}, []string{"directory"}},
		{"no statements", []string{"-e", "foo bar"}, []string{"1:5", "expected ';', found bar"}},
		{"refused", []string{"-e", strings.Repeat("{", 101) + strings.Repeat("}", 101)}, []string{"100 deep"}},
		{"a bare goto", []string{"-list", "-e", "goto"}, []string{"1:1", "goto needs a label"}},
	}
	for _, c := range cases {
		with("", append([]string{"rows"}, c.args...)...).complains(t, c.name, c.words...)
	}
}

// complains: nothing is printed, the exit code is 2, and the complaint has these words.
func (r ran) complains(t *testing.T, what string, words ...string) {
	t.Helper()
	r.expect(t, what, 2, "", true)
	for _, word := range words {
		if !strings.Contains(r.err, word) {
			t.Errorf("%s: %q doesn't say %s", what, r.err, word)
		}
	}
}

func TestNoRowsOfSeveral(t *testing.T) {
	with("", "rows", "-e", "}; func g() {").complains(t, "a brace", "1:1", "'}'")
	with("", "rows", "-e", "f(func() {}); foo bar").complains(t, "a literal", "1:19", "found bar")
}

func TestRowsOfStatementsWithLiterals(t *testing.T) {
	const text = "f(func() { return })"
	with("", "rows", "-e", text).expect(t, "the list", 0, bodyWords("", 2, 0, 0, 12, 0, 1, 0, 2, 4, 0, 1, 0, 1), false)
}

func TestRowsOfStreamsThatFail(t *testing.T) {
	var out, err strings.Builder
	if code := run([]string{"rows", "-"}, failing{}, &out, &err); code != 2 || out.Len() > 0 || !strings.Contains(err.String(), "no reading") {
		t.Errorf("%d %q %q", code, &out, &err)
	}
	err.Reset()
	if code := run([]string{"rows", "-e", "return"}, nil, failing{}, &err); code != 2 || !strings.Contains(err.String(), "no writing") {
		t.Errorf("%d %q", code, &err)
	}
}

// A device that isn't a terminal, as /dev/null, takes a body file.
func TestRowsToDevice(t *testing.T) {
	device, err := os.OpenFile("/dev/zero", os.O_WRONLY, 0)
	if err != nil {
		t.Skip(err)
	}
	defer device.Close()
	var complaint strings.Builder
	if code := run([]string{"rows", "-e", "return"}, nil, device, &complaint); code != 0 {
		t.Errorf("%d %q", code, &complaint)
	}
}

func TestListToStreamThatFails(t *testing.T) {
	var err strings.Builder
	if code := run([]string{"rows", "-list", "-e", "return"}, nil, failing{}, &err); code != 2 {
		t.Errorf("%d %q", code, &err)
	}
}
