package main

import (
	"encoding/json"
	"fmt"
	"reflect"
	"strings"
	"testing"

	"zesthull/internal/mark"
	"zesthull/internal/script"
)

// objects reads what -json printed: an object a line.
func objects(t *testing.T, out string) (list []map[string]any) {
	t.Helper()
	for _, line := range strings.Split(strings.TrimSuffix(out, "\n"), "\n") {
		if line == "" {
			continue
		}
		o := map[string]any{}
		if err := json.Unmarshal([]byte(line), &o); err != nil {
			t.Fatalf("%q: %v", line, err)
		}
		list = append(list, o)
	}
	return list
}

// The body that document 01 prints.
func TestJSONOfDocument(t *testing.T) {
	r := with("{goto M;L:for{}}", "mark", "-json", "-")
	list := objects(t, r.out)
	if r.code != 1 || r.err != "" || len(list) != 1 {
		t.Fatalf("%+v", r)
	}
	for key, wanted := range map[string]string{
		"file":     "<standard input>",
		"line":     "1",
		"column":   "1",
		"rows":     "[[12 0 1 0 5] [11 2 7 1 1] [3 0 9 2 3] [19 0 11 0 2] [12 0 14 0 1]]",
		"names":    "[M L]",
		"places":   "[[1 1] [1 7] [1 9] [1 11] [1 14]]",
		"results":  "false",
		"sheet":    "[[8 7 1 0] [9 9 2 0]]",
		"bindings": "[0 0 3 0 0]",
		"placing":  "[]",
		"verdict":  "true",
	} {
		if got := fmt.Sprint(list[0][key]); got != wanted {
			t.Errorf("%s: %s, not %s", key, got, wanted)
		}
	}
}

const jsonScript = `package p

func f(größe int) int {
	break
	switch { case größe > 1 && größe < 2: fallthrough }
	return func() int { L: goto L }()
}

func (t *T) g() { goto }

var x = func() {}
`

// Each body has its object, in the order of places, with its rows and marks.
func TestJSON(t *testing.T) {
	inFolder(t, map[string]string{"a.go": jsonScript})
	r := with("", "mark", "-json", "a.go")
	result := mark.Script(script.ReadFile("a.go", []byte(jsonScript)))
	list := objects(t, r.out)
	if r.code != 2 || len(list) != 4 || len(result.Bodies) != 4 {
		t.Fatalf("%+v", r)
	}
	for i, wanted := range []struct {
		name         string
		line, column float64
	}{{"f", 3, 6}, {"f.func1", 6, 9}, {"T.g", 9, 13}, {"glob..func1", 11, 9}} {
		o := list[i]
		if o["file"] != "a.go" || o["func"] != wanted.name || o["line"] != wanted.line || o["column"] != wanted.column {
			t.Errorf("object %d: %v", i, o)
		}
		compare(t, result, &result.Bodies[i], o)
	}
}

// compare holds an object to the body's rows and marks.
func compare(t *testing.T, r *mark.Result, b *mark.Body, o map[string]any) {
	t.Helper()
	if !b.Marked() {
		if fmt.Sprint(o["rows"], o["sheet"], o["bindings"], o["verdict"], o["broken"]) != "[] [] [] <nil> true" {
			t.Errorf("%s isn't marked: %v", b.Function.Name, o)
		}
		return
	}
	var rows, places, sheet [][]int
	for _, row := range b.Rows {
		line, column := r.Place(row.Position)
		rows = append(rows, []int{row.Kind, row.Detail, row.Position, row.Name, row.Size})
		places = append(places, []int{line, column})
	}
	for _, f := range b.Marks.Sheet {
		sheet = append(sheet, []int{int(f.Code), int(f.Position), int(f.Name), int(f.Other)})
	}
	same(t, b, "rows", o["rows"], rows)
	same(t, b, "places", o["places"], places)
	same(t, b, "sheet", o["sheet"], sheet)
	same(t, b, "names", o["names"], b.Names)
	same(t, b, "bindings", o["bindings"], b.Marks.Bindings)
	same(t, b, "placing", o["placing"], b.Misplaced)
	same(t, b, "verdict", o["verdict"], b.Marks.Terminating)
	same(t, b, "results", o["results"], b.Function.HasResults)
}

// same compares a value read from JSON with one of Go; a list that is missing is empty.
func same(t *testing.T, b *mark.Body, what string, got, wanted any) {
	t.Helper()
	if v := reflect.ValueOf(wanted); v.Kind() == reflect.Slice && v.Len() == 0 && got == nil {
		return
	}
	if fmt.Sprint(got) != fmt.Sprint(wanted) {
		t.Errorf("%s: %s %v, not %v", b.Function.Name, what, got, wanted)
	}
}

func TestJSONMisplaced(t *testing.T) {
	list := objects(t, with("break; for { continue }; continue", "mark", "-json", "-").out)
	if len(list) != 1 || fmt.Sprint(list[0]["placing"]) != "[1 5]" || list[0]["verdict"] != false {
		t.Errorf("%v", list)
	}
}

// A refused body has its refusal and no marks.
func TestJSONRefused(t *testing.T) {
	r := with(strings.Repeat("{", 101)+strings.Repeat("}", 101), "mark", "-json", "-")
	list := objects(t, r.out)
	if r.code != 2 || len(list) != 1 || fmt.Sprint(list[0]["refused"]) != "[6 100]" || list[0]["verdict"] != nil {
		t.Errorf("%+v", r)
	}
}

// Letters that HTML has its own use for, and a name that isn't one of a file, come back as they were.
func TestJSONText(t *testing.T) {
	r := with("", "mark", "-json", "-")
	if !strings.Contains(r.out, `"<standard input>"`) {
		t.Errorf("%+v", r)
	}
}

// What no object tells is told on standard error: syntax errors, and refusals in words.
func TestJSONUnmarked(t *testing.T) {
	deep := strings.Repeat("{", 101) + strings.Repeat("}", 101)
	for text, word := range map[string]string{
		"goto":                            "<standard input>:1:1: goto needs a label\n",
		"package p\n\nx\n":                "<standard input>:3:1: expected declaration",
		"package p\n\nfunc f() { x y }\n": "<standard input>:3:14: expected ';', found y\n",
		deep:                              "<standard input>:1:1: ",
	} {
		if r := with(text, "mark", "-json", "-"); r.code != 2 || !strings.Contains(r.err, word) || strings.Contains(r.out, "expected") {
			t.Errorf("%q: %+v", text, r)
		}
	}
	if r := with(faultyScript, "mark", "-json", "-"); r.err != "" {
		t.Errorf("%+v", r)
	}
}

// A body with a syntax error says so.
func TestJSONBroken(t *testing.T) {
	list := objects(t, with("package p\n\nfunc f() { goto }\n\nfunc g() {}\n", "mark", "-json", "-").out)
	if len(list) != 2 || list[0]["broken"] != true || list[1]["broken"] != nil || list[1]["verdict"] != false {
		t.Errorf("%v", list)
	}
}
