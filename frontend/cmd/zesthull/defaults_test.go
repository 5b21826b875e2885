package main

import (
	"fmt"
	"strings"
	"testing"
)

// defaultsScript has a function with multiple defaults, and with other faults that are not told of it; a literal in that
// function; and another function.
const defaultsScript = `package p

func f(x int) int {
	switch x {
	default:
		func() { continue }()
	case 1:
	default:
		goto L
	default:
	}
	break
}

func g() int {
}
`

const defaultsOut = `a.go:6:12: continue is not in a loop
a.go:8:2: multiple defaults (first at a.go:5:2)
a.go:10:2: multiple defaults (first at a.go:5:2)
a.go:16:1: missing return
`

// onlyDefaults has nothing else to tell.
const onlyDefaults = "package p\n\nfunc f() {\n\tselect {\n\tdefault:\n\tdefault:\n\t}\n}\n"

const onlyDefaultsOut = "only.go:6:2: multiple defaults (first at only.go:5:2)\n"

func inDefaultsFolder(t *testing.T) {
	t.Helper()
	inFolder(t, map[string]string{"a.go": defaultsScript, "only.go": onlyDefaults, "clean.go": cleanScript, "broken.go": brokenScript,
		"long.go": files["long.go"]})
}

// Multiple defaults are faults, and so the exit code is 1 unless something else makes it 2.
func TestMultipleDefaults(t *testing.T) {
	inDefaultsFolder(t)
	with("", "mark", "a.go").expect(t, "a.go", 1, defaultsOut, false)
	with("", "mark", "only.go").expect(t, "only.go", 1, onlyDefaultsOut, false)
	with("", "mark", "clean.go", "only.go").expect(t, "clean.go only.go", 1, onlyDefaultsOut, false)
	with("", "mark", "only.go", "broken.go").expect(t, "only.go broken.go", 2, onlyDefaultsOut+brokenOut, false)
	if r := with("", "mark", "only.go", "long.go"); r.code != 2 || !strings.HasPrefix(r.out, onlyDefaultsOut) {
		t.Errorf("%+v", r)
	}
	with("switch { default: default: }", "mark", "-").expect(t, "statements", 1,
		"<standard input>:1:19: multiple defaults (first at <standard input>:1:10)\n", false)
}

// The place of the first is in the same form as the place of the finding.
func TestMultipleDefaultsInFolders(t *testing.T) {
	inFolder(t, map[string]string{"top/sub/only.go": onlyDefaults})
	wanted := strings.ReplaceAll(onlyDefaultsOut, "only.go", "top/sub/only.go")
	with("", "mark", "top").expect(t, "top", 1, wanted, false)
	with("", "mark", "top/sub/only.go").expect(t, "top/sub/only.go", 1, wanted, false)
}

// The body has no verdict; the others have.
func TestVerboseMultipleDefaults(t *testing.T) {
	inDefaultsFolder(t)
	const wanted = `a.go:6:3: func f.func1: not terminating
a.go:6:12: continue is not in a loop
a.go:8:2: multiple defaults (first at a.go:5:2)
a.go:10:2: multiple defaults (first at a.go:5:2)
a.go:15:6: func g: not terminating
a.go:16:1: missing return
`
	with("", "mark", "-v", "a.go").expect(t, "a.go", 1, wanted, false)
}

// The object has the refusal with the row of the first, the rows, and no marks. All are told on standard error.
func TestJSONMultipleDefaults(t *testing.T) {
	inDefaultsFolder(t)
	r := with("", "mark", "-json", "a.go")
	list := objects(t, r.out)
	if r.code != 1 || len(list) != 3 {
		t.Fatalf("%+v", r)
	}
	o := list[0]
	if o["func"] != "f" || fmt.Sprint(o["refused"], o["sheet"], o["bindings"], o["placing"], o["verdict"], o["broken"]) != "[10 6] [] [] [] <nil> <nil>" {
		t.Errorf("%v", o)
	}
	if rows := o["rows"].([]any); len(rows) != 10 || fmt.Sprint(rows[6]) != fmt.Sprint([]int{14, 1, strings.Index(defaultsScript, "default:\n\t\tgoto") + 1, 0, 2}) {
		t.Errorf("%v", rows)
	}
	for _, o := range list[1:] {
		if o["refused"] != nil || o["verdict"] != false {
			t.Errorf("%v", o)
		}
	}
	const aside = "a.go:8:2: multiple defaults (first at a.go:5:2)\na.go:10:2: multiple defaults (first at a.go:5:2)\n"
	if r.err != aside {
		t.Errorf("%q, not %q", r.err, aside)
	}
}

// Each counts as a fault, and the body among those that were not marked.
func TestLogMultipleDefaults(t *testing.T) {
	inDefaultsFolder(t)
	with("", "mark", "-log", "log", "a.go", "only.go")
	for i, wanted := range []string{"3 3 1 1", "1 1 0 1"} {
		if got := strings.Join(logLines(t, "log")[i][4:], " "); got != wanted {
			t.Errorf("line %d: %s, not %s", i, got, wanted)
		}
	}
}

// A body with multiple defaults has no walk: they are told as other faults are, and no fault beside them.
func TestNoWalkOfMultipleDefaults(t *testing.T) {
	inDefaultsFolder(t)
	const complaint = `zesthull walk: a.go:3:6: func f: no walk, since it has faults:
a.go:8:2: multiple defaults (first at a.go:5:2)
a.go:10:2: multiple defaults (first at a.go:5:2)
`
	for _, by := range []string{"", "7"} {
		if r := with("", "walk", "-func", "f", "-by", by, "a.go"); r != (ran{1, "", complaint}) {
			t.Errorf("%q: %+v", by, r)
		}
	}
	// the only body of a file, and statements
	with("", "walk", "only.go").expect(t, "only.go", 1, "", true)
	with("", "walk", "-limit", "0", "-e", "select { default: default: }").expect(t, "statements", 1, "", true)
	// another function of the file
	if r := with("", "walk", "-func", "g", "a.go"); r.code != 0 || r.err != "" {
		t.Errorf("%+v", r)
	}
	// one that isn't named
	with("", "walk", "a.go").complains(t, "several", "a.go", "-func", "f, f.func1, g")
}

// The rows are written; the program marks refuses them.
func TestRowsOfMultipleDefaults(t *testing.T) {
	inDefaultsFolder(t)
	with("", "rows", "-e", "switch { default: default: }").expect(t, "statements", 0,
		bodyWords("", 5, 0, 0, 12, 0, 1, 0, 5, 15, 0, 1, 0, 4, 12, 0, 8, 0, 3, 14, 1, 10, 0, 1, 14, 1, 19, 0, 1), false)
	if r := with("", "rows", "-list", "-func", "f", "a.go"); r.code != 0 || r.err != "" || strings.Count(r.out, "Case       1 ") != 3 {
		t.Errorf("%+v", r)
	}
	with("", "rows", "a.go").complains(t, "several", "a.go", "-func", "f, f.func1, g")
}
