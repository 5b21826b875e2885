package main

import (
	"bytes"
	"os"
	"path/filepath"
	"strings"
	"testing"
)

// Each script of examples/ gets the output that stands beside it.
func TestExamples(t *testing.T) {
	if err := os.Chdir("../../.."); err != nil {
		t.Fatal(err)
	}
	defer os.Chdir("frontend/cmd/zesthull")
	scripts, err := filepath.Glob("examples/*.go")
	if err != nil || len(scripts) == 0 {
		t.Fatal("no examples:", err)
	}
	codes := map[string]int{"clean": clean, "paper": faulty, "broken": unread}
	for _, name := range scripts {
		example := strings.TrimSuffix(filepath.Base(name), ".go")
		expected, err := os.ReadFile("examples/" + example + ".txt")
		if err != nil {
			t.Fatal(err)
		}
		var out, errors bytes.Buffer
		code := run([]string{"mark", name}, nil, &out, &errors)
		if out.String() != string(expected) || errors.Len() > 0 || code != codes[example] {
			t.Errorf("%s: exit code %d, printed\n%s%s, expected exit code %d and\n%s", name, code, &out, &errors, codes[example], expected)
		}
	}
}
