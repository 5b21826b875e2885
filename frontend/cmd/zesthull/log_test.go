package main

import (
	"crypto/sha256"
	"fmt"
	"os"
	"strings"
	"sync"
	"testing"
	"time"

	"zesthull/internal/calls"
)

// logLines are the fields of the log's lines.
func logLines(t *testing.T, path string) (lines [][]string) {
	t.Helper()
	text, err := os.ReadFile(path)
	if err != nil {
		t.Fatal(err)
	}
	for _, line := range strings.Split(strings.TrimSuffix(string(text), "\n"), "\n") {
		fields := strings.Split(line, "\t")
		if len(fields) != 8 {
			t.Fatalf("%q has %d fields", line, len(fields))
		}
		lines = append(lines, fields)
	}
	return lines
}

// Each script that could be read has its line, in the order of the scripts.
func TestLog(t *testing.T) {
	inFolder(t, files)
	begin := time.Now().Add(-2 * time.Second)
	r := with("x++", "mark", "-log", "log", "clean.go", "missing.go", "faulty.go", "-", "broken.go", "long.go")
	if r.code != 2 || !strings.HasPrefix(r.out, faultyOut) {
		t.Errorf("%+v", r)
	}
	lines := logLines(t, "log")
	wanted := []struct{ name, text, counts string }{
		{"clean.go", cleanScript, "1 0 0 0"},
		{"faulty.go", faultyScript, "1 1 1 0"},
		{"<standard input>", "x++", "1 0 0 0"},
		{"broken.go", brokenScript, "1 0 0 1"},
		{"long.go", files["long.go"], "1 0 0 1"},
	}
	if len(lines) != len(wanted) {
		t.Fatalf("%d lines", len(lines))
	}
	for i, w := range wanted {
		fields := lines[i]
		at, err := time.Parse("2006-01-02T15:04:05Z", fields[0])
		if err != nil || at.Before(begin) || at.After(time.Now()) {
			t.Errorf("time %s, %v", fields[0], err)
		}
		if fields[1] != calls.Version() || fields[2] != fmt.Sprintf("%x", sha256.Sum256([]byte(w.text))) || fields[3] != w.name {
			t.Errorf("%q for %s", fields, w.name)
		}
		if got := strings.Join(fields[4:], " "); got != w.counts {
			t.Errorf("%s: %s, not %s", w.name, got, w.counts)
		}
	}
}

// Runs add to the log, whatever they print.
func TestLogGrows(t *testing.T) {
	inFolder(t, files)
	for i, args := range [][]string{{"clean.go"}, {"-v", "clean.go"}, {"-json", "faulty.go"}, {"."}} {
		with("", append([]string{"mark", "-log", "log"}, args...)...)
		if got, wanted := len(logLines(t, "log")), []int{1, 2, 3, 7}[i]; got != wanted {
			t.Errorf("%q: %d lines, not %d", args, got, wanted)
		}
	}
}

// A log that can't be written makes the exit code 2; what was found is still printed.
func TestNoLog(t *testing.T) {
	inFolder(t, files)
	for _, log := range []string{"missing/log", ".", "/dev/full"} {
		with("", "mark", "-log", log, "faulty.go").expect(t, log, 2, faultyOut, true)
	}
}

// Two runs at once, each with many scripts.
func TestLogOfTwoRuns(t *testing.T) {
	scripts := map[string]string{}
	for i := 0; i < 60; i++ {
		scripts[fmt.Sprintf("d/%d.go", i)] = faultyScript
	}
	inFolder(t, scripts)
	var both sync.WaitGroup
	for i := 0; i < 2; i++ {
		both.Add(1)
		go func() {
			defer both.Done()
			if r := with("", "mark", "-log", "log", "d"); r.code != 1 || r.err != "" {
				t.Errorf("%d %s", r.code, r.err)
			}
		}()
	}
	both.Wait()
	seen := map[string]int{}
	for _, fields := range logLines(t, "log") {
		seen[fields[3]]++
	}
	for name := range scripts {
		if seen[name] != 2 {
			t.Errorf("%s has %d lines", name, seen[name])
		}
	}
}
