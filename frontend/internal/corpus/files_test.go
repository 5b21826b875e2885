// Package corpus holds the front end to Go itself: to Go's own error tests, to go/parser, and to go/types, on all of Go's
// source. It has tests only, and they need Go 1.19 with its source and its tests, as in Debian's package golang-src.
package corpus

import (
	"io/fs"
	"os"
	"path/filepath"
	"runtime"
	"strings"
	"sync"
	"testing"
)

// A file is one of Go's own. Its name is its path below GOROOT, as in src/fmt/print.go.
type file struct {
	name string
	text []byte
}

// needGo skips the test with another Go than 1.19: messages and accepted differences are those of its files.
func needGo(t *testing.T) {
	t.Helper()
	if v := runtime.Version(); v != "go1.19" && !strings.HasPrefix(v, "go1.19.") {
		t.Skipf("this needs Go 1.19, and this is %s", v)
	}
}

// goFiles names every .go file below a folder of GOROOT, those in testdata folders too. The test is skipped where it isn't
// installed.
func goFiles(t *testing.T, folder string) (names []string) {
	t.Helper()
	needGo(t)
	// the folder may be a link, which WalkDir doesn't follow
	root, err := filepath.EvalSymlinks(filepath.Join(runtime.GOROOT(), folder))
	if err != nil {
		t.Skipf("Go's folder %s isn't installed (Debian: golang-src): %v", folder, err)
	}
	err = filepath.WalkDir(root, func(path string, entry fs.DirEntry, err error) error {
		if err == nil && entry.Type().IsRegular() && filepath.Ext(path) == ".go" {
			below, _ := filepath.Rel(root, path)
			names = append(names, filepath.ToSlash(filepath.Join(folder, below)))
		}
		return err
	})
	if err != nil {
		t.Fatal(err)
	}
	return names
}

// allFiles names every .go file of Go's source and of Go's tests.
func allFiles(t *testing.T) []string {
	t.Helper()
	return append(goFiles(t, "src"), goFiles(t, "test")...)
}

func read(t *testing.T, name string) file {
	text, err := os.ReadFile(filepath.Join(runtime.GOROOT(), name))
	if err != nil {
		t.Error(err)
	}
	return file{name, text}
}

// each does something with each file, several at a time.
func each(t *testing.T, names []string, do func(file)) {
	next := make(chan string)
	var running sync.WaitGroup
	for n := runtime.GOMAXPROCS(0); n > 0; n-- {
		running.Add(1)
		go func() {
			defer running.Done()
			for name := range next {
				do(read(t, name))
			}
		}()
	}
	for _, name := range names {
		next <- name
	}
	close(next)
	running.Wait()
}
