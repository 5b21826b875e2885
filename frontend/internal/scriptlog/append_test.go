package scriptlog

import (
	"os"
	"path/filepath"
	"strings"
	"syscall"
	"testing"
	"time"
)

// content is what the file has.
func content(t *testing.T, path string) string {
	t.Helper()
	text, err := os.ReadFile(path)
	if err != nil {
		t.Fatal(err)
	}
	return string(text)
}

func write(t *testing.T, path, text string) {
	t.Helper()
	if err := os.WriteFile(path, []byte(text), 0o666); err != nil {
		t.Fatal(err)
	}
}

// Lines are added at the end, and a file that is missing is made.
func TestAppend(t *testing.T) {
	path := filepath.Join(t.TempDir(), "log")
	if err := Append(path, entry("a.go")); err != nil {
		t.Fatal(err)
	}
	if err := Append(path, entry("b.go"), entry("c.go")); err != nil {
		t.Fatal(err)
	}
	if got, wanted := content(t, path), entry("a.go").Line()+entry("b.go").Line()+entry("c.go").Line(); got != wanted {
		t.Errorf("%q, not %q", got, wanted)
	}
}

// What stands in the file stays. A last line that was cut off is ended, and the new one begins on a line of its own.
func TestAppendAfter(t *testing.T) {
	path := filepath.Join(t.TempDir(), "log")
	for before, after := range map[string]string{
		"": "", "\n": "\n", "a line\n": "a line\n", "2026-11-15T23:0": "2026-11-15T23:0\n", "one\ntwo": "one\ntwo\n", "\x00": "\x00\n",
		strings.Repeat("x", 100000): strings.Repeat("x", 100000) + "\n",
	} {
		write(t, path, before)
		if err := Append(path, entry("a.go")); err != nil {
			t.Fatal(err)
		}
		if got := content(t, path); got != after+entry("a.go").Line() {
			t.Errorf("%.40q became %.40q", before, got)
		}
	}
}

func TestAppendThroughLink(t *testing.T) {
	folder := t.TempDir()
	if err := os.Symlink("log", filepath.Join(folder, "link")); err != nil {
		t.Skip(err)
	}
	if err := Append(filepath.Join(folder, "link"), entry("a.go")); err != nil {
		t.Fatal(err)
	}
	if got := content(t, filepath.Join(folder, "log")); got != entry("a.go").Line() {
		t.Error(got)
	}
}

// What is no regular file, or can't be made, gives an error and no line.
func TestNoLog(t *testing.T) {
	folder := t.TempDir()
	pipe := filepath.Join(folder, "pipe")
	if err := syscall.Mkfifo(pipe, 0o666); err != nil {
		t.Fatal(err)
	}
	file := filepath.Join(folder, "file")
	write(t, file, "")
	for _, path := range []string{"", folder, pipe, "/dev/full", "/dev/zero", filepath.Join(folder, "missing", "log"), filepath.Join(file, "log")} {
		if err := Append(path, entry("a.go")); err == nil {
			t.Errorf("%q: no error", path)
		}
	}
	if found, err := os.ReadDir(folder); err != nil || len(found) != 2 {
		t.Errorf("%v in the folder, %v", found, err)
	}
}

// A run waits while another has its turn.
func TestTurns(t *testing.T) {
	path := filepath.Join(t.TempDir(), "log")
	file, err := os.Create(path)
	if err != nil {
		t.Fatal(err)
	}
	defer file.Close()
	if err := syscall.Flock(int(file.Fd()), syscall.LOCK_EX); err != nil {
		t.Fatal(err)
	}
	done := make(chan error, 1)
	go func() { done <- Append(path, entry("a.go")) }()
	select {
	case err := <-done:
		t.Fatal("written while another had its turn:", err)
	case <-time.After(50 * time.Millisecond):
	}
	if got := content(t, path); got != "" {
		t.Errorf("%q while another had its turn", got)
	}
	if err := syscall.Flock(int(file.Fd()), syscall.LOCK_UN); err != nil {
		t.Fatal(err)
	}
	if err := <-done; err != nil || content(t, path) != entry("a.go").Line() {
		t.Errorf("%v, %q", err, content(t, path))
	}
}
