package scriptlog

import (
	"fmt"
	"os"
	"os/exec"
	"path/filepath"
	"strings"
	"sync"
	"syscall"
	"testing"
)

// The tests run their own program again for a second process; these words in its environment say what that does.
const (
	asWriter  = "ZESTHULL_TEST_LOG_WRITER"
	asLimited = "ZESTHULL_TEST_LOG_LIMITED"
)

func TestMain(m *testing.M) {
	if writer := os.Getenv(asWriter); writer != "" {
		os.Exit(told(writeMany(os.Args[1], writer)))
	}
	if os.Getenv(asLimited) != "" {
		os.Exit(told(writeLimited(os.Args[1])))
	}
	os.Exit(m.Run())
}

func told(err error) (code int) {
	if err == nil {
		return 0
	}
	fmt.Println(err)
	return 3
}

// again is the tests' program, told what to do with the log.
func again(path, word, value string) *exec.Cmd {
	command := exec.Command(os.Args[0], path)
	command.Env = append(os.Environ(), word+"="+value)
	return command
}

const appends = 60

// nameAt is the n-th script of a writer. Some names are longer than a page of memory.
func nameAt(writer string, n int) string {
	return fmt.Sprintf("%s/%d/%s.go", writer, n, strings.Repeat("x", n%7*1500))
}

func writeMany(path, writer string) error {
	for n := 0; n < appends; n++ {
		if err := Append(path, entry(nameAt(writer, n))); err != nil {
			return err
		}
	}
	return nil
}

// checkWriters: every line is whole, each writer's are all there once, in its order.
func checkWriters(t *testing.T, path string, writers []string) {
	t.Helper()
	next := map[string]int{}
	for _, line := range strings.SplitAfter(content(t, path), "\n") {
		if line == "" {
			continue
		}
		writer := strings.SplitN(nameOf(t, line), "/", 2)[0]
		if wanted := entry(nameAt(writer, next[writer])).Line(); line != wanted {
			t.Fatalf("%.150q, not %.150q", line, wanted)
		}
		next[writer]++
	}
	for _, writer := range writers {
		if next[writer] != appends {
			t.Errorf("%d lines of %s, not %d", next[writer], writer, appends)
		}
	}
	if len(next) != len(writers) {
		t.Errorf("%d writers, not %d", len(next), len(writers))
	}
}

func TestGoroutines(t *testing.T) {
	path := filepath.Join(t.TempDir(), "log")
	writers := []string{"a", "b", "c", "d", "e"}
	var all sync.WaitGroup
	for _, writer := range writers {
		all.Add(1)
		go func(writer string) {
			defer all.Done()
			if err := writeMany(path, writer); err != nil {
				t.Error(err)
			}
		}(writer)
	}
	all.Wait()
	checkWriters(t, path, writers)
}

func TestProcesses(t *testing.T) {
	path := filepath.Join(t.TempDir(), "log")
	writers := []string{"a", "b", "c"}
	var commands []*exec.Cmd
	for _, writer := range writers {
		command := again(path, asWriter, writer)
		command.Stderr = os.Stderr
		if err := command.Start(); err != nil {
			t.Fatal(err)
		}
		commands = append(commands, command)
	}
	for _, command := range commands {
		if err := command.Wait(); err != nil {
			t.Error(err)
		}
	}
	checkWriters(t, path, writers)
}

// limit is the greatest size of a file in the process that writeLimited is in.
const limit = 5000

// writeLimited appends in a process whose files may not grow beyond the limit.
func writeLimited(path string) error {
	if err := syscall.Setrlimit(syscall.RLIMIT_FSIZE, &syscall.Rlimit{Cur: limit, Max: limit}); err != nil {
		return err
	}
	return Append(path, entry(strings.Repeat("x", 1000)))
}

// A line that can't be written whole leaves the file as it was, also where some of its bytes were.
func TestFailingWrite(t *testing.T) {
	path := filepath.Join(t.TempDir(), "log")
	for _, before := range []string{
		strings.Repeat("x", limit-1) + "\n",
		strings.Repeat("x", limit-10) + "\n",
		strings.Repeat("x", limit-500),
		strings.Repeat("x", limit),
	} {
		write(t, path, before)
		told, err := again(path, asLimited, "yes").CombinedOutput()
		if err == nil || !strings.Contains(string(told), "too large") {
			t.Errorf("%d bytes before: %v, %q", len(before), err, told)
		}
		if got := content(t, path); got != before {
			t.Errorf("%d bytes before, %d after", len(before), len(got))
		}
	}
}

// The same process can write a line that has room.
func TestLimitedWrite(t *testing.T) {
	path := filepath.Join(t.TempDir(), "log")
	told, err := again(path, asLimited, "yes").CombinedOutput()
	if err != nil || len(told) > 0 {
		t.Fatalf("%v, %q", err, told)
	}
	if got := content(t, path); got != entry(strings.Repeat("x", 1000)).Line() {
		t.Errorf("%.100q", got)
	}
}
