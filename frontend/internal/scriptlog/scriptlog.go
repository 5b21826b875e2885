// Package scriptlog keeps the log of scripts opened: one line a script, written whole or not at all.
package scriptlog

import (
	"crypto/sha256"
	"fmt"
	"os"
	"strconv"
	"strings"
	"syscall"
	"time"

	"zesthull/internal/mark"
)

// An Entry is what the log keeps of a script.
type Entry struct {
	Time    time.Time
	Version string
	Sum     [sha256.Size]byte
	Name    string
	mark.Counts
}

// Line is the entry as a line: time, version, SHA-256 of the script, its name, bodies, faults, misplaced, refused, with tabs
// between. A name with a control character or a quote in it is written as Go writes a string.
func (e Entry) Line() string {
	fields := []string{e.Time.UTC().Format(time.RFC3339), e.Version, fmt.Sprintf("%x", e.Sum), written(e.Name)}
	for _, n := range []int{e.Bodies, e.Faults, e.Misplaced, e.Refused} {
		fields = append(fields, strconv.Itoa(n))
	}
	return strings.Join(fields, "\t") + "\n"
}

func written(name string) string {
	if quoted := strconv.Quote(name); quoted != `"`+name+`"` {
		return quoted
	}
	return name
}

// Append writes the entries' lines at the end of the file, which it makes where it is missing. Runs at the same time take
// turns. Where a line can't be written whole the file is left as it was.
func Append(path string, entries ...Entry) (err error) {
	file, err := os.OpenFile(path, os.O_RDWR|os.O_CREATE|os.O_APPEND, 0o666)
	if err != nil {
		return err
	}
	defer func() {
		if closed := file.Close(); err == nil {
			err = closed
		}
	}()
	if err := lock(file); err != nil {
		return fmt.Errorf("%s: %w", path, err)
	}
	text, size, err := addition(file, entries)
	if err != nil {
		return err
	}
	return writeWhole(file, text, size)
}

// lock waits for the turn of this run; closing the file ends it.
func lock(file *os.File) error {
	for {
		err := syscall.Flock(int(file.Fd()), syscall.LOCK_EX)
		if err != syscall.EINTR {
			return err
		}
	}
}

// addition is what to write, and the file's size before. A last line that was cut off by a crash is ended first.
func addition(file *os.File, entries []Entry) (text string, size int64, err error) {
	info, err := file.Stat()
	if err != nil {
		return "", 0, err
	}
	if !info.Mode().IsRegular() {
		return "", 0, fmt.Errorf("%s is no regular file", file.Name())
	}
	size = info.Size()
	var last [1]byte
	if size > 0 {
		if _, err := file.ReadAt(last[:], size-1); err != nil {
			return "", 0, err
		}
		if last[0] != '\n' {
			text = "\n"
		}
	}
	for _, e := range entries {
		text += e.Line()
	}
	return text, size, nil
}

func writeWhole(file *os.File, text string, size int64) error {
	_, err := file.WriteString(text)
	if err == nil {
		return nil
	}
	if cut := file.Truncate(size); cut != nil {
		return fmt.Errorf("%w; and the part written could not be taken back: %v", err, cut)
	}
	return err
}
