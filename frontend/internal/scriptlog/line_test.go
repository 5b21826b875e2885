package scriptlog

import (
	"crypto/sha256"
	"strconv"
	"strings"
	"testing"
	"time"

	"zesthull/internal/mark"
)

// entry is one of these figures, of the script whose text is abc.
func entry(name string) Entry {
	zone := time.FixedZone("", 2*60*60)
	return Entry{time.Date(2026, 11, 16, 1, 2, 3, 456, zone), "0.8.0", sha256.Sum256([]byte("abc")), name, mark.Counts{Bodies: 12, Faults: 3, Misplaced: 4, Refused: 5}}
}

// ofABC is the SHA-256 of abc, as its standard prints it.
const ofABC = "ba7816bf8f01cfea414140de5dae2223b00361a396177a9cb410ff61f20015ad"

// Time (of UTC), version, SHA-256, name, bodies, faults, misplaced, refused.
func TestLine(t *testing.T) {
	wanted := "2026-11-15T23:02:03Z\t0.8.0\t" + ofABC + "\ta/b.go\t12\t3\t4\t5\n"
	if got := entry("a/b.go").Line(); got != wanted {
		t.Errorf("%q, not %q", got, wanted)
	}
}

// nameOf is the name in a line, read as a program would read it.
func nameOf(t *testing.T, line string) string {
	t.Helper()
	if strings.Count(line, "\n") != 1 || !strings.HasSuffix(line, "\n") {
		t.Fatalf("%q is no line", line)
	}
	fields := strings.Split(strings.TrimSuffix(line, "\n"), "\t")
	if len(fields) != 8 {
		t.Fatalf("%q has %d fields", line, len(fields))
	}
	name := fields[3]
	if strings.HasPrefix(name, `"`) {
		unquoted, err := strconv.Unquote(name)
		if err != nil {
			t.Fatalf("%q: %v", line, err)
		}
		return unquoted
	}
	return name
}

// Whatever a file is called, its line is one line of eight fields, and its name can be read back.
func TestNames(t *testing.T) {
	for _, name := range []string{
		"a.go", "<standard input>", "a b.go", "größe.go", "世界.go", "a\tb.go", "\t", "a\nb.go", "a\r\nb.go", `a"b.go`, `"a.go"`, `"`, `a\b.go`, `a\tb.go`, `\`,
		"a\x00b.go", "a\x1b[31m.go", "a\x7fb.go", "a\xffb.go", "a\u2028b.go", "a\u00a0b.go", "'a'.go", "`a`.go", strings.Repeat("long/", 1000) + "a.go",
	} {
		if got := nameOf(t, entry(name).Line()); got != name {
			t.Errorf("%q reads back as %q", name, got)
		}
	}
}

// A name without anything odd in it is written as it is.
func TestPlainNames(t *testing.T) {
	for _, name := range []string{"a.go", "a b/c-d_e.go", "größe.go", "<standard input>", "'a'.go"} {
		if line := entry(name).Line(); !strings.Contains(line, "\t"+name+"\t") {
			t.Errorf("%q is written %q", name, line)
		}
	}
}
