package mark

import (
	"fmt"
	"strings"
	"testing"
)

// increments is a body of n rows: the block, and an increment for each other row.
func increments(n int) string { return "{" + strings.Repeat("x++\n", n-1) + "}" }

// gotos is a body with n names.
func gotos(n int) string {
	text := "{"
	for i := 0; i < n; i++ {
		text += fmt.Sprintf("goto L%d\n", i)
	}
	return text + "}"
}

// longNames is a body with names of n bytes in all, a hundred bytes each but for the last.
func longNames(n int) string {
	text := "{"
	for i := 0; n > 0; i++ {
		name := fmt.Sprintf("L%02d", i) + strings.Repeat("x", 97)
		if n < len(name) {
			name = name[:n]
		}
		n -= len(name)
		text += "goto " + name + "\n"
	}
	return text + "}"
}

// deep is n blocks, each in the one before.
func deep(n int) string { return strings.Repeat("{", n) + strings.Repeat("}", n) }

// chain is a body with n ifs, each after the else of the one before: the last one's block is n + 2 deep.
func chain(n int) string {
	return "{ if a {}" + strings.Repeat(" else if a {}", n-1) + "}"
}

// Both sides of each limit, and what the message has to name.
var limits = []struct {
	name, body string
	number     uint32
	words      []string
}{
	{"2,000 rows", increments(2000), 0, nil},
	{"2,001 rows", increments(2001), 1, []string{"2001", "2,000"}},
	{"500 names", gotos(500), 0, nil},
	{"501 names", gotos(501), 2, []string{"501", "500"}},
	{"8,000 bytes of names", longNames(8000), 0, nil},
	{"8,001 bytes of names", longNames(8001), 2, []string{"8001", "8,000"}},
	{"100 deep", deep(100), 0, nil},
	{"101 deep", deep(101), 6, []string{"100"}},
	{"a chain 100 deep", chain(98), 0, nil},
	{"a chain 101 deep", chain(99), 6, []string{"100"}},
	// the rows are counted before the depth
	{"2,102 rows 101 deep", "{" + increments(2001) + ";" + deep(100) + "}", 1, []string{"2102", "2,000"}},
}

func TestLimits(t *testing.T) {
	for _, c := range limits {
		r := marked("package p\n\nfunc (t *T) f() " + c.body + "\n")
		if len(r.Bodies) != 1 {
			t.Fatalf("%s: %d bodies", c.name, len(r.Bodies))
		}
		checkRefusal(t, c.name, r, &r.Bodies[0], c.number)
		if c.number > 0 {
			checkRefusalFinding(t, c.name, r, append(c.words, "func T.f"))
		}
	}
}

func checkRefusal(t *testing.T, name string, r *Result, b *Body, number uint32) {
	t.Helper()
	if b.Marked() != (number == 0) || b.Refusal == nil && number > 0 || b.Refusal != nil && b.Refusal.Number != number {
		t.Errorf("%s: marked %v, %v, not refused with %d", name, b.Marked(), b.Refusal, number)
	}
	for _, f := range r.Findings {
		if f.Kind == Refused && number == 0 {
			t.Errorf("%s: %s", name, f.Message)
		}
	}
}

// checkRefusalFinding: the one finding is at the function's name, and says these words.
func checkRefusalFinding(t *testing.T, name string, r *Result, words []string) {
	t.Helper()
	if len(r.Findings) != 1 || r.Findings[0].Kind != Refused {
		t.Errorf("%s: %v", name, r.Findings)
		return
	}
	f := r.Findings[0]
	if line, column := r.Place(f.Position); line != 3 || column != 13 {
		t.Errorf("%s: at %d:%d", name, line, column)
	}
	for _, word := range words {
		if !strings.Contains(f.Message, word) {
			t.Errorf("%s: %q doesn't say %s", name, f.Message, word)
		}
	}
}

func TestLimitsOfStatements(t *testing.T) {
	for _, c := range limits {
		r := marked("\n " + c.body)
		checkRefusal(t, c.name, r, &r.Bodies[0], c.number)
		if c.number > 0 && (len(r.Findings) != 1 || r.Findings[0].Position != 3) {
			t.Errorf("%s: %v", c.name, r.Findings)
		}
	}
}

// Without braces around the text row 0 is still there.
func TestLimitsWithoutBraces(t *testing.T) {
	for n, refused := range map[int]bool{1999: false, 2000: true} {
		r := marked(strings.Repeat("x++\n", n))
		if b := r.Bodies[0]; len(b.Rows) != n+1 || (b.Refusal != nil) != refused {
			t.Errorf("%d statements: %d rows, %v", n, len(b.Rows), b.Refusal)
		}
	}
}

// A body that is refused takes no other with it, not even a literal inside it.
func TestOthersOfRefused(t *testing.T) {
	text := "package p\n\nfunc f() { func() { break }()\n" + increments(2001) + "}\n\nfunc g() int {}\n"
	r := marked(text)
	var messages []string
	for _, f := range r.Findings {
		line, column := r.Place(f.Position)
		messages = append(messages, fmt.Sprintf("%d:%d %.20s", line, column, f.Message))
	}
	wanted := "3:6 func f: not marked: |3:21 break is not in a lo|2006:15 missing return"
	if got := strings.Join(messages, "|"); got != wanted {
		t.Errorf("%s, not %s", got, wanted)
	}
}

// Names that stand in a literal alone are not the function's.
func TestNamesOfLiterals(t *testing.T) {
	r := marked("package p\n\nfunc f() { func() " + gotos(300) + "(); func() " + gotos(300) + "() }\n")
	for i := range r.Bodies {
		checkRefusal(t, r.Bodies[i].Function.Name, r, &r.Bodies[i], 0)
	}
	if len(r.Bodies) != 3 || len(r.Bodies[0].Names) != 0 || len(r.Bodies[1].Names) != 300 {
		t.Errorf("%d bodies", len(r.Bodies))
	}
}
