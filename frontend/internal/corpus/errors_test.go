package corpus

import (
	"fmt"
	"regexp"
	"strconv"
	"strings"
	"sync/atomic"
	"testing"

	"zesthull/internal/mark"
	"zesthull/internal/script"
)

// TestErrorsOfGo holds the findings to the ERROR comments of all files below GOROOT/test, which are label.go, label1.go, goto.go
// and return.go among others. Both ways:
//   - each error asked for that is about labels, gotos, the placing of branches, missing returns or multiple defaults has a
//     finding on its line whose message matches;
//   - no such finding stands on another line. So there is none in the files that have to compile.
func TestErrorsOfGo(t *testing.T) {
	var found differences
	var asked atomic.Int64
	names := goFiles(t, "test")
	each(t, names, func(f file) {
		wanted := wantedOf(f)
		asked.Add(int64(len(wanted)))
		compareErrors(&found, f, wanted)
	})
	found.compare(t, acceptedErrors)
	t.Logf("%d files, %d errors of our kinds asked for", len(names), asked.Load())
	if asked.Load() < 200 {
		t.Error("the comments aren't read")
	}
}

// An expected error has a line and a message: of one asked for, that is a regular expression.
type expected struct {
	line    int
	message string
}

// Which comments count is as in GOROOT/test/run.go: GC_ERROR does, GCCGO_ERROR doesn't, and //// turns a comment off. Each
// quoted part is an error of its own.
var (
	comment = regexp.MustCompile(`// (?:GC_)?ERROR (.*)`)
	quoted  = regexp.MustCompile(`"([^"]*)"`)
)

// ourWords tell that an error is of our kinds.
var ourWords = regexp.MustCompile(`label |goto |fallthrough|missing return|in a loop|jumps |multiple defaults`)

// The errors of these files are of our kinds, but asked for with words such as "L" and "return".
var ourFiles = map[string]bool{
	"test/fixedbugs/bug086.go":     true,
	"test/fixedbugs/bug136.go":     true,
	"test/fixedbugs/bug171.go":     true,
	"test/fixedbugs/bug179.go":     true,
	"test/fixedbugs/issue7538a.go": true,
}

// wantedOf lists the errors of our kinds that a file asks for.
func wantedOf(f file) (list []expected) {
	for i, line := range strings.Split(string(f.text), "\n") {
		found := comment.FindStringSubmatch(line)
		if found == nil || strings.Contains(line, "////") {
			continue
		}
		for _, message := range quoted.FindAllStringSubmatch(found[1], -1) {
			if ourFiles[f.name] || ourWords.MatchString(message[1]) {
				list = append(list, expected{i + 1, inOurWords(message[1], i+1)})
			}
		}
	}
	return list
}

var (
	overDeclaration = regexp.MustCompile(`jumps over declaration of \w+ at LINE([+-]\d+)`)
	intoBlock       = regexp.MustCompile(`jumps into block starting at LINE[+-]\d+`)
)

// inOurWords puts two messages into our words, which are those of go/types: Go 1.19's compiler names the variable that a goto
// jumps over, and tells where the block begins that one jumps into. The line of the declaration stays.
func inOurWords(message string, line int) string {
	message = intoBlock.ReplaceAllString(message, "jumps into block$$")
	return overDeclaration.ReplaceAllStringFunc(message, func(m string) string {
		distance, _ := strconv.Atoi(overDeclaration.FindStringSubmatch(m)[1])
		return fmt.Sprintf("jumps over variable declaration at line %d$", line+distance)
	})
}

func compareErrors(d *differences, f file, wanted []expected) {
	found := findingsOf(mark.Script(script.ReadFile(f.name, f.text)))
	for _, w := range wanted {
		rest := without(found, w)
		if len(rest) == len(found) {
			d.add("%s:%d: no finding for %q", f.name, w.line, w.message)
		}
		found = rest
	}
	for _, g := range found {
		d.add("%s:%d: not asked for: %s", f.name, g.line, g.message)
	}
}

// findingsOf lists those of our kinds.
func findingsOf(r *mark.Result) (list []expected) {
	for _, f := range r.Findings {
		switch f.Kind {
		case mark.Label, mark.Misplaced, mark.MissingReturn, mark.MultipleDefaults:
			line, _ := r.Place(f.Position)
			list = append(list, expected{line, f.Message})
		}
	}
	return list
}

// without takes the first finding out that is what is wanted.
func without(found []expected, w expected) []expected {
	for i, g := range found {
		if g.line == w.line && regexp.MustCompile(w.message).MatchString(g.message) {
			return append(append([]expected{}, found[:i]...), found[i+1:]...)
		}
	}
	return found
}
