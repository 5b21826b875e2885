package corpus

import (
	"go/token"
	"go/types"
	"regexp"
	"strings"
	"sync"
	"testing"

	"zesthull/internal/calls"
	"zesthull/internal/mark"
)

// TestTypes compares the findings in each file that has no syntax error with the errors of go/types on the same file: label
// faults, misplaced branches, missing returns and multiple defaults, by line, column and message. A body with multiple defaults
// is refused, so of its other errors none is compared.
func TestTypes(t *testing.T) { compareTypes(t, false, "") }

// TestVerdicts does so with the files opened up, so that go/types leaves out nothing and gives a verdict on each body.
func TestVerdicts(t *testing.T) { compareTypes(t, true, acceptedVerdicts) }

// TestDifferenceA has the two sides of difference A, which go/types shares with goscript: after a labelled statement its label
// stays the current one. It doesn't occur in Go's source.
func TestDifferenceA(t *testing.T) {
	needGo(t)
	compareText(t, "L: for {}; for { break L }", `
		text:2:1: label L declared but not used, which go/types hasn't
		text:2:24: invalid break label L, which go/types hasn't`)
	compareText(t, "L: for range x { L: ; { break L } }", `
		text:2:1: label L declared but not used, which only go/types has
		text:2:31: invalid break label L, which only go/types has`)
}

func compareText(t *testing.T, statements, accepted string) {
	t.Helper()
	f := file{"text", []byte("package p; func f() {\n" + statements + "\n}")}
	var found differences
	newComparison(f, parse(token.NewFileSet(), f), false, &found).compare()
	found.compare(t, accepted)
}

func compareTypes(t *testing.T, open bool, accepted string) {
	if testing.Short() {
		t.Skip("takes too long for -short")
	}
	var found differences
	var all struct {
		sync.Mutex
		tally
	}
	each(t, allFiles(t), func(f file) {
		if tree := parse(token.NewFileSet(), f); len(tree.errors) == 0 {
			c := newComparison(f, tree, open, &found)
			c.compare()
			all.Lock()
			all.add(c.tally)
			all.Unlock()
		}
	})
	found.compare(t, accepted)
	t.Logf("%+v", all.tally)
	if all.Errors < 500 || all.Defaults == 0 || open && all.Unmet*10000 > all.Statements {
		t.Error("go/types left out too much")
	}
}

// A tally counts what was compared. Unbegun bodies and unmet statements are those that go/types left out, untyped panics those
// that it didn't count. Errors are those of go/types that were compared, defaults the multiple defaults among them, and beside
// defaults are its other errors in the same bodies, which were not.
type tally struct {
	Files, Bodies, Unbegun, Statements, Unmet, UntypedPanics, Errors, Defaults, BesideDefaults int
}

func (t *tally) add(o tally) {
	t.Files++
	t.Bodies += o.Bodies
	t.Unbegun += o.Unbegun
	t.Statements += o.Statements
	t.Unmet += o.Unmet
	t.UntypedPanics += o.UntypedPanics
	t.Errors += o.Errors
	t.Defaults += o.Defaults
	t.BesideDefaults += o.BesideDefaults
}

// A comparison is a file with the findings of the front end and the errors of go/types.
type comparison struct {
	source
	*checked
	open bool
	tally
}

func newComparison(f file, t *tree, open bool, found *differences) *comparison {
	if open {
		t.openUp()
	}
	return &comparison{source: newSource(f, t, found), checked: check(t), open: open}
}

func (c *comparison) compare() {
	if !c.tree.matches(c.result) {
		c.differs("the bodies are not those of the tree")
		return
	}
	ours, theirs := c.ours(), c.theirs()
	c.Errors = len(theirs)
	c.bothWays(ours, theirs)
}

func (c *comparison) bothWays(ours, theirs faults) {
	for f := range ours {
		if !theirs[f] {
			c.differsAt(f.line, f.column, "%s, which go/types hasn't", f.message)
		}
	}
	for f := range theirs {
		if !ours[f] {
			c.differsAt(f.line, f.column, "%s, which only go/types has", f.message)
		}
	}
}

// faults are a set: go/types may go through a literal twice, and then tells its errors twice.
type faults map[fault]bool

type fault struct {
	line, column int
	message      string
}

var (
	ourErrors = regexp.MustCompile(`^label \S+ (declared but not used|already declared|not declared)$|^goto \S+ jumps ` +
		`|^invalid (break|continue) label |^(break|continue) not in |fallthrough|^missing return$|^multiple defaults `)
	otherDeclaration = "\tother declaration of "
)

// theirs are the errors of go/types that are of our kinds. An other declaration belongs to the error before it.
func (c *comparison) theirs() faults {
	list := faults{}
	before := false
	for _, e := range c.errors {
		is := ourErrors.MatchString(e.Msg)
		if is || before && strings.HasPrefix(e.Msg, otherDeclaration) {
			c.addError(list, e)
		}
		before = is
	}
	return list
}

// addError adds an error of go/types, unless it stands beside multiple defaults.
func (c *comparison) addError(list faults, e types.Error) {
	line, column := c.tree.place(e.Pos)
	switch {
	case isOfDefaults(e):
		c.Defaults++
		list[fault{line, column, belowRoot(e.Msg)}] = true
	case c.refusalAt(e.Pos) == calls.MultipleDefaults:
		c.BesideDefaults++
	default:
		list[fault{line, column, e.Msg}] = true
	}
}

// theirWords puts our messages, which are the compiler's, into the words of go/types.
var theirWords = strings.NewReplacer("already defined", "already declared", "not defined", "not declared",
	"defined and not used", "declared but not used", "other declaration of", otherDeclaration[:len(otherDeclaration)-1],
	"break is not in a loop, switch, or select", "break not in for, switch, or select statement",
	"continue is not in a loop", "continue not in for statement")

// ours are the findings, and the missing returns that only go/types is to find.
func (c *comparison) ours() faults {
	list := faults{}
	for _, f := range c.result.Findings {
		switch f.Kind {
		case mark.Label, mark.Misplaced, mark.MissingReturn, mark.MultipleDefaults:
			c.addFinding(list, f)
		}
	}
	for i, f := range c.tree.functions {
		body := statements(f.body)
		c.count(f, body)
		b := &c.result.Bodies[i]
		c.comparePanics(b, body, c.info.Uses)
		if b.Marked() && c.onlyTheirs(f, b, body) {
			line, column := c.tree.place(f.body.Rbrace)
			list[fault{line, column, "missing return"}] = true
		}
	}
	return list
}

func (c *comparison) addFinding(list faults, f mark.Finding) {
	line, column := c.result.Place(f.Position)
	list[fault{line, column, theirWords.Replace(f.Message)}] = true
	if f.Other != nil {
		c.addFinding(list, *f.Other)
	}
}

// onlyTheirs tells whether go/types is to miss a return that the front end doesn't: where the function got its result here, or
// ends with a panic that go/types doesn't count.
func (c *comparison) onlyTheirs(f function, b *mark.Body, list []statement) bool {
	if f.hasResults {
		return b.Marks.Terminating && !c.terminates(b, list)
	}
	return c.open && c.begun(f) && !c.terminates(b, list)
}

// terminates is the verdict on a body with no other panics than those that go/types counts.
func (c *comparison) terminates(b *mark.Body, list []statement) bool {
	words := b.Words()
	verdict := b.Marks.Terminating
	for i, row := range b.Rows {
		if row.Detail == 1 && kindOf(list[i]) == "Expr" && !c.isPanic(list[i]) {
			c.UntypedPanics++
			words.Rows[5*i+1] = 0
			marks, _ := calls.Mark(words)
			verdict = marks.Terminating
		}
	}
	return verdict
}

func (c *comparison) count(f function, list []statement) {
	c.Bodies++
	c.Statements += len(list)
	c.Unmet += c.unmet(f, list)
	if !c.begun(f) {
		c.Unbegun++
	}
}
