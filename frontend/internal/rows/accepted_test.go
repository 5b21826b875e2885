package rows

import (
	"errors"
	"math/rand"
	"strings"
	"testing"

	"zesthull/internal/calls"
)

// Rows made from a syntax tree are never refused with 3, 4 or 5: for a pair, for a row's words or for the shape. With 10 they
// are where a switch or select has two defaults.
func TestCasesAreAccepted(t *testing.T) {
	for _, cases := range [][]bodyCase{plain, panics, branchCases, labels, ifs, loops, switches, selects, blocks} {
		for _, c := range cases {
			text, _ := unmarked(c.body)
			if _, err := calls.Mark(parsed(t, text).Words()); err != nil {
				t.Errorf("%s: %v", text, err)
			}
		}
	}
}

func TestRandomBodiesAreAccepted(t *testing.T) {
	random := rand.New(rand.NewSource(1))
	for i := 0; i < 3000; i++ {
		g := generator{random: random, left: 3 + random.Intn(29)} // a statement goes three deep at most
		text := "{" + g.list() + "}"
		b := parsed(t, text)
		if _, err := calls.Mark(b.Words()); (err != nil) != g.twice || g.twice && !isMultipleDefaults(err) {
			t.Fatalf("%s: %v, and two defaults in one: %v", text, err, g.twice)
		}
		checkOrder(t, text, b)
	}
}

func isMultipleDefaults(err error) bool {
	var refusal *calls.Refusal
	return errors.As(err, &refusal) && refusal.Number == calls.MultipleDefaults
}

// checkOrder: row 0 has all rows below it, and each row's place is after that of the row before.
func checkOrder(t *testing.T, text string, b Body) {
	t.Helper()
	if b.Rows[0].Size != len(b.Rows) {
		t.Fatalf("%s: row 0 has size %d of %d", text, b.Rows[0].Size, len(b.Rows))
	}
	for i := 1; i < len(b.Rows); i++ {
		if b.Rows[i].Position <= b.Rows[i-1].Position {
			t.Fatalf("%s: row %d at %d, the row before at %d", text, i, b.Rows[i].Position, b.Rows[i-1].Position)
		}
	}
}

// A generator writes the text of statements at random, of about as many as are left.
type generator struct {
	random *rand.Rand
	left   int
	// twice: two defaults were written in one switch or select
	twice bool
}

var (
	simple = []string{"x++", "x = 1", "x := 1", "var x int", "const x = 1", "f()", "panic(1)", "c <- 1", "go f()", "defer f()", "return",
		"break", "continue", "fallthrough", "goto A", "break A", "continue B", "goto B", ";"}
	heads = []string{"for", "for x", "for i := range x", "for ;;", "if x", ""}
)

func (g *generator) pick(list []string) string { return list[g.random.Intn(len(list))] }

func (g *generator) list() string {
	var items []string
	for n := g.random.Intn(4); n >= 0 && g.left > 0; n-- {
		items = append(items, g.statement())
	}
	return strings.Join(items, "; ")
}

func (g *generator) statement() string {
	g.left--
	switch g.random.Intn(6) {
	case 0:
		return g.pick(heads) + " {" + g.list() + "}"
	case 1:
		return g.pick([]string{"A", "B", "_"}) + ": " + g.statement()
	case 2:
		return "if x {" + g.list() + "} else {" + g.list() + "}"
	case 3:
		return g.pick([]string{"switch", "switch x", "switch x.(type)"}) + " {" + g.clauses("case T:") + "}"
	case 4:
		return "select {" + g.clauses("case <-c:") + "}"
	}
	return g.pick(simple)
}

func (g *generator) clauses(head string) string {
	var clauses []string
	defaults := 0
	for n := g.random.Intn(3); n > 0; n-- {
		word := g.pick([]string{head, "default:"})
		if word == "default:" {
			defaults++
		}
		clauses = append(clauses, word+" "+g.list())
	}
	g.twice = g.twice || defaults > 1
	return strings.Join(clauses, "\n")
}
