package calls

import (
	"errors"
	"testing"
)

// manyRows is a Block of n rows in all, the others of kind Empty.
func manyRows(n int) Body {
	b := body("", [5]uint32{12, 0, 1, 0, uint32(n)})
	for len(b.Rows) < 5*n {
		b.Rows = append(b.Rows, 2, 0, 1, 0, 1)
	}
	return b
}

// deep is a Block in a Block and so on, n in all.
func deep(n int) Body {
	var b Body
	for ; n > 0; n-- {
		b.Rows = append(b.Rows, 12, 0, 1, 0, uint32(n))
	}
	return b
}

// named is an empty Block with these pairs and so many name bytes.
func named(bytes int, pairs ...uint32) Body {
	return Body{Rows: []uint32{12, 0, 1, 0, 1}, Pairs: pairs, Bytes: make([]byte, bytes)}
}

// manyPairs are n names of one byte each.
func manyPairs(n int) (pairs []uint32) {
	for i := 0; i < n; i++ {
		pairs = append(pairs, uint32(i), 1)
	}
	return pairs
}

// second is a Block with that row as its one item, and a name L.
func second(row ...uint32) Body {
	b := body("L", [5]uint32{12, 0, 1, 0, uint32(1 + len(row)/5)})
	b.Rows = append(b.Rows, row...)
	return b
}

// clauses is a Block with a statement of that kind as its one item, whose clauses have these details, from row 3 on.
func clauses(statement, clause uint32, details ...uint32) Body {
	n := uint32(len(details))
	b := body("", [5]uint32{12, 0, 1, 0, n + 3}, [5]uint32{statement, 0, 2, 0, n + 2}, [5]uint32{12, 0, 3, 0, n + 1})
	for i, detail := range details {
		b.Rows = append(b.Rows, clause, detail, uint32(i)+4, 0, 1)
	}
	return b
}

// inner is {switch {default: switch {default: default:} default:}}, with these details of the second clauses.
func inner(inner, outer uint32) Body {
	return body("", [5]uint32{12, 0, 1, 0, 9}, [5]uint32{15, 0, 2, 0, 8}, [5]uint32{12, 0, 3, 0, 7}, [5]uint32{14, 1, 4, 0, 5},
		[5]uint32{15, 0, 5, 0, 4}, [5]uint32{12, 0, 6, 0, 3}, [5]uint32{14, 1, 7, 0, 1}, [5]uint32{14, inner, 8, 0, 1}, [5]uint32{14, outer, 9, 0, 1})
}

// inFront is the body with that row of size 1 before its first item.
func inFront(b Body, row ...uint32) Body {
	rows := append(append(append([]uint32{}, b.Rows[:5]...), row...), b.Rows[5:]...)
	rows[4]++
	return Body{rows, b.Pairs, b.Bytes}
}

// blocksDeep is the body in so many Blocks.
func blocksDeep(n int, b Body) Body {
	rows := b.Rows
	for ; n > 0; n-- {
		rows = append([]uint32{12, 0, 1, 0, uint32(len(rows)/5 + 1)}, rows...)
	}
	return Body{rows, b.Pairs, b.Bytes}
}

// The refusals of documents 01 and 02, each with its index, and bodies at the limits.
var refusals = []struct {
	name   string
	body   Body
	number uint32
	index  int
}{
	{"no rows", Body{}, 1, 0},
	{"4 words", Body{Rows: []uint32{12, 0, 1, 0}}, 1, 0},
	{"6 words", Body{Rows: []uint32{12, 0, 1, 0, 1, 12}}, 1, 0},
	{"2,000 rows", manyRows(2000), 0, 0},
	{"2,001 rows", manyRows(2001), 1, 0},

	{"odd pairs", named(1, 0), 2, 0},
	{"500 pairs", named(500, manyPairs(500)...), 0, 0},
	{"501 pairs", named(501, manyPairs(501)...), 2, 0},
	{"8,000 bytes", named(8000, 0, 8000), 0, 0},
	{"8,001 bytes", named(8001, 0, 8001), 2, 0},

	{"length 0", named(1, 0, 0), 3, 0},
	{"before the previous end", named(2, 0, 2, 1, 1), 3, 1},
	{"past the bytes", named(2, 0, 1, 1, 2), 3, 1},
	{"far past the bytes", named(2, 4294967295, 4294967295), 3, 0},
	{"with a gap", named(3, 0, 1, 2, 1), 0, 0},

	{"kind 21", second(21, 0, 1, 0, 1), 4, 1},
	{"detail of a Block", second(12, 1, 1, 0, 1), 4, 1},
	{"detail of a Branch", second(11, 4, 1, 0, 1), 4, 1},
	{"position 0", second(10, 0, 0, 0, 1), 4, 1},
	{"a label without a name", second(3, 0, 1, 0, 2, 10, 0, 1, 0, 1), 4, 1},
	{"a goto without a name", second(11, 2, 1, 0, 1), 4, 1},
	{"a Return with a name", second(10, 0, 1, 1, 1), 4, 1},
	{"a name past the last", second(11, 2, 1, 2, 1), 4, 1},

	{"row 0 no Block", Body{Rows: []uint32{10, 0, 1, 0, 1}}, 5, 0},
	{"row 0 not all rows", Body{Rows: []uint32{12, 0, 1, 0, 1, 10, 0, 1, 0, 1}}, 5, 0},
	{"size 0", second(10, 0, 1, 0, 0), 5, 1},
	{"size past the end", second(12, 0, 1, 0, 2), 5, 1},
	{"a label without its statement", second(3, 0, 1, 1, 1), 5, 1},
	{"an If without its Block", second(13, 0, 1, 0, 1), 5, 1},
	{"an If with an else that it hasn't", second(13, 1, 1, 0, 2, 12, 0, 1, 0, 1), 5, 1},
	{"a Case outside a switch", second(14, 0, 1, 0, 1), 5, 0},
	{"a Return with a row below", second(10, 0, 1, 0, 2, 2, 0, 1, 0, 1), 5, 1},

	{"100 deep", deep(100), 0, 0},
	{"101 deep", deep(101), 6, 100},

	{"one default", clauses(15, 14, 0, 1, 0), 0, 0},
	{"no default", clauses(15, 14, 0, 0, 0), 0, 0},
	{"a default in each of two", inner(0, 0), 0, 0},
	{"two defaults", clauses(15, 14, 1, 1), 10, 4},
	{"two defaults, first and last", clauses(15, 14, 1, 0, 0, 1), 10, 6},
	{"two defaults in the middle", clauses(15, 14, 0, 1, 1, 0), 10, 5},
	{"three defaults", clauses(15, 14, 0, 1, 0, 1, 1), 10, 6},
	{"two defaults of a type switch", clauses(16, 14, 1, 0, 1), 10, 5},
	{"two defaults of a select", clauses(18, 17, 1, 1), 10, 4},
	{"two defaults of the inner switch", inner(1, 0), 10, 7},
	{"two defaults of the outer switch", inner(0, 1), 10, 8},
	{"two defaults of both", inner(1, 1), 10, 7},
	{"two defaults 100 deep", blocksDeep(96, clauses(15, 14, 1, 1)), 10, 100},

	// each cause is tried over all rows before the next
	{"1 before 2", Body{Pairs: []uint32{0}}, 1, 0},
	{"2 before 3", Body{Rows: []uint32{12, 0, 1, 0, 1}, Pairs: []uint32{0, 0, 0}}, 2, 0},
	{"3 before 4", Body{Rows: []uint32{21, 0, 1, 0, 1}, Pairs: []uint32{0, 0}}, 3, 0},
	{"4 before 5", Body{Rows: []uint32{12, 0, 1, 0, 0, 21, 0, 1, 0, 1}}, 4, 1},
	{"4 before 10", clauses(15, 14, 1, 1, 2), 4, 5},
	{"5 before 10", inFront(clauses(15, 14, 1, 1), 13, 0, 1, 0, 1), 5, 1},
	{"10 before 6", blocksDeep(97, clauses(15, 14, 1, 1)), 10, 101},
}

func TestRefusals(t *testing.T) {
	for _, c := range refusals {
		_, err := Mark(c.body)
		check(t, c.name+": Mark", err, c.number, c.index)
		_, err = FirstMisplaced(c.body)
		check(t, c.name+": FirstMisplaced", err, c.number, c.index)
		_, err = Walk(c.body, nil, 0)
		check(t, c.name+": Walk", err, c.number, c.index)
	}
}

func check(t *testing.T, name string, err error, number uint32, index int) {
	t.Helper()
	if number == 0 {
		if err != nil {
			t.Errorf("%s: %v", name, err)
		}
		return
	}
	var refusal *Refusal
	if !errors.As(err, &refusal) {
		t.Errorf("%s: %v and no refusal %d", name, err, number)
	} else if *refusal != (Refusal{number, index}) {
		t.Errorf("%s: %v, not %d %d", name, err, number, index)
	}
}

// A refusal as an error reads as the program marks prints it.
func TestRefusalError(t *testing.T) {
	if got := (&Refusal{4, 17}).Error(); got != "refused 4 17" {
		t.Error(got)
	}
}
