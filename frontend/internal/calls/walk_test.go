package calls

import (
	"math"
	"reflect"
	"testing"
)

// The bodies that are walked.
var (
	emptyBody   = body("", [5]uint32{12, 0, 1, 0, 1})
	returning   = body("", [5]uint32{12, 0, 1, 0, 2}, [5]uint32{10, 0, 2, 0, 1})
	endless     = body("", [5]uint32{12, 0, 1, 0, 3}, [5]uint32{19, 0, 2, 0, 2}, [5]uint32{12, 0, 6, 0, 1})
	forLoop     = body("", [5]uint32{12, 0, 1, 0, 3}, [5]uint32{19, 1, 2, 0, 2}, [5]uint32{12, 0, 8, 0, 1})
	emptySelect = body("", [5]uint32{12, 0, 1, 0, 3}, [5]uint32{18, 0, 2, 0, 2}, [5]uint32{12, 0, 9, 0, 1})
)

// twoCases is {switch {case a: case b:}}, or with default for the second case.
func twoCases(isDefault uint32) Body {
	return body("", [5]uint32{12, 0, 1, 0, 5}, [5]uint32{15, 0, 2, 0, 4}, [5]uint32{12, 0, 9, 0, 3},
		[5]uint32{14, 0, 10, 0, 1}, [5]uint32{14, isDefault, 18, 0, 1})
}

func TestWalk(t *testing.T) {
	cases := []struct {
		name    string
		body    Body
		choices []uint32
		limit   uint
		walked  Walked
	}{
		{"{}", emptyBody, nil, 0, Walked{AtRow(0), 0, 0}},
		{"{}", emptyBody, nil, 1, Walked{Brace, 1, 0}},
		{"{}", emptyBody, []uint32{7}, math.MaxUint, Walked{Brace, 1, 0}},
		{"{return}", returning, nil, 1, Walked{AtRow(1), 1, 0}},
		{"{return}", returning, nil, 9, Walked{Stopped, 2, 0}},
		{"{for {}}", endless, nil, 1000, Walked{AtRow(2), 1000, 0}},
		{"{for {}}", endless, []uint32{7}, 1001, Walked{AtRow(1), 1001, 0}},
		{"{for c {}}", forLoop, nil, 9, Walked{AtRow(1), 1, 0}},
		{"{for c {}}", forLoop, []uint32{1}, 9, Walked{AtRow(1), 3, 1}},
		{"{for c {}}", forLoop, []uint32{1, 0}, 9, Walked{Brace, 4, 2}},
		{"{for c {}}: a choice too many", forLoop, []uint32{1, 0, 7}, 9, Walked{Brace, 4, 2}},
		{"{for c {}}: the limit before the choice", forLoop, []uint32{1, 2}, 3, Walked{AtRow(1), 3, 1}},
		{"{select {}}", emptySelect, []uint32{7}, 9, Walked{Stopped, 2, 0}},
		{"{switch {case a: default:}}", twoCases(1), []uint32{1}, 2, Walked{AtRow(4), 2, 1}},
		{"{switch {case a: case b:}}", twoCases(0), []uint32{2}, 9, Walked{Brace, 2, 1}},
	}
	for _, c := range cases {
		walked, err := Walk(c.body, c.choices, c.limit)
		if err != nil || walked != c.walked {
			t.Errorf("%s by %d, limit %d: %v %v, not %v", c.name, c.choices, c.limit, walked, err, c.walked)
		}
	}
}

func TestWalkRefusals(t *testing.T) {
	cases := []struct {
		name    string
		body    Body
		choices []uint32
		limit   uint
		number  uint32
		index   int
	}{
		{"label faults", document, nil, 0, Faulty, 0},
		{"a misplaced break", second(11, 0, 2, 0, 1), []uint32{7}, 9, Faulty, 0},
		{"a fallthrough in a type switch", inTypeSwitch, []uint32{7}, 9, Faulty, 0},
		{"the first choice", forLoop, []uint32{2}, 9, OutOfRange, 0},
		{"the second choice", forLoop, []uint32{1, 2, 0}, 4, OutOfRange, 1},
		{"the greatest choice", forLoop, []uint32{math.MaxUint32}, 9, OutOfRange, 0},
		{"past the default", twoCases(1), []uint32{2}, 9, OutOfRange, 0},
		{"past going on", twoCases(0), []uint32{3}, 9, OutOfRange, 0},
		{"4 before 8", second(11, 0, 0, 0, 1), nil, 9, 4, 1},
		{"10 before 8", inFront(clauses(15, 14, 1, 1), 11, 0, 1, 0, 1), nil, 9, MultipleDefaults, 5},
		{"10 before 9", clauses(15, 14, 1, 1), []uint32{7}, 9, MultipleDefaults, 4},
	}
	for _, c := range cases {
		_, err := Walk(c.body, c.choices, c.limit)
		check(t, c.name, err, c.number, c.index)
	}
}

// The choices lent stay as they are.
func TestChoicesStay(t *testing.T) {
	choices := []uint32{1, 1, 0, 7}
	if _, err := Walk(forLoop, choices, 9); err != nil || !reflect.DeepEqual(choices, []uint32{1, 1, 0, 7}) {
		t.Error(choices, err)
	}
}

func TestPlaces(t *testing.T) {
	for _, p := range []Place{Stopped, Brace} {
		if _, ok := p.Row(); ok {
			t.Errorf("place %d has a row", p)
		}
	}
	for _, wanted := range []int{0, 1, 1999} {
		if row, ok := AtRow(wanted).Row(); !ok || row != wanted {
			t.Errorf("row %d, not %d", row, wanted)
		}
	}
}
