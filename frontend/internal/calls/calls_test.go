package calls

import (
	"fmt"
	"os"
	"reflect"
	"regexp"
	"strconv"
	"sync"
	"testing"
)

// body has rows of five words each, and names of one byte each.
func body(names string, rows ...[5]uint32) Body {
	var b Body
	for _, r := range rows {
		b.Rows = append(b.Rows, r[:]...)
	}
	for i := range names {
		b.Pairs = append(b.Pairs, uint32(i), 1)
	}
	b.Bytes = []byte(names)
	return b
}

// document is {goto M;L:for{}}, whose words and answers stand in document 01.
var document = body("ML", [5]uint32{12, 0, 1, 0, 5}, [5]uint32{11, 2, 7, 1, 1}, [5]uint32{3, 0, 9, 2, 3}, [5]uint32{19, 0, 11, 0, 2},
	[5]uint32{12, 0, 14, 0, 1})

var documentMarks = Marks{Sheet: []Fault{{8, 7, 1, 0}, {9, 9, 2, 0}}, Bindings: []uint32{0, 0, 3, 0, 0}, Misplaced: -1, Terminating: true}

// inTypeSwitch is {switch x.(type) {case int: fallthrough; default: return}}.
var inTypeSwitch = body("", [5]uint32{12, 0, 1, 0, 7}, [5]uint32{16, 0, 2, 0, 6}, [5]uint32{12, 0, 18, 0, 5},
	[5]uint32{14, 0, 19, 0, 2}, [5]uint32{11, 3, 29, 0, 1}, [5]uint32{14, 1, 42, 0, 2}, [5]uint32{10, 0, 51, 0, 1})

func TestMark(t *testing.T) {
	cases := []struct {
		name  string
		body  Body
		marks Marks
	}{
		{"{goto M;L:for{}}", document, documentMarks},
		{"{}", body("", [5]uint32{12, 0, 1, 0, 1}), Marks{[]Fault{}, []uint32{0}, -1, false}},
		{"{return}", body("", [5]uint32{12, 0, 1, 0, 2}, [5]uint32{10, 0, 2, 0, 1}), Marks{[]Fault{}, []uint32{0, 0}, -1, true}},
		{"{panic(1)}", body("", [5]uint32{12, 0, 1, 0, 2}, [5]uint32{4, 1, 2, 0, 1}), Marks{[]Fault{}, []uint32{0, 0}, -1, true}},
		{"{switch {default: fallthrough}}",
			body("", [5]uint32{12, 0, 1, 0, 5}, [5]uint32{15, 0, 2, 0, 4}, [5]uint32{12, 0, 9, 0, 3}, [5]uint32{14, 1, 10, 0, 2}, [5]uint32{11, 3, 19, 0, 1}),
			Marks{[]Fault{}, []uint32{0, 0, 0, 0, 0}, 4, true}},
		{"{switch x.(type) {case int: fallthrough; default: return}}", inTypeSwitch, Marks{[]Fault{}, make([]uint32, 7), 4, true}},
		{"{L: goto L}", body("L", [5]uint32{12, 0, 1, 0, 3}, [5]uint32{3, 0, 2, 1, 2}, [5]uint32{11, 2, 10, 1, 1}),
			Marks{[]Fault{}, []uint32{0, 2, 2}, -1, true}},
		// a labelled fallthrough: 6, and the label of its name stays unused
		{"{L: fallthrough L}", body("L", [5]uint32{12, 0, 1, 0, 3}, [5]uint32{3, 0, 2, 1, 2}, [5]uint32{11, 3, 5, 1, 1}),
			Marks{[]Fault{{6, 5, 1, 0}, {9, 2, 1, 0}}, []uint32{0, 2, 0}, -1, true}},
		// the greatest position
		{"{break}", body("", [5]uint32{12, 0, 4294967295, 0, 2}, [5]uint32{11, 0, 4294967295, 0, 1}),
			Marks{[]Fault{}, []uint32{0, 0}, 1, false}},
	}
	for _, c := range cases {
		marks, err := Mark(c.body)
		if err != nil || !reflect.DeepEqual(marks, c.marks) {
			t.Errorf("%s: %v %v, not %v", c.name, marks, err, c.marks)
		}
		first, err := FirstMisplaced(c.body)
		if err != nil || first != c.marks.Misplaced {
			t.Errorf("%s: first misplaced %d %v, not %d", c.name, first, err, c.marks.Misplaced)
		}
	}
}

// A call writes nothing to the words that it is lent to read.
func TestWordsStay(t *testing.T) {
	b := body("ML")
	b.Rows = append(b.Rows, document.Rows...)
	if _, err := Mark(b); err != nil {
		t.Fatal(err)
	}
	if _, err := Walk(b, nil, 9); err == nil {
		t.Error("a walk of a body with faults")
	}
	if !reflect.DeepEqual(b, document) {
		t.Errorf("%v after the calls, %v before", b, document)
	}
}

func TestManyAtOnce(t *testing.T) {
	var all sync.WaitGroup
	for i := 0; i < 8; i++ {
		all.Add(1)
		go func() {
			defer all.Done()
			for n := 0; n < 200; n++ {
				if marks, err := Mark(document); err != nil || !reflect.DeepEqual(marks, documentMarks) {
					t.Errorf("%v %v", marks, err)
					return
				}
			}
		}()
	}
	all.Wait()
}

// The archive and the C header belong together.
func TestVersion(t *testing.T) {
	header, err := os.ReadFile("../../../bindings/c/zesthull.h")
	if err != nil {
		t.Fatal(err)
	}
	found := regexp.MustCompile(`(?m)^#define ZESTHULL_VERSION (\d+)$`).FindSubmatch(header)
	if found == nil {
		t.Fatal("the header has no version")
	}
	n, err := strconv.Atoi(string(found[1]))
	if err != nil {
		t.Fatal(err)
	}
	major, minor, patch := n/1000000, n%1000000/1000, n%1000
	if wanted := fmt.Sprintf("%d.%d.%d", major, minor, patch); Version() != wanted {
		t.Errorf("version %s, the header's is %s", Version(), wanted)
	}
}
