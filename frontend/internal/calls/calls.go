// Package calls makes the proved calls of the archive libexports.a safe to name: a body's marks, the
// first branch badly placed, a walk by given choices, and the version.
package calls

/*
#cgo CFLAGS: -I${SRCDIR}/../../../bindings/c
#cgo LDFLAGS: ${SRCDIR}/../../../target/staticlib/libexports.a
#include "zesthull.h"
*/
import "C"

import (
	"fmt"
	"unsafe"
)

// A Body is the words of a body: five a row (kind, detail, position, name, size), two a name (offset,
// length), and the name bytes.
type Body struct {
	Rows  []uint32
	Pairs []uint32
	Bytes []byte
}

// RowCount is how many rows the words hold.
func (b Body) RowCount() int { return len(b.Rows) / 5 }

// A Fault is a row of the sheet.
type Fault struct {
	Code, Position, Name, Other uint32
}

// Marks are the answers about a body that isn't refused.
type Marks struct {
	Sheet []Fault
	// Bindings has a word for each row: 1 + the row of its label, or 0.
	Bindings []uint32
	// Misplaced is the first row badly placed, or -1.
	Misplaced   int
	Terminating bool
}

// A Refusal says why there is no answer: the number and index of documents 01 and 02.
type Refusal struct {
	Number uint32
	Index  int
}

func (r *Refusal) Error() string { return fmt.Sprintf("refused %d %d", r.Number, r.Index) }

// MultipleDefaults is the refusal of a body with two defaults in one switch, type switch or select. Its index is the row of
// the first clause that is a second default.
const MultipleDefaults = 10

// Mark is the label, placing and verdict calls in one.
func Mark(b Body) (Marks, error) {
	rows := b.RowCount()
	sheet := make([]uint32, 8*rows)
	bindings := make([]uint32, rows)
	var value, placing, verdict C.size_t
	number := C.zesthull_marks(words(b.Rows), C.size_t(len(b.Rows)), words(b.Pairs), C.size_t(len(b.Pairs)),
		bytes(b.Bytes), C.size_t(len(b.Bytes)), words(sheet), C.size_t(len(sheet)),
		words(bindings), C.size_t(len(bindings)), &value, &placing, &verdict)
	if number != 0 {
		return Marks{}, &Refusal{uint32(number), int(value)}
	}
	return Marks{faults(sheet[:4*int(value)]), bindings, int(placing) - 1, verdict == 1}, nil
}

// FirstMisplaced is the placing call: the first row badly placed, or -1.
func FirstMisplaced(b Body) (int, error) {
	var value C.size_t
	number := C.zesthull_placing(words(b.Rows), C.size_t(len(b.Rows)), words(b.Pairs), C.size_t(len(b.Pairs)),
		bytes(b.Bytes), C.size_t(len(b.Bytes)), &value)
	if number != 0 {
		return 0, &Refusal{uint32(number), int(value)}
	}
	return int(value) - 1, nil
}

// A Place is where a walk is: stopped, at the closing brace, or at a row.
type Place int

const (
	Stopped Place = iota
	Brace
	firstRow
)

// AtRow is the place of a row.
func AtRow(row int) Place { return firstRow + Place(row) }

// Row is the row of the place, if it is at one.
func (p Place) Row() (row int, ok bool) { return int(p - firstRow), p >= firstRow }

// Walked is where a walk came to, by how many steps and choices.
type Walked struct {
	Place       Place
	Steps, Used int
}

// The refusals of the walk call alone.
const (
	// Faulty: the body has label faults or a branch badly placed.
	Faulty = 8
	// OutOfRange: the choice of that index isn't open where it is met.
	OutOfRange = 9
)

// Walk is the walk call: from row 0 on by the choices, up to limit steps.
func Walk(b Body, choices []uint32, limit uint) (Walked, error) {
	var value, steps, used C.size_t
	number := C.zesthull_walk(words(b.Rows), C.size_t(len(b.Rows)), words(b.Pairs), C.size_t(len(b.Pairs)),
		bytes(b.Bytes), C.size_t(len(b.Bytes)), words(choices), C.size_t(len(choices)), C.size_t(limit),
		&value, &steps, &used)
	if number != 0 {
		return Walked{}, &Refusal{uint32(number), int(value)}
	}
	return Walked{Place(value), int(steps), int(used)}, nil
}

// Version is the archive's version, as in 0.8.0.
func Version() string {
	v := int(C.zesthull_version())
	return fmt.Sprintf("%d.%d.%d", v/1000000, v/1000%1000, v%1000)
}

func faults(sheet []uint32) []Fault {
	list := make([]Fault, 0, len(sheet)/4)
	for ; len(sheet) > 0; sheet = sheet[4:] {
		list = append(list, Fault{sheet[0], sheet[1], sheet[2], sheet[3]})
	}
	return list
}

// An empty slice is lent as a pointer to one word that no call reads: the calls take no null pointer.
var none uint32

func words(w []uint32) *C.uint32_t {
	if len(w) == 0 {
		return (*C.uint32_t)(unsafe.Pointer(&none))
	}
	return (*C.uint32_t)(unsafe.Pointer(&w[0]))
}

func bytes(b []byte) *C.uint8_t {
	if len(b) == 0 {
		return (*C.uint8_t)(unsafe.Pointer(&none))
	}
	return (*C.uint8_t)(unsafe.Pointer(&b[0]))
}
