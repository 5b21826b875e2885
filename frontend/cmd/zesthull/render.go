package main

import (
	"bytes"
	"encoding/json"
	"fmt"
	"sort"

	"zesthull/internal/mark"
)

// render is what is printed for a script.
func (c *marking) render(r *mark.Result) []byte {
	if c.verbose {
		return lines(r, withVerdicts(r))
	}
	return lines(r, r.Findings)
}

// renderUnmarked is what -json tells beside its objects: syntax errors, multiple defaults and other refusals.
func renderUnmarked(r *mark.Result) []byte {
	var list []mark.Finding
	for _, f := range r.Findings {
		switch f.Kind {
		case mark.Syntax, mark.MultipleDefaults, mark.Refused:
			list = append(list, f)
		}
	}
	return lines(r, list)
}

func lines(r *mark.Result, findings []mark.Finding) []byte {
	var text bytes.Buffer
	for _, f := range findings {
		line, column := r.Place(f.Position)
		fmt.Fprintf(&text, "%s:%d:%d: %s\n", r.Name, line, column, f.Message)
		if f.Other != nil {
			line, column := r.Place(f.Other.Position)
			fmt.Fprintf(&text, "\t%s:%d:%d: %s\n", r.Name, line, column, f.Other.Message)
		}
	}
	return text.Bytes()
}

// withVerdicts has a line for each function that is marked, at its place.
func withVerdicts(r *mark.Result) []mark.Finding {
	var all []mark.Finding
	for i := range r.Bodies {
		b := &r.Bodies[i]
		if b.Marked() {
			verdict := "not terminating"
			if b.Marks.Terminating {
				verdict = "terminating"
			}
			all = append(all, mark.Finding{Position: r.Position(b.Function.At), Message: b.Title() + ": " + verdict})
		}
	}
	all = append(all, r.Findings...)
	sort.SliceStable(all, func(i, j int) bool { return all[i].Position < all[j].Position })
	return all
}

// A bodyObject is a body as -json prints it. A position is 1 + the byte's place in the file; places has the line and the
// column of each row.
type bodyObject struct {
	File    string   `json:"file"`
	Func    string   `json:"func"`
	Line    int      `json:"line"`
	Column  int      `json:"column"`
	Rows    [][5]int `json:"rows"`
	Names   []string `json:"names"`
	Places  [][2]int `json:"places"`
	Results bool     `json:"results"`
	// of a body that is marked; placing has all rows badly placed
	Sheet    [][4]uint32 `json:"sheet"`
	Bindings []uint32    `json:"bindings"`
	Placing  []int       `json:"placing"`
	Verdict  *bool       `json:"verdict"`
	// of one that isn't: the refusal's number and index, or that there is a syntax error
	Refused *[2]int `json:"refused,omitempty"`
	Broken  bool    `json:"broken,omitempty"`
}

func renderJSON(r *mark.Result) []byte {
	var text bytes.Buffer
	encoder := json.NewEncoder(&text)
	encoder.SetEscapeHTML(false)
	for i := range r.Bodies {
		encoder.Encode(object(r, &r.Bodies[i]))
	}
	return text.Bytes()
}

// name is that of the function; statements have none.
func name(b *mark.Body) string {
	if b.Function.Statements {
		return ""
	}
	return b.Function.Name
}

func object(r *mark.Result, b *mark.Body) bodyObject {
	line, column := r.Place(r.Position(b.Function.At))
	o := bodyObject{File: r.Name, Func: name(b), Line: line, Column: column, Results: b.Function.HasResults, Broken: b.Function.Broken}
	o.Names = append([]string{}, b.Names...)
	o.Rows, o.Places, o.Sheet = [][5]int{}, [][2]int{}, [][4]uint32{}
	o.Bindings, o.Placing = append([]uint32{}, b.Marks.Bindings...), append([]int{}, b.Misplaced...)
	for _, row := range b.Rows {
		line, column := r.Place(row.Position)
		o.Rows = append(o.Rows, [5]int{row.Kind, row.Detail, row.Position, row.Name, row.Size})
		o.Places = append(o.Places, [2]int{line, column})
	}
	if !b.Marked() {
		if b.Refusal != nil {
			o.Refused = &[2]int{int(b.Refusal.Number), b.Refusal.Index}
		}
		return o
	}
	for _, f := range b.Marks.Sheet {
		o.Sheet = append(o.Sheet, [4]uint32{f.Code, f.Position, f.Name, f.Other})
	}
	o.Verdict = &b.Marks.Terminating
	return o
}
