package main

import (
	"bytes"
	"errors"
	"flag"
	"fmt"
	"io"
	"math"
	"strconv"
	"strings"

	"zesthull/internal/calls"
	"zesthull/internal/mark"
	"zesthull/internal/walk"
)

// Steps of a walk: as many as it may make if nothing is said, and at most. Each step costs a call.
const (
	usualLimit = 1000
	mostSteps  = 10000
)

func walkCommand(args []string, in io.Reader, out, complaints io.Writer) int {
	flags := flag.NewFlagSet("walk", flag.ContinueOnError)
	flags.SetOutput(complaints)
	flags.Usage = func() { fmt.Fprint(complaints, usage) }
	var choices []uint32
	flags.Func("by", "", func(text string) (err error) { choices, err = parseChoices(text); return err })
	limit := flags.Uint("limit", usualLimit, "")
	name := flags.String("func", "", "")
	given := flags.String("e", "", "")
	if err := flags.Parse(args); err != nil {
		return parseCode(err)
	}
	fail := func(code int, values ...any) int {
		fmt.Fprintln(complaints, append([]any{"zesthull walk:"}, values...)...)
		return code
	}
	if *limit > mostSteps {
		return fail(unread, "-limit is at most", mostSteps)
	}
	r, b, err := chosenBody(flags, *given, *name, in)
	if err != nil {
		return fail(unread, err)
	}
	w, err := walk.By(b.Body, choices, *limit)
	if err != nil {
		return fail(noWalk(r, b, err))
	}
	return walkText{Result: r, body: b, Walk: w}.print(out, fail)
}

// parseChoices reads numbers with commas between; an empty text has none.
func parseChoices(text string) (choices []uint32, err error) {
	if text == "" {
		return nil, nil
	}
	for _, word := range strings.Split(text, ",") {
		n, err := strconv.ParseUint(word, 10, 32)
		if err != nil {
			return nil, fmt.Errorf("choices are numbers from 0 to %d with commas between, as in 1,0,2; %q is none",
				uint32(math.MaxUint32), word)
		}
		choices = append(choices, uint32(n))
	}
	return choices, nil
}

// noWalk is the exit code and what is told of a body that can't be walked.
func noWalk(r *mark.Result, b *mark.Body, err error) (code int, message string) {
	place := fmt.Sprintf("%s: %s: no walk", placeOf(r, r.Position(b.Function.At)), b.Title())
	if !isFaulty(err) {
		return unread, fmt.Sprintf("%s: %v", place, err)
	}
	faults := strings.TrimSuffix(string(lines(r, r.Faults(b))), "\n")
	return faulty, place + ", since it has faults:\n" + faults
}

// isFaulty tells whether it is for faults of the body that the walk is refused.
func isFaulty(err error) bool {
	var refusal *calls.Refusal
	return errors.As(err, &refusal) && (refusal.Number == calls.Faulty || refusal.Number == calls.MultipleDefaults)
}

// walkText prints a walk of a script's body.
type walkText struct {
	*mark.Result
	*walk.Walk
	body *mark.Body
}

func (t walkText) print(out io.Writer, fail func(int, ...any) int) int {
	if _, err := out.Write(t.all()); err != nil {
		return fail(unread, err)
	}
	if t.End == walk.OutOfRange {
		return fail(faulty, t.outOfRange())
	}
	return clean
}

// all has a line for each state, and why the walk ends; a choice out of range is told as an error instead.
func (t walkText) all() []byte {
	var text bytes.Buffer
	for n, state := range t.States {
		fmt.Fprintf(&text, "%4d %s", n, t.at(state.Place))
		if c, ok := t.Taken(n); ok {
			fmt.Fprintf(&text, ", choice %d: %s", c.Number, c.Word)
		}
		text.WriteByte('\n')
	}
	if t.End != walk.OutOfRange {
		fmt.Fprintln(&text, t.end())
	}
	return text.Bytes()
}

// at is a place of the walk in the script, and what stands there. Row 0 is the whole body.
func (t walkText) at(p calls.Place) string {
	switch row, _ := p.Row(); {
	case p == calls.Stopped:
		return "stopped"
	case p == calls.Brace:
		return t.where(p) + ": the closing brace"
	case row == 0:
		return t.where(p) + ": " + t.body.Title()
	default:
		return t.where(p) + ": " + walk.RowWords(t.Walk.Body, row)
	}
}

// where is the file, line and column of a row or of the closing brace.
func (t walkText) where(p calls.Place) string {
	position := t.Position(t.body.Function.Body.Rbrace)
	if row, ok := p.Row(); ok {
		position = t.Walk.Rows[row].Position
	}
	return placeOf(t.Result, position)
}

func placeOf(r *mark.Result, position int) string {
	line, column := r.Place(position)
	return fmt.Sprintf("%s:%d:%d", r.Name, line, column)
}

func (t walkText) end() string {
	last := t.Last()
	so := fmt.Sprintf("after %s, %d of %s used", count(last.Steps, "step"), last.Used, count(len(t.Choices), "choice"))
	switch t.End {
	case walk.Stopped:
		return "stopped " + so
	case walk.Brace:
		return "fell off the closing brace " + so
	case walk.Limit:
		return "at the limit " + so
	}
	return "no choice left " + so + "; " + t.open()
}

// outOfRange says which choice isn't open, and which are.
func (t walkText) outOfRange() string {
	last := t.Last()
	fork, _ := last.Place.Row()
	return fmt.Sprintf("%s: choice %d, number %d of %d in -by, is out of range at this %s; %s", t.where(last.Place),
		t.Choices[last.Used], last.Used+1, len(t.Choices), walk.RowWords(t.Walk.Body, fork), t.open())
}

// open lists the choices open where the walk ends, a line each, with the place to which it leads.
func (t walkText) open() string {
	open := t.Open()
	text := fmt.Sprintf("%d choices are open, 0 to %d:", len(open), len(open)-1)
	if len(open) == 1 {
		text = "1 choice is open, 0:"
	}
	for _, c := range open {
		text += fmt.Sprintf("\n\t%d: %s, %s", c.Number, c.Word, t.where(c.To))
	}
	return text
}

func count(n int, what string) string {
	if n == 1 {
		return "1 " + what
	}
	return fmt.Sprintf("%d %ss", n, what)
}
