package main

import (
	"flag"
	"fmt"
	"io"
	"os"
	"path/filepath"

	"zesthull/internal/mark"
	"zesthull/internal/script"
)

// chosenBody is the body that a command is about: the one of that name, or the only one, of the source named.
func chosenBody(flags *flag.FlagSet, text, name string, in io.Reader) (*mark.Result, *mark.Body, error) {
	s, err := theSource(flags, text, in)
	if err != nil {
		return nil, nil, err
	}
	r := mark.Script(s)
	b, err := theBody(r, name)
	return r, b, err
}

// theSource reads the one source that is named.
func theSource(flags *flag.FlagSet, text string, in io.Reader) (*script.Script, error) {
	given := false
	flags.Visit(func(f *flag.Flag) { given = given || f.Name == "e" })
	switch {
	case given && flags.NArg() > 0 || !given && flags.NArg() != 1:
		return nil, fmt.Errorf("one source, after the flags: FILE, - for standard input, or -e TEXT")
	case given:
		return script.Read("<text>", []byte(text)), nil
	case flags.Arg(0) == "-":
		text, err := io.ReadAll(in)
		return script.Read("<standard input>", text), err
	}
	read, err := os.ReadFile(flags.Arg(0))
	if err != nil {
		return nil, err
	}
	if filepath.Ext(flags.Arg(0)) == ".go" {
		return script.ReadFile(flags.Arg(0), read), nil
	}
	return script.Read(flags.Arg(0), read), nil
}

// theBody is the body of that name, or the only one.
func theBody(r *mark.Result, name string) (*mark.Body, error) {
	var found []*mark.Body
	for i := range r.Bodies {
		b := &r.Bodies[i]
		if b.Function.Name == name || name == "" && (b.Function.Statements || !r.HasStatements()) {
			found = append(found, b)
		}
	}
	switch {
	case len(found) == 0 && name != "":
		return nil, fmt.Errorf("%s has no function %s", r.Name, name)
	case len(found) == 0 || !hasRows(found[0]):
		return nil, whyNone(r)
	case len(found) > 1:
		return nil, fmt.Errorf("%s has %d bodies; -func says which: %s", r.Name, len(found), names(found))
	}
	return found[0], nil
}

// hasRows tells whether the body has rows to write or to walk: no syntax error, and no refusal for a limit. Multiple defaults
// are a fault as others are.
func hasRows(b *mark.Body) bool { return b.Marked() || len(b.SecondDefaults) > 0 }

func names(bodies []*mark.Body) (list string) {
	for i, b := range bodies {
		if i == 8 {
			return list + ", .."
		}
		if i > 0 {
			list += ", "
		}
		list += b.Function.Name
	}
	return list
}

// whyNone says what stands in the way: the first error of the text, or that there is no function.
func whyNone(r *mark.Result) error {
	for _, f := range r.Findings {
		if f.Kind == mark.Syntax || f.Kind == mark.Refused {
			line, column := r.Place(f.Position)
			return fmt.Errorf("%s:%d:%d: %s", r.Name, line, column, f.Message)
		}
	}
	return fmt.Errorf("%s has no function", r.Name)
}
