package main

import (
	"bytes"
	"encoding/binary"
	"flag"
	"fmt"
	"io"
	"os"

	"zesthull/internal/rows"
)

func rowsCommand(args []string, in io.Reader, out, errors io.Writer) int {
	flags := flag.NewFlagSet("rows", flag.ContinueOnError)
	flags.SetOutput(errors)
	flags.Usage = func() { fmt.Fprint(errors, usage) }
	list := flags.Bool("list", false, "")
	name := flags.String("func", "", "")
	given := flags.String("e", "", "")
	if err := flags.Parse(args); err != nil {
		return parseCode(err)
	}
	fail := func(values ...any) int {
		fmt.Fprintln(errors, append([]any{"zesthull rows:"}, values...)...)
		return unread
	}
	_, b, err := chosenBody(flags, *given, *name, in)
	if err != nil {
		return fail(err)
	}
	text := bodyFile(b.Body)
	if *list {
		text = listing(b.Body)
	} else if file, ok := out.(*os.File); ok && isTerminal(file) {
		return fail("a body file isn't for a terminal: write it to a file or a pipe, or add -list")
	}
	if _, err := out.Write(text); err != nil {
		return fail(err)
	}
	return clean
}

// bodyFile is the file that the program marks reads: three counts, rows, pairs, name bytes; words are little-endian.
func bodyFile(b rows.Body) []byte {
	words := b.Words()
	var file bytes.Buffer
	counts := []uint32{uint32(len(b.Rows)), uint32(len(b.Names)), uint32(len(words.Bytes))}
	for _, list := range [][]uint32{counts, words.Rows, words.Pairs} {
		binary.Write(&file, binary.LittleEndian, list)
	}
	file.Write(words.Bytes)
	return file.Bytes()
}

// listing has the rows, a line each.
func listing(b rows.Body) []byte {
	var text bytes.Buffer
	for i, r := range b.Rows {
		fmt.Fprintf(&text, "%4d %-10s %d at %d size %d", i, rows.Kinds[r.Kind], r.Detail, r.Position, r.Size)
		if r.Name > 0 {
			fmt.Fprintf(&text, " %s", b.Names[r.Name-1])
		}
		text.WriteByte('\n')
	}
	return text.Bytes()
}
