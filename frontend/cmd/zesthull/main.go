// Command zesthull marks the function bodies of Go files: label faults, misplaced branches, missing returns, multiple defaults.
package main

import (
	"fmt"
	"io"
	"os"

	"zesthull/internal/calls"
)

// The exit codes.
const (
	clean  = 0
	faulty = 1
	// unread: something could not be read or is over a limit, or the call itself was wrong
	unread = 2
)

const usage = `zesthull marks the function bodies of Go files: label faults, misplaced branches, missing returns,
multiple defaults.

  zesthull mark [-v] [-json] [-log FILE] FILE|DIR|-...
      marks every function and function literal of the files, of all .go files below a folder, or of
      standard input (a Go file or a list of statements)
      -v         a line for each function with its verdict, too
      -json      an object for each body instead, a line each
      -log FILE  appends a line for each script: time, version, SHA-256 of the script, its name,
                 bodies, faults, misplaced, refused
  zesthull rows [-list] [-func NAME] FILE|-
  zesthull rows [-list] -e TEXT
      writes the body file that the program marks reads, of one function, or of a list of statements
      -list      prints the rows instead
  zesthull walk [-by CHOICES] [-limit N] [-func NAME] FILE|-
  zesthull walk [-by CHOICES] [-limit N] -e TEXT
      walks through one function, or a list of statements, and prints each place that it comes to
      -by 1,0,2  the choices, in the order in which they are met. At an if, for or range 1 is the
                 body, 0 the else or to go on after it; at a switch or select it is the clause, from
                 0 on, and after the last clause of a switch without default to go on after it
      -limit N   the most steps, 1000 if not given and 10000 at most
  zesthull -version

Exit code: 0 clean, 1 faults (or, of walk, a choice out of range), 2 something could not be read or
is over a limit.
`

func main() {
	os.Exit(run(os.Args[1:], os.Stdin, os.Stdout, os.Stderr))
}

func run(args []string, in io.Reader, out, err io.Writer) int {
	if len(args) == 0 {
		fmt.Fprint(err, usage)
		return unread
	}
	switch args[0] {
	case "mark":
		return markCommand(args[1:], in, out, err)
	case "rows":
		return rowsCommand(args[1:], in, out, err)
	case "walk":
		return walkCommand(args[1:], in, out, err)
	case "-version", "--version", "version":
		fmt.Fprintln(out, "zesthull", calls.Version())
		return clean
	case "-h", "-help", "--help", "help":
		fmt.Fprint(out, usage)
		return clean
	}
	fmt.Fprintf(err, "zesthull: no command %q\n\n%s", args[0], usage)
	return unread
}
