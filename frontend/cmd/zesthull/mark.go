package main

import (
	"bufio"
	"crypto/sha256"
	"flag"
	"fmt"
	"io"
	"os"
	"path/filepath"
	"runtime"
	"sync/atomic"
	"time"

	"zesthull/internal/calls"
	"zesthull/internal/mark"
	"zesthull/internal/script"
	"zesthull/internal/scriptlog"
)

// options are the flags of the command mark.
type options struct {
	verbose, json bool
	log           string
}

// A source is a script to mark.
type source struct {
	name  string
	stdin io.Reader
}

// An outcome is what marking a script gave: its text, and what the log and the exit code need.
type outcome struct {
	text []byte
	// aside is what is told on standard error: of -json, what no object tells
	aside []byte
	entry scriptlog.Entry
	code  int
	err   error
}

func markCommand(args []string, in io.Reader, out, errors io.Writer) int {
	var o options
	flags := flag.NewFlagSet("mark", flag.ContinueOnError)
	flags.SetOutput(errors)
	flags.Usage = func() { fmt.Fprint(errors, usage) }
	flags.BoolVar(&o.verbose, "v", false, "")
	flags.BoolVar(&o.json, "json", false, "")
	flags.StringVar(&o.log, "log", "", "")
	if err := flags.Parse(args); err != nil {
		return parseCode(err)
	}
	if flags.NArg() == 0 {
		fmt.Fprintln(errors, "zesthull mark: which files?")
		return unread
	}
	c := marking{options: o, errors: errors, out: bufio.NewWriter(out)}
	for _, arg := range flags.Args() {
		c.collect(arg, in)
	}
	c.markAll()
	return c.code
}

// parseCode is the exit code where the flags end the run: they asked for help, or were wrong.
func parseCode(err error) int {
	if err == flag.ErrHelp {
		return clean
	}
	return unread
}

// marking is one run of the command.
type marking struct {
	options
	sources []source
	out     *bufio.Writer
	errors  io.Writer
	code    int
}

func (c *marking) complain(code int, values ...any) {
	fmt.Fprintln(c.errors, append([]any{"zesthull:"}, values...)...)
	c.raise(code)
}

func (c *marking) raise(code int) {
	if c.code < code {
		c.code = code
	}
}

// collect lists what an argument stands for. A folder stands for all files below it whose names end in .go, but for files
// and folders whose names begin with a dot.
func (c *marking) collect(arg string, in io.Reader) {
	if arg == "-" {
		c.collectInput(in)
		return
	}
	info, err := os.Stat(arg)
	if err != nil {
		c.complain(unread, err)
		return
	}
	if !info.IsDir() {
		c.sources = append(c.sources, source{name: arg})
		return
	}
	before := len(c.sources)
	c.walk(arg)
	if len(c.sources) == before {
		c.complain(unread, "no .go file below", arg)
	}
}

// collectFile lists a file below a folder, or a link to one; what is no regular file, as a pipe, is left out.
func (c *marking) collectFile(path string) {
	info, err := os.Stat(path)
	if err != nil {
		c.complain(unread, err)
	} else if info.Mode().IsRegular() {
		c.sources = append(c.sources, source{name: path})
	}
}

// collectInput lists standard input, which can be read once.
func (c *marking) collectInput(in io.Reader) {
	for _, s := range c.sources {
		if s.stdin != nil {
			c.complain(unread, "- stands for standard input, and is given twice")
			return
		}
	}
	c.sources = append(c.sources, source{"<standard input>", in})
}

// walk lists the files below a folder, which may be named by a link.
func (c *marking) walk(folder string) {
	root := folder + string(filepath.Separator) + "."
	filepath.WalkDir(root, func(path string, entry os.DirEntry, err error) error {
		switch {
		case err != nil:
			c.complain(unread, err)
		case path != root && entry.Name()[0] == '.':
			if entry.IsDir() {
				return filepath.SkipDir
			}
		case !entry.IsDir() && filepath.Ext(path) == ".go":
			c.collectFile(path)
		}
		return nil
	})
}

// markAll marks the sources, several at a time, and tells them in their order.
func (c *marking) markAll() {
	outcomes := make([]chan outcome, len(c.sources))
	for i := range outcomes {
		outcomes[i] = make(chan outcome, 1)
	}
	var next, done atomic.Int64
	for n := runtime.NumCPU(); n > 0; n-- {
		go func() {
			for i := next.Add(1) - 1; int(i) < len(c.sources); i = next.Add(1) - 1 {
				outcomes[i] <- c.markOne(c.sources[i])
				done.Add(1)
			}
		}()
	}
	stop := progress(c.errors, &done, len(c.sources))
	for _, o := range outcomes {
		c.tell(<-o)
	}
	stop()
	if err := c.out.Flush(); err != nil {
		c.complain(unread, err)
	}
}

func (c *marking) tell(o outcome) {
	if o.err != nil {
		c.complain(unread, o.err)
		return
	}
	c.raise(o.code)
	c.out.Write(o.text)
	c.errors.Write(o.aside)
	if c.log != "" {
		if err := scriptlog.Append(c.log, o.entry); err != nil {
			c.complain(unread, "the log:", err)
		}
	}
}

func (c *marking) markOne(s source) outcome {
	text, err := s.read()
	if err != nil {
		return outcome{err: err}
	}
	var read *script.Script
	if s.stdin == nil && filepath.Ext(s.name) == ".go" {
		read = script.ReadFile(s.name, text)
	} else {
		read = script.Read(s.name, text)
	}
	r := mark.Script(read)
	entry := scriptlog.Entry{Time: time.Now(), Version: calls.Version(), Sum: sha256.Sum256(text), Name: s.name, Counts: r.Counts()}
	o := outcome{entry: entry, code: exitCode(r)}
	if c.json {
		o.text, o.aside = renderJSON(r), renderUnmarked(r)
	} else {
		o.text = c.render(r)
	}
	return o
}

func (s source) read() ([]byte, error) {
	if s.stdin != nil {
		return io.ReadAll(s.stdin)
	}
	return os.ReadFile(s.name)
}

func exitCode(r *mark.Result) int {
	code := clean
	for _, f := range r.Findings {
		switch f.Kind {
		case mark.Syntax, mark.Refused:
			return unread
		default:
			code = faulty
		}
	}
	return code
}
