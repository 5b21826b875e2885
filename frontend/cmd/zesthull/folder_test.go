package main

import (
	"os"
	"strings"
	"testing"
)

// tree has a fault in each file, so that the output names the files that were marked.
var tree = map[string]string{
	"top/b.go": "", "top/a.go": "", "top/a_test.go": "", "top/sub/c.go": "", "top/sub/deep/d.go": "", "top/x.go/e.go": "", "top/vendor/f.go": "",
	"top/.hidden/g.go": "", "top/sub/.git/h.go": "", "top/.#a.go": "", "top/.go": "", "top/a.txt": "", "top/go": "", "top/a.go.orig": "", "top/A.GO": "",
	".root/i.go": "", "none/readme.txt": "", "none/.x/j.go": "", "empty/sub/k.txt": "",
}

func inTree(t *testing.T) {
	t.Helper()
	scripts := map[string]string{}
	for name := range tree {
		scripts[name] = "package p; func f() { break }"
	}
	inFolder(t, scripts)
}

// namesIn are the files that the lines are about.
func namesIn(out string) string {
	var names []string
	for _, line := range strings.Split(strings.TrimSuffix(out, "\n"), "\n") {
		names = append(names, strings.SplitN(line, ":", 2)[0])
	}
	return strings.Join(names, " ")
}

// A folder stands for the .go files below it, in the order of their paths, but for hidden ones and those in hidden folders.
func TestFolders(t *testing.T) {
	inTree(t)
	cases := []struct {
		args, names string
		code        int
	}{
		{"top", "top/a.go top/a_test.go top/b.go top/sub/c.go top/sub/deep/d.go top/vendor/f.go top/x.go/e.go", 1},
		{"top/sub", "top/sub/c.go top/sub/deep/d.go", 1},
		{"top/sub/deep/", "top/sub/deep/d.go", 1},
		{"top/sub/deep top/a.go", "top/sub/deep/d.go top/a.go", 1},
		// a hidden folder or file that is named itself
		{"top/.#a.go", "top/.#a.go", 1},
		{".root", ".root/i.go", 1},
		{"top/.hidden", "top/.hidden/g.go", 1},
		// none found
		{"none", "", 2},
		{"empty", "", 2},
		{"none top/sub/deep", "top/sub/deep/d.go", 2},
	}
	for _, c := range cases {
		r := with("", append([]string{"mark"}, strings.Fields(c.args)...)...)
		if names := namesIn(r.out); r.code != c.code || names != c.names || (r.err != "") != (c.code == 2) {
			t.Errorf("%s: exit code %d, %s, complained %q; not %d, %s", c.args, r.code, names, r.err, c.code, c.names)
		}
	}
}

func TestWorkingFolder(t *testing.T) {
	inTree(t)
	if err := os.Chdir("top/sub"); err != nil {
		t.Fatal(err)
	}
	for _, arg := range []string{".", "../sub"} {
		if r := with("", "mark", arg); r.code != 1 || strings.Count(r.out, "\n") != 2 || !strings.Contains(r.out, "deep/d.go:1:23: break") {
			t.Errorf("%s: %+v", arg, r)
		}
	}
}

// A link to a folder stands for the folder.
func TestLinkToFolder(t *testing.T) {
	inTree(t)
	if err := os.Symlink("top/sub", "link"); err != nil {
		t.Skip(err)
	}
	if r := with("", "mark", "link"); r.code != 1 || namesIn(r.out) != "link/c.go link/deep/d.go" {
		t.Errorf("%+v", r)
	}
}

// A file below a folder that can't be read is complained about, and the others are marked.
func TestUnreadableFile(t *testing.T) {
	inTree(t)
	if err := os.Symlink("nowhere", "top/sub/broken.go"); err != nil {
		t.Skip(err)
	}
	r := with("", "mark", "top/sub")
	if r.code != 2 || namesIn(r.out) != "top/sub/c.go top/sub/deep/d.go" || !strings.Contains(r.err, "top/sub/broken.go") {
		t.Errorf("%+v", r)
	}
}
